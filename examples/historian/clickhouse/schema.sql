-- A historian of many plants on several ClickHouse servers (18.16 or later): the rows of their archives. Run on each server; it may be run again.
-- The servers name each other in `remote_servers` as `fleet` (server.xml). All rows of a stream are on one of them.
CREATE DATABASE IF NOT EXISTS historian;

-- A row of an archive; its key is (plant, stream, row). A row that is sent twice is kept once: after a merge, and before it in a query with FINAL.
-- `at` is the time as Unix time; times after the year 2099 get its end, because DateTime has 32 bits.
CREATE TABLE IF NOT EXISTS historian.reception_here (
    plant    String,
    stream   String,
    row      UInt64,
    time     UInt64,
    answer   Enum8('KEPT' = 0, 'LOOSE' = 1),
    txid     FixedString(8),
    telegram String,
    at       DateTime('UTC') DEFAULT toDateTime(least(intDiv(time, 1000), 4102444799), 'UTC')
) ENGINE = ReplacingMergeTree PARTITION BY toYYYYMM(at) ORDER BY (plant, stream, row);
CREATE TABLE IF NOT EXISTS historian.reception AS historian.reception_here
ENGINE = Distributed(fleet, historian, reception_here, cityHash64(plant, stream));

-- The number up to which all rows of a stream are there. It is written after them, so a load that was killed does not count.
CREATE TABLE IF NOT EXISTS historian.stream_here (plant String, stream String, rows UInt64)
ENGINE = ReplacingMergeTree(rows) ORDER BY (plant, stream);
CREATE TABLE IF NOT EXISTS historian.stream AS historian.stream_here
ENGINE = Distributed(fleet, historian, stream_here, cityHash64(plant, stream));

-- The first row of each file, so that full files may be moved away.
CREATE TABLE IF NOT EXISTS historian.file_here (plant String, stream String, name String, first_row UInt64)
ENGINE = ReplacingMergeTree ORDER BY (plant, stream, name);
CREATE TABLE IF NOT EXISTS historian.file AS historian.file_here
ENGINE = Distributed(fleet, historian, file_here, cityHash64(plant, stream));
