-- A historian of many plants (PostgreSQL 15 or later): the rows of their archives, each once. It may be run again.
SET client_min_messages = warning;
CREATE SCHEMA IF NOT EXISTS historian;

-- A stream is one archive: a file, or files numbered by a pattern. Two gateways are two streams, whatever the names of their files.
CREATE TABLE IF NOT EXISTS historian.stream (
    id    integer GENERATED ALWAYS AS IDENTITY PRIMARY KEY,
    plant text   NOT NULL,
    name  text   NOT NULL,
    rows  bigint NOT NULL DEFAULT 0, -- the number of the last row loaded
    UNIQUE (plant, name)
);

-- The first row of each file, so that full files may be moved away.
CREATE TABLE IF NOT EXISTS historian.file (
    stream    integer REFERENCES historian.stream,
    name      text,
    first_row bigint NOT NULL,
    PRIMARY KEY (stream, name)
);

-- A row of an archive: (plant, stream, row) identifies it. The key has its time too, because a key must include the column of the partitions.
-- A time is below 2^64, which bigint can't hold; `at` is the same time as Unix time in ms.
CREATE TABLE IF NOT EXISTS historian.reception (
    stream   integer     NOT NULL DEFAULT current_setting('historian.stream')::integer,
    loose    boolean     NOT NULL,
    row      bigint      NOT NULL,
    at       timestamptz NOT NULL,
    time     numeric(20) NOT NULL,
    txid     bytea       NOT NULL CHECK (length(txid) = 4),
    telegram bytea       NOT NULL CHECK (length(telegram) BETWEEN 8 AND 21),
    PRIMARY KEY (stream, row, at)
) PARTITION BY RANGE (at);
CREATE TABLE IF NOT EXISTS historian.reception_later PARTITION OF historian.reception
    FOR VALUES FROM ('10000-01-01 00:00:00+00') TO (MAXVALUE);
CREATE INDEX IF NOT EXISTS reception_by_transmitter ON historian.reception (txid, at);
CREATE INDEX IF NOT EXISTS reception_by_time ON historian.reception USING brin (at);

-- Rows that were loaded and are no longer in the archive; `aside` moves them here.
CREATE TABLE IF NOT EXISTS historian.aside (LIKE historian.reception, moved timestamptz NOT NULL DEFAULT now());

-- How often each telegram was received, by its line in the file.
CREATE TABLE IF NOT EXISTS historian.heard (
    stream integer     NOT NULL REFERENCES historian.stream,
    line   bigint      NOT NULL,
    time   numeric(20) NOT NULL,
    txid   bytea       NOT NULL CHECK (length(txid) = 4),
    level  smallint    NOT NULL,
    copies integer     NOT NULL,
    PRIMARY KEY (stream, line)
);
-- Whether the collector was stopped while it was open, so it may have been received more often.
ALTER TABLE historian.heard ADD COLUMN IF NOT EXISTS interrupted boolean NOT NULL DEFAULT false;

-- The rows as `archive list --rows tsv` has them, with the names of plant and stream.
CREATE OR REPLACE VIEW historian.rows AS
SELECT s.plant, s.name AS stream, r.row, r.at, r.time, CASE WHEN r.loose THEN 'LOOSE' ELSE 'KEPT' END AS answer,
    upper(encode(r.txid, 'hex')) AS txid, upper(encode(r.telegram, 'hex')) AS telegram
FROM historian.reception r JOIN historian.stream s ON s.id = r.stream;

-- The number of a stream; a new stream gets one.
CREATE OR REPLACE FUNCTION historian.stream_of(plant text, stream text) RETURNS integer LANGUAGE plpgsql AS $$
DECLARE found integer;
BEGIN
    SELECT s.id INTO found FROM historian.stream s WHERE s.plant = $1 AND s.name = $2;
    IF found IS NULL THEN
        INSERT INTO historian.stream (plant, name) VALUES ($1, $2) ON CONFLICT DO NOTHING;
        SELECT s.id INTO found FROM historian.stream s WHERE s.plant = $1 AND s.name = $2;
    END IF;
    RETURN found;
END $$;

-- Waits until nobody else loads or moves rows of a stream, up to the end of the transaction.
CREATE OR REPLACE FUNCTION historian.lock(stream integer) RETURNS void LANGUAGE sql AS
    $$ SELECT pg_advisory_xact_lock(hashtext('historian'), $1) $$;

-- The number in a file's name: its last digits.
CREATE OR REPLACE FUNCTION historian.file_number(name text) RETURNS numeric LANGUAGE sql IMMUTABLE AS
    $$ SELECT (regexp_match($1, '(\d+)\D*$'))[1]::numeric $$;

-- The number of the first row of a file: the known one, or the next row if the file is the first one or follows the last one.
CREATE OR REPLACE FUNCTION historian.first_row(stream integer, file text) RETURNS bigint LANGUAGE plpgsql AS $$
DECLARE known bigint; latest text; loaded bigint;
BEGIN
    SELECT f.first_row INTO known FROM historian.file f WHERE f.stream = $1 AND f.name = $2;
    IF known IS NOT NULL THEN
        RETURN known;
    END IF;
    SELECT f.name INTO latest FROM historian.file f WHERE f.stream = $1 ORDER BY f.first_row DESC, historian.file_number(f.name) DESC LIMIT 1;
    SELECT s.rows INTO loaded FROM historian.stream s WHERE s.id = $1;
    IF latest IS NOT NULL AND historian.file_number($2) IS DISTINCT FROM historian.file_number(latest) + 1 THEN
        RAISE EXCEPTION '% does not follow %, the last file loaded of this stream: name all files from that one on, or load it as a new stream', $2, latest;
    END IF;
    RETURN loaded + 1;
END $$;

-- Whether all rows of a file are loaded: a later file is known.
CREATE OR REPLACE FUNCTION historian.is_passed(stream integer, file text) RETURNS boolean LANGUAGE sql STABLE AS $$
    SELECT EXISTS (
        SELECT FROM historian.file this JOIN historian.file later USING (stream)
        WHERE this.stream = $1 AND this.name = $2 AND historian.file_number(later.name) > historian.file_number(this.name))
$$;

CREATE OR REPLACE FUNCTION historian.none_goes_on(stream integer) RETURNS void LANGUAGE plpgsql AS $$
BEGIN
    RAISE EXCEPTION 'none of these files goes on behind the last row loaded, which is in %',
        (SELECT f.name FROM historian.file f WHERE f.stream = $1 ORDER BY f.first_row DESC, historian.file_number(f.name) DESC LIMIT 1)
        USING HINT = 'Name the files from that one on. Files that were numbered anew are a new stream.';
END $$;

-- Refuses an archive that does not have a loaded row as it was loaded.
CREATE OR REPLACE FUNCTION historian.compare(stream integer, number bigint, stored text) RETURNS void LANGUAGE plpgsql AS $$
DECLARE loaded text;
BEGIN
    SELECT concat_ws(E'\t', r.row, r.time, CASE WHEN r.loose THEN 'LOOSE' ELSE 'KEPT' END, upper(encode(r.txid, 'hex')),
        upper(encode(r.telegram, 'hex'))) INTO loaded FROM historian.reception r WHERE r.stream = $1 AND r.row = $2;
    IF loaded <> stored THEN -- a row whose month was dropped is not compared
        RAISE EXCEPTION 'row % is not in the archive as it was loaded', $2 USING DETAIL = format('loaded: %s, archive: %s', loaded, stored),
            HINT = 'Another archive, or one from which rows were removed, is a new stream. `check` says where they differ, `aside` moves loaded rows.';
    END IF;
END $$;

-- Refuses a file of `--heard` that does not have a loaded line as it was loaded.
CREATE OR REPLACE FUNCTION historian.compare_heard(stream integer, number bigint, stored text) RETURNS void LANGUAGE plpgsql AS $$
DECLARE loaded text;
BEGIN
    SELECT concat_ws(',', h.time, upper(encode(h.txid, 'hex')), h.level, h.copies, h.interrupted::integer) INTO loaded
        FROM historian.heard h WHERE h.stream = $1 AND h.line = $2;
    IF loaded <> stored THEN
        RAISE EXCEPTION 'line % behind the heading is not in the file as it was loaded', $2 USING DETAIL = format('loaded: %s, file: %s', loaded, stored),
            HINT = 'A file that begins anew, after a rotation or with --new-state, is a new stream.';
    END IF;
END $$;

-- Makes the partitions of months that have none, each as `2026-11`. Existing ones are not changed.
CREATE OR REPLACE FUNCTION historian.make_months(months text[]) RETURNS void LANGUAGE plpgsql AS $$
DECLARE month text; first timestamptz; part text;
BEGIN
    PERFORM pg_advisory_xact_lock(hashtext('historian'), 0);
    FOREACH month IN ARRAY array_remove(coalesce(months, '{}'), 'later') LOOP
        part := 'reception_' || replace(month, '-', '_');
        CONTINUE WHEN to_regclass('historian.' || part) IS NOT NULL;
        first := (month || '-01 00:00:00+00')::timestamptz;
        EXECUTE format('CREATE TABLE historian.%I (LIKE historian.reception INCLUDING DEFAULTS INCLUDING CONSTRAINTS)', part);
        EXECUTE format('ALTER TABLE historian.reception ATTACH PARTITION historian.%I FOR VALUES FROM (%L) TO (%L)', part, first,
            (first AT TIME ZONE 'UTC' + interval '1 month') AT TIME ZONE 'UTC');
    END LOOP;
END $$;
