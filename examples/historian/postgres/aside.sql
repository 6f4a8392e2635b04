-- Moves the rows after a row aside. psql's variables: plant, stream, row.
SELECT historian.stream_of(:'plant', :'stream') AS id \gset
BEGIN;
SELECT historian.lock(:id) \g /dev/null
WITH moved AS (DELETE FROM historian.reception WHERE stream = :id AND row > :row RETURNING *)
INSERT INTO historian.aside (stream, loose, row, at, time, txid, telegram) SELECT stream, loose, row, at, time, txid, telegram FROM moved;
SELECT :ROW_COUNT || ' rows are moved aside';
UPDATE historian.stream SET rows = least(rows, :row) WHERE id = :id;
DELETE FROM historian.file WHERE stream = :id AND first_row > :row;
COMMIT;
