-- Loads the lines after the last one that is loaded, if the file has that one as it was loaded. psql's variables: plant, stream; the file is $FILE.
SET client_min_messages = warning;
SELECT historian.stream_of(:'plant', :'stream') AS id \gset
BEGIN;
SELECT historian.lock(:id) \g /dev/null
-- The heading is the file's first line.
SELECT last, last + 1 AS at, last + 2 AS next, last > 0 AS is_begun
FROM (SELECT coalesce(max(line), 0) AS last FROM historian.heard WHERE stream = :id) loaded \gset
\setenv AT :at
\setenv NEXT :next
\if :is_begun
\set found `sed -n "$AT{p;q;}" -- "$FILE"`
SELECT historian.compare_heard(:id, :last, :'found') \g /dev/null
\endif
CREATE TEMPORARY TABLE listed (line bigint GENERATED ALWAYS AS IDENTITY, time numeric(20), txid text, level smallint, copies integer, interrupted boolean)
    ON COMMIT DROP;
-- A last line without a newline is still being written.
\copy pg_temp.listed (time, txid, level, copies, interrupted) FROM PROGRAM 'head -n "$(wc -l <"$FILE")" -- "$FILE" | tail -n +"$NEXT"' WITH (FORMAT csv)
INSERT INTO historian.heard SELECT :id, :last + line, time, decode(txid, 'hex'), level, copies, interrupted FROM pg_temp.listed;
COMMIT;
