-- Loads what is new in one file of a stream. psql's variables: plant, stream, path.
SET client_min_messages = warning;
SELECT historian.stream_of(:'plant', :'stream') AS id, regexp_replace(:'path', '.*/', '') AS file \gset
SELECT historian.is_passed(:id, :'file') AS is_passed \gset
\if :is_passed
\else
\set is_any on
-- The months of the new rows get their partitions first, so loading does not wait for readers.
SELECT historian.first_row(:id, :'file') AS first, rows AS last FROM historian.stream WHERE id = :id \gset
\setenv FILE :path
\setenv FIRST :first
\setenv LAST :last
DROP TABLE IF EXISTS pg_temp.month;
CREATE TEMPORARY TABLE month (name text, rows bigint);
\copy pg_temp.month FROM PROGRAM '"$MOORINGEYE" archive list --rows months --first "$FIRST" --after "$LAST" -- "$FILE"'
SELECT :last + coalesce(sum(rows), 0) AS until, historian.make_months(array_agg(name)) FROM pg_temp.month \gset

-- Rows that another load has sent meanwhile are not sent again; rows that came into the archive meanwhile are sent the next time.
BEGIN;
SELECT historian.lock(:id) \g /dev/null
SELECT historian.first_row(:id, :'file') AS first, rows AS last, greatest(:until - rows, 0) AS count, rows - 1 AS before, rows + 1 AS next
FROM historian.stream WHERE id = :id \gset
SELECT :last >= :first AS is_begun, :count > 0 AS is_new \gset
\setenv FIRST :first
\setenv LAST :last
\setenv COUNT :count
\setenv BEFORE :before
\if :is_begun
\set found `"$MOORINGEYE" archive list --rows tsv --first "$FIRST" --after "$BEFORE" --count 1 -- "$FILE"`
SELECT historian.compare(:id, :last, :'found') \g /dev/null
\endif
\if :is_new
SET LOCAL historian.stream = :id;
\copy historian.reception (row, at, time, loose, txid, telegram) FROM PROGRAM '"$MOORINGEYE" archive list --rows binary --first "$FIRST" --after "$LAST" --count "$COUNT" -- "$FILE"' WITH (FORMAT binary)
UPDATE historian.stream SET rows = rows + :ROW_COUNT WHERE id = :id RETURNING rows \gset
\endif
INSERT INTO historian.file VALUES (:id, :'file', :first) ON CONFLICT DO NOTHING;
COMMIT;
\if :is_new
\echo :file: rows :next to :rows are loaded
\endif
\endif
