-- The rows of a transmitter around a time, for the maintenance engineer:
-- psql --set=plant=north --set=txid=0583A1C0 --set=moment='1970-01-01 00:00:01Z' --file=around.sql
-- The moment is in quotes; the rows of 30 seconds before and after it are shown, or of `within`.
\if :{?within}
\else
\set within '30 seconds'
\endif
SELECT s.name AS stream, r.row, r.at, CASE WHEN r.loose THEN 'LOOSE' ELSE 'KEPT' END AS answer, upper(encode(r.telegram, 'hex')) AS telegram
FROM historian.reception r JOIN historian.stream s ON s.id = r.stream
WHERE s.plant = :'plant' AND r.txid = decode(:'txid', 'hex')
    AND r.at BETWEEN :'moment'::timestamptz - :'within'::interval AND :'moment'::timestamptz + :'within'::interval
ORDER BY r.at, s.name, r.row;
