-- The yearly sheet of every plant, or of one, byte for byte as `archive sheet --rows csv` prints it: `psql -qAt --set=plant=north --file=sheet.sql`.
-- psql's variables, all optional: plant; received, the receptions of which the rows are a share.
\if :{?plant}
\else
\set plant ''
\endif
\if :{?received}
\else
\set received 0
\endif
WITH line AS (
    SELECT upper(encode(txid, 'hex')) AS txid, count(*) FILTER (WHERE NOT loose) AS kept, count(*) FILTER (WHERE loose) AS loose,
        min(time) AS earliest, max(time) AS latest
    FROM historian.reception
    WHERE :'plant' = '' OR stream IN (SELECT id FROM historian.stream WHERE plant = :'plant')
    GROUP BY historian.reception.txid
), total AS (
    SELECT coalesce(sum(kept), 0) AS kept, coalesce(sum(loose), 0) AS loose, min(earliest) AS earliest, max(latest) AS latest FROM line
), printed AS (
    SELECT 0 AS part, '' AS txid, 'txid,kept,loose,earliest,latest,share' AS line
    UNION ALL
    SELECT 1, txid, format('%s,%s,%s,%s,%s,', txid, kept, loose, earliest, latest) FROM line
    UNION ALL
    SELECT 2, '', format('TOTAL,%s,%s,%s,%s,%s', kept, loose, earliest, latest,
        CASE WHEN :received > 0 AND :received >= kept + loose THEN to_char(trunc((kept + loose) / :received::numeric, 3), 'FM0.000') END) FROM total
)
SELECT line FROM printed ORDER BY part, txid COLLATE "C";
