-- The sensors at the edge of reach, for the storage manager: how many of their telegrams were received only once.
-- psql --set=plant=north --file=heard-once.sql
SELECT upper(encode(txid, 'hex')) AS txid, count(*) AS telegrams, count(*) FILTER (WHERE copies = 0) AS heard_once,
    count(*) FILTER (WHERE copies = 0) * 100 / count(*) AS percent
FROM historian.heard
WHERE stream IN (SELECT id FROM historian.stream WHERE plant = :'plant') AND NOT interrupted
GROUP BY historian.heard.txid
HAVING count(*) FILTER (WHERE copies = 0) > 0
ORDER BY percent DESC, telegrams DESC, historian.heard.txid;
