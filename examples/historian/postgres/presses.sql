-- How often each switch was pressed on each day (UTC), for those who plan the lines: psql --set=plant=north --file=presses.sql
-- A press is a telegram of a rocker switch (RORG F6) whose DATA says that the energy bow is pressed (bit 4). Each KEPT row is one event.
SELECT (at AT TIME ZONE 'UTC')::date AS day, upper(encode(txid, 'hex')) AS txid, count(*) AS presses
FROM historian.reception
WHERE stream IN (SELECT id FROM historian.stream WHERE plant = :'plant') AND NOT loose AND get_byte(telegram, 0) = x'F6'::int AND get_byte(telegram, 1) & 16 <> 0
GROUP BY day, historian.reception.txid
ORDER BY day, historian.reception.txid;
