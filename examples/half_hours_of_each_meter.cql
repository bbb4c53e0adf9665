STREAM Meter(minute, meter, watts);
SELECT meter, SUM(watts) FROM Meter [RANGE 30 SLIDE 15] GROUP BY meter;
