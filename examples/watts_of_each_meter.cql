STREAM Meter(minute, meter, watts);
SELECT meter, SUM(watts) FROM Meter [RANGE 60 SLIDE 60] WHERE watts > 0 GROUP BY meter;
