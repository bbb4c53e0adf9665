STREAM Meter(minute, meter, watts);
SELECT COUNT(*) FROM Meter [ROWS 4 SLIDE 2];
