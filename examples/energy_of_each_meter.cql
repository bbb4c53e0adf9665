STREAM Reading(second, meter, wh, high);
SELECT meter, SUM(wh), COUNT(*), SUM(high) FROM Reading [RANGE 3600 SLIDE 3600] GROUP BY meter;
