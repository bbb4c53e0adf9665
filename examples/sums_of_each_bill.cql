STREAM Entry(day, bill, cents, paid);
SELECT bill, SUM(cents), SUM(paid) FROM Entry [RANGE 30 SLIDE 30] GROUP BY bill;
