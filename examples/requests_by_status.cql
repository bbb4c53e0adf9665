STREAM Request(second, status, millis);
SELECT status, COUNT(*), MAX(millis) FROM Request [RANGE 10 SLIDE 5] GROUP BY status;
