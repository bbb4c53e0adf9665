STREAM Request(second, status, millis);
DSTREAM (SELECT status FROM Request [RANGE 5 SLIDE 5] GROUP BY status);
