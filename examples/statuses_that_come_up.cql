STREAM Request(second, status, millis);
ISTREAM (SELECT status FROM Request [RANGE 5 SLIDE 5] GROUP BY status);
