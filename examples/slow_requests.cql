STREAM Request(second, status, millis);
SELECT COUNT(*) FROM Request [RANGE 5 SLIDE 5] WHERE millis >= 300;
