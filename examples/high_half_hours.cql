STREAM HalfHour(number, meter, watts);
SELECT number, meter, watts FROM HalfHour WHERE watts > 2000;
