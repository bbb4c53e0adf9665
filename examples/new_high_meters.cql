STREAM HalfHour(number, meter, watts);
ISTREAM (SELECT meter FROM HalfHour [RANGE 1 SLIDE 1] WHERE watts > 800);
