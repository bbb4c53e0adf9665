STREAM Bill(day, bill, cents);
STREAM Payment(day, bill, paid);
SELECT Bill.bill, cents, paid FROM Bill [RANGE 30 SLIDE 30], Payment [RANGE 30 SLIDE 30]
WHERE Bill.bill = Payment.bill AND cents <> paid;
