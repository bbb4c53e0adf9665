STREAM Total(month, bill, cents, paid);
SELECT month, bill, cents, paid FROM Total WHERE cents <> paid;
