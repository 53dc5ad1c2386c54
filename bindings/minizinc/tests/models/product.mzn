% Numbers of three digits that are their quotient by the sum of their digits, times that sum.
var 100..299: n; var 1..20: s; var 0..9: a; var 0..9: b; var 0..9: c;
constraint a = n div 100 /\ b = n div 10 mod 10 /\ c = n mod 10 /\ s = a + b + c;
constraint n mod s = 0 /\ n div s = 19;
solve satisfy;
