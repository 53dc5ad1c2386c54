% 43 is no sum of sixes, nines and twenties.
var 0..10: a; var 0..10: b; var 0..10: c;
constraint 6*a + 9*b + 20*c = 43;
solve satisfy;
