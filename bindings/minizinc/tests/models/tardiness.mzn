% One machine: the least sum of weighted delays.
include "disjunctive.mzn";
int: n = 5;
array[1..n] of int: d = [3,2,4,1,5];
array[1..n] of int: due = [4,6,7,3,12];
array[1..n] of int: w = [2,1,3,1,2];
array[1..n] of var 0..15: s;
constraint disjunctive(s, d);
var 0..300: cost = sum(i in 1..n)(w[i] * max(0, s[i] + d[i] - due[i]));
solve minimize cost;
