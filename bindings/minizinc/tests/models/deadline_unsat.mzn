% Six tasks of energy 30 do not fit into 7 hours of capacity 4.
include "cumulative.mzn";
array[1..6] of int: d = [3,2,3,2,2,3];
array[1..6] of int: r = [2,2,2,2,2,2];
array[1..6] of var 0..5: s;
constraint cumulative(s, d, r, 4) /\ forall(i in 1..6)(s[i] + d[i] <= 7);
solve satisfy;
