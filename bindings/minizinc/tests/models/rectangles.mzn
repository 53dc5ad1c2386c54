% Squares of sides 5, 4, 3, 2, 2 and 1 into a box of 9 by 7; the first at the corner.
include "diffn.mzn";
array[1..6] of int: d = [5,4,3,2,2,1];
array[1..6] of var 0..8: x; array[1..6] of var 0..6: y;
constraint diffn(x, y, d, d);
constraint forall(i in 1..6)(x[i] + d[i] <= 9 /\ y[i] + d[i] <= 7);
constraint x[1] = 0 /\ y[1] = 0 /\ x[4] < x[5] /\ x[2] = 5 /\ y[2] = 0;
solve satisfy;
