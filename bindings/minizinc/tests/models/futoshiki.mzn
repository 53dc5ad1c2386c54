% A Latin square with signs between places.
include "alldifferent.mzn";
array[1..4,1..4] of var 1..4: x;
constraint forall(i in 1..4)(alldifferent(row(x,i)) /\ alldifferent(col(x,i)));
constraint x[1,1] < x[1,2] /\ x[2,1] > x[3,1] /\ x[3,3] > x[3,4] /\ x[2,2] < x[2,3] /\ x[4,4] > x[3,4] /\ x[1,4] = 2;
solve satisfy;
