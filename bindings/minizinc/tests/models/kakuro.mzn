% A small cross of sums.
include "alldifferent.mzn";
array[1..3,1..3] of var 1..9: x;
constraint forall(i in 1..3)(alldifferent(row(x,i)) /\ alldifferent(col(x,i)));
constraint sum(row(x,1)) = 7 /\ sum(row(x,2)) = 20 /\ sum(row(x,3)) = 18;
constraint sum(col(x,1)) = 19 /\ sum(col(x,2)) = 17 /\ sum(col(x,3)) = 9;
solve satisfy;
