% A square of words, which read the same across and down.
include "table.mzn";
array[1..9,1..3] of int: words = [|2,9,20|9,3,5|20,5,14|1,3,5|2,1,20|1,18,5|20,5,1|5,1,20|14,5,20|];
array[1..3,1..3] of var 1..26: x;
constraint forall(i in 1..3)(table(row(x,i), words) /\ table(col(x,i), words));
solve satisfy;
