% Five people, three shifts: who takes which, with requests.
include "global_cardinality_low_up.mzn";
array[1..5] of var 1..3: shift;
constraint global_cardinality_low_up(shift, [1,2,3], [1,2,1], [2,3,2]);
constraint shift[1] != shift[2] /\ (shift[3] = 1 -> shift[4] = 3) /\ shift[5] <= 2;
solve satisfy;
