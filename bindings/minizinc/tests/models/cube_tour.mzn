% The directed rounds over the corners of a cube.
include "circuit.mzn";
array[1..8,1..3] of int: beside = [|2,3,5|1,4,6|1,4,7|2,3,8|1,6,7|2,5,8|3,5,8|4,6,7|];
array[1..8] of var 1..8: next;
constraint circuit(next) /\ forall(i in 1..8)(next[i] in {beside[i,k] | k in 1..3});
solve satisfy;
