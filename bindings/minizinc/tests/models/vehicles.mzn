% Two vehicles from one depot to five customers: 6 and 7 are the depot, the start of the first and of the second.
include "circuit.mzn";
int: n = 7;
array[1..5] of int: px = [1,4,5,2,7]; array[1..5] of int: py = [5,6,1,2,4];
array[1..n] of int: qx = px ++ [4,4]; array[1..n] of int: qy = py ++ [3,3];
array[1..n] of int: load = [2,3,1,2,2,0,0];
array[1..n] of var 1..n: next; array[1..n] of var 0..6: full;
constraint circuit(next);
constraint forall(i in 1..5)(full[next[i]] = if next[i] >= 6 then 0 else full[i] + load[next[i]] endif \/ next[i] >= 6);
constraint forall(i in 6..7)(full[i] = 0 /\ (next[i] < 6 -> full[next[i]] = load[next[i]]));
array[1..n] of var 0..20: step = [let { array[1..n] of int: d = [abs(qx[i]-qx[j]) + abs(qy[i]-qy[j]) | j in 1..n] } in d[next[i]] | i in 1..n];
solve minimize sum(step);
