% Permutation flow shop: one order of the jobs on all machines.
include "alldifferent.mzn";
int: n = 4; int: m = 3;
array[1..m,1..n] of int: d = [|3,1,4,2|2,4,1,3|4,2,2,1|];
array[1..n] of var 1..n: job;
array[1..m,1..n] of var 0..40: ends;
constraint alldifferent(job);
constraint forall(i in 1..m, k in 1..n)(ends[i,k] >= d[i,job[k]]
  + if i > 1 then ends[i-1,k] else 0 endif);
constraint forall(i in 1..m, k in 2..n)(ends[i,k] >= ends[i,k-1] + d[i,job[k]]);
solve minimize ends[m,n];
