% Open shop: each job visits each machine once, in any order.
int: n = 3;
array[1..n,1..n] of int: d = [|4,2,3|1,5,2|3,1,4|];
int: most = 20;
array[1..n,1..n] of var 0..most: s;
var 0..most: makespan;
constraint forall(i,j in 1..n)(s[i,j] + d[i,j] <= makespan);
constraint forall(i in 1..n, j,k in 1..n where j < k)(s[i,j] + d[i,j] <= s[i,k] \/ s[i,k] + d[i,k] <= s[i,j]);
constraint forall(j in 1..n, i,k in 1..n where i < k)(s[i,j] + d[i,j] <= s[k,j] \/ s[k,j] + d[k,j] <= s[i,j]);
solve minimize makespan;
