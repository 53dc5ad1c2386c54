% Four nurses over a week: 1 is day, 2 night, 3 off. Two on day, one on night; after a night there is no day.
include "global_cardinality.mzn"; include "regular.mzn";
array[1..4,1..7] of var 1..3: x;
constraint forall(d in 1..7)(global_cardinality([x[n,d] | n in 1..4], [1,2,3], [2,1,1]));
constraint forall(n in 1..4)(regular([x[n,d] | d in 1..7], 3, 3, [|1,2,3|0,2,3|1,2,3|], 1, {1,2,3}));
array[1..4] of var 0..7: nights = [sum(d in 1..7)(x[n,d] = 2) | n in 1..4];
array[1..4] of var 0..7: free = [sum(d in 1..7)(x[n,d] = 3) | n in 1..4];
constraint forall(n in 1..4)(nights[n] <= 2 /\ free[n] >= 1);
% the first asks for a free week-end, the second for no nights on three days
solve minimize 3 * (x[1,6] != 3) + 3 * (x[1,7] != 3) + (x[2,1] = 2) + (x[2,2] = 2) + (x[2,3] = 2) + max(free) - min(free);
