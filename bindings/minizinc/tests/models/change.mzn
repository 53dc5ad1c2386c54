% The fewest coins for 88, of which there are some of each.
array[1..5] of int: coin = [1,2,5,20,50]; array[1..5] of int: have = [5,4,3,4,1];
array[1..5] of var 0..5: n;
constraint forall(i in 1..5)(n[i] <= have[i]) /\ sum(i in 1..5)(coin[i] * n[i]) = 88;
solve minimize sum(n);
