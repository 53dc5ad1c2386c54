% Three people, two on duty each day, and no one more than three days of five.
array[1..3,1..5] of var bool: on;
constraint forall(d in 1..5)(sum(p in 1..3)(on[p,d]) = 2) /\ forall(p in 1..3)(sum(d in 1..5)(on[p,d]) <= 3);
solve satisfy;
