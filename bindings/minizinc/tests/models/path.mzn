% The shortest way from 1 to 6 over edges with lengths.
array[1..9,1..3] of int: e = [|1,2,7|1,3,9|1,6,14|2,3,10|2,4,15|3,4,11|3,6,2|4,5,6|6,5,9|];
array[1..9] of var 0..1: x;
constraint forall(v in 1..6)(sum(i in 1..9 where e[i,1] = v)(x[i]) - sum(i in 1..9 where e[i,2] = v)(x[i])
  = if v = 1 then 1 elseif v = 5 then -1 else 0 endif);
solve minimize sum(i in 1..9)(e[i,3] * x[i]);
