% The fewest guards on a grid of 4 by 4, so that each place has one at it or beside it.
int: n = 4;
array[1..n,1..n] of var 0..1: x;
constraint forall(i,j in 1..n)(sum(k,l in 1..n where abs(i-k) + abs(j-l) <= 1)(x[k,l]) >= 1);
solve minimize sum(array1d(x));
