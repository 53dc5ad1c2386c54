% The least height of a strip of width 6 for five boxes that are not turned.
int: n = 5; int: width = 6;
array[1..n] of int: w = [3,4,2,3,1];
array[1..n] of int: h = [2,3,4,1,3];
array[1..n] of var 0..width: x; array[1..n] of var 0..10: y;
var 0..13: height;
constraint forall(i in 1..n)(x[i] + w[i] <= width /\ y[i] + h[i] <= height);
constraint forall(i,j in 1..n where i < j)
  (x[i] + w[i] <= x[j] \/ x[j] + w[j] <= x[i] \/ y[i] + h[i] <= y[j] \/ y[j] + h[j] <= y[i]);
solve minimize height;
