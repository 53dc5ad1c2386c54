% 1 to 8 in two halves, of the same sum and of the same sum of squares.
array[1..8] of var bool: x;
constraint x[1] /\ sum(i in 1..8)(i * x[i]) = 18 /\ sum(i in 1..8)(i * i * x[i]) = 102 /\ sum(x) = 4;
solve satisfy;
