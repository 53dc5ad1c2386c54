% Five say how many of them lie.
array[1..5] of var bool: honest;
constraint forall(i in 1..5)(honest[i] <-> sum(j in 1..5)(not honest[j]) = i);
solve satisfy;
