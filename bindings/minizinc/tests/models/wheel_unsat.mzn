% A wheel of five spokes needs four colours.
array[0..5] of var 1..3: c;
constraint forall(i in 1..5)(c[0] != c[i] /\ c[i] != c[i mod 5 + 1]);
solve satisfy;
