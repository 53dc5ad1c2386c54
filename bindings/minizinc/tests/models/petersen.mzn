% The colourings of the Petersen graph by 3 colours, the first two vertices given.
array[1..15,1..2] of int: e = [|1,2|2,3|3,4|4,5|5,1|1,6|2,7|3,8|4,9|5,10|6,8|8,10|10,7|7,9|9,6|];
array[1..10] of var 1..3: c;
constraint forall(i in 1..15)(c[e[i,1]] != c[e[i,2]]);
constraint c[1] = 1 /\ c[2] = 2;
solve satisfy;
