% Who does what: the greatest profit.
include "alldifferent.mzn";
array[1..5,1..5] of int: p = [|12,7,9,7,9|8,9,6,6,6|7,17,12,14,9|15,14,6,6,10|4,10,7,10,9|];
array[1..5] of var 1..5: task;
constraint alldifferent(task);
solve maximize sum(i in 1..5)(p[i, task[i]]);
