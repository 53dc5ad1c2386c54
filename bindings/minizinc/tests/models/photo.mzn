% A row of six in which as many wishes as can be hold.
include "alldifferent.mzn";
array[1..7,1..2] of int: wish = [|1,3|1,5|2,6|3,4|4,6|5,2|6,1|];
array[1..6] of var 1..6: place;
constraint alldifferent(place) /\ place[1] < place[2];
solve maximize sum(i in 1..7)(abs(place[wish[i,1]] - place[wish[i,2]]) = 1);
