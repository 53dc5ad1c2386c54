% Constraints that fzn-intervallum has of its own, where MiniZinc's library would write them by others: each variable that it adds
% to them is a function of theirs. The last two, of floats, are those of the library, since MiniZinc looks for them in this file.
predicate bool_clause_reif(array[int] of var bool: as, array[int] of var bool: bs, var bool: b);
predicate array_int_maximum(var int: m, array[int] of var int: x);
predicate array_int_minimum(var int: m, array[int] of var int: x);
predicate array_float_maximum(var float: m, array[int] of var float: x) =
  exists(i in index_set(x))(m = x[i]) /\ forall(i in index_set(x))(m >= x[i]);
predicate array_float_minimum(var float: m, array[int] of var float: x) =
  exists(i in index_set(x))(m = x[i]) /\ forall(i in index_set(x))(m <= x[i]);
