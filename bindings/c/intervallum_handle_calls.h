/* Written by bindings/calls from bindings/handles.txt. */
/* A part of intervallum_handles.h, which reads it for each type of bounds: IVL_OF(set_insert) is ivl_set_insert_i64, whose
   IVL_NUMBER is int64_t, and ivl_set_insert_u64. The members of a set, and the numbers of variables, lie as those of intervallum.h. */

/* A set, in pages: for many runs that change. */
typedef struct IVL_OF(set) IVL_OF(set);
/* A map: each number has one value or none, and neighbours of equal value stand in one entry. */
typedef struct IVL_OF(map) IVL_OF(map);
/* The numbers from `lower` to `upper`, bounds included, and their value. */
typedef struct {
    IVL_NUMBER lower;
    IVL_NUMBER upper;
    uint64_t value;
} IVL_OF(entry);
/* A model: variables, each with a set of numbers, its domain, and rules between them. Variables are told by their indexes from 0;
   another index is IVL_UNKNOWN_VARIABLE, and one that may stand once in a rule and stands twice IVL_SAME_VARIABLE. */
typedef struct IVL_OF(solver) IVL_OF(solver);
/* What a search found: solutions, each a number for each variable in the order of their indexes. */
typedef struct IVL_OF(solutions) IVL_OF(solutions);

void IVL_OF(set_free)(IVL_OF(set) *set);

/* Make a handle. new: of no member; of: of the members of a list, in any order; clone: of those of another one. */
IVL_NODISCARD int64_t IVL_OF(set_new)(IVL_OF(set) **made);
IVL_NODISCARD int64_t IVL_OF(set_of)(const IVL_OF(pair) *pairs, size_t n, IVL_OF(set) **made);
IVL_NODISCARD int64_t IVL_OF(set_clone)(const IVL_OF(set) *set, IVL_OF(set) **made);

/* Edit in place, O(log n) and the runs of one page. insert and insert_run: 1 if a number is new; remove and remove_run: 1 if
   there was one. remove_run takes any numbers. */
IVL_NODISCARD int64_t IVL_OF(set_insert)(IVL_OF(set) *set, IVL_NUMBER v);
IVL_NODISCARD int64_t IVL_OF(set_remove)(IVL_OF(set) *set, IVL_NUMBER v);
IVL_NODISCARD int64_t IVL_OF(set_insert_run)(IVL_OF(set) *set, IVL_NUMBER lower, IVL_NUMBER upper);
IVL_NODISCARD int64_t IVL_OF(set_remove_run)(IVL_OF(set) *set, IVL_NUMBER lower, IVL_NUMBER upper);
IVL_NODISCARD int64_t IVL_OF(set_clear)(IVL_OF(set) *set);

/* Take out, and write what was taken: the least member, the greatest, or the lowest `count` consecutive members. */
IVL_NODISCARD int64_t IVL_OF(set_pop_first)(IVL_OF(set) *set, IVL_NUMBER *found);
IVL_NODISCARD int64_t IVL_OF(set_pop_last)(IVL_OF(set) *set, IVL_NUMBER *found);
IVL_NODISCARD int64_t IVL_OF(set_take_first_fit)(IVL_OF(set) *set, uint64_t count, IVL_OF(pair) *found);

/* Ask of numbers, O(log n). includes: each number from `lower` to `upper` is a member; overlaps: one of them is. */
IVL_NODISCARD int64_t IVL_OF(set_contains)(const IVL_OF(set) *set, IVL_NUMBER v);
IVL_NODISCARD int64_t IVL_OF(set_includes)(const IVL_OF(set) *set, IVL_NUMBER lower, IVL_NUMBER upper);
IVL_NODISCARD int64_t IVL_OF(set_overlaps)(const IVL_OF(set) *set, IVL_NUMBER lower, IVL_NUMBER upper);

/* Count. size: the members; size_within: those from `lower` to `upper`; rank: those below `v`; run_count: the runs. */
IVL_NODISCARD int64_t IVL_OF(set_is_empty)(const IVL_OF(set) *set);
IVL_NODISCARD int64_t IVL_OF(set_run_count)(const IVL_OF(set) *set, uint64_t *size);
IVL_NODISCARD int64_t IVL_OF(set_size)(const IVL_OF(set) *set, uint64_t *size);
IVL_NODISCARD int64_t IVL_OF(set_size_within)(const IVL_OF(set) *set, IVL_NUMBER lower, IVL_NUMBER upper, uint64_t *size);
IVL_NODISCARD int64_t IVL_OF(set_rank)(const IVL_OF(set) *set, IVL_NUMBER v, uint64_t *size);

/* Find members. nth: the one with `count` members below it; next_from: the least from `v`; previous_to: the greatest up to `v`. */
IVL_NODISCARD int64_t IVL_OF(set_first)(const IVL_OF(set) *set, IVL_NUMBER *found);
IVL_NODISCARD int64_t IVL_OF(set_last)(const IVL_OF(set) *set, IVL_NUMBER *found);
IVL_NODISCARD int64_t IVL_OF(set_nth)(const IVL_OF(set) *set, uint64_t index, IVL_NUMBER *found);
IVL_NODISCARD int64_t IVL_OF(set_next_from)(const IVL_OF(set) *set, IVL_NUMBER v, IVL_NUMBER *found);
IVL_NODISCARD int64_t IVL_OF(set_previous_to)(const IVL_OF(set) *set, IVL_NUMBER v, IVL_NUMBER *found);

/* Find runs. run_at: the one that holds `v`; run_from: the first one that ends at `v` or above, by which a loop goes over all;
   first_fit: the lowest `count` consecutive members; first_fit_from: from `v` on; best_fit: in the shortest run that is long
   enough; longest_run. */
IVL_NODISCARD int64_t IVL_OF(set_run_at)(const IVL_OF(set) *set, IVL_NUMBER v, IVL_OF(pair) *found);
IVL_NODISCARD int64_t IVL_OF(set_run_from)(const IVL_OF(set) *set, IVL_NUMBER v, IVL_OF(pair) *found);
IVL_NODISCARD int64_t IVL_OF(set_first_fit)(const IVL_OF(set) *set, uint64_t count, IVL_OF(pair) *found);
IVL_NODISCARD int64_t IVL_OF(set_first_fit_from)(const IVL_OF(set) *set, IVL_NUMBER v, uint64_t count, IVL_OF(pair) *found);
IVL_NODISCARD int64_t IVL_OF(set_best_fit)(const IVL_OF(set) *set, uint64_t count, IVL_OF(pair) *found);
IVL_NODISCARD int64_t IVL_OF(set_longest_run)(const IVL_OF(set) *set, IVL_OF(pair) *found);

/* Compare two sets: 1 or 0. */
IVL_NODISCARD int64_t IVL_OF(set_is_subset)(const IVL_OF(set) *set, const IVL_OF(set) *other);
IVL_NODISCARD int64_t IVL_OF(set_overlap)(const IVL_OF(set) *set, const IVL_OF(set) *other);
IVL_NODISCARD int64_t IVL_OF(set_equal)(const IVL_OF(set) *set, const IVL_OF(set) *other);

/* Make a set of two, O(n + m), or of one. gaps_within: the numbers from `lower` to `upper` that are no members; split_off
   takes the members from `v` on out of the set. */
IVL_NODISCARD int64_t IVL_OF(set_union)(const IVL_OF(set) *set, const IVL_OF(set) *other, IVL_OF(set) **made);
IVL_NODISCARD int64_t IVL_OF(set_intersection)(const IVL_OF(set) *set, const IVL_OF(set) *other, IVL_OF(set) **made);
IVL_NODISCARD int64_t IVL_OF(set_difference)(const IVL_OF(set) *set, const IVL_OF(set) *other, IVL_OF(set) **made);
IVL_NODISCARD int64_t IVL_OF(set_symmetric_difference)(const IVL_OF(set) *set, const IVL_OF(set) *other, IVL_OF(set) **made);
IVL_NODISCARD int64_t IVL_OF(set_complement)(const IVL_OF(set) *set, IVL_OF(set) **made);
IVL_NODISCARD int64_t IVL_OF(set_gaps_within)(const IVL_OF(set) *set, IVL_NUMBER lower, IVL_NUMBER upper, IVL_OF(set) **made);
IVL_NODISCARD int64_t IVL_OF(set_split_off)(IVL_OF(set) *set, IVL_NUMBER v, IVL_OF(set) **made);

/* Change a set by another one, which may be the same: in place where the other has far fewer runs. */
IVL_NODISCARD int64_t IVL_OF(set_unite)(IVL_OF(set) *set, const IVL_OF(set) *other);
IVL_NODISCARD int64_t IVL_OF(set_intersect)(IVL_OF(set) *set, const IVL_OF(set) *other);
IVL_NODISCARD int64_t IVL_OF(set_subtract)(IVL_OF(set) *set, const IVL_OF(set) *other);

/* Write the runs to `out` and return their number, as calls that make a list do. O(n). */
IVL_NODISCARD int64_t IVL_OF(set_runs)(const IVL_OF(set) *set, IVL_OF(pair) *out, size_t room);

void IVL_OF(map_free)(IVL_OF(map) *map);

/* Make a handle: of no entry, or of the entries of another one. */
IVL_NODISCARD int64_t IVL_OF(map_new)(IVL_OF(map) **made);
IVL_NODISCARD int64_t IVL_OF(map_clone)(const IVL_OF(map) *map, IVL_OF(map) **made);

/* Edit in place, O(log n), or O(n) if the number of entries changes. insert gives the numbers from `lower` to `upper` a value;
   insert_if_free: if none of them has one, and 0 otherwise; remove takes their values. */
IVL_NODISCARD int64_t IVL_OF(map_insert)(IVL_OF(map) *map, IVL_NUMBER lower, IVL_NUMBER upper, uint64_t value);
IVL_NODISCARD int64_t IVL_OF(map_insert_if_free)(IVL_OF(map) *map, IVL_NUMBER lower, IVL_NUMBER upper, uint64_t value);
IVL_NODISCARD int64_t IVL_OF(map_remove)(IVL_OF(map) *map, IVL_NUMBER lower, IVL_NUMBER upper);
IVL_NODISCARD int64_t IVL_OF(map_clear)(IVL_OF(map) *map);

/* Ask, O(log n). size: how many numbers have a value; entry_count: how many entries there are. */
IVL_NODISCARD int64_t IVL_OF(map_is_empty)(const IVL_OF(map) *map);
IVL_NODISCARD int64_t IVL_OF(map_contains)(const IVL_OF(map) *map, IVL_NUMBER v);
IVL_NODISCARD int64_t IVL_OF(map_get)(const IVL_OF(map) *map, IVL_NUMBER v, uint64_t *found);
IVL_NODISCARD int64_t IVL_OF(map_entry_count)(const IVL_OF(map) *map, uint64_t *size);
IVL_NODISCARD int64_t IVL_OF(map_size)(const IVL_OF(map) *map, uint64_t *size);
IVL_NODISCARD int64_t IVL_OF(map_equal)(const IVL_OF(map) *map, const IVL_OF(map) *other);

/* Find entries: the longest interval of one value, and the value. entry_at: of `v`; next_from: the first that ends at `v` or
   above, by which a loop goes over all; previous_to: the last that begins at `v` or below. */
IVL_NODISCARD int64_t IVL_OF(map_first)(const IVL_OF(map) *map, IVL_OF(entry) *found);
IVL_NODISCARD int64_t IVL_OF(map_last)(const IVL_OF(map) *map, IVL_OF(entry) *found);
IVL_NODISCARD int64_t IVL_OF(map_entry_at)(const IVL_OF(map) *map, IVL_NUMBER v, IVL_OF(entry) *found);
IVL_NODISCARD int64_t IVL_OF(map_next_from)(const IVL_OF(map) *map, IVL_NUMBER v, IVL_OF(entry) *found);
IVL_NODISCARD int64_t IVL_OF(map_previous_to)(const IVL_OF(map) *map, IVL_NUMBER v, IVL_OF(entry) *found);

/* Find room: the lowest `count` consecutive numbers from `lower` to `upper` that have no value. O(n). */
IVL_NODISCARD int64_t IVL_OF(map_first_fit)(const IVL_OF(map) *map, IVL_NUMBER lower, IVL_NUMBER upper, uint64_t count, IVL_OF(pair) *found);

/* Make a set of numbers: keys, those with a value; numbers_with: with this one; gaps_within: those from `lower` to `upper`
   without. cut_to makes a map of the entries from `lower` to `upper`. */
IVL_NODISCARD int64_t IVL_OF(map_keys)(const IVL_OF(map) *map, IVL_OF(set) **made);
IVL_NODISCARD int64_t IVL_OF(map_numbers_with)(const IVL_OF(map) *map, uint64_t value, IVL_OF(set) **made);
IVL_NODISCARD int64_t IVL_OF(map_gaps_within)(const IVL_OF(map) *map, IVL_NUMBER lower, IVL_NUMBER upper, IVL_OF(set) **made);
IVL_NODISCARD int64_t IVL_OF(map_cut_to)(const IVL_OF(map) *map, IVL_NUMBER lower, IVL_NUMBER upper, IVL_OF(map) **made);

void IVL_OF(solver_free)(IVL_OF(solver) *solver);

/* Make a model without variables; clone: with those of another one, and its rules. */
IVL_NODISCARD int64_t IVL_OF(solver_new)(IVL_OF(solver) **made);
IVL_NODISCARD int64_t IVL_OF(solver_clone)(const IVL_OF(solver) *solver, IVL_OF(solver) **made);

/* Add variables, and return the index of the first one: the next after all before, from 0 on. variable: whose domain is the
   numbers from `lower` to `upper`; variables: as many as `copies`, each with the members of a list, in any order. */
IVL_NODISCARD int64_t IVL_OF(solver_variable)(IVL_OF(solver) *solver, IVL_NUMBER lower, IVL_NUMBER upper);
IVL_NODISCARD int64_t IVL_OF(solver_variables)(IVL_OF(solver) *solver, size_t copies, const IVL_OF(pair) *pairs, size_t n);

/* Ask of variables. domain: writes the runs, and returns their number, as calls that make a list do. */
IVL_NODISCARD int64_t IVL_OF(solver_variable_count)(const IVL_OF(solver) *solver, uint64_t *size);
IVL_NODISCARD int64_t IVL_OF(solver_domain)(const IVL_OF(solver) *solver, int64_t x, IVL_OF(pair) *out, size_t room);

/* Take from the domain of a variable what is not from `lower` to `upper`, or no member of a list. */
IVL_NODISCARD int64_t IVL_OF(solver_restrict_run)(IVL_OF(solver) *solver, int64_t x, IVL_NUMBER lower, IVL_NUMBER upper);
IVL_NODISCARD int64_t IVL_OF(solver_restrict)(IVL_OF(solver) *solver, int64_t x, const IVL_OF(pair) *pairs, size_t n);

/* Rules of two different variables, about the numbers as such: `x + by` may be outside the range. at_most: x + by <= y;
   equals: x + by = y; differs: x + by != y. */
IVL_NODISCARD int64_t IVL_OF(solver_at_most)(IVL_OF(solver) *solver, int64_t x, int64_t by, int64_t y);
IVL_NODISCARD int64_t IVL_OF(solver_equals)(IVL_OF(solver) *solver, int64_t x, int64_t by, int64_t y);
IVL_NODISCARD int64_t IVL_OF(solver_differs)(IVL_OF(solver) *solver, int64_t x, int64_t by, int64_t y);

/* Rules of several variables, each of which is named once. all_different: no two have the same number, by a rule of each two.
   sum: their numbers add up to that of `total`; the sums of the first of them must be in the range, unless no number is
   below 0, or none above. no_overlap: of each two tasks one begins when the other is over, or later; the distances of their
   beginnings must be in the range, once they are shifted to be no less than its least number. Otherwise it is
   IVL_SUM_OUT_OF_RANGE. */
IVL_NODISCARD int64_t IVL_OF(solver_all_different)(IVL_OF(solver) *solver, const int64_t *variables, size_t n);
IVL_NODISCARD int64_t IVL_OF(solver_sum)(IVL_OF(solver) *solver, const int64_t *variables, size_t n, int64_t total);
IVL_NODISCARD int64_t IVL_OF(solver_no_overlap)(IVL_OF(solver) *solver, const ivl_task *tasks, size_t n);

/* Search, within limits: those of a null pointer are any number of solutions, in a million nodes.
   solutions: makes a list of them, none twice; all of them, unless a limit ends the search.
   count: writes how many were found, and returns IVL_ALL, or which limit ended the search, and there may be more.
   first, minimize, maximize: write the numbers of a solution, of as many variables as there is room for: of any, or of one with
   the least or the greatest number of `x`. They return 1; 2 if a limit ended the search, so that it is the best so far; 0 if
   there is no solution; IVL_UNFINISHED if a limit ended the search before one was found. */
IVL_NODISCARD int64_t IVL_OF(solver_solutions)(const IVL_OF(solver) *solver, const ivl_limits *limits, IVL_OF(solutions) **made);
IVL_NODISCARD int64_t IVL_OF(solver_count)(const IVL_OF(solver) *solver, const ivl_limits *limits, uint64_t *count);
IVL_NODISCARD int64_t IVL_OF(solver_first)(const IVL_OF(solver) *solver, const ivl_limits *limits, IVL_NUMBER *numbers, size_t room);
IVL_NODISCARD int64_t IVL_OF(solver_minimize)(const IVL_OF(solver) *solver, int64_t x, const ivl_limits *limits, IVL_NUMBER *numbers, size_t room);
IVL_NODISCARD int64_t IVL_OF(solver_maximize)(const IVL_OF(solver) *solver, int64_t x, const ivl_limits *limits, IVL_NUMBER *numbers, size_t room);

/* Let searches end with IVL_STOPPED, those that other threads are in, and those that begin; or, if `stops` is false, no longer. May
   be called by any thread, and from a signal handler. */
IVL_NODISCARD int64_t IVL_OF(solver_stop)(const IVL_OF(solver) *solver, bool stops);

void IVL_OF(solutions_free)(IVL_OF(solutions) *solutions);

/* Read the solutions. at: writes the numbers of the one of an index, in no order that is promised; 1, or 0 if there is none;
   next: of the first one, then of the one after it, and so on; after the last 0, or IVL_UNFINISHED if a limit ended the search;
   end: IVL_ALL, or which limit ended the search. */
IVL_NODISCARD int64_t IVL_OF(solutions_count)(const IVL_OF(solutions) *solutions, uint64_t *size);
IVL_NODISCARD int64_t IVL_OF(solutions_at)(const IVL_OF(solutions) *solutions, uint64_t index, IVL_NUMBER *numbers, size_t room);
IVL_NODISCARD int64_t IVL_OF(solutions_next)(IVL_OF(solutions) *solutions, IVL_NUMBER *numbers, size_t room);
IVL_NODISCARD int64_t IVL_OF(solutions_end)(const IVL_OF(solutions) *solutions);
