% A small sudoku with one solution.
include "alldifferent.mzn";
array[1..4, 1..4] of int: given = [| 1,0,0,0 | 0,0,3,0 | 0,4,0,0 | 0,0,0,2 |];
array[1..4, 1..4] of var 1..4: s;
constraint forall(i, j in 1..4 where given[i, j] > 0)(s[i, j] = given[i, j]);
constraint forall(i in 1..4)(alldifferent([s[i, j] | j in 1..4]) /\ alldifferent([s[j, i] | j in 1..4]));
constraint forall(a, b in 0..1)(alldifferent([s[2 * a + i, 2 * b + j] | i, j in 1..2]));
solve satisfy;
output ["answer \(s)\n"];
