% The numbers 1 to 9 in a square whose rows, columns and diagonals have one sum; one of its eight turns.
include "alldifferent.mzn";
array[1..3, 1..3] of var 1..9: s;
constraint alldifferent([s[i, j] | i, j in 1..3]);
constraint forall(i in 1..3)(sum(j in 1..3)(s[i, j]) = 15 /\ sum(j in 1..3)(s[j, i]) = 15);
constraint sum(i in 1..3)(s[i, i]) = 15 /\ sum(i in 1..3)(s[i, 4 - i]) = 15;
constraint s[1, 1] < s[1, 3] /\ s[1, 1] < s[3, 1] /\ s[1, 1] < s[3, 3] /\ s[1, 3] < s[3, 1];
solve satisfy;
output ["answer \(s)\n"];
