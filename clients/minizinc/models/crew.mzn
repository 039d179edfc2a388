% Five jobs with needs of a crew of four: the earliest end.
include "cumulative.mzn";
array[1..5] of int: length = [3, 2, 2, 1, 2];
array[1..5] of int: need = [2, 3, 1, 4, 2];
array[1..5] of var 0..10: start;
var 0..12: finish;
constraint cumulative(start, length, need, 4);
constraint forall(j in 1..5)(start[j] + length[j] <= finish);
solve minimize finish;
output ["answer \(finish)\n"];
