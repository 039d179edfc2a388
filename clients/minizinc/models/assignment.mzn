% Five workers, five tasks: the least hours in all.
include "alldifferent.mzn";
array[1..5, 1..5] of int: hours = [| 9,2,7,8,6 | 6,4,3,7,5 | 5,8,1,8,4 | 7,6,9,4,3 | 8,5,4,6,7 |];
array[1..5] of var 1..5: task;
constraint alldifferent(task);
var int: total = sum(w in 1..5)(hours[w, task[w]]);
solve minimize total;
output ["answer \(total)\n"];
