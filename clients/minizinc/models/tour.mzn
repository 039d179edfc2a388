% The shortest tour of five towns.
include "circuit.mzn";
array[1..5, 1..5] of int: far = [| 0,7,4,9,6 | 7,0,5,3,8 | 4,5,0,6,2 | 9,3,6,0,5 | 6,8,2,5,0 |];
array[1..5] of var 1..5: next;
constraint circuit(next);
var int: total = sum(t in 1..5)(far[t, next[t]]);
solve minimize total;
output ["answer \(total)\n"];
