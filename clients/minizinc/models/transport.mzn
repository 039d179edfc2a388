% Two mills, three shops, and a fee for each lorry that goes: the least cost.
array[1..2] of int: has = [30, 25];
array[1..3] of int: wants = [14, 19, 11];
array[1..2, 1..3] of int: way = [| 3,6,4 | 5,2,7 |];
array[1..2, 1..3] of var 0..30: sent;
array[1..2, 1..3] of var 0..1: goes;
constraint forall(m in 1..2)(sum(s in 1..3)(sent[m, s]) <= has[m]);
constraint forall(s in 1..3)(sum(m in 1..2)(sent[m, s]) = wants[s]);
constraint forall(m in 1..2, s in 1..3)(sent[m, s] <= 30 * goes[m, s]);
var int: total = sum(m in 1..2, s in 1..3)(way[m, s] * sent[m, s] + 20 * goes[m, s]);
solve minimize total;
output ["answer \(total)\n"];
