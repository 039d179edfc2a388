% Which of three depots to open for five shops: the least cost of opening and of ways.
array[1..3] of int: opening = [12, 15, 11];
array[1..3, 1..5] of int: way = [| 2,9,4,7,3 | 6,2,3,5,8 | 7,6,8,2,4 |];
array[1..3] of var bool: open;
array[1..5] of var 1..3: from;
constraint forall(s in 1..5)(open[from[s]]);
var int: total = sum(d in 1..3)(opening[d] * bool2int(open[d])) + sum(s in 1..5)(way[from[s], s]);
solve minimize total;
output ["answer \(total)\n"];
