% As many of each of four things as wanted, two sizes of bags.
array[1..4] of int: worth = [11, 7, 15, 4];
array[1..2, 1..4] of int: uses = [| 5,3,8,2 | 4,4,3,1 |];
array[1..2] of int: room = [47, 35];
array[1..4] of var 0..20: take;
constraint forall(r in 1..2)(sum(i in 1..4)(uses[r, i] * take[i]) <= room[r]);
var int: total = sum(i in 1..4)(worth[i] * take[i]);
solve maximize total;
output ["answer \(total)\n"];
