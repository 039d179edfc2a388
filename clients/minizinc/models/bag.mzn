% Seven things, a bag for 20: the greatest worth.
array[1..7] of int: worth = [12, 9, 14, 5, 8, 11, 4];
array[1..7] of int: weight = [7, 4, 9, 2, 5, 6, 3];
array[1..7] of var 0..1: take;
constraint sum(i in 1..7)(weight[i] * take[i]) <= 20;
var int: total = sum(i in 1..7)(worth[i] * take[i]);
solve maximize total;
output ["answer \(total)\n"];
