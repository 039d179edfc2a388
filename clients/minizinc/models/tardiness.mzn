% Five jobs one after another: the least weighted lateness.
array[1..5] of int: length = [4, 2, 6, 3, 5];
array[1..5] of int: due = [5, 4, 12, 9, 14];
array[1..5] of int: weight = [2, 3, 1, 2, 1];
array[1..5] of var 0..20: start;
array[1..5] of var 0..20: late;
constraint forall(i, j in 1..5 where i < j)(start[i] + length[i] <= start[j] \/ start[j] + length[j] <= start[i]);
constraint forall(j in 1..5)(late[j] >= start[j] + length[j] - due[j]);
var int: total = sum(j in 1..5)(weight[j] * late[j]);
solve minimize total;
output ["answer \(total)\n"];
