% Three jobs on three machines, each in its own order: the earliest end.
array[1..3, 1..3] of int: machine = [| 1,2,3 | 2,1,3 | 3,1,2 |];
array[1..3, 1..3] of int: length = [| 3,2,2 | 2,4,1 | 4,3,1 |];
array[1..3, 1..3] of var 0..20: start;
var 0..20: finish;
constraint forall(j in 1..3, k in 1..2)(start[j, k] + length[j, k] <= start[j, k + 1]);
constraint forall(j in 1..3)(start[j, 3] + length[j, 3] <= finish);
constraint forall(i, j in 1..3, k, l in 1..3 where i < j /\ machine[i, k] = machine[j, l])(
  start[i, k] + length[i, k] <= start[j, l] \/ start[j, l] + length[j, l] <= start[i, k]);
solve minimize finish;
output ["answer \(finish)\n"];
