% Bars of 17 are cut into pieces of 3, 5 and 9, of which 5, 4 and 2 are wanted: the fewest bars.
array[1..3] of int: length = [3, 5, 9];
array[1..3] of int: wanted = [5, 4, 2];
array[1..4, 1..3] of var 0..5: cut;
array[1..4] of var 0..1: used;
constraint forall(b in 1..4)(sum(k in 1..3)(length[k] * cut[b, k]) <= 17 * used[b]);
constraint forall(k in 1..3)(sum(b in 1..4)(cut[b, k]) >= wanted[k]);
constraint forall(b in 1..3)(used[b] >= used[b + 1]);
solve minimize sum(used);
output ["answer \(sum(fix(used)))\n"];
