% Eight parcels into boxes that hold 10 each: the fewest boxes.
array[1..8] of int: size = [6,5,4,4,3,3,2,2];
int: boxes = 4;
array[1..8, 1..boxes] of var 0..1: put;
array[1..boxes] of var 0..1: used;
constraint forall(p in 1..8)(sum(b in 1..boxes)(put[p, b]) = 1);
constraint forall(b in 1..boxes)(sum(p in 1..8)(size[p] * put[p, b]) <= 10 * used[b]);
constraint forall(b in 1..boxes - 1)(used[b] >= used[b + 1]);
solve minimize sum(used);
output ["answer \(sum(fix(used)))\n"];
