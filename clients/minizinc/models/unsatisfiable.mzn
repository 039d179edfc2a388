% Four pigeons and three holes.
array[1..4, 1..3] of var 0..1: sits;
constraint forall(p in 1..4)(sum(h in 1..3)(sits[p, h]) = 1);
constraint forall(h in 1..3)(sum(p in 1..4)(sits[p, h]) <= 1);
solve satisfy;
output ["answer \(sits)\n"];
