% A blend of three oils in whole barrels, whose hardness is a mean: the greatest profit.
array[1..3] of var 0..20: barrels;
array[1..3] of int: profit = [30, 45, 24];
constraint sum(barrels) <= 25;
var 0.0..200.0: hardness = 8.5 * barrels[1] + 6.5 * barrels[2] + 4.25 * barrels[3];
constraint hardness <= 6.0 * sum(barrels);
constraint hardness >= 3.0 * sum(barrels);
var int: total = sum(o in 1..3)(profit[o] * barrels[o]);
solve maximize total;
output ["answer \(total)\n"];
