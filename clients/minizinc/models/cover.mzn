% Which stations reach all ten towns at the least cost.
array[1..6] of set of int: reaches = [{1,2,3},{2,4,6},{3,5,7,8},{1,6,9},{4,8,10},{7,9,10}];
array[1..6] of int: cost = [4, 3, 6, 4, 4, 3];
array[1..6] of var 0..1: open;
constraint forall(t in 1..10)(sum(s in 1..6 where t in reaches[s])(open[s]) >= 1);
var int: total = sum(s in 1..6)(cost[s] * open[s]);
solve minimize total;
output ["answer \(total)\n"];
