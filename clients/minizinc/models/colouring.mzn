% The fewest colours of a wheel with five spokes, and one point more at its hub.
int: n = 7;
array[1..11, 1..2] of int: edge = [| 1,2 | 2,3 | 3,4 | 4,5 | 5,1 | 6,1 | 6,2 | 6,3 | 6,4 | 6,5 | 7,6 |];
array[1..n] of var 1..5: colour;
var 1..5: most;
constraint forall(e in 1..11)(colour[edge[e, 1]] != colour[edge[e, 2]]);
constraint forall(v in 1..n)(colour[v] <= most);
solve minimize most;
output ["answer \(most)\n"];
