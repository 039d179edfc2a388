% The fewest coins that make 97.
array[1..5] of int: coin = [1, 5, 12, 25, 40];
array[1..5] of var 0..97: count;
constraint sum(c in 1..5)(coin[c] * count[c]) = 97;
solve minimize sum(count);
output ["answer \(sum(fix(count)))\n"];
