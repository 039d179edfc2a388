% Five queens, none on a line with another; the one in the first row is as far right as can be.
include "alldifferent.mzn";
int: n = 5;
array[1..n] of var 1..n: q;
constraint alldifferent(q);
constraint alldifferent([q[i] + i | i in 1..n]);
constraint alldifferent([q[i] - i | i in 1..n]);
solve maximize q[1];
output ["answer \(q[1])\n"];
