% A week of one nurse: at most two nights on end, a day off behind a night, five shifts or more; pay for nights is double.
int: days = 7;
array[1..days] of var 0..2: shift; % 0 off, 1 day, 2 night
constraint forall(d in 1..days - 1)(shift[d] = 2 -> shift[d + 1] != 1);
constraint forall(d in 1..days - 2)(not (shift[d] = 2 /\ shift[d + 1] = 2 /\ shift[d + 2] = 2));
constraint sum(d in 1..days)(bool2int(shift[d] > 0)) <= 5;
var int: pay = sum(shift);
solve maximize pay;
output ["answer \(pay)\n"];
