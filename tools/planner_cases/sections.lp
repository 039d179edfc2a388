\ Each form of a row, a bound and a section.
MAXIMIZE profit: 3 x(1) - 2.5e1y[2] + 4.997e3x(4)
   + 0.1 whole - 12 + z
Subject To
 first: x(1) + 2 y[2]
   - x(4) <= 10
 second: - x(1) + .5 whole => -1e-7
 x(1) + whole =< 5 x_unnamed: x(1) - z >= 1
 between: -2 <= x(1) + z <= 8.5
 turned: 4 >= y[2] + z
 equal: x(1) + x(4) + x(1) = 0.12345678901234567
 shifted: x(1) + 1.5 + z - 1 <= 4
 open: z >= -1e20
Bounds
 -5 <= x(1) <= 5
 y[2] free
 x(4) = 2.5
 whole <= 1e1
 z >= -inf  z <= +Infinity
 -3 <= w
 low >= 2 low <= 7
GENERALS
 whole w
Binaries
 yes low
End
