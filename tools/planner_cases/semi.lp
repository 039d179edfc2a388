Minimize
 c: x + y + z
Subject To
 r: x + z >= 1
 s: 2 y >= 1
Bounds
 2 <= x <= 5
 3 <= y <= 7.5
Generals
 y
Semi-Continuous
 x y z
End
