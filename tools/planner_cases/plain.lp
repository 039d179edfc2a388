\ What GLPK reads too.
Minimize
 cost: 2 x + 3 y - 0.5 z - w
Subject To
 c1: x + y + z >= 2.25
 c2: x - y <= 1e-3
 c3: z + w = 4
 c4: - x - 3 w >= -12.75
Bounds
 x <= 40
 -1.5 <= y <= 2
 z free
 w <= 3
Generals
 w
Binary
 x
End
