\ Goals by their priorities, blended where these are equal, turned round by a weight below 0.
Minimize multi-objectives
 late: Priority=1 Weight=-2 AbsTol=0 RelTol=0
   3 x + y
 cost: PRIORITY=10
   2 x + 5 y + 7
 load: Priority=4 Weight=0.5 AbsTol=1e-06 RelTol=0
   x - 4 z
 spread: Priority=4 Weight=3
   y + 2 z + 1
Subject To
 c: x + y + z >= 4
Bounds
 x <= 3
 y <= 9
 z <= 9
Semis
 y
End
