* Fixed MPS: names with spaces, empty set names, comments behind $, ranges of each kind, a right side of the goal, two sets.
NAME          VAN LOADS
ROWS
 N  NET COST  $ the goal
 E  UP BY R
 E  DOWN BYR
 E  NONE
 L  AT MOST
 G  AT LEAST
 L  PLAIN L
 G  PLAIN G
COLUMNS
    BIG VAN   NET COST  12.5           UP BY R   1
              DOWN BYR  -2.25E-1       NONE      +3
    BIG VAN   AT MOST   .5             $ no second pair
    VAN 2     NET COST  -7             AT LEAST  1.E1
    VAN 2     PLAIN L   1              PLAIN G   1
    VAN 2     NONE      0.0000001
RHS
    RHS1      NET COST  -100.5         UP BY R   10
    RHS1      DOWN BYR  10             NONE      10
              AT MOST   10             AT LEAST  10
    RHS2      PLAIN L   99
    RHS1      PLAIN G   -3
RANGES
    R         UP BY R   0.2            DOWN BYR  -0.2
    R         AT MOST   -4             AT LEAST  -5
    R         NONE      0
BOUNDS
 UP B         BIG VAN   4
 LO           VAN 2     -1.5
 UP OTHER     VAN 2     1
ENDATA
