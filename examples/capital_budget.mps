* Which of four investments to make, as examples/capital_budget.osil has it.
NAME          capital_budget
OBJSENSE
    MAX
ROWS
 N  worth
 L  budget
COLUMNS
    plant     worth     16             budget    5
    stock     worth     22             budget    7
    lorries   worth     12             budget    4
    office    worth     8              budget    3
RHS
    RHS       budget    14
BOUNDS
 BV BND       plant
 BV BND       stock
 BV BND       lorries
 BV BND       office
ENDATA
