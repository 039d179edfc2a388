// Square systems of sparse equations, solved exactly.
#pragma once

#include <vector>

#include "numbers.hpp"

struct Equation {
    std::vector<Pair> terms;  // unknowns with their factors
    Ratio right;
};

// The one solution of as many equations as unknowns; false where there isn't just one. Unknowns that stand alone are put in first, what is
// left is FLINT's.
bool solve_exactly(const std::vector<Equation>& equations, std::vector<Ratio>& solution);
