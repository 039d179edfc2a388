// Rounding cuts at the root, each with the multipliers that show it (Gomory 1958; Chvatal 1973).
#pragma once

#include <optional>

#include "leaves.hpp"
#include "search.hpp"

// Adds rows to the relaxation of one goal that no point of the program breaks, as many as the plan has at most. Gives the work that it took.
double add_rounds(const Program& program, Relaxation& relaxation, const std::optional<Point>& best, const Plan& plan, Watch& watch);
