// Cuts that Cgl finds of a program in floats, as forms and what these are at least: hints, which somebody has to show.
#pragma once

#include <vector>

#include "float_program.hpp"

struct Hint {
    std::vector<Pair> form;  // whole numbers at whole variables
    Whole least;
};

std::vector<Hint> hints_of(const Program& program, FloatProgram& floats);
