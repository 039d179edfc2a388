// What is claimed of a program, with what shows it, level by level, by a portfolio of plans.
#pragma once

#include <optional>
#include <ostream>
#include <string>
#include <vector>

#include "program.hpp"
#include "watch.hpp"

struct Claim {
    std::string kind = "unsure", cause;
    std::optional<Point> point;
    std::vector<Ratio> ray;
    std::vector<std::string> rounds;
    std::vector<std::vector<std::string>> trees;
    std::optional<Ratio> bound;  // of one goal, in its own sense: no point is better, by the rounds and the tree
    long nodes = 0;

    // As lines: a part's name and, behind a space, one item of it.
    void write(std::ostream& out, const Program& program) const;
};

struct Limits {
    double most_work;  // of all plans together; what it buys is the same in each run
    unsigned seed;
};

Claim find_claim(const Program& program, const std::vector<std::vector<double>>& points, const Limits& limits, Watch& watch);
