// The program that is asked (docs/rules/certificates.md), and points of it, all in exact numbers with floats beside them.
#pragma once

#include <istream>
#include <optional>
#include <string>
#include <vector>

#include "numbers.hpp"

// An end of a column, or none.
struct End {
    bool is_finite = false;
    Ratio value;
    double near = 0;

    static End at(const Ratio& value) { return {true, value, value.get_d()}; }
    static End of_text(const std::string& text);
};

struct Ends {
    End low, high;

    bool cross() const { return low.is_finite && high.is_finite && low.value > high.value; }
    bool are_equal() const { return low.is_finite && high.is_finite && low.value == high.value; }
    bool hold(const Ratio& value) const { return !(low.is_finite && value < low.value) && !(high.is_finite && value > high.value); }
    // The end that a multiplier of this sign counts with.
    const End& counted(bool is_positive) const { return is_positive ? low : high; }
    // Both cut by other ends: of two lower ends the greater holds, of two upper ones the lesser.
    Ends cut_by(const Ends& other) const;
    // The end that a value is nearer to; where there is one alone, that one.
    bool is_nearer_to_high(double value) const;
};

struct Term {
    int column;
    Ratio factor;
    double near;
};

// A row of the program, of a level before, or of a round; the last has the multipliers that show it.
struct Row {
    Ends ends;
    std::vector<Term> terms;
    bool is_whole = false;  // its value is whole at each point, and its ends are whole
    std::vector<Pair> multipliers;

    void find_whole(const struct Program& program);
};

struct Variable {
    Ends own, ends;  // those that the program says, and those of its column, which has 0 too where the variable may be 0 besides
    bool is_whole = false, may_be_zero = false;
};

// A goal in its minimising form.
struct Goal {
    bool is_maximum = false;
    Ratio constant, step;  // each value is the constant and a whole multiple of the step, which is 0 where no number is one
    std::vector<Ratio> costs;

    void find_step(const struct Program& program);
};

struct Program {
    std::vector<Variable> variables;
    std::vector<Row> rows;
    std::vector<Goal> goals;

    int size() const { return static_cast<int>(variables.size()); }
    bool has_cases() const;  // whether some variable is whole or may be 0 besides
    std::vector<Ends> ends() const;
};

// A feasible point with the minimising values of all goals.
struct Point {
    std::vector<Ratio> at, values;

    bool is_better_than(const std::optional<Point>& other) const { return !other || values < other->values; }
};

// What keeps numbers from being a point that the checker takes.
enum class PointFault { none, infeasible, wide };

// The point at these numbers, where it is one.
PointFault find_point(const Program& program, const std::vector<Ratio>& at, Point& found);

// Whether the checker accepts this direction from a point, for the goal behind those before it.
bool is_direction(const Program& program, size_t goal, const Point& from, const std::vector<Ratio>& ray);

// Reads the program that the front writes. An exception says what isn't as it should be.
Program read_program(std::istream& in);

// Reads the points behind it, in floats.
std::vector<std::vector<double>> read_points(std::istream& in, const Program& program);
