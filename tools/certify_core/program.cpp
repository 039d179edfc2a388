#include "program.hpp"

#include <cmath>
#include <stdexcept>

namespace {

std::string next_word(std::istream& in) {
    std::string word;
    if (!(in >> word)) throw std::runtime_error("the program's text has ended early");
    return word;
}

Ratio next_ratio(std::istream& in) {
    Ratio value(next_word(in));
    value.canonicalize();
    return value;
}

int next_count(std::istream& in) { return std::stoi(next_word(in)); }

Ends next_ends(std::istream& in) {
    const End low = End::of_text(next_word(in));
    return {low, End::of_text(next_word(in))};
}

Variable next_variable(std::istream& in) {
    Variable variable;
    const std::string type = next_word(in);
    variable.is_whole = type == "I" || type == "J";
    variable.may_be_zero = type == "D" || type == "J";
    variable.own = variable.ends = next_ends(in);
    Ends& ends = variable.ends;
    if (variable.may_be_zero && ends.low.is_finite && ends.low.value > 0) ends.low = End::at(0);
    if (variable.may_be_zero && ends.high.is_finite && ends.high.value < 0) ends.high = End::at(0);
    return variable;
}

Goal next_goal(std::istream& in, int variables) {
    Goal goal;
    goal.is_maximum = next_word(in) == "max";
    const int sign = goal.is_maximum ? -1 : 1;
    goal.constant = next_ratio(in) * sign;
    goal.costs.resize(variables);
    for (int left = next_count(in); left > 0; left--) {
        const int column = next_count(in);
        goal.costs.at(column) = next_ratio(in) * sign;
    }
    return goal;
}

Row next_row(std::istream& in) {
    Row row;
    row.ends = next_ends(in);
    for (int left = next_count(in); left > 0; left--) {
        const int column = next_count(in);
        const Ratio factor = next_ratio(in);
        if (factor != 0) row.terms.push_back({column, factor, factor.get_d()});
    }
    return row;
}

bool is_whole_end(const End& end) { return !end.is_finite || end.value.get_den() == 1; }

// Whether a column may move along a ray by so much: not past a finite end.
bool may_move(const Ends& ends, const Ratio& step) { return !(step < 0 && ends.low.is_finite) && !(step > 0 && ends.high.is_finite); }

StatedSum sum_of(const std::vector<Term>& terms, const std::vector<Ratio>& at) {
    StatedSum sum;
    for (const Term& term : terms) sum.add(term.factor, at[term.column]);
    return sum;
}

StatedSum sum_of(const std::vector<Ratio>& costs, const Ratio& start, const std::vector<Ratio>& at) {
    StatedSum sum(start);
    for (size_t j = 0; j < costs.size(); j++) sum.add(costs[j], at[j]);
    return sum;
}

bool is_held(const Variable& variable, const Ratio& value) {
    if (variable.is_whole && value.get_den() != 1) return false;
    return variable.own.hold(value) || (variable.may_be_zero && value == 0);
}

}  // namespace

End End::of_text(const std::string& text) {
    if (text == "none") return {};
    Ratio value(text);
    value.canonicalize();
    return at(value);
}

Ends Ends::cut_by(const Ends& other) const {
    Ends result = *this;
    if (other.low.is_finite && (!low.is_finite || other.low.value > low.value)) result.low = other.low;
    if (other.high.is_finite && (!high.is_finite || other.high.value < high.value)) result.high = other.high;
    return result;
}

bool Ends::is_nearer_to_high(double value) const {
    if (!low.is_finite || !high.is_finite) return !low.is_finite;
    return std::fabs(value - high.near) < std::fabs(value - low.near);
}

void Row::find_whole(const Program& program) {
    is_whole = is_whole_end(ends.low) && is_whole_end(ends.high);
    for (const Term& term : terms) is_whole = is_whole && program.variables.at(term.column).is_whole && term.factor.get_den() == 1;
}

void Goal::find_step(const Program& program) {
    step = 0;
    for (int j = 0; j < program.size(); j++) {
        if (costs[j] == 0) continue;
        step = program.variables[j].is_whole ? greatest_step(step, costs[j]) : Ratio(0);
        if (step == 0 || !fits(step)) break;
    }
    bool has_fitted = fits(step);
    for (const Ratio& cost : costs) has_fitted = has_fitted && (step == 0 || fits(cost / step));
    if (!has_fitted) step = 0;
}

bool Program::has_cases() const {
    for (const Variable& variable : variables)
        if (variable.is_whole || variable.may_be_zero) return true;
    return false;
}

std::vector<Ends> Program::ends() const {
    std::vector<Ends> result;
    for (const Variable& variable : variables) result.push_back(variable.ends);
    return result;
}

PointFault find_point(const Program& program, const std::vector<Ratio>& at, Point& found) {
    bool has_fitted = true;
    for (int j = 0; j < program.size(); j++) {
        if (!is_held(program.variables[j], at[j])) return PointFault::infeasible;
        has_fitted = has_fitted && fits(at[j]);
    }
    for (const Row& row : program.rows) {
        const StatedSum sum = sum_of(row.terms, at);
        if (!row.ends.hold(sum.total())) return PointFault::infeasible;
        has_fitted = has_fitted && sum.has_fitted();
    }
    found = {at, {}};
    for (const Goal& goal : program.goals) {
        const StatedSum sum = sum_of(goal.costs, goal.constant, at);
        has_fitted = has_fitted && sum.has_fitted();
        found.values.push_back(sum.total());
    }
    return has_fitted ? PointFault::none : PointFault::wide;
}

bool is_direction(const Program& program, size_t goal, const Point& from, const std::vector<Ratio>& ray) {
    for (int j = 0; j < program.size(); j++) {
        const Variable& variable = program.variables[j];
        if ((variable.is_whole && ray[j].get_den() != 1) || !may_move(variable.ends, ray[j]) || !fits(ray[j])) return false;
        if (variable.may_be_zero && ray[j] != 0 && !variable.own.hold(from.at[j])) return false;
    }
    for (const Row& row : program.rows) {
        const StatedSum sum = sum_of(row.terms, ray);
        if (!sum.has_fitted() || !may_move(row.ends, sum.total())) return false;
    }
    for (size_t k = 0; k <= goal; k++) {
        const StatedSum sum = sum_of(program.goals[k].costs, Ratio(0), ray);
        if (!sum.has_fitted() || (k < goal ? sum.total() != 0 : sum.total() >= 0)) return false;
    }
    return true;
}

Program read_program(std::istream& in) {
    Program program;
    const int variables = next_count(in), rows = next_count(in), goals = next_count(in);
    for (int j = 0; j < variables; j++) program.variables.push_back(next_variable(in));
    for (int k = 0; k < goals; k++) program.goals.push_back(next_goal(in, variables));
    for (int i = 0; i < rows; i++) program.rows.push_back(next_row(in));
    for (Row& row : program.rows) row.find_whole(program);
    for (Goal& goal : program.goals) goal.find_step(program);
    return program;
}

std::vector<std::vector<double>> read_points(std::istream& in, const Program& program) {
    std::vector<std::vector<double>> points(next_count(in), std::vector<double>(program.size()));
    for (std::vector<double>& point : points)
        for (double& value : point) value = std::stod(next_word(in));
    return points;
}
