#include "exact_simplex.hpp"

#include "exact_solve.hpp"

namespace {

const int turns_by_size = 20;  // the column that is furthest out first; then the least one, by which a run ends

}  // namespace

ExactSimplex::ExactSimplex(const std::vector<Row>& rows, const std::vector<Ends>& ends, const std::vector<Ratio>& costs, std::vector<Place> places)
    : rows_(rows), ends_(ends), costs_(costs), size_(static_cast<int>(ends.size())), places_(std::move(places)) {
    find_basis();
}

void ExactSimplex::find_basis() {
    basics_.clear();
    tights_.clear();
    unknown_of_.assign(size_, -1);
    equation_of_.assign(rows_.size(), -1);
    for (int j = 0; j < size_; j++) {
        if (places_[j] != Place::basic) continue;
        unknown_of_[j] = static_cast<int>(basics_.size());
        basics_.push_back(j);
    }
    for (size_t i = 0; i < rows_.size(); i++) {
        if (places_[size_ + i] == Place::basic) continue;
        equation_of_[i] = static_cast<int>(tights_.size());
        tights_.push_back(static_cast<int>(i));
    }
}

bool ExactSimplex::find_values() {
    if (basics_.size() != tights_.size()) return false;
    values_.assign(places_.size(), Ratio(0));
    for (size_t column = 0; column < places_.size(); column++) {
        if (places_[column] == Place::low) values_[column] = ends_of(static_cast<int>(column)).low.value;
        if (places_[column] == Place::high) values_[column] = ends_of(static_cast<int>(column)).high.value;
    }
    std::vector<Equation> equations(tights_.size());
    for (size_t e = 0; e < tights_.size(); e++) {
        equations[e].right = values_[size_ + tights_[e]];
        for (const Term& term : rows_[tights_[e]].terms) {
            if (unknown_of_[term.column] >= 0)
                equations[e].terms.push_back({unknown_of_[term.column], term.factor});
            else if (values_[term.column] != 0)
                equations[e].right -= term.factor * values_[term.column];
        }
    }
    std::vector<Ratio> found;
    if (!solve_exactly(equations, found)) return false;
    for (size_t u = 0; u < basics_.size(); u++) values_[basics_[u]] = found[u];
    for (size_t i = 0; i < rows_.size(); i++) {
        if (equation_of_[i] >= 0) continue;
        for (const Term& term : rows_[i].terms) values_[size_ + i] += term.factor * values_[term.column];
    }
    return true;
}

// The multipliers of rows that aren't basic whose form at each basic variable is wanted.
static bool solve_form(const std::vector<Row>& rows, const std::vector<int>& tights, const std::vector<int>& unknown_of,
                       const std::vector<Ratio>& wanted, std::vector<Pair>& found) {
    std::vector<Equation> equations(wanted.size());
    for (size_t u = 0; u < wanted.size(); u++) equations[u].right = wanted[u];
    for (size_t e = 0; e < tights.size(); e++)
        for (const Term& term : rows[tights[e]].terms)
            if (unknown_of[term.column] >= 0) equations[unknown_of[term.column]].terms.push_back({static_cast<int>(e), term.factor});
    std::vector<Ratio> solution;
    if (tights.size() != wanted.size() || !solve_exactly(equations, solution)) return false;
    found.clear();
    for (size_t e = 0; e < tights.size(); e++)
        if (solution[e] != 0) found.push_back({tights[e], solution[e]});
    return true;
}

bool ExactSimplex::find_prices() {
    std::vector<Ratio> wanted;
    for (int j : basics_) wanted.push_back(costs_[j]);
    return solve_form(rows_, tights_, unknown_of_, wanted, multipliers_);
}

// The form of multipliers of rows at each variable, or its negative.
std::vector<Ratio> ExactSimplex::form_of(const std::vector<Pair>& multipliers, bool is_negated) const {
    std::vector<Ratio> form(size_);
    for (const Pair& pair : multipliers)
        for (const Term& term : rows_[pair.first].terms) {
            if (is_negated)
                form[term.column] -= pair.second * term.factor;
            else
                form[term.column] += pair.second * term.factor;
        }
    return form;
}

// A basic column as a sum of those that aren't: its entry at each of them, 0 at the basic ones.
bool ExactSimplex::find_entries(int column, std::vector<Ratio>& entries) {
    std::vector<Ratio> wanted(basics_.size());
    if (column < size_) wanted[unknown_of_[column]] = 1;
    if (column >= size_)
        for (const Term& term : rows_[column - size_].terms)
            if (unknown_of_[term.column] >= 0) wanted[unknown_of_[term.column]] = term.factor;
    std::vector<Pair> found;
    if (!solve_form(rows_, tights_, unknown_of_, wanted, found)) return false;
    entries = form_of(found, true);
    if (column >= size_)
        for (const Term& term : rows_[column - size_].terms) entries[term.column] += term.factor;
    for (int j : basics_) entries[j] = 0;
    entries.resize(places_.size());
    for (const Pair& pair : found) entries[size_ + pair.first] = pair.second;
    return true;
}

// How all columns move while one that isn't basic rises or falls by 1.
bool ExactSimplex::find_movement(int column, bool is_rising, std::vector<Ratio>& movement) {
    movement.assign(places_.size(), Ratio(0));
    movement[column] = is_rising ? 1 : -1;
    std::vector<Equation> equations(tights_.size());
    for (size_t e = 0; e < tights_.size(); e++) {
        equations[e].right = movement[size_ + tights_[e]];
        for (const Term& term : rows_[tights_[e]].terms) {
            if (unknown_of_[term.column] >= 0) equations[e].terms.push_back({unknown_of_[term.column], term.factor});
            if (term.column == column) equations[e].right -= term.factor * movement[column];
        }
    }
    std::vector<Ratio> found;
    if (!solve_exactly(equations, found)) return false;
    for (size_t u = 0; u < basics_.size(); u++) movement[basics_[u]] = found[u];
    for (size_t i = 0; i < rows_.size(); i++) {
        if (equation_of_[i] >= 0) continue;
        for (const Term& term : rows_[i].terms) movement[size_ + i] += term.factor * movement[term.column];
    }
    return true;
}

void ExactSimplex::become_basic(int entering, int leaving, bool is_at_high) {
    places_[entering] = Place::basic;
    places_[leaving] = is_at_high ? Place::high : Place::low;
    if (ends_of(leaving).are_equal()) places_[leaving] = Place::low;
    find_basis();
}

// A basic column out of its ends, or -1.
int ExactSimplex::column_out() const {
    int found = -1;
    Ratio furthest;
    for (size_t column = 0; column < places_.size(); column++) {
        const Ends& ends = ends_of(static_cast<int>(column));
        if (places_[column] != Place::basic || ends.hold(values_[column])) continue;
        const bool is_below = ends.low.is_finite && values_[column] < ends.low.value;
        const Ratio distance = is_below ? Ratio(ends.low.value - values_[column]) : Ratio(values_[column] - ends.high.value);
        if (distance <= furthest) continue;
        found = static_cast<int>(column);
        furthest = distance;
        if (turns_ >= turns_by_size) break;
    }
    return found;
}

// A turn that brings a basic column to the end that it misses. It goes on unless the run has ended.
bool ExactSimplex::step_to_feasible(int column, Outcome& ended) {
    std::vector<Ratio> entries;
    ended = Outcome::given_up;
    if (!find_entries(column, entries)) return false;
    const bool is_below = ends_of(column).low.is_finite && values_[column] < ends_of(column).low.value;
    for (size_t other = 0; other < entries.size(); other++) {
        if (entries[other] == 0) continue;
        const bool has_to_rise = (entries[other] > 0) == is_below;
        if (has_to_rise ? !may_rise(static_cast<int>(other)) : !may_fall(static_cast<int>(other))) continue;
        become_basic(static_cast<int>(other), column, !is_below);
        return true;
    }
    multipliers_.clear();
    for (size_t i = 0; i < rows_.size(); i++) {
        const Ratio entry = size_ + static_cast<int>(i) == column ? Ratio(-1) : entries[size_ + i];
        if (entry != 0) multipliers_.push_back({static_cast<int>(i), is_below ? Ratio(-entry) : entry});
    }
    ended = Outcome::empty;
    return false;
}

// A turn along a movement, to the end that is reached first; none is reached where it returns false.
bool ExactSimplex::turn_by(int entering, const std::vector<Ratio>& movement) {
    int leaving = -1;
    Ratio shortest;
    for (size_t column = 0; column < movement.size(); column++) {
        const int at = static_cast<int>(column);
        if (movement[column] == 0 || (at != entering && places_[column] != Place::basic)) continue;
        const End& end = ends_of(at).counted(movement[column] < 0);
        if (!end.is_finite) continue;
        const Ratio quotient = (end.value - values_[column]) / movement[column];
        if (leaving >= 0 && quotient >= shortest) continue;
        leaving = at;
        shortest = quotient;
    }
    if (leaving < 0) return false;
    if (leaving == entering)
        places_[entering] = movement[entering] > 0 ? Place::high : Place::low;
    else
        become_basic(entering, leaving, movement[leaving] > 0);
    return true;
}

bool ExactSimplex::step_to_best(Outcome& ended) {
    ended = Outcome::given_up;
    if (!find_prices()) return false;
    std::vector<Ratio> left = form_of(multipliers_, true);
    left.resize(places_.size());
    for (int j = 0; j < size_; j++) left[j] += costs_[j];
    for (const Pair& pair : multipliers_) left[size_ + pair.first] = pair.second;
    for (size_t column = 0; column < left.size(); column++) {
        const int at = static_cast<int>(column);
        if (places_[column] == Place::basic || !(left[column] < 0 ? may_rise(at) : left[column] > 0 && may_fall(at))) continue;
        std::vector<Ratio> movement;
        if (!find_movement(at, left[column] < 0, movement)) return false;
        if (turn_by(at, movement)) return true;
        ray_.assign(movement.begin(), movement.begin() + size_);
        ended = Outcome::endless;
        return false;
    }
    ended = Outcome::best;
    return false;
}

ExactSimplex::Outcome ExactSimplex::run(int most_turns, double most_seconds) {
    const auto begin = std::chrono::steady_clock::now();
    Outcome ended = Outcome::given_up;
    for (turns_ = 0; turns_ <= most_turns; turns_++) {
        if (std::chrono::duration<double>(std::chrono::steady_clock::now() - begin).count() > most_seconds || !find_values()) return Outcome::given_up;
        const int out = column_out();
        if (out >= 0 ? !step_to_feasible(out, ended) : !step_to_best(ended)) return ended;
    }
    return Outcome::given_up;
}
