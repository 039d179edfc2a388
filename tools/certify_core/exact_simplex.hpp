// The simplex method in exact numbers, from a basis that floats found: it tells exactly what the basis shows, and makes the few turns that
// floats left to make.
#pragma once

#include <chrono>
#include <vector>

#include "program.hpp"

// Where a column stands: basic, or at an end, or at 0 where it has none.
enum class Place : unsigned char { basic, low, high, zero };

class ExactSimplex {
   public:
    enum class Outcome { best, empty, endless, given_up };

    // The variables' columns come first, then the rows'.
    ExactSimplex(const std::vector<Row>& rows, const std::vector<Ends>& ends, const std::vector<Ratio>& costs, std::vector<Place> places);

    // The values of all columns at the basis; false where it is none.
    bool find_values();

    // The multipliers of rows under which the form at each basic variable is its cost; false where the basis is none.
    bool find_prices();

    // Turns until the best point, an empty program or a direction is found; least columns first, so that it doesn't go round.
    Outcome run(int most_turns, double most_seconds);

    const std::vector<Ratio>& values() const { return values_; }
    std::vector<Ratio> point() const { return {values_.begin(), values_.begin() + size_}; }
    const std::vector<Ratio>& ray() const { return ray_; }

    // Of rows alone, ascending: behind find_prices and `best` those of the costs, behind `empty` those that show it.
    const std::vector<Pair>& multipliers() const { return multipliers_; }

   private:
    const Ends& ends_of(int column) const { return column < size_ ? ends_[column] : rows_[column - size_].ends; }
    void find_basis();
    int column_out() const;
    bool may_rise(int column) const { return places_[column] == Place::zero || (places_[column] == Place::low && !ends_of(column).are_equal()); }
    bool may_fall(int column) const { return places_[column] == Place::zero || places_[column] == Place::high; }
    std::vector<Ratio> form_of(const std::vector<Pair>& multipliers, bool is_negated) const;
    bool find_entries(int column, std::vector<Ratio>& entries);
    bool find_movement(int column, bool is_rising, std::vector<Ratio>& movement);
    void become_basic(int entering, int leaving, bool is_at_high);
    bool step_to_feasible(int column, Outcome& ended);
    bool step_to_best(Outcome& ended);
    bool turn_by(int entering, const std::vector<Ratio>& movement);

    const std::vector<Row>& rows_;
    const std::vector<Ends>& ends_;
    const std::vector<Ratio>& costs_;
    const int size_;
    std::vector<Place> places_;
    std::vector<int> basics_, tights_, unknown_of_, equation_of_;  // basic variables, rows that aren't basic, and their numbers among these
    std::vector<Ratio> values_, ray_;
    std::vector<Pair> multipliers_;
    int turns_ = 0;
};
