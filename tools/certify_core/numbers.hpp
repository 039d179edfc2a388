// Exact numbers, the width that the checker's sums have to keep (docs/rules/numbers.md), and fractions near floats.
#pragma once

#include <gmpxx.h>

#include <string>
#include <utility>
#include <vector>

using Whole = mpz_class;
using Ratio = mpq_class;
using Pair = std::pair<int, Ratio>;  // a column, and a number of it

// Whether both parts of a fraction are within 2^127 - 1.
bool fits(const Ratio& value);

// Whether a sum is formed within that width, all four numbers that it is made of.
bool sum_fits(const Ratio& left, const Ratio& right);

// How many bits the greater part has.
size_t bits_of(const Ratio& value);

Whole floor_of(const Ratio& value);
Whole ceiling_of(const Ratio& value);

// The greatest number of which two are whole multiples; of 0 and another one that one's size.
Ratio greatest_step(const Ratio& left, const Ratio& right);

// The least common multiple of the denominators.
Whole common_denominator(const std::vector<Ratio>& values);

// The fraction of the least denominator within the tolerance, of those up to the greatest denominator (continued fractions).
Ratio near_ratio(double value, double most_denominator, double tolerance);

// The nearest fraction with this denominator.
Ratio nearest_over(double value, double denominator);

// A sum as the checker forms it, term by term; it tells whether each step fitted.
class StatedSum {
   public:
    explicit StatedSum(const Ratio& start = Ratio(0)) : total_(start), has_fitted_(fits(start)) {}

    void add(const Ratio& factor, const Ratio& value) {
        if (factor != 0 && value != 0) add_term(factor * value);
    }

    const Ratio& total() const { return total_; }
    bool has_fitted() const { return has_fitted_; }

   private:
    void add_term(const Ratio& term);

    Ratio total_;
    bool has_fitted_;
};
