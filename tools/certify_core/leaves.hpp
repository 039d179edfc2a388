// Multipliers that show exactly what floats found: taken to simple fractions where that is enough, solved exactly where it isn't, and tested
// as the checker tests them, its width too.
#pragma once

#include <optional>
#include <string>
#include <vector>

#include "float_program.hpp"
#include "program.hpp"

// A linear program over the variables: the rows, and the costs of the goal that is asked, in its minimising form.
struct Relaxation {
    std::vector<Row> rows;
    std::vector<Ratio> costs;
    std::vector<double> near_costs;
    Ratio constant, step;  // as those of a goal

    void ask(const std::vector<Ratio>& wanted, const Ratio& start, const Ratio& apart = 0);
};

// What a low sum has to reach, in floats, so that no point is below a value: where values are steps apart, what is past the one before it.
double near_enough(double value, double step, double tolerance);

// What multipliers have to show: their form is the costs, and the start and their low sum reach the least number, or pass it. Where there is
// a step their low sum may be rounded up to a whole multiple of it.
struct Target {
    bool is_farkas = false, has_to_pass = false;
    std::vector<Ratio> costs;
    std::vector<double> near_costs;
    Ratio start, least, step;
    bool has_least = true;  // where it hasn't, any low sum will do, and a greater one is better

    static Target farkas(int size);
    static Target bound(const Relaxation& relaxation, const Ratio* least);
    bool is_reached_by(const Ratio& sum) const { return !has_least || (has_to_pass ? sum > least : sum >= least); }
    double near_least() const;
};

struct Leaf {
    std::vector<Pair> pairs;  // columns ascending
    Ratio sum;                // with the start, and rounded up where there is a step
    Ratio step;               // of a grid, else 0
    size_t left_out = 0;      // how many of the first pairs aren't written, since those of rows leave them

    std::string text(bool is_farkas) const;
};

std::string pairs_text(const std::vector<Pair>& pairs);

class LeafMaker {
   public:
    LeafMaker(const std::vector<Row>& rows, const std::vector<Ends>& ends) : rows_(rows), ends_(ends), size_(static_cast<int>(ends.size())) {}

    // The leaf with these multipliers of rows, where it is legal, fits, and reaches its target.
    std::optional<Leaf> of_rows(const Target& target, const std::vector<Pair>& multipliers) const;

    // The first of some roundings of floats that makes such a leaf; of those without a least number the one that shows most.
    std::optional<Leaf> rounded(const Target& target, const std::vector<double>& multipliers) const;

    // From a ray of floats, scaled some ways.
    std::optional<Leaf> scaled(const Target& target, const std::vector<double>& ray) const;

    // By the exact simplex method from the basis of the floats. Where it ends elsewhere, `ended` says how.
    std::optional<Leaf> solved(const Target& target, ExactSimplex& exact, int most_turns, ExactSimplex::Outcome& ended) const;

   private:
    double near_sum(const Target& target, const std::vector<Pair>& multipliers) const;
    std::optional<Leaf> attempt(const Target& target, const std::vector<Pair>& multipliers) const;
    std::vector<Pair> thinned(const Target& target, const std::vector<Pair>& multipliers) const;
    std::optional<Leaf> worded(const Target& target, const Leaf& leaf) const;
    std::optional<Leaf> fitting(const Target& target, const Leaf& leaf) const;
    bool low_sum_fits(const Target& target, const Leaf& leaf) const;
    bool whole_form_fits(const Leaf& leaf) const;
    bool rest_fits(const Target& target, const Leaf& leaf) const;
    bool add_rows(std::vector<StatedSum>& form, const std::vector<Pair>& pairs) const;
    size_t variables_in(const std::vector<Pair>& pairs) const;

    const std::vector<Row>& rows_;
    const std::vector<Ends>& ends_;
    const int size_;
};
