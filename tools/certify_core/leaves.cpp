#include "leaves.hpp"

#include <algorithm>
#include <cmath>
#include <limits>

namespace {

const double nothing = -std::numeric_limits<double>::infinity();
const double tiny = 1e-9;
const double seconds_of_exact = 5;

// What a form leaves of a variable's cost adds to a low sum: none where it needs an end that isn't there.
double near_part(const Ends& ends, double left) {
    if (std::fabs(left) <= 1e-11) return 0;
    const End& end = ends.counted(left > 0);
    if (end.is_finite) return left * end.near;
    return std::fabs(left) > 1e-7 ? nothing : 0;
}

// Floats as fractions by a way of rounding, without those that need an end that isn't there.
template <class Rounding>
std::vector<Pair> rounded_pairs(const std::vector<Row>& rows, const std::vector<double>& multipliers, const Rounding& round) {
    std::vector<Pair> pairs;
    for (size_t i = 0; i < multipliers.size(); i++) {
        if (std::fabs(multipliers[i]) <= tiny) continue;
        const Ratio value = round(multipliers[i]);
        if (value != 0 && rows[i].ends.counted(value > 0).is_finite) pairs.push_back({static_cast<int>(i), value});
    }
    return pairs;
}

}  // namespace

void Relaxation::ask(const std::vector<Ratio>& wanted, const Ratio& start, const Ratio& apart) {
    costs = wanted;
    constant = start;
    step = apart;
    near_costs.clear();
    for (const Ratio& cost : costs) near_costs.push_back(cost.get_d());
}

double near_enough(double value, double step, double tolerance) { return std::min(value - tolerance, value - step + tolerance); }

Target Target::farkas(int size) {
    Target target;
    target.is_farkas = target.has_to_pass = true;
    target.costs.assign(size, Ratio(0));
    target.near_costs.assign(size, 0);
    return target;
}

Target Target::bound(const Relaxation& relaxation, const Ratio* least) {
    Target target;
    target.costs = relaxation.costs;
    target.near_costs = relaxation.near_costs;
    target.start = relaxation.constant;
    target.step = relaxation.step;
    target.has_least = least != nullptr;
    if (least) target.least = *least;
    return target;
}

double Target::near_least() const {
    if (!has_least) return std::numeric_limits<double>::lowest();
    return has_to_pass ? least.get_d() + tiny : near_enough(least.get_d(), step.get_d(), tiny * (1 + std::fabs(least.get_d())));
}

std::string pairs_text(const std::vector<Pair>& pairs) {
    std::string text;
    for (const Pair& pair : pairs) text += ' ' + std::to_string(pair.first) + ':' + pair.second.get_str();
    return text;
}

std::string Leaf::text(bool is_farkas) const {
    std::string word = is_farkas ? "farkas" : step != 0 ? "grid" : "bound";
    if (left_out > 0) word += "Rows";
    if (step != 0) word += ' ' + step.get_str();
    return word + pairs_text({pairs.begin() + static_cast<long>(left_out), pairs.end()});
}

// How many of the first pairs are of variables.
size_t LeafMaker::variables_in(const std::vector<Pair>& pairs) const {
    size_t count = 0;
    for (const Pair& pair : pairs) count += pair.first < size_;
    return count;
}

// Adds the rows to the form at each variable, the columns ascending. Whether all sums fit.
bool LeafMaker::add_rows(std::vector<StatedSum>& form, const std::vector<Pair>& pairs) const {
    for (const Pair& pair : pairs) {
        if (!fits(pair.second)) return false;
        if (pair.first < size_) continue;
        for (const Term& term : rows_[pair.first - size_].terms) {
            form[term.column].add(pair.second, term.factor);
            if (!form[term.column].has_fitted()) return false;
        }
    }
    return true;
}

// Whether the sums of the forms fit where all multipliers are written.
bool LeafMaker::whole_form_fits(const Leaf& leaf) const {
    std::vector<StatedSum> form(size_);
    for (const Pair& pair : leaf.pairs)
        if (pair.first < size_) form[pair.first].add(Ratio(1), pair.second);
    return add_rows(form, leaf.pairs);
}

// Whether they fit where those of variables are left out, and what the rows leave of the costs is formed.
bool LeafMaker::rest_fits(const Target& target, const Leaf& leaf) const {
    std::vector<StatedSum> form(size_);
    if (!add_rows(form, leaf.pairs)) return false;
    for (int j = 0; j < size_; j++)
        if (!sum_fits(target.costs[j], -form[j].total())) return false;
    return true;
}

bool LeafMaker::low_sum_fits(const Target& target, const Leaf& leaf) const {
    StatedSum low(leaf.step == 0 ? target.start : Ratio(0));
    for (const Pair& pair : leaf.pairs) {
        const Ends& ends = pair.first < size_ ? ends_[pair.first] : rows_[pair.first - size_].ends;
        low.add(pair.second, ends.counted(pair.second > 0).value);
    }
    if (leaf.step == 0 || !low.has_fitted()) return low.has_fitted();
    const Ratio steps = low.total() / leaf.step, rounded = ceiling_of(steps) * leaf.step;
    return fits(steps) && fits(rounded) && sum_fits(target.start, rounded);
}

// The leaf without its multipliers of variables, or with them, if it reaches its target and all sums of the checker fit.
std::optional<Leaf> LeafMaker::fitting(const Target& target, const Leaf& leaf) const {
    if (!target.is_reached_by(leaf.sum) || !low_sum_fits(target, leaf)) return {};
    Leaf shorter = leaf;
    shorter.left_out = variables_in(leaf.pairs);
    if (shorter.left_out > 0 && rest_fits(target, leaf)) return shorter;
    return whole_form_fits(leaf) ? std::optional<Leaf>(leaf) : std::nullopt;
}

// The leaf on the goal's grid where it needs that, or shows more there, and else as it is.
std::optional<Leaf> LeafMaker::worded(const Target& target, const Leaf& leaf) const {
    if (target.step == 0 || (target.has_least && target.is_reached_by(leaf.sum))) return fitting(target, leaf);
    Leaf rounded = leaf;
    rounded.step = target.step;
    rounded.sum = target.start + ceiling_of((leaf.sum - target.start) / target.step) * target.step;
    const std::optional<Leaf> found = fitting(target, rounded);
    return found ? found : fitting(target, leaf);
}

std::optional<Leaf> LeafMaker::of_rows(const Target& target, const std::vector<Pair>& multipliers) const {
    std::vector<Ratio> left = target.costs;
    for (const Pair& pair : multipliers) {
        if (!rows_[pair.first].ends.counted(pair.second > 0).is_finite) return {};
        for (const Term& term : rows_[pair.first].terms) left[term.column] -= pair.second * term.factor;
    }
    Leaf leaf;
    leaf.sum = target.start;
    for (int j = 0; j < size_; j++) {
        if (left[j] == 0) continue;
        const End& end = ends_[j].counted(left[j] > 0);
        if (!end.is_finite) return {};
        leaf.sum += left[j] * end.value;
        leaf.pairs.push_back({j, left[j]});
    }
    for (const Pair& pair : multipliers) {
        leaf.sum += pair.second * rows_[pair.first].ends.counted(pair.second > 0).value;
        leaf.pairs.push_back({size_ + pair.first, pair.second});
    }
    return worded(target, leaf);
}

double LeafMaker::near_sum(const Target& target, const std::vector<Pair>& multipliers) const {
    std::vector<double> left = target.near_costs;
    double sum = target.start.get_d();
    for (const Pair& pair : multipliers) {
        const double factor = pair.second.get_d();
        for (const Term& term : rows_[pair.first].terms) left[term.column] -= factor * term.near;
        sum += factor * rows_[pair.first].ends.counted(factor > 0).near;
    }
    for (int j = 0; j < size_; j++) sum += near_part(ends_[j], left[j]);
    return sum;
}

// The multipliers without those that aren't needed, the small ones first.
std::vector<Pair> LeafMaker::thinned(const Target& target, const std::vector<Pair>& multipliers) const {
    std::vector<double> left = target.near_costs;
    double sum = near_sum(target, multipliers);
    for (const Pair& pair : multipliers)
        for (const Term& term : rows_[pair.first].terms) left[term.column] -= pair.second.get_d() * term.near;
    std::vector<Pair> sorted = multipliers, kept;
    const auto is_smaller = [](const Pair& a, const Pair& b) {
        return std::make_pair(Ratio(abs(a.second)), a.first) < std::make_pair(Ratio(abs(b.second)), b.first);
    };
    std::sort(sorted.begin(), sorted.end(), is_smaller);
    for (const Pair& pair : sorted) {
        const double factor = pair.second.get_d();
        double without = sum - factor * rows_[pair.first].ends.counted(factor > 0).near;
        for (const Term& term : rows_[pair.first].terms) {
            const double before = left[term.column];
            without += near_part(ends_[term.column], before + factor * term.near) - near_part(ends_[term.column], before);
        }
        if (!(without >= target.near_least() + 2 * tiny * (1 + std::fabs(without)))) {
            kept.push_back(pair);
            continue;
        }
        sum = without;
        for (const Term& term : rows_[pair.first].terms) left[term.column] += factor * term.near;
    }
    std::sort(kept.begin(), kept.end());
    return kept;
}

std::optional<Leaf> LeafMaker::attempt(const Target& target, const std::vector<Pair>& multipliers) const {
    if (target.is_farkas && multipliers.empty()) return {};
    if (!(near_sum(target, multipliers) >= target.near_least())) return {};
    const std::optional<Leaf> leaf = of_rows(target, multipliers);
    if (!leaf || !target.has_least) return leaf;
    const std::vector<Pair> fewer = thinned(target, multipliers);
    if (fewer.size() == multipliers.size()) return leaf;
    const std::optional<Leaf> thin = of_rows(target, fewer);
    return thin && thin->text(target.is_farkas).size() < leaf->text(target.is_farkas).size() ? thin : leaf;
}

std::optional<Leaf> LeafMaker::rounded(const Target& target, const std::vector<double>& multipliers) const {
    std::optional<Leaf> best;
    const auto is_done = [&](const std::vector<Pair>& pairs) {
        const std::optional<Leaf> leaf = attempt(target, pairs);
        if (leaf && (!best || leaf->sum > best->sum)) best = leaf;
        return best && target.has_least;
    };
    for (const double denominator : {1, 2, 4, 12, 60, 2520})
        if (is_done(rounded_pairs(rows_, multipliers, [&](double value) { return nearest_over(value, denominator); }))) return best;
    for (const double denominator : {1e2, 1e4, 1e6}) {
        const auto round = [&](double value) { return near_ratio(value, denominator, 1e-11 * std::max(1.0, std::fabs(value))); };
        if (is_done(rounded_pairs(rows_, multipliers, round))) return best;
    }
    return best;
}

std::optional<Leaf> LeafMaker::scaled(const Target& target, const std::vector<double>& ray) const {
    double greatest = 0, least = std::numeric_limits<double>::max();
    for (const double value : ray) greatest = std::max(greatest, std::fabs(value));
    if (greatest == 0) return {};
    for (const double value : ray)
        if (std::fabs(value) > 1e-7 * greatest) least = std::min(least, std::fabs(value));
    for (const double sign : {1.0, -1.0})
        for (const double scale : {1 / least, 1 / greatest, 12 / greatest}) {
            std::vector<double> multipliers;
            for (const double value : ray) multipliers.push_back(std::fabs(value) > tiny * greatest ? sign * scale * value : 0);
            const std::optional<Leaf> leaf = rounded(target, multipliers);
            if (leaf) return leaf;
        }
    return {};
}

std::optional<Leaf> LeafMaker::solved(const Target& target, ExactSimplex& exact, int most_turns, ExactSimplex::Outcome& ended) const {
    if (!target.is_farkas && exact.find_prices()) {
        const std::optional<Leaf> leaf = of_rows(target, exact.multipliers());
        if (leaf) return leaf;
    }
    ended = exact.run(most_turns, seconds_of_exact);
    if (ended != (target.is_farkas ? ExactSimplex::Outcome::empty : ExactSimplex::Outcome::best)) return {};
    return of_rows(target, exact.multipliers());
}
