#include "rounds.hpp"

#include <algorithm>
#include <cmath>
#include <map>
#include <set>
#include <string>

#include "cut_finders.hpp"

namespace {

const int most_passes = 40, most_a_pass = 15, most_tableau_rows = 40, most_hints = 60, most_steps = 40;
const double least_broken = 1e-4, parallel = 0.9, least_progress = 1e-3;
const size_t most_bits = 40;
const double share_of_work = 0.3;

// A row that the point at hand breaks, by how much of its length.
struct Cut {
    Row row;
    double broken;
};

class Rounding {
   public:
    Rounding(const Program& program, Relaxation& relaxation, const std::optional<Point>& best, const Plan& plan, Watch& watch)
        : program_(program), relaxation_(relaxation), best_(best), plan_(plan), watch_(watch), ends_(program.ends()), first_(relaxation.rows.size()) {}

    double run() {
        floats_.load(relaxation_.rows, ends_, relaxation_.near_costs);
        if (floats_.solve() != FloatProgram::Outcome::best) return work();
        double before = floats_.value();
        int stalled = 0;
        for (int pass = 0; pass < most_passes && stalled < 4 && room() > 0 && !is_over(); pass++) {
            if (best_ && before + relaxation_.constant.get_d() >= near_enough(best_->values[0].get_d(), relaxation_.step.get_d(), 1e-6)) break;
            find_cuts();
            if (!take_cuts()) break;
            if (floats_.solve() != FloatProgram::Outcome::best) break;
            stalled = floats_.value() - before < least_progress * std::max(1.0, std::fabs(before)) * 0.1 ? stalled + 1 : 0;
            before = floats_.value();
        }
        drop_loose_rows();
        return work();
    }

   private:
    double work() const { return floats_.work() + prober_.work(); }
    bool is_over() const { return watch_.is_over() || work() > share_of_work * plan_.most_work; }
    size_t room() const { return static_cast<size_t>(plan_.most_rounds) - std::min<size_t>(plan_.most_rounds, relaxation_.rows.size() - first_); }

    void find_cuts() {
        at_.assign(floats_.point(), floats_.point() + program_.size());
        activities_.assign(floats_.activities(), floats_.activities() + relaxation_.rows.size());
        cuts_.clear();
        seen_.clear();
        round_goal();
        if (plan_.frees_rows) round_freed_rows();
        round_tableau();
        round_hints();
    }

    void keep(Row row, double weight = 1) {
        double value = 0, length = 0;
        std::string key = row.ends.low.value.get_str();
        for (const Term& term : row.terms) {
            value += term.near * at_[term.column];
            length += term.near * term.near;
            if (std::fabs(term.near) > 1e4) return;
            key += ' ' + std::to_string(term.column) + ':' + term.factor.get_str();
        }
        const double broken = row.ends.low.near - value;
        if (broken < least_broken || row.terms.empty() || !seen_.insert(key).second) return;
        for (const Pair& pair : row.multipliers)
            if (bits_of(pair.second) > most_bits) return;
        cuts_.push_back({std::move(row), weight * broken / std::sqrt(length)});
    }

    // The row of a form of which a leaf shows how much it is at least.
    Row row_of(const std::vector<Ratio>& form, const Leaf& leaf) const {
        Row row;
        row.ends.low = End::at(Ratio(ceiling_of(leaf.sum)));
        for (int j = 0; j < program_.size(); j++)
            if (form[j] != 0) row.terms.push_back({j, form[j], form[j].get_d()});
        row.is_whole = true;
        row.multipliers = leaf.pairs;
        return row;
    }

    // The goal itself, where it is whole at each point.
    void round_goal() {
        for (int j = 0; j < program_.size(); j++)
            if (relaxation_.costs[j] != 0 && (!program_.variables[j].is_whole || relaxation_.costs[j].get_den() != 1)) return;
        Target target = Target::bound(relaxation_, nullptr);
        target.start = target.step = 0;
        const LeafMaker leaves(relaxation_.rows, ends_);
        const std::optional<Leaf> leaf = leaves.rounded(target, {floats_.duals(), floats_.duals() + relaxation_.rows.size()});
        // Below the best value such a row makes all points alike, and nothing tells any more where to branch.
        if (!leaf || !best_ || Ratio(ceiling_of(leaf->sum)) + relaxation_.constant < best_->values[0]) return;
        keep(row_of(relaxation_.costs, *leaf), 1e6);
    }

    // A multiplier of a row whose value is whole can be cut to its part behind the point, on the side of the end that is near.
    Ratio reduced(const Ratio& multiplier, size_t i) const {
        const Row& row = relaxation_.rows[i];
        if (!row.is_whole) return multiplier;
        const Ratio part = multiplier - Ratio(floor_of(multiplier));
        if (part == 0) return part;
        const bool is_low = row.ends.are_equal() ? part * 2 <= 1 : !row.ends.is_nearer_to_high(activities_[i]);
        return is_low ? part : Ratio(part - 1);
    }

    // The round of multipliers of rows, times a number: each variable's own multiplier takes the form to a whole number, or to 0.
    void round_rows(const std::vector<Pair>& multipliers, const Ratio& times) {
        std::vector<Ratio> form(program_.size());
        std::vector<Pair> of_rows;
        Row row;
        Ratio sum;
        for (const Pair& pair : multipliers) {
            const Ratio multiplier = reduced(pair.second * times, static_cast<size_t>(pair.first));
            if (multiplier == 0) continue;
            const Row& from = relaxation_.rows[pair.first];
            const End& end = from.ends.counted(multiplier > 0);
            if (!end.is_finite) return;
            for (const Term& term : from.terms) form[term.column] += multiplier * term.factor;
            sum += multiplier * end.value;
            of_rows.push_back({program_.size() + pair.first, multiplier});
        }
        for (int j = 0; j < program_.size(); j++) {
            if (form[j] == 0) continue;
            Ratio wanted;
            if (program_.variables[j].is_whole) wanted = ends_[j].is_nearer_to_high(at_[j]) ? Ratio(floor_of(form[j])) : Ratio(ceiling_of(form[j]));
            const Ratio own = wanted - form[j];
            const End& end = ends_[j].counted(own > 0);
            if (own != 0 && !end.is_finite) return;
            if (own != 0) row.multipliers.push_back({j, own});
            if (own != 0) sum += own * end.value;
            if (wanted != 0) row.terms.push_back({j, wanted, wanted.get_d()});
        }
        row.ends.low = End::at(Ratio(ceiling_of(sum)));
        row.is_whole = true;
        row.multipliers.insert(row.multipliers.end(), of_rows.begin(), of_rows.end());
        keep(row);
    }

    // Rows of the tableau, and some times each, at the whole variables whose values are furthest from whole.
    void round_tableau() {
        std::vector<std::pair<double, int>> order;
        for (int j = 0; j < program_.size(); j++) {
            const double off = std::fabs(at_[j] - std::nearbyint(at_[j]));
            if (program_.variables[j].is_whole && off > 1e-3) order.push_back({-off, j});
        }
        std::sort(order.begin(), order.end());
        if (order.size() > most_tableau_rows) order.resize(most_tableau_rows);
        floats_.prepare_tableau();
        std::vector<double> found;
        for (const auto& [off, column] : order) {
            if (is_over() || !floats_.find_tableau_row(column, found)) continue;
            std::vector<Pair> multipliers;
            for (size_t i = 0; i < found.size(); i++) {
                if (std::fabs(found[i]) <= 1e-9 || floats_.is_basic_row(static_cast<int>(i))) continue;
                multipliers.push_back({static_cast<int>(i), near_ratio(found[i], 1 << 20, 1e-9)});
            }
            for (const int times : {1, -1, 2, -2, 3, -3, 4, -4, 5, -5}) round_rows(multipliers, Ratio(times));
        }
    }

    // What Cgl finds, where the least of its form over all rows shows it.
    void round_hints() {
        std::vector<Hint> hints = hints_of(program_, floats_);
        if (hints.size() > most_hints) hints.resize(most_hints);
        if (hints.empty()) return;
        prober_.load(relaxation_.rows, ends_, relaxation_.near_costs);
        prober_.put(floats_.basis());
        const LeafMaker leaves(relaxation_.rows, ends_);
        for (const Hint& hint : hints) {
            if (is_over()) return;
            Target target;
            target.costs.assign(program_.size(), Ratio(0));
            for (const Pair& pair : hint.form) target.costs[pair.first] = pair.second;
            for (const Ratio& cost : target.costs) target.near_costs.push_back(cost.get_d());
            target.least = Ratio(hint.least - 1);
            target.has_to_pass = true;
            prober_.set_costs(target.near_costs);
            if (prober_.solve_from_point() != FloatProgram::Outcome::best || prober_.value() <= target.least.get_d() + 1e-6) continue;
            const std::optional<Leaf> leaf = leaves.rounded(target, {prober_.duals(), prober_.duals() + relaxation_.rows.size()});
            if (leaf) keep(row_of(target.costs, *leaf));
        }
    }

    // Each tight row without its continuous variables: one after another is taken off by the row, or the end, that loses least at the point.
    void round_freed_rows() {
        std::vector<std::vector<std::pair<int, Ratio>>> rows_of(program_.size());
        for (size_t i = 0; i < first_; i++)
            for (const Term& term : relaxation_.rows[i].terms)
                if (!program_.variables[term.column].is_whole) rows_of[term.column].push_back({static_cast<int>(i), term.factor});
        for (size_t i = 0; i < first_ && !is_over(); i++)
            for (const bool is_low : {true, false}) {
                const End& end = relaxation_.rows[i].ends.counted(is_low);
                if (end.is_finite && std::fabs(activities_[i] - end.near) <= 1e-6) round_freed(i, is_low, rows_of);
            }
    }

    void round_freed(size_t first, bool is_low, const std::vector<std::vector<std::pair<int, Ratio>>>& rows_of) {
        std::map<int, Ratio> multipliers{{static_cast<int>(first), Ratio(is_low ? 1 : -1)}}, form;
        for (const Term& term : relaxation_.rows[first].terms) form[term.column] = is_low ? term.factor : Ratio(-term.factor);
        for (int step = 0; step < most_steps; step++) {
            const int column = column_to_free(form);
            if (column < 0) break;
            if (!free_by_row(column, rows_of[column], multipliers, form)) return;
        }
        std::set<Ratio> divisors{Ratio(1)};
        for (const auto& [column, factor] : form) {
            const double part = at_[column] - std::floor(at_[column]);
            if (!program_.variables[column].is_whole || factor == 0 || part < 1e-4 || part > 1 - 1e-4 || divisors.size() > 12) continue;
            divisors.insert(abs(factor));
            divisors.insert(abs(factor) * 2);
        }
        const std::vector<Pair> pairs(multipliers.begin(), multipliers.end());
        for (const Ratio& divisor : divisors) round_rows(pairs, 1 / divisor);
    }

    // How much of a form is lost where a variable is taken off by its own end.
    double own_loss(int column, double factor) const {
        const End& end = ends_[column].counted(factor < 0);
        return end.is_finite ? std::fabs(factor) * std::fabs(at_[column] - end.near) : 1e18;
    }

    int column_to_free(const std::map<int, Ratio>& form) const {
        for (const auto& [column, factor] : form)
            if (factor != 0 && !program_.variables[column].is_whole && own_loss(column, factor.get_d()) >= 1e-7) return column;
        return -1;
    }

    bool free_by_row(int column, const std::vector<std::pair<int, Ratio>>& rows, std::map<int, Ratio>& multipliers, std::map<int, Ratio>& form) const {
        double least = own_loss(column, form[column].get_d());
        const bool has_own = least < 1e18;
        int by = -1;
        Ratio times;
        for (const auto& [i, factor] : rows) {
            if (multipliers.count(i)) continue;
            const Ratio multiplier = -form[column] / factor;
            const End& end = relaxation_.rows[i].ends.counted(multiplier > 0);
            const double loss = end.is_finite ? std::fabs(multiplier.get_d()) * std::fabs(activities_[i] - end.near) : 1e18;
            if (loss >= least - 1e-9) continue;
            least = loss;
            by = i;
            times = multiplier;
        }
        if (by < 0) return has_own && (form.erase(column), true);
        multipliers[by] = times;
        for (const Term& term : relaxation_.rows[by].terms) form[term.column] += times * term.factor;
        return true;
    }

    // The cuts that are broken most, and not along another one; false where there are none.
    bool take_cuts() {
        std::stable_sort(cuts_.begin(), cuts_.end(), [](const Cut& a, const Cut& b) { return a.broken > b.broken; });
        std::vector<const Cut*> taken;
        for (const Cut& cut : cuts_) {
            if (taken.size() >= std::min<size_t>(most_a_pass, room())) break;
            if (std::none_of(taken.begin(), taken.end(), [&](const Cut* other) { return is_along(cut.row, other->row); })) taken.push_back(&cut);
        }
        if (taken.empty()) return false;
        FloatProgram::Basis basis = floats_.basis();
        for (const Cut* cut : taken) relaxation_.rows.push_back(cut->row);
        basis.resize(basis.size() + taken.size(), ClpSimplex::basic);
        floats_.load(relaxation_.rows, ends_, relaxation_.near_costs);
        floats_.put(basis);
        return true;
    }

    static bool is_along(const Row& left, const Row& right) {
        std::map<int, double> factors;
        double product = 0, left_square = 0, right_square = 0;
        for (const Term& term : left.terms) {
            factors[term.column] = term.near;
            left_square += term.near * term.near;
        }
        for (const Term& term : right.terms) {
            right_square += term.near * term.near;
            if (const auto found = factors.find(term.column); found != factors.end()) product += found->second * term.near;
        }
        return product > parallel * std::sqrt(left_square * right_square);
    }

    // Keeps the rounds that hold the last point, and those that these rest on.
    void drop_loose_rows() {
        std::vector<Row>& rows = relaxation_.rows;
        std::vector<char> is_needed(rows.size());
        std::vector<int> number(rows.size());
        for (size_t i = rows.size(); i-- > 0;) {
            if (i < first_ || !floats_.is_basic_row(static_cast<int>(i))) is_needed[i] = true;
            if (!is_needed[i]) continue;
            for (const Pair& pair : rows[i].multipliers)
                if (pair.first >= program_.size()) is_needed[pair.first - program_.size()] = true;
        }
        std::vector<Row> kept;
        for (size_t i = 0; i < rows.size(); i++) {
            number[i] = static_cast<int>(kept.size());
            if (!is_needed[i]) continue;
            kept.push_back(std::move(rows[i]));
            for (Pair& pair : kept.back().multipliers)
                if (pair.first >= program_.size()) pair.first = program_.size() + number[pair.first - program_.size()];
        }
        rows = std::move(kept);
    }

    const Program& program_;
    Relaxation& relaxation_;
    const std::optional<Point>& best_;
    const Plan& plan_;
    Watch& watch_;
    const std::vector<Ends> ends_;
    const size_t first_;
    FloatProgram floats_, prober_;
    std::vector<double> at_, activities_;
    std::vector<Cut> cuts_;
    std::set<std::string> seen_;
};

}  // namespace

double add_rounds(const Program& program, Relaxation& relaxation, const std::optional<Point>& best, const Plan& plan, Watch& watch) {
    return Rounding(program, relaxation, best, plan, watch).run();
}
