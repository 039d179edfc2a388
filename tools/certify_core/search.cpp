#include "search.hpp"

#include <algorithm>
#include <cmath>

namespace {

const double whole_tolerance = 1e-6, value_tolerance = 1e-7;
const size_t bytes_of_item = 13;  // of the element round it
const long nodes_of_root = 16;  // where more is tried before a branch
const int deepest = 3000, probe_turns = 60, turns_of_exact = 300;
const double seconds_of_exact = 5;

double fraction_of(double value) { return std::fabs(value - std::nearbyint(value)); }

bool is_in(const Ends& ends, double value) {
    return !(ends.low.is_finite && value < ends.low.near - whole_tolerance) && !(ends.high.is_finite && value > ends.high.near + whole_tolerance);
}

double distance_to(const Ends& ends, double value) {
    const double below = ends.low.is_finite ? ends.low.near - value : 0, above = ends.high.is_finite ? value - ends.high.near : 0;
    return std::max({below, above, 0.0});
}

}  // namespace

const char* cause_of(SearchEnd end) {
    switch (end) {
        case SearchEnd::out_of_time:
        case SearchEnd::out_of_work: return "killed";
        case SearchEnd::too_long: return "length";
        default: return "wide 1 0 check";
    }
}

TreeSearch::TreeSearch(const Program& program, const Relaxation& relaxation, size_t level, std::optional<Point>& best, const Plan& plan, Watch& watch,
                       size_t most_bytes)
    : program_(program), relaxation_(relaxation), level_(level), best_(best), plan_(plan), watch_(watch), most_bytes_(most_bytes), ends_(program.ends()),
      leaves_(relaxation_.rows, ends_), histories_(2 * program.variables.size()), divided_(program.variables.size()) {
    if (best) reached_.assign(best->values.begin(), best->values.begin() + static_cast<long>(level));
    floats_.load(relaxation_.rows, ends_, relaxation_.near_costs);
}

Shown TreeSearch::run() {
    visit(0);
    if (!is_stopped_) shown_.end = SearchEnd::closed;
    if (!has_open_bound_) shown_.bound.reset();
    if (root_leaf_) shown_.nodes = {root_leaf_->text(false)};
    return shown_;
}

void TreeSearch::put(const std::string& node) {
    shown_.nodes.push_back(node);
    bytes_ += node.size() + bytes_of_item;
}

std::optional<double> TreeSearch::open_bound() const {
    if (open_.empty()) return {};
    return *std::min_element(open_.begin(), open_.end());
}

// Whether the search has to end here.
void TreeSearch::look(int depth) {
    nodes_++;
    const double sign = program_.goals[level_].is_maximum ? -1 : 1;
    std::optional<double> best, open = open_bound();
    if (best_) best = sign * best_->values[level_].get_d();
    if (open) open = sign * *open;
    watch_.tell(best, open, nodes_);
    if (is_stopped_) return;
    is_stopped_ = true;
    if (watch_.is_over())
        shown_.end = SearchEnd::out_of_time;
    else if (work() > plan_.most_work)
        shown_.end = SearchEnd::out_of_work;
    else if (bytes_ > most_bytes_)
        shown_.end = SearchEnd::too_long;
    else if (depth > deepest)
        shown_.end = SearchEnd::stuck;
    else
        is_stopped_ = false;
    if (is_stopped_ && shown_.end == SearchEnd::too_long) has_open_bound_ = false;
}

bool TreeSearch::close_clash() {
    const size_t size = ends_.size();
    for (size_t column = 0; column < size + relaxation_.rows.size(); column++) {
        const Ends& ends = column < size ? ends_[column] : relaxation_.rows[column - size].ends;
        if (!ends.cross()) continue;
        put("clash " + std::to_string(column));
        return true;
    }
    return false;
}

// What a case's value has to reach so that the best point may close it.
double TreeSearch::near_best() const {
    const double best = best_->values[level_].get_d();
    return near_enough(best, relaxation_.step.get_d(), value_tolerance * (1 + std::fabs(best)));
}

bool TreeSearch::close(const Target& target, const std::optional<Leaf>& leaf) {
    if (leaf) put(leaf->text(target.is_farkas));
    return leaf.has_value();
}

bool TreeSearch::close_empty() {
    const Target target = Target::farkas(program_.size());
    return close(target, leaves_.scaled(target, floats_.farkas()));
}

// A leaf by which no point of the case is better than the best one.
bool TreeSearch::close_bound(const Found& found) {
    if (!best_ || is_aiming_) return false;
    const Target target = Target::bound(relaxation_, &best_->values[level_]);
    if (close(target, leaves_.rounded(target, found.duals))) return true;
    if (is_stopped_) return false;
    ExactSimplex exact(relaxation_.rows, ends_, relaxation_.costs, found.places);
    ExactSimplex::Outcome ended;
    return close(target, leaves_.solved(target, exact, turns_of_exact, ended));
}

TreeSearch::Found TreeSearch::found_now(Found::Kind kind) const {
    const double* duals = floats_.duals();
    Found found{kind, floats_.value() + relaxation_.constant.get_d(), {floats_.point(), floats_.point() + program_.size()}, {}, {}};
    found.duals.assign(duals, duals + relaxation_.rows.size());
    found.places = floats_.places(relaxation_.rows, ends_);
    return found;
}

// The case as exact turns find it, from the basis of the floats on.
TreeSearch::Found TreeSearch::find_exactly() {
    Found found = found_now(Found::Kind::stuck);
    if (is_stopped_) return found;
    ExactSimplex exact(relaxation_.rows, ends_, relaxation_.costs, found.places);
    const ExactSimplex::Outcome ended = exact.run(turns_of_exact + program_.size(), seconds_of_exact);
    const bool is_bound = ended == ExactSimplex::Outcome::best && best_ && !is_aiming_;
    if (ended == ExactSimplex::Outcome::empty || is_bound) {
        const Target target = is_bound ? Target::bound(relaxation_, &best_->values[level_]) : Target::farkas(program_.size());
        found.kind = close(target, leaves_.of_rows(target, exact.multipliers())) ? Found::Kind::closed : Found::Kind::stuck;
    }
    if (ended == ExactSimplex::Outcome::endless) found.kind = Found::Kind::endless;
    if (ended != ExactSimplex::Outcome::best || found.kind == Found::Kind::closed) return found;
    found = {Found::Kind::point, relaxation_.constant.get_d(), {}, std::vector<double>(relaxation_.rows.size()), found.places};
    for (int j = 0; j < program_.size(); j++) {
        found.at.push_back(exact.values()[j].get_d());
        found.value += relaxation_.near_costs[j] * found.at[j];
    }
    for (const Pair& pair : exact.multipliers()) found.duals[pair.first] = pair.second.get_d();
    if (branches(found.at).empty()) is_aiming_ ? end_unbounded(exact.point()) : take(exact.point());
    return found;
}

TreeSearch::Found TreeSearch::find() {
    using Outcome = FloatProgram::Outcome;
    if (relaxation_.rows.empty()) return find_exactly();
    Outcome outcome = floats_.solve();
    for (const bool is_loose : {false, true}) {
        if (is_loose) outcome = floats_.solve_loosely();
        if (outcome == Outcome::empty && close_empty()) return {Found::Kind::closed, 0, {}, {}, {}};
        if (outcome == Outcome::best) {
            const Found found = found_now(Found::Kind::point);
            if (best_ && !is_aiming_ && found.value >= near_best() && close_bound(found)) return {Found::Kind::closed, 0, {}, {}, {}};
            return found;
        }
        if (outcome == Outcome::empty) break;
    }
    return outcome == Outcome::endless ? found_now(Found::Kind::endless) : find_exactly();
}

// Where a better point closes the root itself no case is needed, and the search has ended.
void TreeSearch::close_root() {
    if (!root_ || root_->value < near_best()) return;
    const std::vector<Ends> ends = program_.ends();
    root_leaf_ = LeafMaker(relaxation_.rows, ends).rounded(Target::bound(relaxation_, &best_->values[level_]), root_->duals);
    if (!root_leaf_) return;
    is_stopped_ = true;
    has_open_bound_ = false;
    shown_.end = SearchEnd::closed;
}

// Closes a case of an ended search with what can be shown of it; the least of these low sums is a bound of all.
void TreeSearch::close_loosely(const Found& found) {
    if (found.kind == Found::Kind::closed) return;
    const Target target = Target::bound(relaxation_, nullptr);
    const std::optional<Leaf> leaf = found.kind == Found::Kind::point && !is_aiming_ ? leaves_.rounded(target, found.duals) : std::nullopt;
    has_open_bound_ = has_open_bound_ && leaf;
    if (!close(target, leaf) || !has_open_bound_) return;
    if (!shown_.bound || leaf->sum < *shown_.bound) shown_.bound = leaf->sum;
}

void TreeSearch::visit(int depth) {
    look(depth);
    if (is_stopped_ && (!has_open_bound_ || shown_.end == SearchEnd::unbounded)) return;
    if (close_clash()) return;
    const Found found = find();
    if (shown_.end == SearchEnd::unbounded) return;
    if (is_stopped_) return close_loosely(found);
    if (found.kind == Found::Kind::closed) return;
    if (depth == 0 && found.kind == Found::Kind::point) root_ = found;
    if (found.kind == Found::Kind::endless) return follow(found, depth);
    if (found.kind == Found::Kind::point) {
        const std::vector<Branch> all = branches(found.at);
        if (!all.empty()) return divide(chosen(all, found.value), found.value, depth);
        if (!take_exactly(found.places)) take_near(found.at);
        if (is_stopped_ || close_bound(found)) return;
    }
    const std::optional<Branch> any = found.at.empty() ? std::nullopt : any_branch(found.at);
    if (any) return divide(*any, found.value, depth);
    is_stopped_ = true;
    shown_.end = SearchEnd::stuck;
    close_loosely(found);
}

TreeSearch::Branch TreeSearch::split_at(int column, double value) const {
    Whole floor(std::floor(value + value_tolerance));
    const Ends& ends = ends_[column];
    if (ends.low.is_finite) floor = std::max(floor, floor_of(ends.low.value));
    if (ends.high.is_finite) floor = std::min(floor, Whole(ceiling_of(ends.high.value) - 1));
    return {column, false, floor, value - std::floor(value), std::floor(value) + 1 - value};
}

// The variables whose value isn't as it has to be.
std::vector<TreeSearch::Branch> TreeSearch::branches(const std::vector<double>& at) const {
    std::vector<Branch> found;
    for (int j = 0; j < program_.size(); j++) {
        const Variable& variable = program_.variables[j];
        if (variable.may_be_zero && std::fabs(at[j]) > whole_tolerance && !is_in(variable.own, at[j]))
            found.push_back({j, true, 0, std::fabs(at[j]), distance_to(variable.own, at[j])});
        else if (variable.is_whole && fraction_of(at[j]) > whole_tolerance)
            found.push_back(split_at(j, at[j]));
    }
    return found;
}

// Where a case can't be closed as it is: a variable that isn't fixed.
std::optional<TreeSearch::Branch> TreeSearch::any_branch(const std::vector<double>& at) const {
    for (int j = 0; j < program_.size(); j++) {
        const Variable& variable = program_.variables[j];
        if (variable.may_be_zero && divided_[j] == 0) return Branch{j, true, 0, 1, 1};
        if (variable.is_whole && !ends_[j].are_equal()) return split_at(j, at[j]);
    }
    return {};
}

Ends TreeSearch::side(const Branch& branch, int which) const {
    Ends cut;
    if (branch.is_zero)
        cut = which == 0 ? Ends{End::at(0), End::at(0)} : program_.variables[branch.column].own;
    else if (which == 0)
        cut.high = End::at(Ratio(branch.floor));
    else
        cut.low = End::at(Ratio(branch.floor + 1));
    return ends_[branch.column].cut_by(cut);
}

// How much the bound rises on one side, as far as probes of the past tell.
double TreeSearch::expected(const Branch& branch, int which) {
    const History& own = history(branch);
    const double distance = which == 0 ? branch.below : branch.above;
    if (own.probes[which] > 0) return distance * own.rise[which] / own.probes[which];
    double sum = 0;
    int count = 0;
    for (const History& each : histories_) {
        if (each.probes[which] == 0) continue;
        sum += each.rise[which] / each.probes[which];
        count++;
    }
    return distance * (count ? sum / count : 1 + std::fabs(relaxation_.near_costs[branch.column]));
}

// How much the bound rises on one side within some turns.
double TreeSearch::probed(const Branch& branch, int which, double value, double most, const FloatProgram::Basis& basis) {
    const Ends ends = side(branch, which);
    if (ends.cross()) return most;
    floats_.set_ends(branch.column, ends);
    floats_.put(basis);
    const FloatProgram::Outcome outcome = floats_.solve(probe_turns);
    floats_.set_ends(branch.column, ends_[branch.column]);
    if (outcome == FloatProgram::Outcome::empty) return most;
    const double rise = std::max(0.0, floats_.value() + relaxation_.constant.get_d() - value);
    History& own = history(branch);
    own.rise[which] += rise / std::max(which == 0 ? branch.below : branch.above, whole_tolerance);
    own.probes[which]++;
    return std::min(rise, most);
}

// The branches by what their history promises, the best first; the seed orders those that promise the same.
std::vector<size_t> TreeSearch::ordered(const std::vector<Branch>& all) {
    std::vector<std::pair<std::pair<double, size_t>, size_t>> order;
    for (size_t k = 0; k < all.size(); k++) {
        const double middle = 1 + std::min(all[k].below, all[k].above);
        const double promise = std::max(expected(all[k], 0), 1e-6) * std::max(expected(all[k], 1), 1e-6) * middle;
        order.push_back({{-promise, plan_.seed ? (k + 1) * plan_.seed % 7919 : k}, k});
    }
    std::sort(order.begin(), order.end());
    std::vector<size_t> numbers;
    for (const auto& each : order) numbers.push_back(each.second);
    return numbers;
}

// The branch both of whose cases promise the greatest rise of the bound (strong branching with pseudocosts).
TreeSearch::Branch TreeSearch::chosen(const std::vector<Branch>& all, double value) {
    if (is_aiming_) return all.front();  // no bound tells one from another
    const double most = best_ ? std::max(near_best() - value, 1e-9) : 1e9;
    const int most_probes = nodes_ < nodes_of_root ? 3 * plan_.most_probed : plan_.most_probed;
    const FloatProgram::Basis basis = floats_.basis();
    const std::vector<size_t> order = ordered(all);
    size_t best = order.front();
    double best_score = -1;
    int probes = 0, since = 0;
    for (const size_t k : order) {
        const History& own = history(all[k]);
        const bool is_known = own.probes[0] >= plan_.enough_probes && own.probes[1] >= plan_.enough_probes;
        if (!is_known && (probes >= most_probes || since >= plan_.most_probed)) continue;
        double rise[2];
        for (int which = 0; which < 2; which++) rise[which] = is_known ? std::min(expected(all[k], which), most) : probed(all[k], which, value, most, basis);
        probes += !is_known;
        since++;
        const double score = std::max(rise[0], 1e-6 * most) * std::max(rise[1], 1e-6 * most);
        if (score <= best_score) continue;
        best_score = score;
        best = k;
        since = 0;
        if (rise[0] >= most && rise[1] >= most) break;
    }
    floats_.put(basis);
    return all[best];
}

void TreeSearch::divide(const Branch& branch, double value, int depth) {
    put(branch.is_zero ? "zero " + std::to_string(branch.column) : "split " + std::to_string(branch.column) + " " + branch.floor.get_str());
    const Ends before = ends_[branch.column];
    const FloatProgram::Basis basis = floats_.basis();
    divided_[branch.column] += branch.is_zero;
    for (int which = 0; which < 2; which++) {
        if (which == 0) open_.push_back(value);
        ends_[branch.column] = side(branch, which);
        floats_.set_ends(branch.column, ends_[branch.column]);
        floats_.put(basis);
        visit(depth + 1);
        if (which == 0) open_.pop_back();
        ends_[branch.column] = before;
        floats_.set_ends(branch.column, before);
    }
    divided_[branch.column] -= branch.is_zero;
}

// A direction in which the case's points become better without end, exactly: by a program of its own, of the movements up to 1.
std::vector<Ratio> TreeSearch::direction() {
    std::vector<Row> rows = relaxation_.rows;
    std::vector<Ends> ends = ends_;
    for (Row& row : rows) {
        if (row.ends.low.is_finite) row.ends.low = End::at(0);
        if (row.ends.high.is_finite) row.ends.high = End::at(0);
    }
    for (Ends& each : ends) each = {End::at(each.low.is_finite ? 0 : -1), End::at(each.high.is_finite ? 0 : 1)};
    FloatProgram floats;
    floats.load(rows, ends, relaxation_.near_costs);
    if (!rows.empty()) floats.solve();
    ExactSimplex exact(rows, ends, relaxation_.costs, floats.places(rows, ends));
    if (exact.run(turns_of_exact, seconds_of_exact) != ExactSimplex::Outcome::best) return {};
    std::vector<Ratio> ray = exact.point();
    const Ratio factor(common_denominator(ray));
    Ratio change;
    for (size_t j = 0; j < ray.size(); j++) {
        ray[j] *= factor;
        change += ray[j] * relaxation_.costs[j];
    }
    if (change >= 0) ray.clear();
    return ray;
}

// Goes on along a direction: any point of the case ends the search. Where there is none, the case is closed without one.
void TreeSearch::follow(const Found& found, int depth) {
    std::vector<Ratio> ray = is_aiming_ ? std::vector<Ratio>() : direction();
    if (ray.empty()) {
        is_stopped_ = true;
        has_open_bound_ = false;
        return;
    }
    shown_.ray = ray;
    if (best_ && end_unbounded(best_->at)) return;
    for (int j = 0; j < program_.size(); j++)
        if (program_.variables[j].may_be_zero && ray[j] != 0 && divided_[j] == 0) return divide({j, true, 0, 1, 1}, found.value, depth);
    const Relaxation before = relaxation_;
    relaxation_.ask(std::vector<Ratio>(ends_.size()), 0);
    floats_.set_costs(relaxation_.near_costs);
    is_aiming_ = true;
    visit(depth + 1);
    is_aiming_ = false;
    relaxation_.ask(before.costs, before.constant, before.step);
    floats_.set_costs(relaxation_.near_costs);
}

// Whether the direction at hand can be followed from these numbers; then the search has ended.
bool TreeSearch::end_unbounded(const std::vector<Ratio>& at) {
    Point point;
    if (find_point(program_, at, point) != PointFault::none) return false;
    if (!std::equal(reached_.begin(), reached_.end(), point.values.begin()) || !is_direction(program_, level_, point, shown_.ray)) return false;
    shown_.from = point;
    shown_.end = SearchEnd::unbounded;
    is_stopped_ = true;
    return true;
}

bool TreeSearch::take(const std::vector<Ratio>& at) {
    Point point;
    const PointFault fault = find_point(program_, at, point);
    is_wide_ = is_wide_ || fault == PointFault::wide;
    if (fault != PointFault::none) return false;
    if (is_aiming_) return end_unbounded(at);
    if (!point.is_better_than(best_)) return true;
    best_ = point;
    close_root();
    return true;
}

// Takes the exact point of a basis, where it is one, or the best one that exact turns reach from there.
bool TreeSearch::take_exactly(const std::vector<Place>& places) {
    ExactSimplex exact(relaxation_.rows, ends_, relaxation_.costs, places);
    if (exact.find_values() && take(exact.point())) return true;
    return exact.run(turns_of_exact, seconds_of_exact) == ExactSimplex::Outcome::best && take(exact.point());
}

bool TreeSearch::take_near(const std::vector<double>& at) {
    const std::vector<Ends> before = ends_;
    const FloatProgram::Basis basis = floats_.basis();
    for (int j = 0; j < program_.size(); j++) {
        const Variable& variable = program_.variables[j];
        if (variable.may_be_zero) ends_[j] = ends_[j].cut_by(std::fabs(at[j]) <= whole_tolerance ? Ends{End::at(0), End::at(0)} : variable.own);
        const End value = End::at(Ratio(std::nearbyint(at[j])));
        if (variable.is_whole) ends_[j] = ends_[j].cut_by({value, value});
        floats_.set_ends(j, ends_[j]);
    }
    bool is_taken = false, cross = false;
    for (const Ends& ends : ends_) cross = cross || ends.cross();
    if (!cross) {
        if (!relaxation_.rows.empty() && floats_.solve() != FloatProgram::Outcome::best) floats_.solve_loosely();
        is_taken = take_exactly(floats_.places(relaxation_.rows, ends_));
    }
    ends_ = before;
    for (int j = 0; j < program_.size(); j++) floats_.set_ends(j, ends_[j]);
    floats_.put(basis);
    return is_taken;
}
