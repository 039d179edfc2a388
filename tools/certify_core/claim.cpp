#include "claim.hpp"

#include <algorithm>

#include "rounds.hpp"
#include "search.hpp"

namespace {

const size_t most_document = 4194304;
const double first_work = 1e7, growth = 4;

// The bytes that a result has besides its rounds and trees, and some more.
size_t bytes_besides(const Program& program, const std::optional<Point>& best) {
    size_t bytes = 4096 + 64 * program.variables.size();
    if (best)
        for (const Ratio& value : best->at) bytes += 2 * value.get_str().size();
    return bytes;
}

class Certifying {
   public:
    Certifying(const Program& program, const Limits& limits, Watch& watch) : program_(program), limits_(limits), watch_(watch) {}

    Claim run(const std::vector<std::vector<double>>& points) {
        for (size_t level = 0; level < program_.goals.size(); level++) {
            if (!find_relaxation(level)) return given_up("wide 1 0 values");
            if (level == 0)
                for (const std::vector<double>& point : points) search(level, {}).take_near(point);
            const Shown shown = show_level(level);
            if (shown.end == SearchEnd::unbounded) return unbounded(shown);
            if (shown.end != SearchEnd::closed) return given_up(cause_of(shown.end));
            claim_.trees.push_back(shown.nodes);
            if (!best_) return ended("infeasible");
        }
        return ended("optimal");
    }

   private:
    // The rows of the program, and one for each level before; false where the end of one doesn't fit.
    bool find_relaxation(size_t level) {
        relaxation_.rows = program_.rows;
        for (size_t before = 0; before < level; before++) {
            const Goal& goal = program_.goals[before];
            if (!sum_fits(best_->values[before], -goal.constant)) return false;
            const End end = End::at(best_->values[before] - goal.constant);
            Row row{{end, end}, {}, false, {}};
            for (int j = 0; j < program_.size(); j++)
                if (goal.costs[j] != 0) row.terms.push_back({j, goal.costs[j], goal.costs[j].get_d()});
            row.find_whole(program_);
            relaxation_.rows.push_back(row);
        }
        relaxation_.ask(program_.goals[level].costs, program_.goals[level].constant, program_.goals[level].step);
        return true;
    }

    TreeSearch search(size_t level, const Plan& plan) {
        size_t bytes = bytes_besides(program_, best_);
        for (const std::vector<std::string>& tree : claim_.trees)
            for (const std::string& node : tree) bytes += node.size() + 13;
        for (const Row& row : relaxation_.rows) bytes += pairs_text(row.multipliers).size() + 20;
        return TreeSearch(program_, relaxation_, level, best_, plan, watch_, bytes < most_document ? most_document - bytes : 0);
    }

    std::vector<Plan> plans() const {
        Plan plain;
        plain.seed = limits_.seed;
        std::vector<Plan> all{plain};
        if (program_.goals.size() > 1 || !program_.has_cases() || program_.rows.empty()) return all;
        for (const bool frees_rows : {false, true}) {
            Plan plan = plain;
            plan.most_rounds = 60;
            plan.frees_rows = frees_rows;
            all.push_back(plan);
        }
        return all;
    }

    // Tries the plans, with more and more work, until one shows the level. Points are handed on.
    Shown show_level(size_t level) {
        std::vector<Plan> left = plans();
        Shown last;
        for (double budget = first_work; !left.empty(); budget *= growth) {
            for (size_t k = 0; k < left.size();) {
                const bool is_only = left.size() == 1;
                last = tried(level, left[k], is_only ? limits_.most_work - spent_ : std::min(budget, limits_.most_work - spent_));
                if (last.end == SearchEnd::closed || last.end == SearchEnd::unbounded) return last;
                if (watch_.is_over() || spent_ >= limits_.most_work) return last;
                if (last.end == SearchEnd::out_of_work)
                    k++;
                else
                    left.erase(left.begin() + static_cast<long>(k));
            }
        }
        return last;
    }

    Shown tried(size_t level, Plan plan, double budget) {
        const size_t rows = relaxation_.rows.size();
        plan.most_work = budget;
        if (plan.most_rounds) spent_ += add_rounds(program_, relaxation_, best_, plan, watch_);
        TreeSearch search_now = search(level, plan);
        Shown shown = search_now.run();
        spent_ += search_now.work();
        claim_.nodes += search_now.nodes();
        std::vector<std::string> rounds;
        for (size_t i = rows; i < relaxation_.rows.size(); i++) rounds.push_back("round" + pairs_text(relaxation_.rows[i].multipliers));
        relaxation_.rows.resize(rows);
        if (shown.end == SearchEnd::closed) claim_.rounds = rounds;
        const bool is_loose = shown.end == SearchEnd::out_of_time || shown.end == SearchEnd::out_of_work || shown.end == SearchEnd::stuck;
        if (is_loose && shown.bound && program_.goals.size() == 1 && (!bound_ || *shown.bound > *bound_)) {
            bound_ = shown.bound;
            bound_rounds_ = rounds;
            bound_tree_ = shown.nodes;
        }
        return shown;
    }

    Claim ended(const char* kind) {
        claim_.kind = kind;
        claim_.point = best_;
        return claim_;
    }

    Claim unbounded(const Shown& shown) {
        claim_.kind = "unbounded";
        claim_.point = shown.from;
        claim_.ray = shown.ray;
        claim_.rounds.clear();
        return claim_;
    }

    // Any point, without regard to the goal: the best one of the floats may have numbers that don't fit.
    void find_any_point() {
        relaxation_.ask(std::vector<Ratio>(program_.variables.size()), 0);
        Plan plan;
        plan.most_work = first_work;
        search(0, plan).run();
    }

    Claim given_up(const char* cause) {
        if (!best_ && !watch_.is_over()) find_any_point();
        claim_.kind = best_ ? "bestSoFar" : "unsure";
        claim_.cause = cause;
        claim_.point = best_;
        claim_.trees.clear();
        claim_.rounds.clear();
        if (!bound_) return claim_;
        claim_.bound = program_.goals[0].is_maximum ? Ratio(-*bound_) : *bound_;
        claim_.rounds = bound_rounds_;
        claim_.trees = {bound_tree_};
        return claim_;
    }

    const Program& program_;
    const Limits limits_;
    Watch& watch_;
    Relaxation relaxation_;
    std::optional<Point> best_;
    std::optional<Ratio> bound_;
    std::vector<std::string> bound_rounds_, bound_tree_;
    double spent_ = 0;
    Claim claim_;
};

void write_part(std::ostream& out, const char* name, const std::vector<Ratio>& values) {
    for (const Ratio& value : values) out << name << ' ' << value.get_str() << '\n';
}

}  // namespace

void Claim::write(std::ostream& out, const Program& program) const {
    out << "claim " << kind << "\nnodes " << nodes << '\n';
    if (point) {
        write_part(out, "point", point->at);
        for (size_t k = 0; k < program.goals.size(); k++) write_part(out, "value", {program.goals[k].is_maximum ? Ratio(-point->values[k]) : point->values[k]});
    }
    write_part(out, "ray", ray);
    if (bound) write_part(out, "bound", {*bound});
    for (const std::string& round : rounds) out << "rounds " << round << '\n';
    for (size_t level = 0; level < trees.size(); level++) {
        if (level > 0) out << "tree level " << level + 1 << '\n';
        for (const std::string& node : trees[level]) out << "tree " << node << '\n';
    }
    if (!cause.empty()) out << "cause " << cause << '\n';
}

Claim find_claim(const Program& program, const std::vector<std::vector<double>>& points, const Limits& limits, Watch& watch) {
    return Certifying(program, limits, watch).run(points);
}
