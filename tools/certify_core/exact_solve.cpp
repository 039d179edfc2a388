#include "exact_solve.hpp"

extern "C" {
#include <flint/fmpq.h>
#include <flint/fmpq_mat.h>
}

namespace {

const long least_for_dixon = 26;  // fewer unknowns are found faster without fractions

class Solving {
   public:
    Solving(const std::vector<Equation>& equations, std::vector<Ratio>& solution)
        : equations_(equations), solution_(solution), count_(equations.size()), is_known_(count_), is_used_(count_), is_last_(count_), where_(count_) {
        solution_.assign(count_, Ratio(0));
        for (size_t e = 0; e < count_; e++)
            for (const Pair& term : equations_[e].terms) where_[term.first].push_back(static_cast<int>(e));
    }

    bool solve() {
        if (!put_in_rows() || !set_aside_columns() || !solve_rest()) return false;
        for (size_t k = aside_.size(); k-- > 0;) put_in(aside_[k].first, aside_[k].second);
        return true;
    }

   private:
    // The value of an unknown by an equation whose other unknowns are known.
    void put_in(int equation, int unknown) {
        Ratio left = equations_[equation].right, factor;
        for (const Pair& term : equations_[equation].terms) {
            if (term.first == unknown)
                factor += term.second;
            else
                left -= term.second * solution_[term.first];
        }
        solution_[unknown] = left / factor;
        is_known_[unknown] = is_used_[equation] = true;
    }

    // Equations with one unknown, over and over.
    bool put_in_rows() {
        std::vector<size_t> open(count_);
        std::vector<int> ready;
        for (size_t e = 0; e < count_; e++) {
            open[e] = equations_[e].terms.size();
            if (open[e] == 1) ready.push_back(static_cast<int>(e));
        }
        while (!ready.empty()) {
            const int equation = ready.back();
            ready.pop_back();
            if (is_used_[equation] || open[equation] != 1) continue;
            int unknown = -1;
            for (const Pair& term : equations_[equation].terms)
                if (!is_known_[term.first]) unknown = term.first;
            if (unknown < 0) return false;
            put_in(equation, unknown);
            for (int other : where_[unknown])
                if (!is_used_[other] && --open[other] == 1) ready.push_back(other);
        }
        return true;
    }

    // Unknowns of one equation, over and over: their equations tell them once the others are known.
    bool set_aside_columns() {
        std::vector<int> uses(count_), ready;
        for (size_t u = 0; u < count_; u++) {
            if (is_known_[u]) continue;
            for (int equation : where_[u]) uses[u] += !is_used_[equation];
            if (uses[u] == 0) return false;
            if (uses[u] == 1) ready.push_back(static_cast<int>(u));
        }
        while (!ready.empty()) {
            const int unknown = ready.back();
            ready.pop_back();
            if (is_last_[unknown] || uses[unknown] != 1) continue;
            int equation = -1;
            for (int each : where_[unknown])
                if (!is_used_[each]) equation = each;
            if (equation < 0) return false;
            is_last_[unknown] = is_used_[equation] = true;
            aside_.push_back({equation, unknown});
            for (const Pair& term : equations_[equation].terms)
                if (!is_known_[term.first] && !is_last_[term.first] && --uses[term.first] == 1) ready.push_back(term.first);
        }
        return true;
    }

    bool solve_rest() {
        std::vector<int> rows, unknowns, place(count_, -1);
        for (size_t k = 0; k < count_; k++) {
            if (!is_used_[k]) rows.push_back(static_cast<int>(k));
            if (is_known_[k] || is_last_[k]) continue;
            place[k] = static_cast<int>(unknowns.size());
            unknowns.push_back(static_cast<int>(k));
        }
        if (rows.size() != unknowns.size()) return false;
        return rows.empty() || solve_dense(rows, unknowns, place);
    }

    bool solve_dense(const std::vector<int>& rows, const std::vector<int>& unknowns, const std::vector<int>& place) {
        const slong size = static_cast<slong>(rows.size());
        fmpq_mat_t matrix, right, found;
        fmpq_mat_init(matrix, size, size);
        fmpq_mat_init(right, size, 1);
        fmpq_mat_init(found, size, 1);
        for (slong r = 0; r < size; r++) {
            Ratio rest = equations_[rows[r]].right;
            for (const Pair& term : equations_[rows[r]].terms) {
                if (is_known_[term.first]) {
                    rest -= term.second * solution_[term.first];
                } else {
                    fmpq* entry = fmpq_mat_entry(matrix, r, place[term.first]);
                    fmpq_set_mpq(entry, term.second.get_mpq_t());
                }
            }
            fmpq_set_mpq(fmpq_mat_entry(right, r, 0), rest.get_mpq_t());
        }
        const int is_solved = size < least_for_dixon ? fmpq_mat_solve_fraction_free(found, matrix, right) : fmpq_mat_solve_dixon(found, matrix, right);
        for (slong r = 0; is_solved && r < size; r++) {
            fmpq_get_mpq(solution_[unknowns[r]].get_mpq_t(), fmpq_mat_entry(found, r, 0));
            is_known_[unknowns[r]] = true;
        }
        fmpq_mat_clear(matrix);
        fmpq_mat_clear(right);
        fmpq_mat_clear(found);
        return is_solved;
    }

    const std::vector<Equation>& equations_;
    std::vector<Ratio>& solution_;
    const size_t count_;
    std::vector<char> is_known_, is_used_, is_last_;
    std::vector<std::vector<int>> where_;
    std::vector<std::pair<int, int>> aside_;  // an equation, and the unknown that it tells
};

}  // namespace

bool solve_exactly(const std::vector<Equation>& equations, std::vector<Ratio>& solution) { return Solving(equations, solution).solve(); }
