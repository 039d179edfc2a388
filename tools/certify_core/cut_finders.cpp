#include "cut_finders.hpp"

#include <coin/CglClique.hpp>
#include <coin/CglGomory.hpp>
#include <coin/CglKnapsackCover.hpp>
#include <coin/CglMixedIntegerRounding2.hpp>
#include <coin/CglZeroHalf.hpp>
#include <coin/OsiClpSolverInterface.hpp>

#include <algorithm>
#include <cmath>
#include <optional>

namespace {

const double most_denominator = 1000, most_factor = 10000, near = 1e-7;

// A cut whose factors become whole by one factor, at whole variables alone.
std::optional<Hint> hint_of(const Program& program, const CoinPackedVector& row, double least, double sign) {
    std::vector<Ratio> factors;
    for (int k = 0; k < row.getNumElements(); k++) {
        const double factor = sign * row.getElements()[k];
        if (std::fabs(factor) > near && !program.variables[row.getIndices()[k]].is_whole) return {};
        factors.push_back(near_ratio(factor, most_denominator, near));
        if (std::fabs(factors.back().get_d() - factor) > 2 * near) return {};
    }
    const Ratio scale(common_denominator(factors));
    Hint hint;
    for (int k = 0; k < row.getNumElements(); k++) {
        const Ratio factor = factors[k] * scale;
        if (abs(factor) > most_factor) return {};
        if (factor != 0) hint.form.push_back({row.getIndices()[k], factor});
    }
    std::sort(hint.form.begin(), hint.form.end());
    hint.least = Whole(std::ceil(sign * least * scale.get_d() - 1e-5));
    if (hint.form.empty()) return {};
    return hint;
}

}  // namespace

std::vector<Hint> hints_of(const Program& program, FloatProgram& floats) {
    OsiClpSolverInterface solver(&floats.clp(), false);
    solver.messageHandler()->setLogLevel(0);
    for (int j = 0; j < program.size(); j++)
        if (program.variables[j].is_whole) solver.setInteger(j);
    solver.resolve();
    OsiCuts cuts;
    CglGomory gomory;
    gomory.setLimit(200);
    CglKnapsackCover covers;
    CglZeroHalf halves;
    CglClique cliques;
    CglMixedIntegerRounding2 roundings;
    cliques.setStarCliqueReport(false);
    cliques.setRowCliqueReport(false);
    for (CglCutGenerator* each : std::vector<CglCutGenerator*>{&gomory, &covers, &halves, &cliques, &roundings}) each->generateCuts(solver, cuts);
    std::vector<Hint> hints;
    for (int k = 0; k < cuts.sizeRowCuts(); k++) {
        const OsiRowCut& cut = cuts.rowCut(k);
        std::optional<Hint> hint;
        if (cut.lb() > -1e20) hint = hint_of(program, cut.row(), cut.lb(), 1);
        if (!hint && cut.ub() < 1e20) hint = hint_of(program, cut.row(), cut.ub(), -1);
        if (hint) hints.push_back(*hint);
    }
    return hints;
}
