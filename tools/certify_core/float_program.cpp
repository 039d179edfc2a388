#include "float_program.hpp"

#include <coin/CoinPackedMatrix.hpp>

#include <algorithm>
#include <memory>

namespace {

const double infinite = COIN_DBL_MAX;
const double tolerance = 1e-9, loose_tolerance = 1e-7;
const double work_of_start = 8;  // a solve without a turn factors the basis, as some turns do
const double work_of_any = 1000;     // of the smallest program

double low_of(const Ends& ends) { return ends.low.is_finite ? ends.low.near : -infinite; }
double high_of(const Ends& ends) { return ends.high.is_finite ? ends.high.near : infinite; }

}  // namespace

void FloatProgram::load(const std::vector<Row>& rows, const std::vector<Ends>& ends, const std::vector<double>& costs) {
    std::vector<int> row_indices, column_indices;
    std::vector<double> factors, low, high, row_low, row_high;
    for (size_t i = 0; i < rows.size(); i++) {
        row_low.push_back(low_of(rows[i].ends));
        row_high.push_back(high_of(rows[i].ends));
        for (const Term& term : rows[i].terms) {
            row_indices.push_back(static_cast<int>(i));
            column_indices.push_back(term.column);
            factors.push_back(term.near);
        }
    }
    for (const Ends& each : ends) {
        low.push_back(low_of(each));
        high.push_back(high_of(each));
    }
    const int columns = static_cast<int>(ends.size()), count = static_cast<int>(rows.size());
    CoinPackedMatrix matrix(true, row_indices.data(), column_indices.data(), factors.data(), static_cast<CoinBigIndex>(factors.size()));
    matrix.setDimensions(count, columns);
    clp_ = ClpSimplex();
    clp_.setLogLevel(0);
    clp_.loadProblem(matrix, low.data(), high.data(), costs.data(), row_low.data(), row_high.data());
    clp_.setPrimalTolerance(tolerance);
    clp_.setDualTolerance(tolerance);
    size_ = work_of_any + static_cast<double>(factors.size()) + columns + 2.0 * count;
}

void FloatProgram::set_ends(int column, const Ends& ends) {
    clp_.columnLower()[column] = low_of(ends);
    clp_.columnUpper()[column] = high_of(ends);
}

void FloatProgram::set_costs(const std::vector<double>& costs) { std::copy(costs.begin(), costs.end(), clp_.objective()); }

FloatProgram::Outcome FloatProgram::outcome(int status) {
    work_ += (clp_.numberIterations() + work_of_start) * size_;
    if (status == 0) return Outcome::best;
    if (status == 1) return Outcome::empty;
    return status == 2 ? Outcome::endless : Outcome::unclear;
}

FloatProgram::Outcome FloatProgram::solve(int most_turns) {
    clp_.setMaximumIterations(most_turns);
    clp_.dual();
    return outcome(clp_.status());
}

FloatProgram::Outcome FloatProgram::solve_from_point() {
    clp_.setMaximumIterations(1000000);
    clp_.primal();
    return outcome(clp_.status());
}

FloatProgram::Outcome FloatProgram::solve_loosely() {
    clp_.allSlackBasis(true);
    clp_.setPrimalTolerance(loose_tolerance);
    clp_.setDualTolerance(loose_tolerance);
    clp_.setMaximumIterations(1000000);
    clp_.primal();
    clp_.setPrimalTolerance(tolerance);
    clp_.setDualTolerance(tolerance);
    return outcome(clp_.status());
}

std::vector<double> FloatProgram::farkas() const {
    const std::unique_ptr<double[]> ray(clp_.infeasibilityRay());
    if (!ray) return {};
    return {ray.get(), ray.get() + clp_.numberRows()};
}

FloatProgram::Basis FloatProgram::basis() const {
    const unsigned char* status = clp_.statusArray();
    return {status, status + clp_.numberColumns() + clp_.numberRows()};
}

void FloatProgram::put(const Basis& basis) { std::copy(basis.begin(), basis.end(), clp_.statusArray()); }

std::vector<Place> FloatProgram::places(const std::vector<Row>& rows, const std::vector<Ends>& ends) const {
    std::vector<Place> places;
    const auto put = [&](bool is_basic, const Ends& each, double value) {
        if (is_basic)
            places.push_back(Place::basic);
        else if (!each.low.is_finite && !each.high.is_finite)
            places.push_back(Place::zero);
        else
            places.push_back(each.is_nearer_to_high(value) && !each.are_equal() ? Place::high : Place::low);
    };
    for (size_t j = 0; j < ends.size(); j++) put(clp_.getColumnStatus(static_cast<int>(j)) == ClpSimplex::basic, ends[j], point()[j]);
    for (size_t i = 0; i < rows.size(); i++) put(clp_.getRowStatus(static_cast<int>(i)) == ClpSimplex::basic, rows[i].ends, activities()[i]);
    return places;
}

void FloatProgram::prepare_tableau() {
    clp_.dual(0, 1);
    row_of_.assign(clp_.numberColumns(), -1);
    for (int i = 0; i < clp_.numberRows(); i++)
        if (clp_.pivotVariable()[i] < clp_.numberColumns()) row_of_[clp_.pivotVariable()[i]] = i;
}

bool FloatProgram::find_tableau_row(int column, std::vector<double>& multipliers) {
    multipliers.assign(clp_.numberRows(), 0);
    if (row_of_[column] < 0) return false;
    clp_.getBInvRow(row_of_[column], multipliers.data());
    return true;
}
