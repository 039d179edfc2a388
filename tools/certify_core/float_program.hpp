// A linear program in floats: Clp's. What it says is a hint, and nothing rests on it.
#pragma once

#include <coin/ClpSimplex.hpp>

#include <vector>

#include "exact_simplex.hpp"
#include "program.hpp"

class FloatProgram {
   public:
    enum class Outcome { best, empty, endless, unclear };
    using Basis = std::vector<unsigned char>;

    void load(const std::vector<Row>& rows, const std::vector<Ends>& ends, const std::vector<double>& costs);
    void set_ends(int column, const Ends& ends);
    void set_costs(const std::vector<double>& costs);

    // By the dual method, with so many turns at most, from the basis at hand.
    Outcome solve(int most_turns = 1000000);

    // By the primal method, where the costs are others than before.
    Outcome solve_from_point();

    // From no basis, by the primal method, with greater tolerances: floats call some feasible programs infeasible.
    Outcome solve_loosely();

    double value() const { return clp_.objectiveValue(); }
    const double* point() const { return clp_.primalColumnSolution(); }
    const double* activities() const { return clp_.primalRowSolution(); }
    const double* duals() const { return clp_.dualRowSolution(); }
    std::vector<double> farkas() const;  // of rows; empty where there is none

    Basis basis() const;
    void put(const Basis& basis);
    std::vector<Place> places(const std::vector<Row>& rows, const std::vector<Ends>& ends) const;
    bool is_basic_row(int row) const { return clp_.getRowStatus(row) == ClpSimplex::basic; }

    // The multipliers of rows by which a basic variable stands alone among the basic ones; none where it isn't so.
    bool find_tableau_row(int column, std::vector<double>& multipliers);
    void prepare_tableau();

    // What all solves have taken so far, in a measure that is the same in each run.
    double work() const { return work_; }
    ClpSimplex& clp() { return clp_; }

   private:
    Outcome outcome(int status);

    ClpSimplex clp_;
    double work_ = 0, size_ = 0;
    std::vector<int> row_of_;
};
