// A search by cases in floats, each of whose leaves is made exact: a tree that the checker takes (docs/rules/certificates.md).
#pragma once

#include <optional>
#include <string>
#include <vector>

#include "float_program.hpp"
#include "leaves.hpp"
#include "watch.hpp"

// How a search goes about its work.
struct Plan {
    int most_rounds = 0;         // rows that rounds add at the root
    bool frees_rows = false;     // rounds also of rows without their continuous variables
    int most_probed = 12;        // variables that are tried before one is branched on
    int enough_probes = 6;       // of a variable; then its history tells
    double most_work = 1e300;
    unsigned seed = 0;           // orders what is equal otherwise
};

enum class SearchEnd { closed, unbounded, out_of_work, out_of_time, too_long, stuck };

const char* cause_of(SearchEnd end);

// What a search shows: a tree, by which no point is better than the best one, or than the bound; or a direction from a point.
struct Shown {
    SearchEnd end = SearchEnd::stuck;
    std::vector<std::string> nodes;
    std::optional<Ratio> bound;  // of a search that was ended early: the least low sum of its open cases
    std::optional<Point> from;
    std::vector<Ratio> ray;
};

class TreeSearch {
   public:
    // Of a level, over the program's rows and those after them. The best point is taken on and improved.
    TreeSearch(const Program& program, const Relaxation& relaxation, size_t level, std::optional<Point>& best, const Plan& plan, Watch& watch,
               size_t most_bytes);

    Shown run();

    // Takes floats near a point as a point: whole variables are rounded, and the others found exactly. Whether there is one now.
    bool take_near(const std::vector<double>& at);

    double work() const { return floats_.work(); }
    long nodes() const { return nodes_; }

   private:
    // What the floats, or exact turns behind them, found of a case.
    struct Found {
        enum class Kind { closed, point, endless, stuck } kind = Kind::stuck;
        double value = 0;
        std::vector<double> at, duals;
        std::vector<Place> places;
    };
    // Two cases: a whole variable up to a number or from the next one on; or one that is 0, or within its own ends.
    struct Branch {
        int column;
        bool is_zero;
        Whole floor;
        double below, above;  // how far the value is from both cases
    };
    struct History {
        double rise[2] = {0, 0};
        int probes[2] = {0, 0};
    };

    void visit(int depth);
    void look(int depth);
    bool close_clash();
    Found find();
    Found found_now(Found::Kind kind) const;
    bool close(const Target& target, const std::optional<Leaf>& leaf);
    bool close_empty();
    bool close_bound(const Found& found);
    Found find_exactly();
    void close_loosely(const Found& found);
    void close_root();
    double near_best() const;
    std::vector<Branch> branches(const std::vector<double>& at) const;
    std::optional<Branch> any_branch(const std::vector<double>& at) const;
    Branch split_at(int column, double value) const;
    Ends side(const Branch& branch, int which) const;
    History& history(const Branch& branch) { return histories_[branch.column + (branch.is_zero ? program_.size() : 0)]; }
    double expected(const Branch& branch, int which);
    double probed(const Branch& branch, int which, double value, double most, const FloatProgram::Basis& basis);
    std::vector<size_t> ordered(const std::vector<Branch>& all);
    Branch chosen(const std::vector<Branch>& all, double value);
    void divide(const Branch& branch, double value, int depth);
    void follow(const Found& found, int depth);
    std::vector<Ratio> direction();
    bool take(const std::vector<Ratio>& at);
    bool take_exactly(const std::vector<Place>& places);
    bool end_unbounded(const std::vector<Ratio>& at);
    void put(const std::string& node);
    std::optional<double> open_bound() const;

    const Program& program_;
    Relaxation relaxation_;
    const size_t level_;
    std::optional<Point>& best_;
    std::vector<Ratio> reached_;  // the values of the levels before
    const Plan plan_;
    Watch& watch_;
    const size_t most_bytes_;
    std::vector<Ends> ends_;
    LeafMaker leaves_;
    FloatProgram floats_;
    std::vector<History> histories_;
    std::vector<int> divided_;
    std::vector<double> open_;  // the bounds of cases that wait
    std::optional<Found> root_;
    std::optional<Leaf> root_leaf_;
    Shown shown_;
    bool is_stopped_ = false, is_aiming_ = false, is_wide_ = false, has_open_bound_ = true;
    size_t bytes_ = 0;
    long nodes_ = 0;
};
