// How long a run may take, and what it tells of itself meanwhile.
#pragma once

#include <chrono>
#include <cstdio>
#include <optional>

class Watch {
   public:
    Watch(double most_seconds, bool is_telling) : most_seconds_(most_seconds), is_telling_(is_telling) {}

    double seconds() const { return std::chrono::duration<double>(std::chrono::steady_clock::now() - begin_).count(); }
    double seconds_left() const { return most_seconds_ - seconds(); }
    bool is_over() const { return seconds() > most_seconds_; }

    // A line of the best value, the bound, the nodes and the seconds, five times a second at most; `none` for what isn't known.
    void tell(std::optional<double> best, std::optional<double> bound, long nodes) {
        if (!is_telling_ || seconds() - told_ < 0.2) return;
        told_ = seconds();
        std::printf("progress");
        for (const std::optional<double>& value : {best, bound}) value ? std::printf(" %.8g", *value) : std::printf(" none");
        std::printf(" %ld %.1f\n", nodes, told_);
        std::fflush(stdout);
    }

   private:
    const std::chrono::steady_clock::time_point begin_ = std::chrono::steady_clock::now();
    const double most_seconds_;
    const bool is_telling_;
    double told_ = 0;
};
