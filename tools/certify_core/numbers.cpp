#include "numbers.hpp"

#include <algorithm>
#include <cmath>

namespace {

const Whole greatest = (Whole(1) << 127) - 1;

bool is_within(const Whole& part) { return mpz_cmpabs(part.get_mpz_t(), greatest.get_mpz_t()) <= 0; }

size_t bits_of_whole(const Whole& part) { return part == 0 ? 0 : mpz_sizeinbase(part.get_mpz_t(), 2); }

}  // namespace

bool fits(const Ratio& value) { return is_within(value.get_num()) && is_within(value.get_den()); }

size_t bits_of(const Ratio& value) { return std::max(bits_of_whole(value.get_num()), bits_of_whole(value.get_den())); }

bool sum_fits(const Ratio& left, const Ratio& right) {
    if (bits_of(left) + bits_of(right) < 126) return true;
    const Whole &a = left.get_num(), &b = left.get_den(), &c = right.get_num(), &d = right.get_den();
    const Whole divisor = gcd(b, d);
    const Whole first = a * (d / divisor), second = c * (b / divisor), sum = first + second;
    const Whole denominator = (b / divisor) * (d / gcd(sum, divisor));
    return is_within(first) && is_within(second) && is_within(sum) && is_within(denominator);
}

Whole floor_of(const Ratio& value) {
    Whole result;
    mpz_fdiv_q(result.get_mpz_t(), value.get_num_mpz_t(), value.get_den_mpz_t());
    return result;
}

Whole ceiling_of(const Ratio& value) {
    Whole result;
    mpz_cdiv_q(result.get_mpz_t(), value.get_num_mpz_t(), value.get_den_mpz_t());
    return result;
}

Ratio greatest_step(const Ratio& left, const Ratio& right) {
    const Whole over = gcd(left.get_num() * right.get_den(), right.get_num() * left.get_den());
    Ratio result{over, left.get_den() * right.get_den()};
    result.canonicalize();
    return result;
}

Whole common_denominator(const std::vector<Ratio>& values) {
    Whole result = 1;
    for (const Ratio& value : values) result = lcm(result, value.get_den());
    return result;
}

Ratio near_ratio(double value, double most_denominator, double tolerance) {
    const double size = std::fabs(value);
    if (size < 1e-12) return Ratio(0);
    double rest = size, over_before = 0, under_before = 1, over = 1, under = 0;
    for (int step = 0; step < 40; step++) {
        const double digit = std::floor(rest + 1e-13 * std::max(1.0, rest));
        const double over_next = digit * over + over_before, under_next = digit * under + under_before;
        if (under_next > most_denominator && step > 0) break;
        over_before = over, under_before = under, over = over_next, under = under_next;
        const double left = rest - digit;
        if (std::fabs(over / under - size) <= tolerance || left < 1e-12 || over > 9e15) break;
        rest = 1 / left;
    }
    Ratio result{Whole(over), Whole(under)};
    result.canonicalize();
    return value < 0 ? Ratio(-result) : result;
}

Ratio nearest_over(double value, double denominator) {
    Ratio result{Whole(std::nearbyint(value * denominator)), Whole(denominator)};
    result.canonicalize();
    return result;
}

void StatedSum::add_term(const Ratio& term) {
    has_fitted_ = has_fitted_ && fits(term) && sum_fits(total_, term);
    total_ += term;
}
