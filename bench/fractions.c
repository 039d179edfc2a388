/* Two peers of the fractions, for the tasks of crates/bench_fractions: GMP's mpq and FLINT's fmpq.
 *   peers gmp|flint [within]
 * Neither has a width. With `within` a result that passes 2^127 - 1 is counted as wide, to compare the answers;
 * without it each result is kept, as both go on past 128 bits. */
#include <flint/flint.h>
#include <flint/fmpq.h>
#include <stdbool.h>
#include <stdint.h>
#include <stdio.h>
#include <stdlib.h>
#include <string.h>

typedef unsigned __int128 size128;

static uint64_t next(uint64_t *state)
{
    *state = *state * 6364136223846793005u + 1442695040888963407u;
    return *state >> 16;
}

static size128 size_of(uint64_t *state, const char *digits)
{
    if (strcmp(digits, "small") == 0)
        return next(state) % 999 + 1;
    if (strcmp(digits, "middle") == 0)
        return next(state) % 999999999999999 + 1;
    size128 high = next(state) % 0x8000;
    size128 middle = next(state) % 0x100000000;
    size128 low = next(state) % 0x100000000;
    return ((size128)1 << 119) + (high << 64) + (middle << 32) + low;
}

static void set(mpz_t z, size128 size)
{
    mpz_set_ui(z, (uint64_t)(size >> 64));
    mpz_mul_2exp(z, z, 64);
    mpz_add_ui(z, z, (uint64_t)size);
}

static mpq_t *operands(const char *digits, uint64_t seed, size_t count, bool is_turned)
{
    uint64_t shared = 1, numbers = seed;
    size128 both[2];
    both[0] = size_of(&shared, digits);
    both[1] = size_of(&shared, digits);
    mpq_t *list = malloc(count * sizeof(mpq_t));
    for (size_t place = 0; place < count; place++) {
        size128 n, d;
        bool is_negative;
        if (strcmp(digits, "mixed") == 0) {
            uint64_t kind = next(&numbers) % 10;
            uint64_t most = kind == 9 ? 9999999999 : 99;
            n = next(&numbers) % most + 1;
            is_negative = next(&numbers) % 2 == 1;
            d = kind < 4 ? 1 : kind < 7 ? 2 : kind < 9 ? 3 : next(&numbers) % most + 1;
        } else {
            n = size_of(&numbers, digits);
            is_negative = next(&numbers) % 2 == 1;
            d = strcmp(digits, "large") == 0 ? both[place % 2] : size_of(&numbers, digits);
        }
        mpq_init(list[place]);
        set(mpq_numref(list[place]), is_turned ? d : n);
        set(mpq_denref(list[place]), is_turned ? n : d);
        mpq_canonicalize(list[place]);
        if (is_negative)
            mpq_neg(list[place], list[place]);
    }
    return list;
}

struct total {
    uint64_t sum, wide;
    bool is_compared;
};

static void with(struct total *total, uint64_t numer, uint64_t denom, bool is_negative)
{
    total->sum = total->sum * 31 + numer + denom + is_negative;
}

static void with_mpq(struct total *total, const mpq_t x)
{
    if (total->is_compared && (mpz_sizeinbase(mpq_numref(x), 2) > 127 || mpz_sizeinbase(mpq_denref(x), 2) > 127)) {
        total->wide++;
        return;
    }
    with(total, mpz_get_ui(mpq_numref(x)), mpz_get_ui(mpq_denref(x)), mpq_sgn(x) < 0);
}

static void with_fmpq(struct total *total, const fmpq_t x)
{
    if (total->is_compared && (fmpz_bits(fmpq_numref(x)) > 127 || fmpz_bits(fmpq_denref(x)) > 127)) {
        total->wide++;
        return;
    }
    with(total, fmpz_get_ui(fmpq_numref(x)), fmpz_get_ui(fmpq_denref(x)), fmpq_sgn(x) < 0);
}

static void run_gmp(struct total *total, const char *operation, mpq_t *left, mpq_t *right, size_t count, size_t rounds)
{
    void (*apply)(mpq_t, const mpq_t, const mpq_t) = strcmp(operation, "sum") == 0 ? mpq_add : mpq_mul;
    mpq_t made;
    mpq_init(made);
    for (size_t round = 0; round < rounds; round++)
        for (size_t i = 0; i < count; i++)
            for (size_t j = 0; j < count; j++) {
                apply(made, left[i], right[j]);
                with_mpq(total, made);
            }
    mpq_clear(made);
}

static fmpq *as_fmpq(mpq_t *list, size_t count)
{
    fmpq *copies = malloc(count * sizeof(fmpq));
    for (size_t place = 0; place < count; place++) {
        fmpq_init(copies + place);
        fmpq_set_mpq(copies + place, list[place]);
    }
    return copies;
}

static void run_flint(struct total *total, const char *operation, mpq_t *left, mpq_t *right, size_t count, size_t rounds)
{
    void (*apply)(fmpq_t, const fmpq_t, const fmpq_t) = strcmp(operation, "sum") == 0 ? fmpq_add : fmpq_mul;
    fmpq *first = as_fmpq(left, count), *second = as_fmpq(right, count);
    fmpq_t made;
    fmpq_init(made);
    for (size_t round = 0; round < rounds; round++)
        for (size_t i = 0; i < count; i++)
            for (size_t j = 0; j < count; j++) {
                apply(made, first + i, second + j);
                with_fmpq(total, made);
            }
    fmpq_clear(made);
}

int main(int argc, char **argv)
{
    char digits[16], operation[16];
    size_t count, rounds;
    bool is_flint = argc > 1 && strcmp(argv[1], "flint") == 0;
    while (scanf("%15s %15s %zu %zu", digits, operation, &count, &rounds) == 4) {
        struct total total = {0, 0, argc > 2};
        mpq_t *left = operands(digits, 2, count, false);
        mpq_t *right = operands(digits, 3, count, strcmp(operation, "product") == 0);
        (is_flint ? run_flint : run_gmp)(&total, operation, left, right, count, rounds);
        printf("%s %s %zu %zu: %llu wide %llu\n", digits, operation, count, rounds, (unsigned long long)total.sum, (unsigned long long)total.wide);
    }
    return 0;
}
