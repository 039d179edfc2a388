/* A peer of the dictionaries, for the programs of bench/dictionaries.py: the same exchanges on rows of FLINT's fmpq that keep
 * the entries that aren't 0, by ascending columns. It writes the goal's equation, as crates/bench_dictionaries does. */
#include <flint/flint.h>
#include <flint/fmpq.h>
#include <stdbool.h>
#include <stdio.h>
#include <stdlib.h>
#include <string.h>

typedef struct {
    size_t count, room;
    unsigned *columns;
    fmpq *values;
} row;

static row *rows, scratch;
static size_t *places, *columns;
static size_t width, height;

static void reserve(row *r, size_t room)
{
    r->count = 0;
    r->room = room;
    r->columns = malloc((room + 1) * sizeof(unsigned));
    r->values = malloc((room + 1) * sizeof(fmpq));
    for (size_t k = 0; k <= room; k++)
        fmpq_init(r->values + k);
}

/* where the column stands, or count */
static size_t find(const row *r, unsigned column)
{
    size_t low = 0, high = r->count;
    while (low < high) {
        size_t middle = low + (high - low) / 2;
        if (r->columns[middle] == column)
            return middle;
        if (r->columns[middle] < column)
            low = middle + 1;
        else
            high = middle;
    }
    return r->count;
}

static void swap_rows(row *a, row *b)
{
    row t = *a;
    *a = *b;
    *b = t;
}

/* a and factor times b, without the column skip, into scratch */
static void merge(const row *a, const fmpq_t factor, const row *b, unsigned skip)
{
    size_t i = 0, j = 0, count = 0;
    while (i < a->count || j < b->count) {
        unsigned column;
        fmpq *out = scratch.values + count;
        if (j == b->count || (i < a->count && a->columns[i] < b->columns[j])) {
            column = a->columns[i];
            fmpq_set(out, a->values + i++);
        } else if (i == a->count || b->columns[j] < a->columns[i]) {
            column = b->columns[j];
            fmpq_mul(out, factor, b->values + j++);
        } else {
            column = a->columns[i];
            fmpq_mul(out, factor, b->values + j++);
            fmpq_add(out, out, a->values + i++);
        }
        if (column != skip && !fmpq_is_zero(out))
            scratch.columns[count++] = column;
    }
    scratch.count = count;
}

static void pivot(unsigned basic, unsigned nonbasic)
{
    size_t p = places[basic] - width;
    fmpq_t inverse, factor;
    fmpq_init(inverse);
    fmpq_init(factor);
    row *own = rows + p;
    fmpq_inv(inverse, own->values + find(own, nonbasic));
    unsigned lead_column[1] = {basic};
    row lead = {1, 1, lead_column, inverse};
    fmpq_neg(factor, inverse);
    merge(&lead, factor, own, nonbasic);
    swap_rows(own, &scratch);
    for (size_t r = 0; r <= height; r++) {
        if (r == p)
            continue;
        size_t at = find(rows + r, nonbasic);
        if (at < rows[r].count) {
            fmpq_set(factor, rows[r].values + at);
            merge(rows + r, factor, rows + p, nonbasic);
            swap_rows(rows + r, &scratch);
        }
    }
    size_t x = places[basic], y = places[nonbasic];
    columns[x] = nonbasic;
    columns[y] = basic;
    places[basic] = y;
    places[nonbasic] = x;
    fmpq_clear(inverse);
    fmpq_clear(factor);
}

typedef struct {
    size_t row;
    unsigned column;
    long value;
} entry;

static char *line(void)
{
    char *text = NULL;
    size_t size = 0;
    ssize_t length = getline(&text, &size, stdin);
    if (length > 0 && text[length - 1] == '\n')
        text[length - 1] = 0;
    return text;
}

static void put(row *r, unsigned column, long value)
{
    r->columns[r->count] = column;
    fmpq_set_si(r->values + r->count++, value, 1);
}

int main(void)
{
    char *text = line(), *costs = line(), *turns = line();
    int rounds = atoi(line());
    entry *entries = malloc((strlen(text) + 1) * sizeof(entry));
    size_t count = 0;
    for (char *at = text; *at;) {
        if (*at == ';') {
            height++;
            at++;
        } else if (*at == ' ') {
            at++;
        } else {
            unsigned column = strtoul(at, &at, 10);
            entries[count++] = (entry){height, column, strtol(at + 1, &at, 10)};
        }
    }
    height++;
    long *cost = malloc((strlen(costs) + 1) * sizeof(long));
    for (char *at = costs; *at; at += *at == ' ')
        cost[width++] = strtol(at, &at, 10);
    unsigned *pairs = malloc((strlen(turns) + 1) * sizeof(unsigned));
    size_t turned = 0;
    for (char *at = turns; *at; at += *at == ' ' || *at == ';')
        pairs[turned++] = strtoul(at, &at, 10);
    rows = malloc((height + 1) * sizeof(row));
    for (size_t r = 0; r <= height; r++)
        reserve(rows + r, width);
    reserve(&scratch, width);
    columns = malloc((width + height + 1) * sizeof(size_t));
    places = malloc((width + height + 1) * sizeof(size_t));
    for (int round = 0; round < rounds; round++) {
        for (size_t r = 0; r <= height; r++)
            rows[r].count = 0;
        for (size_t k = 0; k < count; k++)
            put(rows + entries[k].row, entries[k].column, entries[k].value);
        for (size_t j = 0; j < width; j++)
            if (cost[j] != 0)
                put(rows + height, j, cost[j]);
        for (size_t c = 0; c <= width + height; c++)
            columns[c] = places[c] = c;
        for (size_t k = 0; k < turned; k += 2)
            pivot(pairs[k], pairs[k + 1]);
    }
    printf("goal:");
    for (size_t k = 0; k < rows[height].count; k++) {
        printf(" %u*", rows[height].columns[k]);
        fmpq_print(rows[height].values + k);
    }
    printf("\n");
    return 0;
}
