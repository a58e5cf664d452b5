/* Nanoseconds a coefficient of the desk's entry, beside the engine's own call on words and coefficients that are no bytes: the same words, in turns, the
 * least of many rounds. Argument: the number of rounds (2,000 where none is given). It needs libbeside.a, which `bash tools/staticlib.sh beside` writes. */
#define _POSIX_C_SOURCE 199309L
#include "desk.h"
#include "sheet.h"

#include <inttypes.h>
#include <stdio.h>
#include <stdlib.h>
#include <string.h>
#include <time.h>

/* The engine's calls, from libbeside.a. A slice passes as a pointer, never null, and a length. */
uint32_t beside_signed(uint32_t kind, size_t a, size_t b, double p, double q, const uint64_t *bounds, size_t bounds_length, const uint64_t *endpoints,
                       size_t endpoints_length, const double *heights, size_t heights_length, const double *curve, size_t curve_length,
                       const uint32_t *words, size_t words_length, size_t place, int64_t *output, size_t output_length, size_t *new_place,
                       size_t *index, uint64_t *skipped_words, uint64_t *skipped_bytes);
uint32_t beside_encoded(uint32_t kind, size_t a, size_t b, double p, double q, uint64_t modulus, const uint64_t *bounds, size_t bounds_length,
                        const uint64_t *endpoints, size_t endpoints_length, const double *heights, size_t heights_length, const double *curve,
                        size_t curve_length, const uint32_t *words, size_t words_length, size_t place, uint64_t *output, size_t output_length,
                        size_t *new_place, size_t *index, uint64_t *skipped_words, uint64_t *skipped_bytes);

#define MODULUS 3329

/* A question of n coefficients; A and B are n over these, or the number itself where `fixed`. */
struct row {
    uint32_t kind;
    uint32_t over_a, over_b;
    int fixed;
};

static const struct row rows[] = {{1, 0, 0, 0}, {2, 0, 0, 0}, {3, 0, 0, 0}, {4, 8, 0, 0}, {5, 8, 0, 1}, {6, 64, 0, 1}, {7, 2, 0, 0}, {8, 3, 3, 0}, {9, 2, 0, 1}};

static uint32_t words[DESK_MAX_WORDS];
static uint8_t word_bytes[DESK_WORD_BYTES * DESK_MAX_WORDS], output_bytes[DESK_COEFFICIENT_BYTES * DESK_MAX_COEFFICIENTS];
static int64_t coefficients[DESK_MAX_COEFFICIENTS];
static uint64_t residues[DESK_MAX_COEFFICIENTS];

static double now(void)
{
    struct timespec t;
    clock_gettime(CLOCK_MONOTONIC, &t);
    return 1e9 * (double)t.tv_sec + (double)t.tv_nsec;
}

/* Fresh words, in both forms. */
static void draw_words(uint64_t *state)
{
    for (size_t i = 0; i < DESK_MAX_WORDS; i++) {
        *state ^= *state << 13;
        *state ^= *state >> 7;
        *state ^= *state << 17;
        words[i] = (uint32_t)(*state >> 16);
        for (int j = 0; j < DESK_WORD_BYTES; j++) {
            word_bytes[DESK_WORD_BYTES * i + (size_t)j] = (uint8_t)(words[i] >> 8 * j);
        }
    }
}

/* A draw must succeed, or its time tells nothing. */
static void must(uint32_t number)
{
    if (number != 0) {
        fprintf(stderr, "bench: refused by %" PRIu32 "\n", number);
        exit(1);
    }
}

static double time_desk(uint32_t kind, uint32_t a, uint32_t b, uint32_t modulus, size_t n, size_t words_length)
{
    size_t place = 0;
    uint64_t skipped_words, skipped_bytes;
    double start = now();
    must(desk_draw(kind, a, b, modulus, word_bytes, DESK_WORD_BYTES * words_length, output_bytes, DESK_COEFFICIENT_BYTES * n, &place, &skipped_words,
                   &skipped_bytes));
    return now() - start;
}

static double time_engine(uint32_t kind, uint32_t a, uint32_t b, uint32_t modulus, size_t n, size_t words_length)
{
    static const uint64_t none[1];
    static const double nothing[1];
    size_t place, index;
    uint64_t skipped_words, skipped_bytes;
    double start = now();
    if (modulus == 0) {
        must(beside_signed(kind, a, b, 0, 0, none, 0, none, 0, nothing, 0, nothing, 0, words, words_length, 0, coefficients, n, &place, &index,
                           &skipped_words, &skipped_bytes));
    } else {
        must(beside_encoded(kind, a, b, 0, 0, modulus, none, 0, none, 0, nothing, 0, nothing, 0, words, words_length, 0, residues, n, &place, &index,
                            &skipped_words, &skipped_bytes));
    }
    return now() - start;
}

/* The least time of each side, a coefficient. As many words are lent as the coefficients, twice as many for 64-bit words. */
static void measure(const struct row *row, uint32_t modulus, size_t n, long rounds, double least[2])
{
    uint64_t state = 88172645463325252;
    uint32_t a = row->fixed ? row->over_a : row->over_a ? (uint32_t)n / row->over_a : 0, b = row->over_b ? (uint32_t)n / row->over_b : 0;
    size_t words_length = row->kind == DESK_CENTERED_BINOMIAL ? 2 * n : n;
    least[0] = least[1] = 1e18;
    for (long i = 0; i < rounds; i++) {
        draw_words(&state);
        double times[2] = {time_desk(row->kind, a, b, modulus, n, words_length), time_engine(row->kind, a, b, modulus, n, words_length)};
        for (int side = 0; side < 2; side++) {
            least[side] = times[side] < least[side] ? times[side] : least[side];
        }
    }
}

int main(int argc, char **argv)
{
    static const size_t lengths[] = {1024, 4096};
    long rounds = argc > 1 ? atol(argv[1]) : 2000;
    printf("desk / engine, ns a coefficient\n");
    for (size_t i = 0; i < sizeof rows / sizeof *rows; i++) {
        for (uint32_t modulus = 0; modulus <= MODULUS; modulus += MODULUS) {
            printf("%-28s %-9s", kind_name(rows[i].kind), modulus ? "residues" : "signed");
            for (size_t j = 0; j < sizeof lengths / sizeof *lengths; j++) {
                double least[2];
                measure(&rows[i], modulus, lengths[j], rounds, least);
                printf("  n = %zu: %.2f / %.2f", lengths[j], least[0] / (double)lengths[j], least[1] / (double)lengths[j]);
            }
            printf("\n");
        }
    }
    return 0;
}
