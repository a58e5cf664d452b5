/* Nanoseconds a coefficient of the plain version and of the engine: the same bytes, taken in turn, the least of many rounds.
 * Argument: the number of rounds (2,000 where none is given). */
#define _POSIX_C_SOURCE 199309L
#include "constant_eta.h"
#include "engine.h"
#include "random.h"
#include "sample_poly_cbd.h"

#include <stdio.h>
#include <stdlib.h>
#include <time.h>

/* Byte strings, and outputs in a row: 4 MB of coefficients, which no inner cache holds. No branch predictor learns so many bytes by heart. */
#define STRINGS 2048
/* Polynomials in one round. */
#define ROUND 64
#define MOST_ETA 3

typedef int sampler(uint64_t *output, size_t output_length, uint32_t eta, const uint8_t *bytes, size_t byte_length);

/* The plain version and its copies with a constant eta, compiled for the machine at hand. */
sampler sample_poly_cbd_plain_native, sample_poly_cbd_constant_eta_native;

static int engine(uint64_t *output, size_t output_length, uint32_t eta, const uint8_t *bytes, size_t byte_length)
{
    return (int)beside_sample_poly_cbd(output, output_length, eta, bytes, byte_length);
}

#ifdef __clang__
#define COMPILER __VERSION__
#else
#define COMPILER "GCC " __VERSION__
#endif

#define SIDES 5
static sampler *const sides[SIDES] = {sample_poly_cbd_plain, sample_poly_cbd_constant_eta, sample_poly_cbd_plain_native,
                                      sample_poly_cbd_constant_eta_native, engine};

static uint8_t bytes[64 * MOST_ETA * STRINGS];
static uint64_t outputs[CBD_N * STRINGS];

static double nanoseconds(void)
{
    struct timespec time;
    clock_gettime(CLOCK_MONOTONIC, &time);
    return (double)time.tv_sec * 1e9 + (double)time.tv_nsec;
}

/* A round of one side, from a string on: from an output on each into its own, or all into the first. Hands back the nanoseconds a coefficient. */
static double measure(sampler *side, uint32_t eta, const uint8_t *string, uint64_t *output, int in_a_row)
{
    double begin = nanoseconds();
    for (size_t k = 0; k < ROUND; k++) {
        if (side(output + (in_a_row ? CBD_N * k : 0), CBD_N, eta, string + 64 * eta * k, 64 * eta) != 0) {
            abort();
        }
    }
    return (nanoseconds() - begin) / (CBD_N * ROUND);
}

static double least(double a, double b)
{
    return a < b ? a : b;
}

/* One row of the table: in each round all sides on the same strings, another side first, and the least of the rounds. Outputs in a row move on from
 * side to side, so that none finds its own in the cache. */
static void print_row(const char *what, uint32_t eta, int in_a_row, unsigned long rounds)
{
    double times[SIDES] = {1e9, 1e9, 1e9, 1e9, 1e9};
    for (unsigned long turn = 0; turn < SIDES * rounds; turn++) {
        unsigned long round = turn / SIDES, side = (turn + round) % SIDES;
        const uint8_t *string = bytes + 64 * eta * (ROUND * round % STRINGS);
        uint64_t *output = outputs + (in_a_row ? CBD_N * (ROUND * turn % STRINGS) : 0);
        times[side] = least(times[side], measure(sides[side], eta, string, output, in_a_row));
    }
    double plain = least(times[0], times[1]), native = least(times[2], times[3]);
    printf("| %u | %s | %.2f | %.2f | %.2f | %.2f | %.2f | %.2f | %.2f |\n", (unsigned)eta, what, times[0], times[1], times[2], times[3], times[4],
           times[4] / plain, times[4] / native);
}

int main(int argc, char **argv)
{
    unsigned long rounds = argc > 1 ? strtoul(argv[1], NULL, 10) : 2000;
    uint64_t random = 1;
    random_bytes(&random, bytes, sizeof bytes);
    printf("C by %s; %lu rounds; nanoseconds a coefficient\n\n", COMPILER, rounds);
    printf("| eta | polynomials | C -O3 | its eta constant | C -O3 -march=native | its eta constant | engine | engine / C -O3 | engine / native C |\n");
    printf("|---|---|---|---|---|---|---|---|---|\n");
    for (uint32_t eta = 2; eta <= 3; eta++) {
        print_row("one at a time, in cache", eta, 0, rounds);
        print_row("2,048 in a row", eta, 1, rounds);
    }
    return 0;
}
