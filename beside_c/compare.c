/* Compares the engine with the plain version: the number, every element of the output, and that neither side changes anything else.
 * Arguments: the number of random byte strings for each eta (1,000,000 where none is given) and a seed (1). */
#include "engine.h"
#include "random.h"
#include "sample_poly_cbd.h"

#include <inttypes.h>
#include <stdio.h>
#include <stdlib.h>
#include <string.h>

/* Elements before and after an output and the bytes, which no call may change. */
#define GUARD 16
#define MOST_OUTPUT 512
#define MOST_BYTES 4096
/* Disagreements that are printed whole. */
#define SHOWN 10

enum { PLAIN, ENGINE, SIDES };

/* What each side is lent, guards included: the output, which starts as `held`, and the bytes, which must stay as `lent`. */
static uint64_t held[GUARD + MOST_OUTPUT + GUARD];
static uint64_t outputs[SIDES][GUARD + MOST_OUTPUT + GUARD];
static uint8_t lent[GUARD + MOST_BYTES + GUARD];
static uint8_t byte_strings[SIDES][GUARD + MOST_BYTES + GUARD];

/* How many requests of one kind were asked, how many had which number, and how many were answered otherwise by the engine. */
struct tally {
    uint64_t requests, zeros, refused_eta, refused_length, other_numbers, disagreements;
};

static struct tally total;
static uint64_t shown;

/* How often each value came from random bytes, for eta 2 and 3; the last place is for everything that is no coefficient. */
static uint64_t spread[SIDES][2][CBD_Q + 1];

/* Prints one of the first disagreements: what differs, and what it is on both sides. */
static void disagree(const char *what, uint32_t eta, size_t byte_length, size_t output_length, uint64_t plain, uint64_t engine)
{
    if (shown++ < SHOWN) {
        printf("disagreement: eta %" PRIu32 ", %zu bytes, output of %zu: %s: C %" PRIu64 ", engine %" PRIu64 "\n", eta, byte_length,
               output_length, what, plain, engine);
    }
}

/* Whether a side left everything alone that it may not write: the guards, the bytes, and after a refusal the output. */
static int left_alone(int side, uint32_t number, size_t byte_length, size_t output_length)
{
    const uint64_t *output = outputs[side];
    size_t after = GUARD + output_length;
    return memcmp(output, held, GUARD * sizeof *output) == 0 && memcmp(output + after, held + after, GUARD * sizeof *output) == 0
        && memcmp(byte_strings[side], lent, GUARD + byte_length + GUARD) == 0
        && (number == 0 || memcmp(output, held, (after + GUARD) * sizeof *output) == 0);
}

static void count_request(struct tally *tally, uint32_t number, int agree)
{
    tally->requests++;
    tally->zeros += number == 0;
    tally->refused_eta += number == INVALID_CBD_ETA;
    tally->refused_length += number == INVALID_CBD_LENGTH;
    tally->other_numbers += number != 0 && number != INVALID_CBD_ETA && number != INVALID_CBD_LENGTH;
    tally->disagreements += !agree;
}

/* Asks both sides for the polynomial of the bytes that stand in `lent` after its first guard, and compares. */
static void ask(struct tally *tally, uint32_t eta, size_t byte_length, size_t output_length)
{
    uint32_t numbers[SIDES];
    for (int side = 0; side < SIDES; side++) {
        memcpy(outputs[side], held, (GUARD + output_length + GUARD) * sizeof *held);
        memcpy(byte_strings[side], lent, GUARD + byte_length + GUARD);
    }
    numbers[PLAIN] = (uint32_t)sample_poly_cbd_plain(outputs[PLAIN] + GUARD, output_length, eta, byte_strings[PLAIN] + GUARD, byte_length);
    numbers[ENGINE] = beside_sample_poly_cbd(outputs[ENGINE] + GUARD, output_length, eta, byte_strings[ENGINE] + GUARD, byte_length);
    int left[SIDES] = {left_alone(PLAIN, numbers[PLAIN], byte_length, output_length), left_alone(ENGINE, numbers[ENGINE], byte_length, output_length)};
    size_t same = 0;
    while (same < output_length && outputs[PLAIN][GUARD + same] == outputs[ENGINE][GUARD + same]) {
        same++;
    }
    if (numbers[PLAIN] != numbers[ENGINE]) {
        disagree("number", eta, byte_length, output_length, numbers[PLAIN], numbers[ENGINE]);
    } else if (!left[PLAIN] || !left[ENGINE]) {
        disagree("left alone what must be (1 if so)", eta, byte_length, output_length, (uint64_t)left[PLAIN], (uint64_t)left[ENGINE]);
    } else if (same < output_length) {
        char what[48];
        snprintf(what, sizeof what, "element %zu", same);
        disagree(what, eta, byte_length, output_length, outputs[PLAIN][GUARD + same], outputs[ENGINE][GUARD + same]);
    }
    int agree = numbers[PLAIN] == numbers[ENGINE] && left[PLAIN] && left[ENGINE] && same == output_length;
    count_request(tally, numbers[PLAIN], agree);
}

static void print_tally(const char *kind, struct tally tally)
{
    printf("| %s | %" PRIu64 " | %" PRIu64 " | %" PRIu64 " | %" PRIu64 " | %" PRIu64 " | %" PRIu64 " |\n", kind, tally.requests, tally.zeros,
           tally.refused_eta, tally.refused_length, tally.other_numbers, tally.disagreements);
}

/* Prints the counts of one kind and adds them to the total. */
static void end_kind(const char *kind, uint32_t eta, struct tally tally)
{
    char name[96];
    snprintf(name, sizeof name, eta == 0 ? "%s" : "%s, eta %" PRIu32, kind, eta);
    print_tally(name, tally);
    total.requests += tally.requests;
    total.zeros += tally.zeros;
    total.refused_eta += tally.refused_eta;
    total.refused_length += tally.refused_length;
    total.other_numbers += tally.other_numbers;
    total.disagreements += tally.disagreements;
}

/* Random byte strings, and how often each value came of them. */
static void compare_random(uint32_t eta, uint64_t count, uint64_t *random)
{
    struct tally tally = {0};
    for (uint64_t k = 0; k < count; k++) {
        random_bytes(random, lent + GUARD, 64 * eta);
        ask(&tally, eta, 64 * eta, CBD_N);
        for (int side = 0; side < SIDES; side++) {
            for (size_t i = 0; i < CBD_N; i++) {
                uint64_t value = outputs[side][GUARD + i];
                spread[side][eta - 2][value < CBD_Q ? value : CBD_Q]++;
            }
        }
    }
    end_kind("random bytes", eta, tally);
}

/* Each byte value throughout: all 0x00, 0x55, 0xaa and 0xff are among them. */
static void compare_constant_bytes(uint32_t eta)
{
    struct tally tally = {0};
    for (int value = 0; value < 256; value++) {
        memset(lent + GUARD, value, 64 * eta);
        ask(&tally, eta, 64 * eta, CBD_N);
    }
    end_kind("one byte value throughout", eta, tally);
}

/* Each single bit set among zeros, and each cleared among ones. */
static void compare_single_bits(uint32_t eta)
{
    struct tally tally = {0};
    for (int ground = 0; ground < 256; ground += 255) {
        memset(lent + GUARD, ground, 64 * eta);
        for (size_t bit = 0; bit < 8 * 64 * eta; bit++) {
            uint8_t *byte = lent + GUARD + bit / 8;
            *byte ^= (uint8_t)(1 << bit % 8);
            ask(&tally, eta, 64 * eta, CBD_N);
            *byte = (uint8_t)ground;
        }
    }
    end_kind("one bit set, or one cleared", eta, tally);
}

/* Each byte value at the first, a middle and the last place, the others all 0x00 or all 0xff. */
static void compare_single_bytes(uint32_t eta)
{
    struct tally tally = {0};
    size_t places[3] = {0, 32 * eta, 64 * eta - 1};
    for (int ground = 0; ground < 256; ground += 255) {
        memset(lent + GUARD, ground, 64 * eta);
        for (size_t p = 0; p < 3; p++) {
            for (int value = 0; value < 256; value++) {
                lent[GUARD + places[p]] = (uint8_t)value;
                ask(&tally, eta, 64 * eta, CBD_N);
            }
            lent[GUARD + places[p]] = (uint8_t)ground;
        }
    }
    end_kind("one byte of each value", eta, tally);
}

/* Each pattern of the 2 * eta bits of each coefficient, the other bits all 0 or all 1. */
static void compare_groups(uint32_t eta)
{
    struct tally tally = {0};
    for (int ground = 0; ground < 256; ground += 255) {
        for (size_t i = 0; i < CBD_N; i++) {
            for (uint32_t pattern = 0; pattern < 1u << 2 * eta; pattern++) {
                memset(lent + GUARD, ground, 64 * eta);
                for (size_t j = 0; j < 2 * eta; j++) {
                    size_t bit = 2 * i * eta + j;
                    uint8_t mask = (uint8_t)(1 << bit % 8);
                    uint8_t *byte = lent + GUARD + bit / 8;
                    *byte = (uint8_t)(pattern >> j & 1 ? *byte | mask : *byte & ~mask);
                }
                ask(&tally, eta, 64 * eta, CBD_N);
            }
        }
    }
    end_kind("each pattern of each coefficient's bits", eta, tally);
}

/* An eta with byte lengths around every limit, and around its own 64 * eta, and output lengths around 256. */
static void compare_eta(struct tally *tally, uint32_t eta, uint64_t *random)
{
    static const size_t output_lengths[] = {0, 1, 64, 128, 192, 255, 256, 257, 384, 512};
    size_t byte_lengths[] = {0, 1, 2, 3, 63, 64, 65, 127, 128, 129, 191, 192, 193, 255, 256, 257, 320, 384, 512, 64 * (size_t)eta - 1,
                             64 * (size_t)eta, 64 * (size_t)eta + 1};
    for (size_t b = 0; b < sizeof byte_lengths / sizeof *byte_lengths; b++) {
        /* (64 * 0 - 1 is above it too.) */
        if (byte_lengths[b] > MOST_BYTES) {
            continue;
        }
        for (size_t o = 0; o < sizeof output_lengths / sizeof *output_lengths; o++) {
            random_bytes(random, lent + GUARD, byte_lengths[b]);
            ask(tally, eta, byte_lengths[b], output_lengths[o]);
        }
    }
}

/* Eta from 0 to 40, at the ends of 32 bits, and those that are 2 or 3, or give 128 or 192 bytes, once some of their bits are dropped. */
static void compare_refusals(uint64_t *random)
{
    static const uint32_t etas[] = {64,         127,        128,        255,        256,        258,        259,        65535,      65536,
                                    65538,      65539,      0x03ffffff, 0x04000000, 0x04000002, 0x04000003, 0x10000002, 0x10000003, 0x40000002,
                                    0x40000003, 0x7fffffff, 0x80000000, 0x80000002, 0x80000003, 0xfffffffd, 0xfffffffe, 0xffffffff};
    struct tally tally = {0};
    for (uint32_t eta = 0; eta <= 40; eta++) {
        compare_eta(&tally, eta, random);
    }
    for (size_t e = 0; e < sizeof etas / sizeof *etas; e++) {
        compare_eta(&tally, etas[e], random);
    }
    end_kind("etas and lengths at and beside each limit", 0, tally);
}

/* The ways in which `ones` of `bits` bits are set. */
static uint64_t ways(uint32_t bits, uint32_t ones)
{
    uint64_t product = 1;
    for (uint32_t i = 0; i < ones; i++) {
        product = product * (bits - i) / (i + 1);
    }
    return product;
}

/* The spread of the values on both sides, from -eta to eta, beside what the binomial coefficients ask of so many. */
static void print_spread(uint32_t eta, uint64_t count)
{
    printf("\n| eta %" PRIu32 ": value | C | engine | expected |\n|---|---|---|---|\n", eta);
    uint64_t others[SIDES];
    for (int side = 0; side < SIDES; side++) {
        others[side] = CBD_N * count;
    }
    for (uint32_t place = 0; place <= 2 * eta; place++) {
        uint32_t value = (CBD_Q + place - eta) % CBD_Q;
        double expected = (double)ways(2 * eta, place) / (double)(1u << 2 * eta) * (double)(CBD_N * count);
        printf("| %" PRIu32 " | %" PRIu64 " | %" PRIu64 " | %.0f |\n", value, spread[PLAIN][eta - 2][value], spread[ENGINE][eta - 2][value], expected);
        for (int side = 0; side < SIDES; side++) {
            others[side] -= spread[side][eta - 2][value];
        }
    }
    printf("| any other | %" PRIu64 " | %" PRIu64 " | 0 |\n", others[PLAIN], others[ENGINE]);
}

int main(int argc, char **argv)
{
    uint64_t count = argc > 1 ? strtoull(argv[1], NULL, 10) : 1000000;
    uint64_t seed = argc > 2 ? strtoull(argv[2], NULL, 10) : 1;
    uint64_t random = seed;
    for (size_t i = 0; i < sizeof held / sizeof *held; i++) {
        /* No coefficient has the highest bit. */
        held[i] = random_word(&random) | (uint64_t)1 << 63;
    }
    random_bytes(&random, lent, sizeof lent);
    printf("%" PRIu64 " random byte strings for each eta, seed %" PRIu64 "\n\n", count, seed);
    printf("| requests | asked | number 0 | number 27 | number 28 | any other | disagreements |\n|---|---|---|---|---|---|---|\n");
    for (uint32_t eta = 2; eta <= 3; eta++) {
        compare_constant_bytes(eta);
        compare_single_bits(eta);
        compare_single_bytes(eta);
        compare_groups(eta);
        compare_random(eta, count, &random);
    }
    compare_refusals(&random);
    print_tally("all", total);
    for (uint32_t eta = 2; eta <= 3; eta++) {
        print_spread(eta, count);
    }
    return total.disagreements != 0;
}
