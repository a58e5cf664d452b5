/* Writes the stored list of the gate, by the plain version alone. Argument: the folder of the crate c_answers, in which this makes the files of data/, args
 * and stdout, what the crate's program must print. The crate's README states the format, and what is altered in altered.txt. */
#include "random.h"
#include "sample_poly_cbd.h"

#include <inttypes.h>
#include <stdio.h>
#include <stdlib.h>
#include <string.h>

#define MOST_BYTES 512
#define MOST_OUTPUT 512
#define RANDOM_STRINGS 60

/* What no coefficient is, which a refused output must keep. */
#define HELD 9999

/* A line as its numbers, in text: eta, the byte count, the bytes, the output length, the number and, where that is 0, the coefficients. */
#define TOKENS (4 + MOST_BYTES + MOST_OUTPUT + 1)
struct line {
    size_t count, numbers_begin;
    char token[TOKENS][24];
};

/* Where the tokens of a line stand. */
#define ETA 0
#define BYTE_COUNT 1
#define BYTES 2
#define OUTPUT_LENGTH(line) ((line)->numbers_begin)
#define NUMBER(line) ((line)->numbers_begin + 1)
#define COEFFICIENTS(line) ((line)->numbers_begin + 2)

static const char *folder;
static FILE *args, *expected;
static uint64_t random_state = 203;

static void stop(const char *what)
{
    fprintf(stderr, "answers: %s\n", what);
    exit(1);
}

static FILE *create(const char *name)
{
    char path[1024];
    if (snprintf(path, sizeof path, "%s/%s", folder, name) >= (int)sizeof path) {
        stop("the folder's name is too long");
    }
    FILE *file = fopen(path, "w");
    if (file == NULL) {
        stop(path);
    }
    return file;
}

static void add(struct line *line, uint64_t number)
{
    snprintf(line->token[line->count++], sizeof line->token[0], "%" PRIu64, number);
}

/* The request for the polynomial of some bytes with the plain version's answer. */
static struct line answered(uint32_t eta, const uint8_t *bytes, size_t byte_length, size_t output_length)
{
    static struct line line;
    static uint64_t output[MOST_OUTPUT];
    line.count = 0;
    add(&line, eta);
    add(&line, byte_length);
    for (size_t i = 0; i < byte_length; i++) {
        add(&line, bytes[i]);
    }
    for (size_t i = 0; i < output_length; i++) {
        output[i] = HELD;
    }
    int number = sample_poly_cbd_plain(output, output_length, eta, bytes, byte_length);
    line.numbers_begin = line.count;
    add(&line, output_length);
    add(&line, (uint64_t)number);
    for (size_t i = 0; i < output_length; i++) {
        if (number == 0) {
            add(&line, output[i]);
        } else if (output[i] != HELD) {
            stop("a refused output was written");
        }
    }
    return line;
}

/* A file of the list, how many lines it has, and how many lines all files before it have. */
static FILE *list;
static uint64_t lines, total;

static void put_unended(const struct line *line)
{
    for (size_t i = 0; i < line->count; i++) {
        fprintf(list, "%s%s", i == 0 ? "" : " ", line->token[i]);
    }
    lines++;
}

static void put(const struct line *line)
{
    put_unended(line);
    fputc('\n', list);
}

static void begin_list(const char *name)
{
    char path[64];
    snprintf(path, sizeof path, "data/%s", name);
    list = create(path);
    lines = 0;
}

/* Ends a file all of whose lines must agree. */
static void end_list(const char *name)
{
    if (fclose(list) != 0) {
        stop(name);
    }
    fprintf(args, "%s\n", name);
    fprintf(expected, "%s: %" PRIu64 " answers, %" PRIu64 " agree\n", name, lines, lines);
    total += lines;
}

static struct line random_line(uint32_t eta, size_t byte_length, size_t output_length)
{
    uint8_t bytes[MOST_BYTES];
    random_bytes(&random_state, bytes, byte_length);
    return answered(eta, bytes, byte_length, output_length);
}

/* Random byte strings. The first is handed back. */
static struct line random_lines(const char *name, uint32_t eta)
{
    static struct line first;
    begin_list(name);
    for (int k = 0; k < RANDOM_STRINGS; k++) {
        struct line line = random_line(eta, 64 * eta, CBD_N);
        put(&line);
        if (k == 0) {
            first = line;
        }
    }
    end_list(name);
    return first;
}

static void put_bytes(uint32_t eta, const uint8_t *bytes)
{
    struct line line = answered(eta, bytes, 64 * eta, CBD_N);
    put(&line);
}

/* Edge strings of one eta: a byte value throughout; one bit set or cleared, one byte set, at and beside the ends of groups, bytes and the string;
 * bytes that count up and down. */
static void edge_lines(uint32_t eta)
{
    static const uint8_t values[] = {0x00, 0xff, 0x55, 0xaa, 0x33, 0xcc, 0x0f, 0xf0, 0x01, 0x80};
    size_t bits[] = {0, eta - 1, eta, 2 * eta - 1, 2 * eta, 7, 8, 15, 16, 8 * 32 * eta - 1, 8 * 32 * eta, 8 * 64 * eta - 2 * eta, 8 * 64 * eta - 1};
    size_t places[] = {0, 32 * eta, 64 * eta - 1};
    uint8_t bytes[MOST_BYTES];
    for (size_t v = 0; v < sizeof values; v++) {
        memset(bytes, values[v], sizeof bytes);
        put_bytes(eta, bytes);
    }
    for (int ground = 0; ground < 256; ground += 255) {
        memset(bytes, ground, sizeof bytes);
        for (size_t b = 0; b < sizeof bits / sizeof *bits; b++) {
            bytes[bits[b] / 8] ^= (uint8_t)(1 << bits[b] % 8);
            put_bytes(eta, bytes);
            bytes[bits[b] / 8] = (uint8_t)ground;
        }
        for (size_t p = 0; p < sizeof places / sizeof *places; p++) {
            bytes[places[p]] = 0xb2;
            put_bytes(eta, bytes);
            bytes[places[p]] = (uint8_t)ground;
        }
    }
    for (int down = 0; down < 2; down++) {
        for (size_t i = 0; i < sizeof bytes; i++) {
            bytes[i] = (uint8_t)(down ? 255 - i : i);
        }
        put_bytes(eta, bytes);
    }
}

static void put_refusal(uint32_t eta, size_t byte_length, size_t output_length)
{
    struct line line = random_line(eta, byte_length, output_length);
    if (strcmp(line.token[NUMBER(&line)], "0") == 0) {
        stop("a refusal was answered");
    }
    put(&line);
}

/* An eta other than 2 and 3 with lengths that would be right, or with others: 27 in every case. Then lengths beside the right ones: 28. */
static void refusal_lines(void)
{
    static const uint32_t etas[] = {0,   1,     4,          5,          6,          7,          8,          32,         33,
                                    255, 258,   259,        65538,      65539,      0x04000002, 0x04000003, 0x80000000, 0x80000002,
                                    0x80000003, 0xfffffffe, 0xffffffff};
    static const size_t byte_lengths[] = {0, 1, 64, 127, 128, 129, 191, 192, 193, 256};
    static const size_t output_lengths[] = {0, 1, 128, 192, 255, 256, 257, 512};
    for (size_t e = 0; e < sizeof etas / sizeof *etas; e++) {
        put_refusal(etas[e], 128, CBD_N);
        put_refusal(etas[e], 192, CBD_N);
        put_refusal(etas[e], etas[e] <= 8 ? 64 * etas[e] : 0, e % 2 == 0 ? CBD_N : 0);
    }
    for (uint32_t eta = 2; eta <= 3; eta++) {
        for (size_t b = 0; b < sizeof byte_lengths / sizeof *byte_lengths; b++) {
            if (byte_lengths[b] != 64 * eta) {
                put_refusal(eta, byte_lengths[b], CBD_N);
            }
        }
        for (size_t o = 0; o < sizeof output_lengths / sizeof *output_lengths; o++) {
            if (output_lengths[o] != CBD_N) {
                put_refusal(eta, 64 * eta, output_lengths[o]);
                put_refusal(eta, 64 * eta - 1, output_lengths[o]);
            }
        }
    }
}

/* A line with the token at a place set, with one put before it, or without it. */
static void put_set(struct line line, size_t at, const char *text)
{
    snprintf(line.token[at], sizeof line.token[at], "%s", text);
    put(&line);
}

static void put_added(struct line line, size_t at, const char *text)
{
    memmove(line.token + at + 1, line.token + at, (line.count - at) * sizeof *line.token);
    line.count++;
    put_set(line, at, text);
}

static void put_removed(struct line line, size_t at)
{
    line.count--;
    memmove(line.token + at, line.token + at + 1, (line.count - at) * sizeof *line.token);
    put(&line);
}

/* A line up to a place. */
static void put_cut(struct line line, size_t count)
{
    line.count = count;
    put(&line);
}

/* The number at a place, and a line with another there. */
static uint64_t value_at(const struct line *line, size_t at)
{
    return strtoull(line->token[at], NULL, 10);
}

static void put_value(struct line line, size_t at, uint64_t value)
{
    char text[24];
    snprintf(text, sizeof text, "%" PRIu64, value);
    put_set(line, at, text);
}

/* Where the first coefficient of a value stands. */
static size_t find(const struct line *line, const char *value)
{
    for (size_t i = COEFFICIENTS(line); i < line->count; i++) {
        if (strcmp(line->token[i], value) == 0) {
            return i;
        }
    }
    stop("no such coefficient");
    return 0;
}

/* A line with the first two neighbours among its coefficients that differ exchanged. */
static void put_exchanged(struct line line)
{
    char kept[24];
    size_t i = COEFFICIENTS(&line);
    while (strcmp(line.token[i], line.token[i + 1]) == 0) {
        i++;
    }
    memcpy(kept, line.token[i], sizeof kept);
    memcpy(line.token[i], line.token[i + 1], sizeof kept);
    put_set(line, i + 1, kept);
}

/* Coefficients and numbers that are not the answer's. */
static void wrong_answers(struct line two, struct line three, struct line bad_eta, struct line bad_bytes, struct line bad_output)
{
    put_set(two, find(&two, "0"), "1");
    put_value(three, three.count - 1, (value_at(&three, three.count - 1) + 1) % CBD_Q);
    put_exchanged(two);
    put_set(two, find(&two, "0"), "3329");
    put_set(two, find(&two, "3328"), "-1");
    put_set(two, find(&two, "3328"), "4294967295");
    put_set(two, find(&two, "3328"), "18446744073709551615");
    put_removed(two, two.count - 1);
    put_added(two, two.count, "0");
    put_set(two, NUMBER(&two), "27");
    put_cut(two, COEFFICIENTS(&two));
    put_set(bad_eta, NUMBER(&bad_eta), "28");
    put_set(bad_bytes, NUMBER(&bad_bytes), "27");
    put_set(bad_output, NUMBER(&bad_output), "0");
    put_added(bad_eta, bad_eta.count, "0");
}

/* Requests that are not the answer's. */
static void wrong_requests(struct line two, struct line three)
{
    put_value(two, BYTES, value_at(&two, BYTES) ^ 1);
    put_value(three, OUTPUT_LENGTH(&three) - 1, value_at(&three, OUTPUT_LENGTH(&three) - 1) ^ 128);
    put_value(two, BYTES, value_at(&two, BYTES) + 256);
    put_set(two, ETA, "3");
    put_set(three, ETA, "2");
    put_set(two, ETA, "4294967298");
    put_set(two, BYTE_COUNT, "127");
    put_set(two, BYTE_COUNT, "129");
    put_removed(two, BYTES);
    put_set(two, OUTPUT_LENGTH(&two), "255");
    put_set(two, OUTPUT_LENGTH(&two), "1000000");
    put_set(two, BYTE_COUNT, "1000000");
}

/* Lines of another form. */
static void wrong_forms(struct line two)
{
    put_set(two, find(&two, "0"), "o");
    put_set(two, find(&two, "0"), "-0");
    put_set(two, find(&two, "1"), "+1");
    put_set(two, find(&two, "1"), "01");
    put_set(two, find(&two, "1"), "1.");
    put_added(two, BYTES, "");
    put_added(two, two.count, "");
    put_cut(two, 0);
    put_cut(two, ETA + 1);
    put_cut(two, OUTPUT_LENGTH(&two));
    put_cut(two, NUMBER(&two));
}

/* Five stored lines, which agree, and then the same with one thing changed in each, which do not. */
static void altered_lines(const struct line *two, const struct line *three)
{
    struct line bad_eta = random_line(4, 3, CBD_N), bad_bytes = random_line(2, 3, CBD_N), bad_output = random_line(2, 128, 255);
    begin_list("altered.txt");
    put(two);
    put(three);
    put(&bad_eta);
    put(&bad_bytes);
    put(&bad_output);
    uint64_t agree = lines;
    wrong_answers(*two, *three, bad_eta, bad_bytes, bad_output);
    wrong_requests(*two, *three);
    wrong_forms(*two);
    put_unended(&bad_eta);
    if (fclose(list) != 0) {
        stop("altered.txt");
    }
    for (uint64_t k = agree + 1; k <= lines; k++) {
        fprintf(expected, "line %" PRIu64 " does not agree\n", k);
    }
    fprintf(expected, "altered.txt: %" PRIu64 " answers, %" PRIu64 " agree\n", lines, agree);
}

int main(int argc, char **argv)
{
    if (argc != 2) {
        stop("the folder of the crate c_answers is the one argument");
    }
    folder = argv[1];
    args = create("args");
    expected = create("stdout");
    struct line two = random_lines("eta_2.txt", 2);
    struct line three = random_lines("eta_3.txt", 3);
    begin_list("edges.txt");
    edge_lines(2);
    edge_lines(3);
    end_list("edges.txt");
    begin_list("refusals.txt");
    refusal_lines();
    end_list("refusals.txt");
    fprintf(expected, "total: %" PRIu64 " answers, %" PRIu64 " agree\n", total, total);
    altered_lines(&two, &three);
    if (fclose(args) != 0 || fclose(expected) != 0) {
        stop("args or stdout");
    }
    return 0;
}
