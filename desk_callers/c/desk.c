/* An exam desk: hands out the question of a sheet, draws it by the entry of include/desk.h, and shows the key, or says in words why it is refused.
 *
 *   desk [--place N] SHEET          the question of one sheet
 *   desk [--place N] SHEET SHEET..  a menu of the sheets; their numbers are read from standard input, a line each; 0, or the end of the input, leaves
 *
 * N, 0 where it is not given, is the place in the words from which the draw reads. The exit status is 0 where all that was asked was drawn, 1 where something
 * was refused, and 2 for a bad command or a file that cannot be read or written. */
#include "desk.h"
#include "sheet.h"

#include <errno.h>
#include <inttypes.h>
#include <stdio.h>
#include <stdlib.h>
#include <string.h>

enum status { DRAWN, REFUSED, FAILED };

/* Columns of the screen, and those of the index before a row. */
#define COLUMNS 80
#define INDEX_COLUMNS 7

/* Prints a count of things by name: 1 word, 2 words. */
static void print_count(uint64_t count, const char *thing)
{
    printf("%" PRIu64 " %s%s", count, thing, count == 1 ? "" : "s");
}

/* What A and B are to the kind, where it has a use for them. */
static void print_parameters(const struct sheet *sheet)
{
    switch (sheet->kind) {
    case DESK_BINARY_WEIGHT:
        printf("  weight         %" PRIu32 " (A), the coefficients that are 1\n", sheet->a);
        break;
    case DESK_BLOCK_AT_MOST_ONE:
    case DESK_BLOCK_EXACTLY_ONE:
        printf("  block size     %" PRIu32 " (A)\n", sheet->a);
        break;
    case DESK_TERNARY_WEIGHT:
        printf("  weight         %" PRIu32 " (A), the coefficients that are -1 or 1\n", sheet->a);
        break;
    case DESK_COMPOSITION:
        printf("  minus ones     %" PRIu32 " (A)\n", sheet->a);
        printf("  ones           %" PRIu32 " (B)\n", sheet->b);
        break;
    case DESK_CENTERED_BINOMIAL:
        printf("  eta            %" PRIu32 " (A)\n", sheet->a);
        break;
    }
}

/* The question in words. */
static void print_question(const struct sheet *sheet, size_t place)
{
    printf("  kind           %" PRIu32 ", %s\n", sheet->kind, kind_name(sheet->kind));
    print_parameters(sheet);
    printf("  coefficients   %" PRIu32 ", ", sheet->n);
    if (sheet->modulus == 0) {
        printf("signed\n");
    } else {
        printf("as residues modulo %" PRIu32 "\n", sheet->modulus);
    }
    printf("  words          %" PRIu32 ", read from place %zu on\n", sheet->word_count, place);
}

/* A coefficient from its eight bytes, lowest first, in two's complement. */
static int64_t coefficient(const uint8_t *bytes)
{
    uint64_t value = 0;
    for (int i = DESK_COEFFICIENT_BYTES - 1; i >= 0; i--) {
        value = value << 8 | bytes[i];
    }
    return value > INT64_MAX ? -(int64_t)~value - 1 : (int64_t)value;
}

/* Prints the coefficients right-aligned in rows, before each row the index of its first. A row has as many as a power of two that the screen holds, so that
 * the indices are round. */
static void print_coefficients(const uint8_t *output, size_t n)
{
    int width = 1;
    size_t in_row = 1;
    for (size_t i = 0; i < n; i++) {
        int digits = snprintf(NULL, 0, "%" PRId64, coefficient(output + DESK_COEFFICIENT_BYTES * i));
        width = digits > width ? digits : width;
    }
    while (INDEX_COLUMNS + 2 * in_row * ((size_t)width + 1) <= COLUMNS) {
        in_row *= 2;
    }
    for (size_t i = 0; i < n; i++) {
        if (i % in_row == 0) {
            printf("%*zu:", INDEX_COLUMNS - 1, i);
        }
        printf(" %*" PRId64, width, coefficient(output + DESK_COEFFICIENT_BYTES * i));
        if (i % in_row == in_row - 1 || i == n - 1) {
            printf("\n");
        }
    }
    if (n == 0) {
        printf("  (no coefficients)\n");
    }
}

/* Why 29 refused: the desk lends whole items, so one count or both are over the most. */
static void print_too_many(const struct sheet *sheet)
{
    if (sheet->n > DESK_MAX_COEFFICIENTS) {
        printf("%" PRIu32 " coefficients are more than the %d of a request", sheet->n, DESK_MAX_COEFFICIENTS);
    }
    if (sheet->n > DESK_MAX_COEFFICIENTS && sheet->word_count > DESK_MAX_WORDS) {
        printf(", and ");
    }
    if (sheet->word_count > DESK_MAX_WORDS) {
        printf("%" PRIu32 " words are more than the %d of a request", sheet->word_count, DESK_MAX_WORDS);
    }
}

/* Why 7 refused: a weight, or both of a composition together, over the coefficients. */
static void print_weights(const struct sheet *sheet)
{
    if (sheet->kind == DESK_COMPOSITION) {
        printf("the weights, %" PRIu32 " and %" PRIu32 ", are together over the ", sheet->a, sheet->b);
    } else {
        printf("the weight, %" PRIu32 ", is over the ", sheet->a);
    }
    print_count(sheet->n, "coefficient");
}

/* Why 8 refused: blocks that do not fill the output. */
static void print_blocks(const struct sheet *sheet)
{
    if (sheet->n == 0) {
        printf("blocks need at least one coefficient");
        return;
    }
    print_count(sheet->n, "coefficient");
    printf(" cannot be split into blocks of %" PRIu32, sheet->a);
}

/* Why 9 refused: the largest magnitude has no residue. */
static void print_modulus(const struct sheet *sheet)
{
    uint32_t magnitude = sheet->kind == DESK_CENTERED_BINOMIAL ? sheet->a : 1;
    printf("the largest magnitude, %" PRIu32 ", is above the modulus less one, %" PRIu32, magnitude, sheet->modulus - 1);
}

/* A refusal in words. */
static void print_refusal(uint32_t number, const struct sheet *sheet, size_t place)
{
    printf("\n  refused by %" PRIu32 ": ", number);
    switch (number) {
    case DESK_INVALID_REQUEST:
        print_too_many(sheet);
        break;
    case DESK_INVALID_KIND:
        printf("kind %" PRIu32 " is not among the kinds 1 to 9", sheet->kind);
        break;
    case DESK_INVALID_BLOCK_SIZE:
        printf("the block size is 0");
        break;
    case DESK_INVALID_ETA:
        printf("eta, %" PRIu32 ", is outside 1 to 32", sheet->a);
        break;
    case DESK_PAST_END:
        printf("place %zu is past the end of the words, which is place %" PRIu32, place, sheet->word_count);
        break;
    case DESK_INVALID_WEIGHT:
        print_weights(sheet);
        break;
    case DESK_INVALID_BLOCK_LENGTH:
        print_blocks(sheet);
        break;
    case DESK_MODULUS_TOO_SMALL:
        print_modulus(sheet);
        break;
    case DESK_OUT_OF_WORDS:
        printf("too few words: the draw needs more than the %zu from place %zu on", sheet->word_count - place, place);
        break;
    default:
        printf("a number that the desk does not know");
    }
    printf("\n");
}

/* Draws the question of a sheet without fault and shows what comes of it. */
static enum status draw(const struct sheet *sheet, size_t first_place)
{
    static uint8_t output[SHEET_MAX_OUTPUT_BYTES];
    size_t place = first_place;
    uint64_t skipped_words = 0, skipped_bytes = 0;
    uint32_t number = desk_draw(sheet->kind, sheet->a, sheet->b, sheet->modulus, sheet_words(sheet), sheet_words_length(sheet), output,
                                sheet_output_length(sheet), &place, &skipped_words, &skipped_bytes);
    if (number != DESK_SUCCESS) {
        print_refusal(number, sheet, first_place);
        return REFUSED;
    }
    printf("\n");
    print_coefficients(output, sheet->n);
    printf("\n  words used     %zu, so that the place is now %zu\n", place - first_place, place);
    printf("  words skipped  %" PRIu64 "\n", skipped_words);
    printf("  bytes skipped  %" PRIu64 "\n", skipped_bytes);
    return DRAWN;
}

/* Reads a sheet, or says why not. */
static int read_sheet(struct sheet *sheet, const char *path)
{
    if (sheet_read(sheet, path)) {
        return 1;
    }
    fprintf(stderr, "desk: %s: %s\n", path, errno != 0 ? strerror(errno) : "cannot be read");
    return 0;
}

/* Hands out a sheet's question and draws it. */
static enum status hand_out(const char *path, size_t place)
{
    static struct sheet sheet;
    if (!read_sheet(&sheet, path)) {
        return FAILED;
    }
    printf("Sheet %s\n", path);
    if (sheet_fault(&sheet) != SHEET_GOOD) {
        printf("  refused without a draw: ");
        sheet_print_fault(&sheet, stdout);
        printf("\n");
        return REFUSED;
    }
    print_question(&sheet, place);
    return draw(&sheet, place);
}

/* A number in decimal, alone in a text and at most the given one; the answer says whether it is one. */
static int read_number(const char *text, size_t most, size_t *value)
{
    *value = 0;
    if (*text == '\0') {
        return 0;
    }
    for (; *text != '\0'; text++) {
        if (*text < '0' || *text > '9') {
            return 0;
        }
        size_t digit = (size_t)(*text - '0');
        if (digit > most || *value > (most - digit) / 10) {
            return 0;
        }
        *value = 10 * *value + digit;
    }
    return 1;
}

/* A line of standard input without its end; a line that has no room keeps its start, which is no number. The answer is 0 at the end of the input. */
static int read_line(char *line, int room)
{
    if (fgets(line, room, stdin) == NULL) {
        return 0;
    }
    size_t length = strcspn(line, "\n");
    if (line[length] == '\0') {
        for (int c = getchar(); c != EOF && c != '\n'; c = getchar()) {
            line[0] = '?';
        }
    }
    line[length] = '\0';
    return 1;
}

/* Prints the sheets with their numbers, and what each asks. */
static enum status print_menu(char **paths, size_t count)
{
    static struct sheet sheet;
    enum status status = DRAWN;
    for (size_t i = 0; i < count; i++) {
        if (!read_sheet(&sheet, paths[i])) {
            status = FAILED;
            continue;
        }
        printf("%3zu  %s: ", i + 1, paths[i]);
        if (sheet_fault(&sheet) != SHEET_GOOD) {
            printf("no question\n");
            continue;
        }
        printf("%s, ", kind_name(sheet.kind));
        print_count(sheet.n, "coefficient");
        printf("\n");
    }
    return status;
}

/* The menu, and the sheets that are chosen of it. The answer is the worst of all. */
static enum status serve(char **paths, size_t count, size_t place)
{
    char line[32];
    size_t choice;
    enum status worst = print_menu(paths, count);
    for (;;) {
        printf("\nWhich sheet, 1 to %zu? 0 leaves.\n", count);
        fflush(stdout);
        if (!read_line(line, sizeof line)) {
            return worst;
        }
        if (!read_number(line, count, &choice)) {
            printf("That is no number from 0 to %zu.\n", count);
            continue;
        }
        if (choice == 0) {
            return worst;
        }
        enum status status = hand_out(paths[choice - 1], place);
        worst = status > worst ? status : worst;
    }
}

int main(int argc, char **argv)
{
    size_t place = 0;
    int first = 1;
    if (argc > 2 && strcmp(argv[1], "--place") == 0) {
        if (!read_number(argv[2], SIZE_MAX, &place)) {
            fprintf(stderr, "desk: %s is no place: a number from 0 to %zu is\n", argv[2], (size_t)SIZE_MAX);
            return FAILED;
        }
        first = 3;
    }
    if (first >= argc || argv[first][0] == '-') {
        fprintf(stderr, "usage: desk [--place N] SHEET...\n");
        return FAILED;
    }
    enum status status = first + 1 == argc ? hand_out(argv[first], place) : serve(argv + first, (size_t)(argc - first), place);
    if (fflush(stdout) != 0 || ferror(stdout)) {
        fprintf(stderr, "desk: standard output cannot be written\n");
        return FAILED;
    }
    return (int)status;
}
