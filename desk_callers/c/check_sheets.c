/* Runs stored sheets through the desk and compares each answer with the model's: check_sheets ANSWERS SHEET...
 *
 * ANSWERS is crates/keysheet_cases/stdout. For each sheet the number, the place, both sums and every byte of the output must be those that the model's text
 * says; further requests are made of each sheet, whose answers follow from the model's. Nothing else may change: guard bytes stand around the words, around
 * the output, and around the place with the sums. Each request is asked with the bytes at eight neighbouring addresses. The exit status is 1 where anything
 * differs, and 2 where a file cannot be read or understood. */
#include "desk.h"
#include "sheet.h"

#include <inttypes.h>
#include <stdio.h>
#include <stdlib.h>
#include <string.h>

#define GUARD 64
#define OFFSETS 8
/* Room for any bytes that are lent: a whole sheet's, and some more. */
#define LENT_ROOM (SHEET_MAX_BYTES + 8)
/* The model's number for a malformed sheet; at the desk it is that of a bad kind alone. */
#define MALFORMED DESK_INVALID_KIND
/* Differences that are printed. */
#define SHOWN 10

/* The requests that are made of a sheet. */
enum group { AS_ASKED, OUTPUT_BYTES, WORD_BYTES, COEFFICIENTS, WORDS, OTHER_KIND, PAST_END, FROM_PLACE, GROUPS };

static const char *const group_names[GROUPS] = {
    "as the sheet asks",
    "with 1 to 7 bytes of output more",
    "with 1 to 3 bytes of words more",
    "with 4097 coefficients",
    "with 8193 words",
    "of another kind",
    "from a place past the end",
    "from a place after other words",
};

/* An answer of the model; the sums are there where it has a third line. */
struct answer {
    char name[64];
    uint32_t number;
    size_t used, n;
    const char *coefficients;
    int has_sums, asked;
    uint64_t skipped_words, skipped_bytes;
};

/* A request but for its words, which stand in `lent`, and what must come of it; where that is 0, the output must be `drawn`. */
struct request {
    const char *sheet;
    enum group group;
    uint32_t kind, a, b, modulus;
    size_t words_length, output_length, place;
    uint32_t number;
    size_t used;
    uint64_t skipped_words, skipped_bytes;
};

static uint8_t lent[LENT_ROOM];
static uint8_t drawn[LENT_ROOM];

/* Bytes that are lent, at an offset and with a guard on either side, beside what must stand there after the call. */
struct room {
    size_t offset, length;
    uint8_t now[OFFSETS + GUARD + LENT_ROOM + GUARD], after[OFFSETS + GUARD + LENT_ROOM + GUARD];
};

/* The numbers that are lent, likewise. */
struct figures {
    uint8_t guard_before[GUARD];
    size_t place;
    uint64_t skipped_words, skipped_bytes;
    uint8_t guard_after[GUARD];
};

static struct room words, output;
static struct figures figures, figures_after;

/* Calls so far, requests of each group, sheets by the number that must come, differences, and answers made wrong and how many of them were noticed. */
#define NUMBERS 30
static uint64_t calls, asked[GROUPS], numbers[NUMBERS], differences;
static size_t wrong_answers, wrong_noticed;

/* Ends where a file is not what it should be. */
static void stop(const char *name, const char *why)
{
    fprintf(stderr, "check_sheets: %s: %s\n", name, why);
    exit(2);
}

/* A whole file as a text that ends with a zero. */
static char *read_text(const char *path)
{
    size_t room = 1 << 16, size = 0;
    char *text = malloc(room);
    FILE *file = fopen(path, "rb");
    if (file == NULL || text == NULL) {
        stop(path, "cannot be read");
    }
    for (size_t got = 1; got != 0; size += got) {
        if (room - size < 2) {
            room *= 2;
            text = realloc(text, room);
            if (text == NULL) {
                stop(path, "is too long");
            }
        }
        got = fread(text + size, 1, room - size - 1, file);
    }
    if (ferror(file)) {
        stop(path, "cannot be read");
    }
    fclose(file);
    text[size] = '\0';
    return text;
}

/* Where the line after this one starts. */
static char *next_line(char *text)
{
    char *end = strchr(text, '\n');
    if (end == NULL) {
        stop("the answers", "a line has no end");
    }
    return end + 1;
}

/* Reads the answer at the start of a text; the rest of the text is handed back. */
static char *read_answer(char *text, struct answer *answer)
{
    *answer = (struct answer){0};
    if (sscanf(text, "== %63[^\n]", answer->name) != 1) {
        stop("the answers", "a line should start with == and a name");
    }
    text = next_line(text);
    if (sscanf(text, "%" SCNu32 " %zu %zu", &answer->number, &answer->used, &answer->n) != 3 || answer->number >= NUMBERS) {
        stop(answer->name, "its first line should have three numbers, the first a known one");
    }
    text = next_line(text);
    if (answer->number != 0) {
        return text;
    }
    answer->coefficients = text;
    text = next_line(text);
    answer->has_sums = *text != '=' && *text != '\0';
    if (answer->has_sums) {
        if (sscanf(text, "%" SCNu64 " %" SCNu64, &answer->skipped_words, &answer->skipped_bytes) != 2) {
            stop(answer->name, "its third line should have two numbers");
        }
        text = next_line(text);
    }
    return text;
}

/* All answers of a text. */
static struct answer *read_answers(char *text, size_t *count)
{
    size_t room = 1;
    for (const char *at = text; (at = strstr(at, "== ")) != NULL; at++) {
        room++;
    }
    struct answer *answers = calloc(room, sizeof *answers);
    if (answers == NULL) {
        stop("the answers", "are too many");
    }
    for (*count = 0; *text != '\0'; ++*count) {
        text = read_answer(text, answers + *count);
    }
    return answers;
}

/* The answer to the sheet of a path. Some sheets are answered twice, the last time with the sums. */
static const struct answer *find_answer(struct answer *answers, size_t count, const char *path)
{
    const char *slash = strrchr(path, '/');
    const char *name = slash == NULL ? path : slash + 1;
    const struct answer *last = NULL;
    for (size_t i = 0; i < count; i++) {
        if (strcmp(answers[i].name, name) == 0) {
            answers[i].asked = 1;
            last = answers + i;
        }
    }
    if (last == NULL) {
        stop(path, "the model has no answer to it");
    }
    return last;
}

/* The bytes of an answer's coefficients, into `drawn`. */
static void encode_coefficients(const struct answer *answer)
{
    const char *text = answer->coefficients;
    for (size_t i = 0; i < answer->n; i++) {
        char *end;
        uint64_t value = (uint64_t)strtoll(text, &end, 10);
        if (end == text || (*end != ' ' && *end != '\n') || i > DESK_MAX_COEFFICIENTS) {
            stop(answer->name, "its second line should have n coefficients");
        }
        text = end;
        for (size_t k = 0; k < DESK_COEFFICIENT_BYTES; k++) {
            drawn[DESK_COEFFICIENT_BYTES * i + k] = (uint8_t)(value >> 8 * k);
        }
    }
    if (*text != '\n') {
        stop(answer->name, "its second line should have n coefficients alone");
    }
}

/* Bytes that differ from their neighbours, and from call to call. */
static void fill(uint8_t *bytes, size_t length)
{
    for (size_t i = 0; i < length; i++) {
        bytes[i] = (uint8_t)(167 * i + 31 * calls + 89);
    }
}

/* All bytes of a room that are in use, and where those start that are lent. */
static size_t span(const struct room *room)
{
    return room->offset + GUARD + room->length + GUARD;
}

static size_t start(const struct room *room)
{
    return room->offset + GUARD;
}

/* Lays out what a request lends, and what must stand there afterwards. */
static void lay_out(const struct request *request, size_t offset)
{
    words.offset = offset;
    words.length = request->words_length;
    fill(words.now, span(&words));
    memcpy(words.now + start(&words), lent, words.length);
    memcpy(words.after, words.now, span(&words));
    output.offset = OFFSETS - 1 - offset;
    output.length = request->output_length;
    fill(output.now, span(&output));
    memcpy(output.after, output.now, span(&output));
    if (request->number == DESK_SUCCESS) {
        memcpy(output.after + start(&output), drawn, output.length);
    } else if (request->number == DESK_OUT_OF_WORDS) {
        memset(output.after + start(&output), 0, output.length);
    }
    fill((uint8_t *)&figures, sizeof figures);
    figures.place = request->place;
    figures_after = figures;
    figures_after.place += request->used;
    figures_after.skipped_words = request->skipped_words;
    figures_after.skipped_bytes = request->skipped_bytes;
}

/* Calls the desk on what a request lends. */
static uint32_t call(const struct request *request, size_t offset)
{
    calls++;
    lay_out(request, offset);
    return desk_draw(request->kind, request->a, request->b, request->modulus, words.now + start(&words), words.length, output.now + start(&output),
                     output.length, &figures.place, &figures.skipped_words, &figures.skipped_bytes);
}

/* What differs between the call's answer and what must have come of it, or NULL. */
static const char *difference(const struct request *request, uint32_t number)
{
    if (number != request->number) {
        return "number";
    }
    if (figures.place != figures_after.place) {
        return "place";
    }
    if (figures.skipped_words != figures_after.skipped_words) {
        return "sum of words skipped";
    }
    if (figures.skipped_bytes != figures_after.skipped_bytes) {
        return "sum of bytes skipped";
    }
    if (memcmp(output.now, output.after, span(&output)) != 0) {
        return "output, or byte beside it";
    }
    if (memcmp(words.now, words.after, span(&words)) != 0) {
        return "word, or byte beside the words";
    }
    return memcmp(&figures, &figures_after, sizeof figures) != 0 ? "byte beside the place and the sums" : NULL;
}

/* Prints one of the first differences. */
static void differ(const char *sheet, const char *request, const char *what, uint32_t number, uint32_t expected)
{
    if (differences++ < SHOWN) {
        printf("%s %s: another %s; the number is %" PRIu32 " and should be %" PRIu32 "\n", sheet, request, what, number, expected);
    }
}

/* Asks a request at every offset and compares. */
static void ask(const struct request *request)
{
    asked[request->group]++;
    for (size_t offset = 0; offset < OFFSETS; offset++) {
        uint32_t number = call(request, offset);
        const char *what = difference(request, number);
        if (what != NULL) {
            differ(request->sheet, group_names[request->group], what, number, request->number);
        }
    }
}

/* The same request, which must be refused. */
static void ask_refused(struct request request, enum group group, uint32_t number)
{
    request.group = group;
    request.number = number;
    request.used = 0;
    request.skipped_words = 0;
    request.skipped_bytes = 0;
    ask(&request);
}

/* Requests that 29 refuses before anything else: bytes that are no whole number of items, and one item too many. */
static void ask_bad_lengths(const struct request *request)
{
    struct request changed = *request;
    for (size_t more = 1; more < DESK_COEFFICIENT_BYTES; more++) {
        changed.output_length = request->output_length + more;
        ask_refused(changed, OUTPUT_BYTES, DESK_INVALID_REQUEST);
    }
    changed.output_length = DESK_COEFFICIENT_BYTES * (DESK_MAX_COEFFICIENTS + 1);
    ask_refused(changed, COEFFICIENTS, DESK_INVALID_REQUEST);
    changed = *request;
    for (size_t more = 1; more < DESK_WORD_BYTES; more++) {
        changed.words_length = request->words_length + more;
        ask_refused(changed, WORD_BYTES, DESK_INVALID_REQUEST);
    }
    changed.words_length = DESK_WORD_BYTES * (DESK_MAX_WORDS + 1);
    ask_refused(changed, WORDS, DESK_INVALID_REQUEST);
}

/* Other kinds, which 14 refuses before all but 29, and places past the end of the words, which 22 refuses after 14, 5 and 4. */
static void ask_bad_kinds_and_places(const struct request *request)
{
    static const uint32_t kinds[] = {0, 10, 256 + DESK_UNIFORM_BINARY, UINT32_MAX};
    const size_t places[] = {request->words_length / DESK_WORD_BYTES + 1, SIZE_MAX / 4 + 1, SIZE_MAX};
    int before = request->number == DESK_INVALID_KIND || request->number == DESK_INVALID_BLOCK_SIZE || request->number == DESK_INVALID_ETA;
    struct request changed = *request;
    for (size_t i = 0; i < sizeof kinds / sizeof *kinds; i++) {
        changed.kind = kinds[i];
        changed.place = 0;
        ask_refused(changed, OTHER_KIND, DESK_INVALID_KIND);
        changed.place = SIZE_MAX;
        ask_refused(changed, OTHER_KIND, DESK_INVALID_KIND);
    }
    changed = *request;
    for (size_t i = 0; i < sizeof places / sizeof *places; i++) {
        changed.place = places[i];
        ask_refused(changed, PAST_END, before ? request->number : DESK_PAST_END);
    }
}

/* The same question on the same words behind some others, from the place after those: the same key. */
static void ask_from_place(const struct request *request)
{
    static const size_t others[] = {1, 7, 100};
    size_t behind = 0;
    struct request changed = *request;
    changed.group = FROM_PLACE;
    for (size_t i = 0; i < sizeof others / sizeof *others; i++) {
        size_t bytes = DESK_WORD_BYTES * others[i];
        if (request->words_length + bytes > DESK_WORD_BYTES * DESK_MAX_WORDS) {
            continue;
        }
        memmove(lent + bytes, lent + behind, request->words_length);
        fill(lent, bytes);
        behind = bytes;
        changed.words_length = request->words_length + bytes;
        changed.place = others[i];
        ask(&changed);
    }
}

/* Makes one byte after another wrong of what a call left, and then its number: how many of these wrong answers are noticed. */
static size_t noticed(const struct request *request, size_t *wrong)
{
    size_t count = 0;
    call(request, 0);
    uint8_t *out = output.now + start(&output), *in = words.now + start(&words);
    uint8_t *bytes[] = {(uint8_t *)&figures.place, (uint8_t *)&figures.skipped_words, (uint8_t *)&figures.skipped_bytes, out, out + output.length - 1,
                        out - 1, out + output.length, out - GUARD, out + output.length + GUARD - 1, in, in + words.length - 1, in - 1, in + words.length,
                        figures.guard_before + GUARD - 1, figures.guard_after};
    *wrong = sizeof bytes / sizeof *bytes + 1;
    for (size_t i = 0; i < sizeof bytes / sizeof *bytes; i++) {
        uint32_t number = call(request, 0);
        *bytes[i] ^= 1;
        count += difference(request, number) != NULL;
    }
    uint32_t number = call(request, 0);
    return count + (difference(request, number ^ 1) != NULL);
}

/* The request of a sheet without fault, and what the model says of it. Where the sheet is refused for too many coefficients or words, 14 is the sheet's
 * number and 29 the desk's. */
static struct request request_of(const struct sheet *sheet, const struct answer *answer)
{
    int too_many = sheet->n > DESK_MAX_COEFFICIENTS || sheet->word_count > DESK_MAX_WORDS;
    struct request request = {
        .sheet = answer->name,
        .group = AS_ASKED,
        .kind = sheet->kind,
        .a = sheet->a,
        .b = sheet->b,
        .modulus = sheet->modulus,
        .words_length = sheet_words_length(sheet),
        .output_length = sheet_output_length(sheet),
        .number = too_many ? DESK_INVALID_REQUEST : answer->number,
        .used = answer->used,
        .skipped_words = answer->skipped_words,
        .skipped_bytes = answer->skipped_bytes,
    };
    memcpy(lent, sheet_words(sheet), request.words_length);
    if (answer->number == DESK_SUCCESS) {
        if (!answer->has_sums || answer->n != sheet->n) {
            stop(answer->name, "it should have a third line, and the sheet's n");
        }
        encode_coefficients(answer);
    }
    if (too_many && answer->number != MALFORMED) {
        differ(answer->name, "is over the limits", "answer of the model", answer->number, MALFORMED);
    }
    return request;
}

/* All requests of a sheet; what has no question must be refused by the model. The answer is whether there was a question. */
static int check_sheet(const struct sheet *sheet, const struct answer *answer)
{
    if (sheet_fault(sheet) != SHEET_GOOD) {
        if (answer->number != MALFORMED) {
            differ(answer->name, "has no question", "answer of the model", answer->number, MALFORMED);
        }
        return 0;
    }
    struct request request = request_of(sheet, answer);
    numbers[request.number]++;
    ask(&request);
    ask_bad_lengths(&request);
    if (request.number != DESK_INVALID_REQUEST) {
        ask_bad_kinds_and_places(&request);
        if (request.number == DESK_SUCCESS && request.output_length != 0 && wrong_answers == 0) {
            wrong_noticed = noticed(&request, &wrong_answers);
        }
        ask_from_place(&request);
    }
    return 1;
}

/* Prints what was asked, and how often. */
static void print_totals(int sheets, int questions)
{
    printf("%d sheets, %d of them without a question to ask\n", sheets, sheets - questions);
    for (size_t number = 0; number < NUMBERS; number++) {
        if (numbers[number] != 0) {
            printf("%6" PRIu64 " answered by number %zu\n", numbers[number], number);
        }
    }
    printf("requests, each at %d offsets:\n", OFFSETS);
    for (size_t group = 0; group < GROUPS; group++) {
        printf("%6" PRIu64 " %s\n", asked[group], group_names[group]);
    }
    printf("%zu of %zu answers that were made wrong noticed\n", wrong_noticed, wrong_answers);
    printf("%" PRIu64 " differ\n", differences);
}

int main(int argc, char **argv)
{
    static struct sheet sheet;
    int questions = 0;
    size_t count;
    if (argc < 3) {
        stop("usage", "check_sheets ANSWERS SHEET...");
    }
    char *text = read_text(argv[1]);
    struct answer *answers = read_answers(text, &count);
    for (int i = 2; i < argc; i++) {
        if (!sheet_read(&sheet, argv[i])) {
            stop(argv[i], "cannot be read");
        }
        questions += check_sheet(&sheet, find_answer(answers, count, argv[i]));
    }
    for (size_t i = 0; i < count; i++) {
        if (!answers[i].asked) {
            stop(answers[i].name, "its sheet is not among the arguments");
        }
    }
    print_totals(argc - 2, questions);
    free(answers);
    free(text);
    return differences != 0 || wrong_noticed != wrong_answers || wrong_answers == 0;
}
