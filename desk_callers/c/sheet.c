/* Reading a sheet. */
#include "sheet.h"
#include "desk.h"

#include <errno.h>
#include <inttypes.h>

/* The little-endian field at an index of the head. */
static uint32_t field(const struct sheet *sheet, size_t index)
{
    const uint8_t *byte = sheet->bytes + 4 * index;
    return (uint32_t)byte[0] | (uint32_t)byte[1] << 8 | (uint32_t)byte[2] << 16 | (uint32_t)byte[3] << 24;
}

int sheet_read(struct sheet *sheet, const char *path)
{
    errno = 0;
    FILE *file = fopen(path, "rb");
    if (file == NULL) {
        return 0;
    }
    *sheet = (struct sheet){0};
    sheet->size = fread(sheet->bytes, 1, sizeof sheet->bytes, file);
    int failed = ferror(file);
    int why = errno;
    fclose(file);
    errno = why;
    if (sheet->size >= SHEET_HEAD_BYTES) {
        sheet->kind = field(sheet, 0);
        sheet->n = field(sheet, 1);
        sheet->a = field(sheet, 2);
        sheet->b = field(sheet, 3);
        sheet->word_count = field(sheet, 4);
        sheet->word_offset = field(sheet, 5);
        sheet->modulus = field(sheet, 6);
        sheet->last = field(sheet, 7);
    }
    return !failed;
}

/* Where the words end, which 32 bits need not hold. */
static uint64_t words_end(const struct sheet *sheet)
{
    return sheet->word_offset + (uint64_t)DESK_WORD_BYTES * sheet->word_count;
}

enum sheet_fault sheet_fault(const struct sheet *sheet)
{
    if (sheet->size < SHEET_HEAD_BYTES) {
        return SHEET_TOO_SHORT;
    }
    if (sheet->size > SHEET_MAX_BYTES) {
        return SHEET_TOO_LONG;
    }
    if (sheet->last != 0) {
        return SHEET_LAST_FIELD;
    }
    if (sheet->word_offset < SHEET_HEAD_BYTES) {
        return SHEET_WORDS_BEFORE_HEAD_ENDS;
    }
    return words_end(sheet) > sheet->size ? SHEET_WORDS_PAST_END : SHEET_GOOD;
}

void sheet_print_fault(const struct sheet *sheet, FILE *out)
{
    switch (sheet_fault(sheet)) {
    case SHEET_GOOD:
        break;
    case SHEET_TOO_SHORT:
        fprintf(out, "its size, %zu, is under the %d bytes of a sheet's fields", sheet->size, SHEET_HEAD_BYTES);
        break;
    case SHEET_TOO_LONG:
        fprintf(out, "it has more than the %d bytes of the longest sheet", SHEET_MAX_BYTES);
        break;
    case SHEET_LAST_FIELD:
        fprintf(out, "its last field is %" PRIu32 " and not 0", sheet->last);
        break;
    case SHEET_WORDS_BEFORE_HEAD_ENDS:
        fprintf(out, "its words start at byte %" PRIu32 ", before byte %d", sheet->word_offset, SHEET_HEAD_BYTES);
        break;
    case SHEET_WORDS_PAST_END:
        fprintf(out, "its words end at byte %" PRIu64 ", past the %zu of the file", words_end(sheet), sheet->size);
        break;
    }
}

const uint8_t *sheet_words(const struct sheet *sheet)
{
    return sheet->bytes + sheet->word_offset;
}

size_t sheet_words_length(const struct sheet *sheet)
{
    return (size_t)DESK_WORD_BYTES * sheet->word_count;
}

size_t sheet_output_length(const struct sheet *sheet)
{
    return sheet->n > DESK_MAX_COEFFICIENTS ? SHEET_MAX_OUTPUT_BYTES : (size_t)DESK_COEFFICIENT_BYTES * sheet->n;
}

const char *kind_name(uint32_t kind)
{
    switch (kind) {
    case DESK_UNIFORM_BINARY:
        return "uniform binary";
    case DESK_SPARSE_TERNARY:
        return "sparse ternary";
    case DESK_UNIFORM_TERNARY:
        return "uniform ternary";
    case DESK_BINARY_WEIGHT:
        return "binary of a fixed weight";
    case DESK_BLOCK_AT_MOST_ONE:
        return "blocks with at most one 1";
    case DESK_BLOCK_EXACTLY_ONE:
        return "blocks with exactly one 1";
    case DESK_TERNARY_WEIGHT:
        return "ternary of a fixed weight";
    case DESK_COMPOSITION:
        return "fixed composition";
    case DESK_CENTERED_BINOMIAL:
        return "centered binomial";
    default:
        return "none of the nine kinds";
    }
}
