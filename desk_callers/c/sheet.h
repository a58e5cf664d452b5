/* A sheet as the programs here read it: the file's bytes, its eight fields, and whether the desk can be asked its question at all. */
#ifndef SHEET_H
#define SHEET_H

#include <stddef.h>
#include <stdint.h>
#include <stdio.h>

/* Bytes of the eight fields, and the most bytes of a sheet. */
#define SHEET_HEAD_BYTES 32
#define SHEET_MAX_BYTES 65536

/* The fields are 0 where the file is too short to have them. A file that is too long is read up to one byte over the limit. */
struct sheet {
    uint32_t kind, n, a, b, word_count, word_offset, modulus, last;
    size_t size;
    uint8_t bytes[SHEET_MAX_BYTES + 1];
};

/* What keeps the desk from asking: it has no call for these, though number 14 of the program keysheet names them all. A bad kind, too many coefficients and
 * too many words are no faults here; the entry itself refuses them. */
enum sheet_fault { SHEET_GOOD, SHEET_TOO_SHORT, SHEET_TOO_LONG, SHEET_LAST_FIELD, SHEET_WORDS_BEFORE_HEAD_ENDS, SHEET_WORDS_PAST_END };

/* Reads a file; the answer is 0 where that cannot be done, and errno may say why. */
int sheet_read(struct sheet *sheet, const char *path);

enum sheet_fault sheet_fault(const struct sheet *sheet);

/* The fault in words, for a sheet that has one. */
void sheet_print_fault(const struct sheet *sheet, FILE *out);

/* The words of a sheet without fault, at any address, and their length in bytes. */
const uint8_t *sheet_words(const struct sheet *sheet);
size_t sheet_words_length(const struct sheet *sheet);

/* The output's length in bytes that asks for n coefficients. A sheet may ask for 4,294,967,295 of them: where it asks for more than the desk draws, one
 * more than that is lent, which is refused as any greater number is. */
#define SHEET_MAX_OUTPUT_BYTES (DESK_COEFFICIENT_BYTES * (DESK_MAX_COEFFICIENTS + 1))
size_t sheet_output_length(const struct sheet *sheet);

/* A kind by name. */
const char *kind_name(uint32_t kind);

#endif
