/* The exam desk's entry, from libdesk.a: one call that draws a sheet's question by numbers, with words and coefficients as little-endian bytes.
 *
 * `bash tools/staticlib.sh desk` writes target/staticlib/libdesk.a, for x86-64 Linux; desk_callers/ has callers in C, Rust and Python.
 *
 * That the call ends, touches nothing but what it is lent, and answers as is said below is proved for every request (crates/desk and crates/desk_c),
 * provided that the caller keeps what the proof cannot ask of a foreign program:
 *
 *   - No pointer is null, not even that of an empty slice, whose length is 0: point it at any byte.
 *   - Each slice is valid for its length in bytes: `words` for reading, `output` for reading and writing. `place`, `skipped_words` and `skipped_bytes` are
 *     valid for reading and writing and hold a value before the call.
 *   - `words` and `output` may start at any address; `place`, `skipped_words` and `skipped_bytes` are aligned for their types, as every variable of C is.
 *   - What the call may write (the output, the place and both sums) overlaps nothing else that the call is lent.
 *   - No other thread writes to what is lent, or reads what the call may write, until it returns. The entry keeps no state of its own, so calls on separate
 *     buffers may run at the same time.
 *   - The calling thread has DESK_STACK_BYTES of stack left. A call takes some 67 KiB, 64 of them for the words and the coefficients.
 */
#ifndef DESK_H
#define DESK_H

#include <stddef.h>
#include <stdint.h>

#ifdef __cplusplus
extern "C" {
#endif

/* The most that one request may ask; one more of either is refused by 29. */
#define DESK_MAX_COEFFICIENTS 4096
#define DESK_MAX_WORDS 8192

/* Bytes of a word and of a coefficient. */
#define DESK_WORD_BYTES 4
#define DESK_COEFFICIENT_BYTES 8

/* Stack that is enough for a call, with room to spare. */
#define DESK_STACK_BYTES 131072

/* The kinds of a question, and what A and B are to each; where nothing is said they are ignored. n is the number of coefficients asked for, which is the
 * output's length in bytes over eight. */
enum desk_kind {
    DESK_UNIFORM_BINARY = 1,    /* 0 or 1 */
    DESK_SPARSE_TERNARY = 2,    /* 0 for two of four draws, 1 and -1 for one each */
    DESK_UNIFORM_TERNARY = 3,   /* -1, 0 or 1 */
    DESK_BINARY_WEIGHT = 4,     /* A ones, the others 0; A is at most n */
    DESK_BLOCK_AT_MOST_ONE = 5, /* blocks of A coefficients, with one 1 or none in each; n is a multiple of A, and neither is 0 */
    DESK_BLOCK_EXACTLY_ONE = 6, /* blocks of A coefficients, with one 1 in each; n is a multiple of A, and neither is 0 */
    DESK_TERNARY_WEIGHT = 7,    /* A coefficients that are -1 or 1, the others 0; A is at most n */
    DESK_COMPOSITION = 8,       /* A minus ones and B ones, the others 0; A + B is at most n */
    DESK_CENTERED_BINOMIAL = 9  /* from -eta to eta, where A is eta, 1 to 32 */
};

/* The numbers that the call hands back, in the order in which they are judged: where several would fit, the first of this list comes. */
enum desk_number {
    DESK_INVALID_REQUEST = 29,     /* more than 4,096 coefficients or 8,192 words, or bytes that are no whole number of items */
    DESK_INVALID_KIND = 14,        /* a kind other than 1 to 9 */
    DESK_INVALID_BLOCK_SIZE = 5,   /* kinds 5 and 6: A is 0 */
    DESK_INVALID_ETA = 4,          /* kind 9: A is outside 1 to 32 */
    DESK_PAST_END = 22,            /* the place is past the end of the words; a place just at their end is not */
    DESK_INVALID_WEIGHT = 7,       /* kinds 4, 7 and 8: the weights are over n */
    DESK_INVALID_BLOCK_LENGTH = 8, /* kinds 5 and 6: n is 0 or no multiple of the block size */
    DESK_MODULUS_TOO_SMALL = 9,    /* the modulus is not 0, and the largest magnitude (eta for kind 9, else 1) is above modulus - 1 */
    DESK_OUT_OF_WORDS = 23,        /* the draw needs a word that is not there */
    DESK_SUCCESS = 0               /* drawn */
};

/* Draws a question and hands back its number.
 *
 *   kind, a, b      the kind, from enum desk_kind, with its A and B
 *   modulus         0 asks for signed coefficients; else each is a residue, 0 to modulus - 1, with modulus - m for -m
 *   words           the random words, each 4 bytes, lowest byte first; only read
 *   words_length    their length in bytes, at most 4 * DESK_MAX_WORDS
 *   output          the coefficients, each 8 bytes, lowest byte first; -1 is two's complement, eight bytes 0xff
 *   output_length   their length in bytes, at most 8 * DESK_MAX_COEFFICIENTS; 0 is a question too, and a uniform binary draw of none still reads a word
 *   place           how many of the words are used already, counted in words: the draw reads from there on
 *   skipped_words   set to the words that choices passed over during this call
 *   skipped_bytes   set to the bytes that uniform ternary rejected during this call
 *
 * After 0 the output is written, the place has moved past the last word read, and both sums are set. After any other number the place is as it was and
 * both sums are 0; 23 writes zeros over the whole output, every other refusal leaves it as it was. */
uint32_t desk_draw(uint32_t kind, uint32_t a, uint32_t b, uint32_t modulus, const uint8_t *words, size_t words_length, uint8_t *output,
                   size_t output_length, size_t *place, uint64_t *skipped_words, uint64_t *skipped_bytes);

#ifdef __cplusplus
}
#endif

#endif
