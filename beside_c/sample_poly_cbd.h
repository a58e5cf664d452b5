/* SamplePolyCBD of FIPS 203 (August 2024), section 4.2.2, Algorithm 8, in plain C. */
#ifndef SAMPLE_POLY_CBD_H
#define SAMPLE_POLY_CBD_H

#include <stddef.h>
#include <stdint.h>

/* The standard's n and q. */
#define CBD_N 256
#define CBD_Q 3329

/* The numbers by which a call refuses, from document 02. Success is 0. */
#define INVALID_CBD_ETA 27
#define INVALID_CBD_LENGTH 28

/* Writes the polynomial that the bytes give, each coefficient from 0 to q - 1, and returns 0. It refuses with 27 an eta other than 2 and 3, then
 * with 28 a byte length other than 64 * eta or an output length other than 256; nothing is written then. */
int sample_poly_cbd_plain(uint64_t *output, size_t output_length, uint32_t eta, const uint8_t *bytes, size_t byte_length);

#endif
