/* The plain version: the two algorithms of FIPS 203 step by step, by the standard's names and indices, with nothing done for speed. */
#include "sample_poly_cbd.h"

/* The largest eta, so the most bytes that a polynomial takes. */
#define MOST_ETA 3
#define MOST_BYTES (64 * MOST_ETA)

/* Section 4.2.1, Algorithm 4, BytesToBits: bit 8*i + j of b is bit j of byte i, the lowest being bit 0. */
static void bytes_to_bits(uint8_t *b, const uint8_t *B, size_t length)
{
    for (size_t i = 0; i < length; i++) {
        uint8_t c = B[i];
        for (size_t j = 0; j < 8; j++) {
            b[8 * i + j] = c % 2;
            c = c / 2;
        }
    }
}

/* Section 4.2.2, Algorithm 8, SamplePolyCBD: 64*eta bytes give the 256 coefficients of f. */
static void sample_poly_cbd(uint64_t *f, uint32_t eta, const uint8_t *B)
{
    uint8_t b[8 * MOST_BYTES];
    bytes_to_bits(b, B, 64 * (size_t)eta);
    for (size_t i = 0; i < CBD_N; i++) {
        int x = 0;
        for (size_t j = 0; j < eta; j++) {
            x += b[2 * i * eta + j];
        }
        int y = 0;
        for (size_t j = 0; j < eta; j++) {
            y += b[2 * i * eta + eta + j];
        }
        /* x - y mod q. C's remainder has the sign of x - y, which is above -q: q is added first. */
        f[i] = (uint64_t)((x - y + CBD_Q) % CBD_Q);
    }
}

int sample_poly_cbd_plain(uint64_t *output, size_t output_length, uint32_t eta, const uint8_t *bytes, size_t byte_length)
{
    if (eta != 2 && eta != 3) {
        return INVALID_CBD_ETA;
    }
    if (byte_length != 64 * (size_t)eta || output_length != CBD_N) {
        return INVALID_CBD_LENGTH;
    }
    sample_poly_cbd(output, eta, bytes);
    return 0;
}
