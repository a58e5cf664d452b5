/* The plain version with eta a constant in each of two copies, for the benchmark: compilers unroll the sums then. Declared static first, the
 * included function stays inside this file. */
#include <stddef.h>
#include <stdint.h>

static int any_eta(uint64_t *, size_t, uint32_t, const uint8_t *, size_t);

#define sample_poly_cbd_plain any_eta
#include "sample_poly_cbd.c"
#include "constant_eta.h"

__attribute__((flatten)) int sample_poly_cbd_constant_eta(uint64_t *output, size_t output_length, uint32_t eta, const uint8_t *bytes, size_t byte_length)
{
    switch (eta) {
    case 2:
        return any_eta(output, output_length, 2, bytes, byte_length);
    case 3:
        return any_eta(output, output_length, 3, bytes, byte_length);
    default:
        return INVALID_CBD_ETA;
    }
}
