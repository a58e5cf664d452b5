/* The plain version with eta a constant in each of two copies; what it answers is the same. */
#ifndef CONSTANT_ETA_H
#define CONSTANT_ETA_H

#include <stddef.h>
#include <stdint.h>

int sample_poly_cbd_constant_eta(uint64_t *output, size_t output_length, uint32_t eta, const uint8_t *bytes, size_t byte_length);

#endif
