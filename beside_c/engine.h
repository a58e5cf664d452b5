/* The engine's call, from libbeside.a. A slice passes as a pointer, never null, and a length. */
#ifndef ENGINE_H
#define ENGINE_H

#include <stddef.h>
#include <stdint.h>

uint32_t beside_sample_poly_cbd(uint64_t *output, size_t output_length, uint32_t eta, const uint8_t *bytes, size_t byte_length);

#endif
