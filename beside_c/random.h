/* The random source of the programs here: SplitMix64. */
#ifndef RANDOM_H
#define RANDOM_H

#include <stddef.h>
#include <stdint.h>

static inline uint64_t random_word(uint64_t *state)
{
    *state += 0x9e3779b97f4a7c15;
    uint64_t mixed = (*state ^ *state >> 30) * 0xbf58476d1ce4e5b9;
    mixed = (mixed ^ mixed >> 27) * 0x94d049bb133111eb;
    return mixed ^ mixed >> 31;
}

/* Fills bytes, eight from a word, the lowest first. */
static inline void random_bytes(uint64_t *state, uint8_t *bytes, size_t length)
{
    uint64_t word = 0;
    for (size_t i = 0; i < length; i++) {
        word = i % 8 == 0 ? random_word(state) : word >> 8;
        bytes[i] = (uint8_t)word;
    }
}

#endif
