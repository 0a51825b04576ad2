/* The random numbers of the comparison: the same on every machine. */
#include "compare.h"

static uint64_t state;

/* Starts anew from a seed. */
void start_random(uint64_t seed) { state = seed; }

/* 64 random bits (splitmix64). */
uint64_t random_bits(void)
{
    uint64_t bits = state += 0x9E3779B97F4A7C15u;

    bits = (bits ^ bits >> 30) * 0xBF58476D1CE4E5B9u;
    bits = (bits ^ bits >> 27) * 0x94D049BB133111EBu;
    return bits ^ bits >> 31;
}

/* A number below the limit; 0 for the limit 0. */
uint32_t below(uint32_t limit) { return (uint32_t)((random_bits() >> 32) * limit >> 32); }

/* True once in so many times. */
bool one_in(uint32_t times) { return below(times) == 0; }

/* A number from the least to the most, each of these two once in four times. */
size_t between(size_t least, size_t most)
{
    switch (below(4)) {
    case 0:
        return least;
    case 1:
        return most;
    default:
        return least + below((uint32_t)(most - least) + 1);
    }
}

/* A byte, more often one that means something somewhere. */
uint8_t telling_byte(void)
{
    static const uint8_t telling[] = {
        0x00, 0x01, 0x02, 0x03, 0x04, 0x05, 0x06, 0x07, 0x08, 0x09, 0x0C, 0x10, 0x1F, 0x20, 0x22,
        0x32, 0x3F, 0x44, 0x6F, 0x7E, 0x7F, 0x80, 0x81, 0x82, 0x83, 0xA2, 0xA4, 0xAA, 0xAE, 0xB0,
        0xB2, 0xC0, 0xD6, 0xDC, 0xFE, 0xFF};

    return one_in(3) ? (uint8_t)below(256) : telling[below(sizeof telling)];
}
