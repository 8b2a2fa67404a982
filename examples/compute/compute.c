/* Sorting, a checksum and a long division, written out in C alone: the same file runs on the host and as a guest. */
#include "compute.h"

enum { COUNT = 96 };

static unsigned values[COUNT];

/* A linear congruential sequence. */
static unsigned next(unsigned *state) {
    *state = *state * 1664525u + 1013904223u;
    return *state;
}

/* Insertion sort, which answers how often it moved a value. */
static unsigned sort(unsigned *list, int count) {
    unsigned moves = 0;
    for (int i = 1; i < count; i++) {
        unsigned value = list[i];
        int place = i;
        while (place > 0 && list[place - 1] > value) {
            list[place] = list[place - 1];
            place--;
            moves++;
        }
        list[place] = value;
    }
    return moves;
}

/* CRC-32 (ITU-T V.42), bit by bit. */
static unsigned crc32(const unsigned char *bytes, unsigned size) {
    unsigned crc = 0xffffffffu;
    for (unsigned i = 0; i < size; i++) {
        crc ^= bytes[i];
        for (int bit = 0; bit < 8; bit++) {
            crc = crc & 1 ? crc >> 1 ^ 0xedb88320u : crc >> 1;
        }
    }
    return ~crc;
}

/* The quotient and the remainder of a number of 64 bits by one of 32 bits, by shifts and subtractions. */
static void divide(unsigned high, unsigned low, unsigned by, struct results *out) {
    unsigned rest = 0;
    for (int i = 0; i < 64; i++) {
        unsigned top = rest >> 31;
        rest = rest << 1 | high >> 31;
        high = high << 1 | low >> 31;
        low <<= 1;
        if (top || rest >= by) {
            rest -= by;
            low |= 1;
        }
    }
    out->quotient_high = high;
    out->quotient_low = low;
    out->remainder = rest;
}

void compute(struct results *out) {
    unsigned state = 1;
    for (int i = 0; i < COUNT; i++) {
        values[i] = next(&state);
    }
    out->moves = sort(values, COUNT);
    out->checksum = crc32((const unsigned char *)values, sizeof values);
    out->median = values[COUNT / 2];
    divide(values[COUNT - 1], values[0], values[1] | 1, out);
}
