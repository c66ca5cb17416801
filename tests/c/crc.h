/* The chip's check byte: x^8 + x^2 + x + 1, from 0, a byte at a time. */
#ifndef CRC_H
#define CRC_H

#include <stdint.h>

static inline uint8_t crc(uint8_t sum, uint8_t byte) {
    sum ^= byte;
    for (int i = 0; i < 8; i++) sum = (uint8_t)(sum << 1 ^ (sum & 0x80 ? 0x07 : 0));
    return sum;
}

#endif
