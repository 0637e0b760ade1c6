/* A recording's bytes, written out as they follow each other, for checks and measurements. */
#ifndef WAVE_BYTES_H
#define WAVE_BYTES_H

#include <stdint.h>

#define NAMED(name) name[0], name[1], name[2], name[3]
#define SHORT(n) (n) & 255, (n) >> 8 & 255
#define WORD(n) SHORT((uint32_t)(n)), SHORT((uint32_t)(n) >> 16)
#define HEAD(name, size) NAMED(name), WORD(size)
#define RIFF(size) HEAD("RIFF", size), NAMED("WAVE")
#define FIELDS(tag, channels, rate, byte_rate, align, bits)                                                \
    SHORT(tag), SHORT(channels), WORD(rate), WORD(byte_rate), SHORT(align), SHORT(bits)
#define FORMAT(...) HEAD("fmt ", 16), FIELDS(__VA_ARGS__)
#define FORMAT_OF(size) HEAD("fmt ", size), FIELDS(1, 1, 48000, 96000, 2, 16)
#define AT(rate) FORMAT(1, 1, rate, 2u * (rate), 2, 16)
#define GOOD AT(48000)
#define SIX 1, 2, 3, 4, 5, 6
#define SAMPLES HEAD("data", 6), SIX

/* Two arguments: where they lie, and how many they are. */
#define BYTES(...) (const uint8_t[]){__VA_ARGS__}, sizeof((const uint8_t[]){__VA_ARGS__})

/* With the RIFF size that the chunks have. */
#define FILE_OF(...) BYTES(RIFF(4 + sizeof((const uint8_t[]){__VA_ARGS__})), __VA_ARGS__)

#endif
