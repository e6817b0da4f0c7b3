/* Dumps, lists of block lengths and maps for the tests. */
#ifndef BOARDS_H
#define BOARDS_H

#include "suongkivat.h"

#include <stdint.h>
#include <string.h>

enum {
    WORDS = SKV_DUMP_WORDS,
    BLOCKS = SKV_BLOCKS,
    ESP32_MAP = SKV_ESP32_MAP_BYTES,
    S2_MAP = SKV_S2_MAP_BYTES,
    C6_MAP = SKV_C6_MAP_BYTES
};

/* A chip without a short block. */
static const uint8_t eights[BLOCKS] = SKV_EIGHTS;

/* Writes a value into the bits of a block. */
static inline void put_bits(uint32_t *dump, int block, int start, int count, uint32_t value)
{
    for (int k = 0; k < count; k++) {
        uint32_t *word = &dump[8 * block + (start + k) / 32];
        uint32_t bit = (uint32_t)1 << ((start + k) % 32);
        *word = (value >> k) % 2 == 1 ? *word | bit : *word & ~bit;
    }
}

/* A map whose fields stand one after the other in a block, with ids from a first one on. */
static inline void make_map(uint8_t *map, int first, const uint8_t *counts, int n, int block)
{
    int start = 0;
    for (int k = 0; k < n; k++) {
        const uint8_t record[8] = {(uint8_t)(first + k), (uint8_t)block, (uint8_t)start, 0, counts[k], 0, 0, 0};
        memcpy(map + 8 * k, record, 8);
        start += counts[k];
    }
}

static const uint8_t esp32_counts[6] = {5, 1, 7, 7, 9, 9};
static const uint8_t s2_counts[2] = {8, 8};
static const uint8_t c6_counts[15] = {10, 10, 10, 10, 10, 10, 10, 10, 4, 4, 4, 4, 4, 4, 4};

/* Where `esp32_map` has the fields, in block 3. */
enum { VREF = 0, RESERVE = 5, LOW = 6, LOW2 = 13, HIGH = 20, HIGH2 = 29 };

static inline void esp32_map(uint8_t *map) { make_map(map, 1, esp32_counts, 6, 3); }
static inline void s2_map(uint8_t *map) { make_map(map, 7, s2_counts, 2, 4); }
static inline void c6_map(uint8_t *map) { make_map(map, 9, c6_counts, 15, 5); }

#endif
