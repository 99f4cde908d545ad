/* The forms of bench/crc, held against each other, or one of them called once over some bytes. */
#include <stdbool.h>
#include <stddef.h>
#include <stdint.h>
#include <stdlib.h>
#include <string.h>

/* a slice is where it begins and how long it is */
uint16_t driver(const uint8_t *s, size_t n);
uint16_t before(const uint8_t *s, size_t n);
uint16_t matched(const uint8_t *s, size_t n);

/* crc_twin.c */
uint16_t one_by_table(uint16_t c, uint8_t b);
uint16_t one_by_bits(uint16_t c, uint8_t b);

static uint16_t twin(uint16_t (*one)(uint16_t, uint8_t), const uint8_t *s, size_t n) {
    uint16_t c = 0xFFFF;
    for (size_t i = 0; i < n; i++) c = one(c, s[i]);
    return c;
}

static bool all_give(uint16_t crc, const uint8_t *s, size_t n) {
    return driver(s, n) == crc && before(s, n) == crc && matched(s, n) == crc && twin(one_by_table, s, n) == crc && twin(one_by_bits, s, n) == crc;
}

/* 0: all forms give the published check value, the start value of no byte, and one another's of 10,000 strings of up to 64 bytes. */
static int held(void) {
    uint8_t s[64];
    uint32_t x = 1;
    if (!all_give(0xAEE7, (const uint8_t *)"123456789", 9) || !all_give(0xFFFF, s, 0)) return 1;
    for (int k = 0; k < 10000; k++) {
        size_t n = k % 65;
        for (size_t i = 0; i < n; i++) s[i] = (x = x * 1664525 + 1013904223) >> 24;
        if (!all_give(before(s, n), s, n)) return 1;
    }
    return 0;
}

/* the bytes of a checked read of C1CON at its reset word; further ones count on */
static uint8_t bytes[64] = {0xB0, 0x00, 0x04, 0x60, 0x07, 0x98, 0x04};

int main(int argc, char **argv) {
    if (argc == 1) return held();
    size_t n = argc == 3 ? strtoul(argv[2], NULL, 10) : 65;
    if (n > 64) return 2;
    for (size_t i = 7; i < 64; i++) bytes[i] = i;
    uint16_t (*form)(const uint8_t *, size_t) = strcmp(argv[1], "driver") == 0 ? driver : strcmp(argv[1], "before") == 0 ? before : matched;
    volatile uint16_t crc = form(bytes, n);
    return crc == twin(one_by_bits, bytes, n) ? 0 : 1;
}
