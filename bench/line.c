/* The line of bench/push, and the program around a side.
 *
 *     PROGRAM KIND COUNT    COUNT calls of this kind, the line answering from a fixed list
 *     PROGRAM good          one push, its exchanges compared with document 01's
 *     PROGRAM refused       each refusal of a push: its number, and after how many exchanges
 */
#include "line.h"
#include <stdio.h>
#include <stdlib.h>
#include <string.h>

/* FIFO 1 sends, payloads of 8 bytes; it is not full; its next free slot is at 0x10. */
static const uint8_t good[5][4] = {{0x80, 0, 0, 3}, {5, 0, 0, 0}, {0x10, 0, 0, 0}};

/* What a push of standard 0x123, SEQ 5 and the bytes 0 to 7 sends. */
static const struct { size_t n, want; uint8_t bytes[18]; } sent[5] = {
    {2, 4, {0x30, 0x5c}},
    {2, 4, {0x30, 0x60}},
    {2, 4, {0x30, 0x64}},
    {18, 0, {0x24, 0x10, 0x23, 0x01, 0, 0, 0x08, 0x0a, 0, 0, 0, 1, 2, 3, 4, 5, 6, 7}},
    {6, 0, {0x20, 0x5c, 0x80, 0x01, 0, 3}},
};

static unsigned at;               /* which exchange of the push comes next */
static bool looking;              /* at what is sent, and answering `answers` */
static const uint8_t (*answers)[4];
static unsigned fails;            /* the exchange that fails, from 1 on */
static unsigned bad;

__attribute__((noinline)) static int looked(const uint8_t *tx, size_t n, const uint8_t *more, size_t m, uint8_t *rx, size_t want)
{
    uint8_t all[80];
    unsigned k = at++;

    if (k >= 5 || n + m > sizeof all) {
        bad++;
        return 1;
    }
    if (k + 1 == fails)
        return 1;
    memcpy(all, tx, n);
    if (m)
        memcpy(all + n, more, m);
    if (answers == good && (n + m != sent[k].n || want != sent[k].want || memcmp(all, sent[k].bytes, n + m)))
        bad++;
    if (want == 4)
        memcpy(rx, answers[k], 4);
    return 0;
}

int exchange(const uint8_t *tx, size_t n, const uint8_t *more, size_t m, uint8_t *rx, size_t want)
{
    if (looking)
        return looked(tx, n, more, m, rx, want);
    if (want == 4)
        memcpy(rx, good[at], 4);
    at = at == 4 ? 0 : at + 1;
    return 0;
}

static uint8_t payload[72] = {0, 1, 2, 3, 4, 5, 6, 7};

static int looked_at(const uint8_t (*a)[4], unsigned f, uint8_t fifo, struct header h, uint32_t seq, size_t n)
{
    looking = true, answers = a, fails = f, at = 0;
    return side(0, fifo, &h, seq, payload, n);
}

/* This push is to be refused, by this number after so many exchanges. */
static void refuses(int number, unsigned exchanges, const uint8_t (*a)[4], unsigned f, uint8_t fifo, struct header h, uint32_t seq, size_t n)
{
    int r = looked_at(a, f, fifo, h, seq, n);

    if (r != number || at != exchanges) {
        printf("answered %d after %u exchanges, and not %d after %u\n", r, at, number, exchanges);
        bad++;
    }
}

static void refusals(void)
{
    static const uint8_t receives[5][4] = {{0, 0, 0, 3}}, full[5][4] = {{0x80, 0, 0, 3}};
    static const uint8_t high[5][4] = {{0x80, 0, 0, 3}, {5}, {0, 0xfc}}, end[5][4] = {{0x80, 0, 0, 3}, {5}, {0xf4, 7}};
    const struct header s = {.id = 0x123}, wide = {.id = 0x800}, fd = {.id = 0x123, .fdf = true};
    const struct header widest = {.id = 0x20000000, .extended = true};

    refuses(20, 0, good, 0, 0, wide, 0x800000, 9);
    refuses(20, 0, good, 0, 32, s, 5, 8);
    refuses(21, 0, good, 0, 1, wide, 0x800000, 9);
    refuses(21, 0, good, 0, 1, widest, 5, 8);
    refuses(24, 0, good, 0, 1, s, 0x800000, 9);
    refuses(22, 0, good, 0, 1, s, 5, 12);
    refuses(22, 0, good, 0, 1, fd, 5, 9);
    refuses(6, 1, receives, 0, 1, fd, 5, 12);
    refuses(7, 1, good, 0, 1, fd, 5, 12);
    refuses(8, 2, full, 0, 1, s, 5, 8);
    refuses(25, 3, high, 0, 1, s, 5, 8);
    refuses(3, 3, end, 0, 1, s, 5, 8);
    for (unsigned f = 1; f <= 5; f++)
        refuses(f == 4 ? 2 : 1, f, good, f, 1, s, 5, 8);
}

int main(int argc, char **argv)
{
    const struct header h = {.id = 0x123};

    if (argc == 3) {
        const uint32_t kind = (uint32_t)atoi(argv[1]), count = (uint32_t)atoi(argv[2]);
        for (uint32_t i = 0; i < count; i++) {
            payload[0] = (uint8_t)i;
            bad += side(kind, 1, &h, i, payload, 8) != 0;
        }
    } else if (argc == 2 && !strcmp(argv[1], "refused")) {
        refusals();
    } else if (argc == 2 && !strcmp(argv[1], "good")) {
        bad += looked_at(good, 0, 1, h, 5, 8) != 0 || at != 5;
    } else {
        return 2;
    }
    return bad != 0;
}
