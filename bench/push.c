/* A push by hand, from document 01: the five exchanges straight through, with the same refusals in the same order. */
#include "line.h"
#include <string.h>

static void put_word(uint8_t *to, uint32_t w)
{
    to[0] = (uint8_t)w, to[1] = (uint8_t)(w >> 8), to[2] = (uint8_t)(w >> 16), to[3] = (uint8_t)(w >> 24);
}

static void put_command(uint8_t *to, unsigned opcode, unsigned address)
{
    to[0] = (uint8_t)(opcode << 4 | (address >> 8 & 15)), to[1] = (uint8_t)address;
}

static int read_word(unsigned address, uint32_t *w)
{
    uint8_t tx[2], rx[4];

    put_command(tx, 3, address);
    if (exchange(tx, 2, 0, 0, rx, 4))
        return 1;
    *w = rx[0] | (uint32_t)rx[1] << 8 | (uint32_t)rx[2] << 16 | (uint32_t)rx[3] << 24;
    return 0;
}

/* the DLC of a payload of n bytes, or -1 */
static int dlc_of(size_t n, bool fdf)
{
    if (n <= 8)
        return (int)n;
    if (fdf)
        switch (n) {
        case 12: return 9;
        case 16: return 10;
        case 20: return 11;
        case 24: return 12;
        case 32: return 13;
        case 48: return 14;
        case 64: return 15;
        }
    return -1;
}

int side(uint32_t kind, uint8_t fifo, const struct header *h, uint32_t seq, const uint8_t *payload, size_t n)
{
    static const uint8_t sizes[8] = {8, 12, 16, 20, 24, 32, 48, 64};
    const unsigned address = 0x5c + 12 * (fifo - 1u); /* of the control register */
    const size_t len = 8 + (n + 3) / 4 * 4;           /* of the object */
    const int dlc = dlc_of(n, h->fdf);
    uint32_t control, status, user;
    uint8_t tx[2 + 72];

    (void)kind;
    if (fifo < 1 || fifo > 31)
        return 20;
    if (h->id > (h->extended ? 0x1fffffffu : 0x7ffu))
        return 21;
    if (seq >> 23)
        return 24;
    if (dlc < 0)
        return 22;

    if (read_word(address, &control))
        return 1;
    if (!(control & 1u << 7)) /* TXEN */
        return 6;
    if (sizes[control >> 29] < n)
        return 7;
    if (read_word(address + 4, &status))
        return 1;
    if (!(status & 1))
        return 8;
    if (read_word(address + 8, &user))
        return 1;
    if (user > 0xfbff)
        return 25;
    user += 0x400;
    if (user + len > 0xc00)
        return 3;

    put_command(tx, 2, user);
    put_word(tx + 2, h->extended ? h->id >> 18 | (h->id & 0x3ffff) << 11 : h->id);
    put_word(tx + 6, (uint32_t)dlc | (uint32_t)h->extended << 4 | (uint32_t)h->rtr << 5 | (uint32_t)h->brs << 6 | (uint32_t)h->fdf << 7 |
        (uint32_t)h->esi << 8 | seq << 9);
    memcpy(tx + 10, payload, n);
    memset(tx + 10 + n, 0, len - 8 - n);
    if (exchange(tx, 2 + len, 0, 0, 0, 0))
        return 2;

    put_command(tx, 2, address);
    put_word(tx + 2, control | 1u << 8); /* UINC */
    return exchange(tx, 6, 0, 0, 0, 0) ? 1 : 0;
}
