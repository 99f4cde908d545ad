/* The sides of bench/push, and the line that each of them pushes over. */
#include <stdbool.h>
#include <stddef.h>
#include <stdint.h>

/* a message's identifier and flags */
struct header {
    uint32_t id;
    bool extended, rtr, brs, fdf, esi;
};

/* One exchange: n bytes go out, behind them m more (a side that has all in one place passes none), then `want` come back. 0 says that it
   was carried out. */
int exchange(const uint8_t *tx, size_t n, const uint8_t *more, size_t m, uint8_t *rx, size_t want);

/* A push by this side: 0, or document 01's number. `kind` is the number of the call where a side has several, and 0 is a push. */
int side(uint32_t kind, uint8_t fifo, const struct header *h, uint32_t seq, const uint8_t *payload, size_t n);
