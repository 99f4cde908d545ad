/* bare: that the library links where there is no C library. These functions and an entry are all that it is given: the mem functions that
 * rustc's code may call, and abort, which is called where a call panics, as none does. To be linked only:
 *     cc -ffreestanding -fno-builtin -nostdlib -static -Wl,-e,entry bare.c libmasevuru_c.a -o bare */
#include "masevuru.h"

void *memcpy(void *to, const void *from, size_t n);
void *memmove(void *to, const void *from, size_t n);
void *memset(void *to, int c, size_t n);
int memcmp(const void *a, const void *b, size_t n);
int bcmp(const void *a, const void *b, size_t n);
void abort(void);
void entry(void);

void *memcpy(void *to, const void *from, size_t n) { return memmove(to, from, n); }

void *memmove(void *to, const void *from, size_t n)
{
    volatile unsigned char *t = to; /* volatile: not made a call of memmove again */
    const unsigned char *f = from;
    if ((uintptr_t)to < (uintptr_t)from)
        for (size_t i = 0; i < n; i++)
            t[i] = f[i];
    else
        for (size_t i = n; i > 0; i--)
            t[i - 1] = f[i - 1];
    return to;
}

void *memset(void *to, int c, size_t n)
{
    volatile unsigned char *t = to;
    for (size_t i = 0; i < n; i++)
        t[i] = (unsigned char)c;
    return to;
}

int memcmp(const void *a, const void *b, size_t n)
{
    const unsigned char *x = a, *y = b;
    for (size_t i = 0; i < n; i++)
        if (x[i] != y[i])
            return x[i] < y[i] ? -1 : 1;
    return 0;
}

int bcmp(const void *a, const void *b, size_t n) { return memcmp(a, b, n); }

void abort(void)
{
    for (;;)
        ;
}

static int transfer(void *context, const uint8_t *tx, size_t tx_len, uint8_t *rx, size_t rx_len)
{
    (void)context, (void)tx, (void)tx_len, (void)rx, (void)rx_len;
    return 1;
}

static void wait(void *context, uint32_t microseconds) { (void)context, (void)microseconds; }

/* Every call, so that all of the library is linked. */
static volatile int answers;

void entry(void)
{
    static const mcp_settings settings;
    static const mcp_fifo fifo;
    static const mcp_tx_queue queue;
    static const mcp_filter filter;
    static const mcp_header header;
    static uint8_t buf[64];
    static mcp_message message;
    static uint32_t word, mismatches;
    static uint8_t next;
    static const mcp_watch watch;
    static mcp_scrubber scrubber;
    static mcp_report report;
    const mcp_line line = { transfer, wait, 0, &word };
    answers += mcp_reset(&line) + mcp_read_register(&line, 0, &word) + mcp_write_register(&line, 0, 0);
    answers += mcp_modify_register(&line, 0, 0, 0) + mcp_checked_read(&line, 0, &word, &mismatches);
    answers += mcp_read_ram(&line, 0x400, buf, 64) + mcp_write_ram(&line, 0x400, buf, 64);
    answers += mcp_verify(&line) + mcp_verify_long(&line) + mcp_set_op_mode(&line, 4) + mcp_get_op_mode(&line, &word);
    answers += mcp_configure(&line, &settings) + mcp_configure_osc(&line, &settings.oscillator) + mcp_configure_io(&line, &settings.io);
    answers += mcp_configure_bit_timing(&line, &settings.bittime) + mcp_configure_fifo(&line, 1, &fifo);
    answers += mcp_configure_tx_queue(&line, &queue) + mcp_disable_tx_queue(&line);
    answers += mcp_configure_filter(&line, 0, &filter) + mcp_disable_filter(&line, 0);
    answers += mcp_push(&line, 1, &header, 0, buf, 8) + mcp_request(&line, 1) + mcp_transmit(&line, 1, &header, 0, buf, 8, &next);
    answers += mcp_queue_push(&line, &header, 0, buf, 8) + mcp_queue_push_unchecked(&line, &header, 0, buf, 8) + mcp_queue_request(&line);
    answers += mcp_has_next(&line, 2, &next) + mcp_peek(&line, 2, buf, 64, &message) + mcp_get(&line, 2, buf, 64, &message);
    answers += mcp_scrub(&line, &scrubber, &watch, 1, 1, &report);
    for (;;)
        ;
}
