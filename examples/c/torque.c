/* The wheel engineer's question, asked of the modelled chip from C: when push says 0, is my torque command in the chip, and will
 * exactly that go out? What is held and sent is written as `drive examples/torque.script` of the project writes it. */
#include "masevuru.h"
#include <stdio.h>
#include <stdlib.h>

/* A line on which one exchange can be made to fail. */
typedef struct {
    mcp_chip chip;
    unsigned exchanges, fail_at;
} bench;

static int transfer(void *context, const uint8_t *tx, size_t tx_len, uint8_t *rx, size_t rx_len)
{
    bench *b = context;
    if (++b->exchanges == b->fail_at)
        return 1;
    return mcp_chip_transfer(&b->chip, tx, tx_len, rx, rx_len);
}

static void must(const char *what, int answer)
{
    if (answer != MCP_DONE) {
        printf("%s: refused %d\n", what, answer);
        exit(1);
    }
}

static void tell(const char *call, int answer)
{
    if (answer == MCP_DONE)
        printf("%s: ok\n", call);
    else
        printf("%s: refused %d\n", call, answer);
}

static void tell_frame(const mcp_frame *f)
{
    const mcp_header *h = &f->header;
    printf("frame %s %03x ", h->extended ? "ext" : "std", (unsigned)h->id);
    printf("%s%s%s%s", h->fdf ? "f" : "", h->brs ? "b" : "", h->esi ? "e" : "", h->rtr ? "r" : "");
    printf("%s %u ", h->fdf || h->brs || h->esi || h->rtr ? "" : "-", (unsigned)f->seq);
    for (unsigned i = 0; i < f->len; i++)
        printf("%02x", f->payload[i]);
    printf(f->len ? "\n" : "-\n");
}

/* What FIFO 1 holds, decoded from the chip's RAM. */
static void held(const bench *b)
{
    mcp_frame frame;
    uint32_t count;
    must("held", mcp_chip_held(&b->chip, 1, &count));
    printf("held 1 %u\n", (unsigned)count);
    for (uint32_t k = 0; k < count; k++) {
        must("held_at", mcp_chip_held_at(&b->chip, 1, k, &frame));
        printf("+ ");
        if (frame.kind == MCP_FRAME)
            tell_frame(&frame);
        else
            printf("no frame\n");
    }
}

/* The chip's turn on the bus. */
static void send(bench *b)
{
    mcp_frame frame;
    must("send", mcp_chip_send(&b->chip, 1, &frame));
    printf("bus send 1 = ");
    if (frame.kind == MCP_FRAME)
        tell_frame(&frame);
    else
        printf(frame.kind == MCP_NO_FRAME ? "no frame\n" : "nothing sent\n");
}

int main(void)
{
    static bench b;
    const mcp_line line = { .transfer = transfer, .wait = mcp_chip_wait, .context = &b };
    /* 500 kbit/s and 2 Mbit/s at 40 MHz; four messages of up to 8 bytes; mode 6 is CAN 2.0. */
    const mcp_settings settings = { .bittime = { .nominal = { 0, 62, 15, 15 }, .data = { 0, 14, 3, 3, 16 } } };
    const mcp_fifo sender = { .size = 4, .plsize = 0, .transmit = 1 };
    const mcp_header torque = { .id = 0x123 };
    must("chip", mcp_chip_new(&b.chip));
    must("reset", mcp_reset(&line));
    must("configure", mcp_configure(&line, &settings));
    must("configure_fifo", mcp_configure_fifo(&line, 1, &sender));
    must("set_op_mode", mcp_set_op_mode(&line, 6));

    /* A torque command, SEQ 5. */
    tell("push", mcp_push(&line, 1, &torque, 5, (const uint8_t[]){ 0x00, 0xC8, 0xFF, 0x38 }, 4));
    held(&b);
    tell("request", mcp_request(&line, 1));
    send(&b);
    send(&b);

    /* Another, SEQ 6, with the RAM write failing: the fourth exchange of a push. */
    b.fail_at = b.exchanges + 4;
    tell("push", mcp_push(&line, 1, &torque, 6, (const uint8_t[]){ 0x00, 0xC8, 0xFF, 0x39 }, 4));
    held(&b);
    tell("request", mcp_request(&line, 1));
    send(&b);
    return 0;
}
