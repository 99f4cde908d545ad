/* calls: what the header promises, call by call, on the modelled chip: exchanges that fail one after the other, NULLs, numbers too wide,
 * what refusals carry, every DLC, lists that are scrubbed, mismatches that are counted, messages that overtake others in the transmit
 * queue, and that each field of each structure is where the library looks for it. What is expected was written down from documents 01 and
 * 02 and the data sheet's bits. Says how many things were looked at, or which line found another. */
#include "masevuru.h"
#include <stdio.h>
#include <stdlib.h>
#include <string.h>

static unsigned long looked;
#define IS(what) ((what) ? (void)looked++ : (printf("calls.c:%d: not so: %s\n", __LINE__, #what), exit(1)))

/* The line: the chip, of which one exchange may fail, or be answered by another word; and checked reads, by a bit each of an exchange's
 * number, with another CRC. */
static mcp_chip chip;
static unsigned exchanges, fail_at, twist_at, wrong_crcs;
static uint32_t twist;

static int transfer(void *context, const uint8_t *tx, size_t tx_len, uint8_t *rx, size_t rx_len)
{
    exchanges++;
    if (exchanges == fail_at)
        return 1;
    int r = mcp_chip_transfer(context, tx, tx_len, rx, rx_len);
    if (exchanges == twist_at)
        for (size_t i = 0; i < 4; i++)
            rx[i] = (uint8_t)(twist >> 8 * i);
    if (exchanges < 32 && wrong_crcs >> exchanges & 1 && rx_len == 6)
        rx[5] ^= 1;
    return r;
}

/* All that the calls below write to. */
static struct {
    uint8_t buf[72];
    mcp_message message;
    mcp_frame frame;
    mcp_sorted sorted;
    mcp_scrubber scrubber;
    mcp_report report;
    uint32_t word, value, mismatches;
    uint8_t next, accepted;
} out, before;

static const mcp_line line = { .transfer = transfer, .wait = mcp_chip_wait, .context = &chip, .value = &out.value };
static const mcp_settings plain = { .bittime = { .nominal = { 0, 62, 15, 15 }, .data = { 0, 14, 3, 3, 0 } } };
static const mcp_settings all = { .oscillator = { .pll = 1 }, .dncnt = 1, .counter = 1 };
static const mcp_header header = { .id = 0x123 };
static const mcp_filter filter = { .fifo = 2, .mode = MCP_STANDARD, .object = { 0x100, 0 }, .mask = { 0x700, 0 } };
static const mcp_fifo sender = { .size = 4, .transmit = 1 };
static const mcp_tx_queue queue = { .size = 4 };
static const uint8_t bytes[72] = { 1, 2, 3, 4, 5, 6, 7, 8 };

static void fresh(void)
{
    memset(&out, 0x5A, sizeof out);
    memset(&before, 0x5A, sizeof before);
    exchanges = fail_at = twist_at = wrong_crcs = 0;
}

static int untouched(void) { return !memcmp(&out, &before, sizeof out); }

/* A chip outside Configuration: FIFO 1 sends; FIFO 2, with timestamps, and FIFO 3 receive, and hold a message each; or besides with a
 * transmit queue of 4 slots of 16 bytes. */
static void prepare_with(int is_queued)
{
    const mcp_fifo stamped = { .size = 2, .plsize = 7, .rxtsen = 1 }, receiver = { .size = 2 };
    uint32_t turned_down;
    IS(mcp_chip_new(&chip) == 0);
    IS(mcp_configure(&line, &plain) == 0);
    IS((is_queued ? mcp_configure_tx_queue(&line, &queue) : mcp_disable_tx_queue(&line)) == 0);
    IS(mcp_configure_fifo(&line, 1, &sender) == 0);
    IS(mcp_configure_fifo(&line, 2, &stamped) == 0);
    IS(mcp_configure_fifo(&line, 3, &receiver) == 0);
    IS(mcp_set_op_mode(&line, 0) == 0);
    IS(mcp_chip_deliver(&chip, 2, &header, 5, 0xA1B2C3D4, bytes, 5, &turned_down) == 0 && turned_down == MCP_DELIVERED);
    IS(mcp_chip_deliver(&chip, 3, &header, 5, 0xA1B2C3D4, bytes, 5, &turned_down) == 0 && turned_down == MCP_DELIVERED);
    fresh();
}

static void prepare(void) { prepare_with(0); }

/* In the place of a FIFO, below. */
enum { QUEUE = 32 };

static uint32_t held(uint32_t fifo)
{
    uint32_t count;
    IS((fifo == QUEUE ? mcp_chip_held_queue(&chip, &count) : mcp_chip_held(&chip, fifo, &count)) == 0);
    return count;
}

static uint32_t reg(uint32_t address)
{
    uint32_t word;
    IS(mcp_read_register(&line, address, &word) == 0);
    return word;
}

/* CiNBTCFG, with a bit that it does not have. A step over it alone: what it answers, or what its report tells. */
static const mcp_watch differs = { 0x004, 0x003E0F0E, 0x000000FF };

static int scrubbed(const mcp_line *l, int rewrite)
{
    mcp_scrubber s = { 0 };
    mcp_report report;
    int r = mcp_scrub(l, &s, &differs, 1, rewrite, &report);
    return r ? r : (int)report.number;
}

/* Each exchange of each call fails once. */

#define CALL(name, does) static int name(const mcp_line *l) { return does; }
CALL(a_reset, mcp_reset(l))
CALL(a_read, mcp_read_register(l, 0x000, &out.word))
CALL(a_write, mcp_write_register(l, 0x004, 7))
CALL(a_modify, mcp_modify_register(l, 0x004, 1, 2))
CALL(a_checked, mcp_checked_read(l, 0xE00, &out.word, &out.mismatches))
CALL(a_read_ram, mcp_read_ram(l, 0x400, out.buf, 72))
CALL(a_write_ram, mcp_write_ram(l, 0x800, bytes, 72))
CALL(a_verify, mcp_verify(l))
CALL(a_verify_long, mcp_verify_long(l))
CALL(a_mode, mcp_set_op_mode(l, 4))
CALL(a_get_mode, mcp_get_op_mode(l, &out.word))
CALL(a_configure, mcp_configure(l, &plain))
CALL(a_configure_all, mcp_configure(l, &all))
CALL(a_osc, mcp_configure_osc(l, &plain.oscillator))
CALL(a_pll, mcp_configure_osc(l, &all.oscillator))
CALL(a_io, mcp_configure_io(l, &plain.io))
CALL(a_timing, mcp_configure_bit_timing(l, &plain.bittime))
CALL(a_fifo, mcp_configure_fifo(l, 1, &sender))
CALL(a_filter, mcp_configure_filter(l, 0, &filter))
CALL(a_disable, mcp_disable_filter(l, 0))
CALL(a_push, mcp_push(l, 1, &header, 5, bytes, 8))
CALL(a_request, mcp_request(l, 1))
CALL(a_transmit, mcp_transmit(l, 1, &header, 5, bytes, 8, NULL))
CALL(a_next, mcp_has_next(l, 2, &out.next))
CALL(a_peek_2, mcp_peek(l, 2, out.buf, 72, &out.message))
CALL(a_peek_3, mcp_peek(l, 3, out.buf, 72, &out.message))
CALL(a_get_2, mcp_get(l, 2, out.buf, 72, &out.message))
CALL(a_get_3, mcp_get(l, 3, out.buf, 72, &out.message))
CALL(a_scrub, scrubbed(l, 0))
CALL(a_rewrite, scrubbed(l, 1))
CALL(a_queue, mcp_configure_tx_queue(l, &queue))
CALL(a_queue_off, mcp_disable_tx_queue(l))
CALL(a_queue_push, mcp_queue_push(l, &header, 5, bytes, 8))
CALL(a_queue_bare, mcp_queue_push_unchecked(l, &header, 5, bytes, 8))
CALL(a_queue_request, mcp_queue_request(l))

/* Document 01: 1 where a read or a register write failed; 2 where a RAM write or the reset failed; 11 in place of both in any
 * configuration, mode or echo call but configure_fifo and configure_filter (get_op_mode is a register read). The exchanges are those of
 * "Exchange by exchange"; a change is two, a read and a write. The chip takes a mode at once and shows PLLRDY with PLLEN: one poll.
 * configure: mode 2, poll 1, echo 64, OSC 2, PLL's poll 1 if on, IOCON 2, bit timing 6, STEF 2, TXQEN 2, TSCON 2 if the counter is on,
 * DNCNT 2 if not 0, RTXAT 2, CiINT 2. A scrub reports what failed. Document 02, of the queue: a change of CiCON, and of control where it
 * is turned on; a push is CiCON, control, status, user address, RAM write, control; unchecked user address, RAM write, and a change of
 * control. FIFO `fifo` holds `then` messages where an exchange up to `last` failed, `after` where a later one or none did. */
static const struct {
    int (*call)(const mcp_line *);
    struct { unsigned times; int answer; } parts[3];
    unsigned fifo, last, then, after;
} rows[] = {
    { a_reset, { { 1, 2 } }, 0, 0, 0, 0 },
    { a_read, { { 1, 1 } }, 0, 0, 0, 0 },
    { a_write, { { 1, 1 } }, 0, 0, 0, 0 },
    { a_modify, { { 2, 1 } }, 0, 0, 0, 0 },
    { a_checked, { { 1, 1 } }, 0, 0, 0, 0 },
    { a_read_ram, { { 1, 1 } }, 0, 0, 0, 0 },
    { a_write_ram, { { 1, 2 } }, 0, 0, 0, 0 },
    { a_verify, { { 64, 11 } }, 0, 0, 0, 0 },
    { a_verify_long, { { 2, 11 } }, 0, 0, 0, 0 },
    { a_mode, { { 3, 11 } }, 0, 0, 0, 0 },
    { a_get_mode, { { 1, 1 } }, 0, 0, 0, 0 },
    { a_configure, { { 85, 11 } }, 0, 0, 0, 0 },
    { a_configure_all, { { 90, 11 } }, 0, 0, 0, 0 },
    { a_osc, { { 2, 11 } }, 0, 0, 0, 0 },
    { a_pll, { { 3, 11 } }, 0, 0, 0, 0 },
    { a_io, { { 2, 11 } }, 0, 0, 0, 0 },
    { a_timing, { { 6, 11 } }, 0, 0, 0, 0 },
    { a_fifo, { { 2, 1 } }, 0, 0, 0, 0 },
    { a_filter, { { 8, 1 } }, 0, 0, 0, 0 },
    { a_disable, { { 2, 1 } }, 0, 0, 0, 0 },
    { a_push, { { 3, 1 }, { 1, 2 }, { 1, 1 } }, 1, 5, 0, 1 },
    { a_request, { { 2, 1 } }, 1, 0, 0, 0 },
    { a_transmit, { { 3, 1 }, { 1, 2 }, { 3, 1 } }, 1, 5, 0, 1 },
    { a_next, { { 2, 1 } }, 2, 0, 1, 1 },
    { a_peek_2, { { 7, 1 } }, 2, 0, 1, 1 },
    { a_peek_3, { { 6, 1 } }, 3, 0, 1, 1 },
    { a_get_2, { { 9, 1 } }, 2, 9, 1, 0 },
    { a_get_3, { { 8, 1 } }, 3, 8, 1, 0 },
    { a_scrub, { { 1, 1 } }, 0, 0, 0, 0 },
    { a_rewrite, { { 3, 1 } }, 0, 0, 0, 0 },
    { a_queue, { { 4, 11 } }, QUEUE, 0, 0, 0 },
    { a_queue_off, { { 2, 11 } }, QUEUE, 0, 0, 0 },
    { a_queue_push, { { 4, 1 }, { 1, 2 }, { 1, 1 } }, QUEUE, 6, 0, 1 },
    { a_queue_bare, { { 1, 1 }, { 1, 2 }, { 2, 1 } }, QUEUE, 4, 0, 1 },
    { a_queue_request, { { 2, 1 } }, QUEUE, 0, 0, 0 },
};

static void failing(void)
{
    for (size_t i = 0; i < sizeof rows / sizeof *rows; i++) {
        unsigned k = 0;
        for (size_t p = 0; p < 3; p++)
            for (unsigned t = 0; t < rows[i].parts[p].times; t++) {
                prepare_with(rows[i].fifo == QUEUE);
                fail_at = ++k;
                IS(rows[i].call(&line) == rows[i].parts[p].answer);
                IS(exchanges == k);
                IS(untouched());
                if (rows[i].fifo)
                    IS(held(rows[i].fifo) == (k <= rows[i].last ? rows[i].then : rows[i].after));
            }
        prepare_with(rows[i].fifo == QUEUE);
        IS(rows[i].call(&line) == 0);
        IS(exchanges == k);
        if (rows[i].fifo)
            IS(held(rows[i].fifo) == rows[i].after);
    }
}

/* A transmit tells whether the message is in the chip: not where one of the push's five exchanges failed, but where one of the request's
 * two did; then a request sends it. */
static void transmitted(void)
{
    for (unsigned k = 0; k <= 7; k++) {
        const unsigned accepted = k == 0 || k > 5;
        prepare();
        fail_at = k;
        IS(mcp_transmit(&line, 1, &header, 5, bytes, 8, &out.accepted) == (k == 0 ? 0 : k == 4 ? 2 : 1));
        IS(out.accepted == accepted && held(1) == accepted);
        out.accepted = before.accepted;
        IS(untouched());
        IS(mcp_request(&line, 1) == 0 && mcp_chip_send(&chip, 1, &out.frame) == 0);
        IS(out.frame.kind == (accepted ? MCP_FRAME : MCP_NOTHING) && out.frame.seq == (accepted ? 5 : 0) && held(1) == 0);
    }
    prepare();
    IS(mcp_transmit(&line, 257, &header, 5, bytes, 8, &out.accepted) == 20 && out.accepted == 0 && exchanges == 0);
    out.accepted = 0x5A;
    IS(mcp_transmit(&line, 2, &header, 5, bytes, 8, &out.accepted) == 6 && out.accepted == 0);
}

/* The chip as its registers of the queue and of FIFO 1 to 3, CiCON and its RAM show it. */
typedef struct { uint8_t registers[48], con[4], ram[2048]; } view;

static view looked_at(void)
{
    uint8_t read[2] = { 0x30, 0x50 };
    view v;
    for (size_t i = 0; i < sizeof v.registers; i += 4, read[1] += 4)
        IS(mcp_chip_transfer(&chip, read, 2, v.registers + i, 4) == 0);
    read[1] = 0x00;
    IS(mcp_chip_transfer(&chip, read, 2, v.con, 4) == 0);
    read[0] = 0x34;
    IS(mcp_chip_transfer(&chip, read, 2, v.ram, 2048) == 0);
    return v;
}

static int is_same(view a)
{
    view b = looked_at();
    return !memcmp(&a, &b, sizeof a);
}

/* NULLs: nothing is done. */
#define NOTHING_DONE(call) (fresh(), kept = looked_at(), IS((call) == MCP_NULL), IS(!exchanges && untouched() && is_same(kept)))

static void nulls(void)
{
    const mcp_line no_transfer = { .wait = mcp_chip_wait, .context = &chip }, no_wait = { .transfer = transfer, .context = &chip };
    const mcp_line *bad[] = { NULL, &no_transfer, &no_wait };
    view kept;
    const size_t too_long = (size_t)-1;
    prepare_with(1);
    for (size_t i = 0; i < sizeof rows / sizeof *rows; i++)
        for (size_t k = 0; k < 3; k++)
            NOTHING_DONE(rows[i].call(bad[k]));
    NOTHING_DONE(mcp_read_register(&line, 0, NULL));
    NOTHING_DONE(mcp_checked_read(&line, 0, NULL, &out.mismatches));
    NOTHING_DONE(mcp_checked_read(&line, 0, &out.word, NULL));
    NOTHING_DONE(mcp_checked_read(&line, 0x1000, &out.word, NULL)); /* before 24 */
    NOTHING_DONE(mcp_read_ram(&line, 0x400, NULL, 4));
    NOTHING_DONE(mcp_read_ram(&line, 0x400, NULL, too_long));
    NOTHING_DONE(mcp_read_ram(&line, 0x400, out.buf, too_long));
    NOTHING_DONE(mcp_write_ram(&line, 0x400, NULL, 4));
    NOTHING_DONE(mcp_write_ram(&line, 0x400, bytes, too_long));
    NOTHING_DONE(mcp_get_op_mode(&line, NULL));
    NOTHING_DONE(mcp_configure(&line, NULL));
    NOTHING_DONE(mcp_configure_osc(&line, NULL));
    NOTHING_DONE(mcp_configure_io(&line, NULL));
    NOTHING_DONE(mcp_configure_bit_timing(&line, NULL));
    NOTHING_DONE(mcp_configure_fifo(&line, 1, NULL));
    NOTHING_DONE(mcp_configure_filter(&line, 0, NULL));
    NOTHING_DONE(mcp_push(&line, 1, NULL, 5, bytes, 8));
    NOTHING_DONE(mcp_push(&line, 1, &header, 5, NULL, 8));
    NOTHING_DONE(mcp_push(&line, 1, &header, 5, bytes, too_long));
    NOTHING_DONE(mcp_push(&line, 257, &header, 5, NULL, 8)); /* before 20 */
    NOTHING_DONE(mcp_transmit(&line, 1, NULL, 5, bytes, 8, &out.accepted));
    NOTHING_DONE(mcp_transmit(&line, 1, &header, 5, NULL, 8, &out.accepted));
    NOTHING_DONE(mcp_transmit(&line, 1, &header, 5, bytes, too_long, &out.accepted));
    NOTHING_DONE(mcp_configure_tx_queue(&line, NULL)); /* it is not turned off */
    NOTHING_DONE(mcp_queue_push(&line, NULL, 5, bytes, 8));
    NOTHING_DONE(mcp_queue_push(&line, &header, 5, NULL, 8));
    NOTHING_DONE(mcp_queue_push(&line, &header, 5, bytes, too_long));
    NOTHING_DONE(mcp_queue_push(&line, &header, 0x800000, NULL, 8)); /* before 24 */
    NOTHING_DONE(mcp_queue_push_unchecked(&line, NULL, 5, bytes, 8));
    NOTHING_DONE(mcp_queue_push_unchecked(&line, &header, 5, NULL, 8));
    NOTHING_DONE(mcp_queue_push_unchecked(&line, &header, 5, bytes, too_long));
    NOTHING_DONE(mcp_has_next(&line, 2, NULL));
    NOTHING_DONE(mcp_peek(&line, 2, NULL, 64, &out.message));
    NOTHING_DONE(mcp_peek(&line, 2, out.buf, too_long, &out.message));
    NOTHING_DONE(mcp_peek(&line, 2, out.buf, 72, NULL));
    NOTHING_DONE(mcp_get(&line, 2, NULL, 64, &out.message));
    NOTHING_DONE(mcp_get(&line, 2, out.buf, too_long, &out.message));
    NOTHING_DONE(mcp_get(&line, 2, out.buf, 72, NULL));
    NOTHING_DONE(mcp_scrub(&line, NULL, &differs, 1, 1, &out.report));
    NOTHING_DONE(mcp_scrub(&line, &out.scrubber, NULL, 1, 1, &out.report));
    NOTHING_DONE(mcp_scrub(&line, &out.scrubber, &differs, too_long, 1, &out.report));
    NOTHING_DONE(mcp_scrub(&line, &out.scrubber, &differs, too_long / 2 / sizeof differs + 1, 1, &out.report)); /* above PTRDIFF_MAX bytes */
    NOTHING_DONE(mcp_scrub(&line, &out.scrubber, &differs, too_long / sizeof differs + 2, 1, &out.report)); /* few, if it wrapped */
    NOTHING_DONE(mcp_scrub(&line, &out.scrubber, &differs, 1, 1, NULL));
    NOTHING_DONE(mcp_scrub(&line, &out.scrubber, NULL, 0, 1, NULL)); /* before 32 */
    NOTHING_DONE(mcp_chip_new(NULL));
    NOTHING_DONE(mcp_chip_transfer(NULL, bytes, 2, out.buf, 4));
    NOTHING_DONE(mcp_chip_transfer(&chip, NULL, 2, out.buf, 4));
    NOTHING_DONE(mcp_chip_transfer(&chip, bytes, too_long, out.buf, 4));
    NOTHING_DONE(mcp_chip_transfer(&chip, bytes, 2, NULL, 4));
    NOTHING_DONE(mcp_chip_transfer(&chip, bytes, 2, out.buf, too_long));
    NOTHING_DONE(mcp_chip_send(NULL, 1, &out.frame));
    NOTHING_DONE(mcp_chip_send(&chip, 1, NULL));
    NOTHING_DONE(mcp_chip_deliver(NULL, 3, &header, 8, 0, bytes, 8, &out.word));
    NOTHING_DONE(mcp_chip_deliver(&chip, 3, NULL, 8, 0, bytes, 8, &out.word));
    NOTHING_DONE(mcp_chip_deliver(&chip, 3, &header, 8, 0, NULL, 8, &out.word));
    NOTHING_DONE(mcp_chip_deliver(&chip, 3, &header, 8, 0, bytes, too_long, &out.word));
    NOTHING_DONE(mcp_chip_deliver(&chip, 3, &header, 8, 0, bytes, 8, NULL));
    NOTHING_DONE(mcp_chip_sort(NULL, &header, 8, 0, bytes, 8, &out.sorted));
    NOTHING_DONE(mcp_chip_sort(&chip, NULL, 8, 0, bytes, 8, &out.sorted));
    NOTHING_DONE(mcp_chip_sort(&chip, &header, 8, 0, NULL, 8, &out.sorted));
    NOTHING_DONE(mcp_chip_sort(&chip, &header, 8, 0, bytes, too_long, &out.sorted));
    NOTHING_DONE(mcp_chip_sort(&chip, &header, 8, 0, bytes, 8, NULL));
    NOTHING_DONE(mcp_chip_held(NULL, 1, &out.word));
    NOTHING_DONE(mcp_chip_held(&chip, 1, NULL));
    NOTHING_DONE(mcp_chip_held_at(NULL, 2, 0, &out.frame));
    NOTHING_DONE(mcp_chip_held_at(&chip, 2, 0, NULL));
    NOTHING_DONE(mcp_chip_send_queue(NULL, &out.frame));
    NOTHING_DONE(mcp_chip_send_queue(&chip, NULL));
    NOTHING_DONE(mcp_chip_held_queue(NULL, &out.word));
    NOTHING_DONE(mcp_chip_held_queue(&chip, NULL));
    NOTHING_DONE(mcp_chip_held_queue_at(NULL, 0, &out.frame));
    NOTHING_DONE(mcp_chip_held_queue_at(&chip, 0, NULL));
    NOTHING_DONE(mcp_chip_no_layout(NULL, &out.word));
    NOTHING_DONE(mcp_chip_no_layout(&chip, NULL));
    /* NULL with a length of 0 is an empty buffer: a RAM access of length 0 is an exchange; 64 bytes are asked of a payload's buffer. */
    fresh();
    IS(mcp_read_ram(&line, 0x400, NULL, 0) == 0 && exchanges == 1);
    IS(mcp_write_ram(&line, 0x400, NULL, 0) == 0 && exchanges == 2);
    IS(mcp_push(&line, 1, &header, 5, NULL, 0) == 0 && held(1) == 1 && exchanges == 7);
    IS(mcp_peek(&line, 2, NULL, 0, &out.message) == 28 && mcp_get(&line, 2, NULL, 0, &out.message) == 28 && exchanges == 7);
    IS(mcp_scrub(&line, &out.scrubber, NULL, 0, 1, &out.report) == 32 && exchanges == 7);
    IS(mcp_queue_push(&line, &header, 5, NULL, 0) == 0 && held(QUEUE) == 1 && exchanges == 13);
    IS(mcp_queue_push_unchecked(&line, &header, 5, NULL, 0) == 0 && held(QUEUE) == 2 && exchanges == 17);
    IS(mcp_chip_transfer(&chip, NULL, 0, NULL, 0) == 1);
    IS(untouched());
    IS(mcp_chip_deliver(&chip, 3, &header, 0, 0, NULL, 0, &out.word) == 0 && out.word == MCP_DELIVERED && held(3) == 2);
}

/* Numbers that are refused before any exchange, and what refusals carry. */
static void numbers(void)
{
    static const uint32_t no_fifo[] = { 0, 32, 255, 256, 257, 0x10001, 0xFFFFFFFF }, no_filter[] = { 32, 255, 256, 257, 0xFFFFFFFF };
    static const uint32_t no_address[] = { 0x1000, 0xFFFF, 0x10000, 0x105C, 0xFFFFFFFF };
    mcp_header far = { .id = 0x800 };
    mcp_filter f = filter;
    prepare();
    for (size_t i = 0; i < sizeof no_fifo / sizeof *no_fifo; i++) {
        uint32_t n = no_fifo[i];
        IS(mcp_configure_fifo(&line, n, &sender) == 20);
        IS(mcp_push(&line, n, &header, 5, bytes, 8) == 20 && mcp_transmit(&line, n, &header, 5, bytes, 8, NULL) == 20);
        IS(mcp_request(&line, n) == 20 && mcp_has_next(&line, n, &out.next) == 20);
        IS(mcp_peek(&line, n, out.buf, 72, &out.message) == 20 && mcp_get(&line, n, out.buf, 72, &out.message) == 20);
        IS(mcp_peek(&line, n, out.buf, 63, &out.message) == 20 && mcp_get(&line, n, out.buf, 63, &out.message) == 20);
        IS(mcp_chip_send(&chip, n, &out.frame) == 20 && mcp_chip_held(&chip, n, &out.word) == 20);
        IS(mcp_chip_held_at(&chip, n, 0, &out.frame) == 20);
        IS(mcp_chip_deliver(&chip, n, &header, 8, 0, bytes, 8, &out.word) == 20);
        f.fifo = n;
        IS(mcp_configure_filter(&line, 0, &f) == 20);
    }
    f = filter;
    for (size_t i = 0; i < sizeof no_filter / sizeof *no_filter; i++)
        IS(mcp_configure_filter(&line, no_filter[i], &filter) == 20 && mcp_disable_filter(&line, no_filter[i]) == 20);
    for (size_t i = 0; i < sizeof no_address / sizeof *no_address; i++) {
        uint32_t a = no_address[i];
        IS(mcp_read_register(&line, a, &out.word) == 24 && mcp_checked_read(&line, a, &out.word, &out.mismatches) == 24);
        IS(mcp_write_register(&line, a, 0) == 24 && mcp_modify_register(&line, a, 0, 0) == 24);
    }
    f.mode = 3; /* 20, 21, 24 in this order */
    IS(mcp_configure_filter(&line, 0, &f) == 24);
    f.mask.id = 0x800;
    IS(mcp_configure_filter(&line, 0, &f) == 21 && mcp_configure_filter(&line, 32, &f) == 20);
    IS(mcp_set_op_mode(&line, 8) == 24 && mcp_set_op_mode(&line, 0xFFFFFFFF) == 24);
    IS(mcp_push(&line, 1, &far, 0x800000, bytes, 9) == 21);
    IS(mcp_push(&line, 1, &header, 0x800000, bytes, 9) == 24);
    IS(mcp_push(&line, 1, &header, 0x7FFFFF, bytes, 9) == 22);
    IS(mcp_peek(&line, 2, out.buf, 63, &out.message) == 28 && mcp_get(&line, 2, out.buf, 63, &out.message) == 28);
    IS(exchanges == 0 && untouched());

    IS(mcp_read_ram(&line, 0x3FF, out.buf, 3) == 3 && out.value == 0x3FF);
    IS(mcp_read_ram(&line, 0xBFC, out.buf, 8) == 3 && out.value == 0xBFC);
    IS(mcp_read_ram(&line, 0xFFFFFFFC, out.buf, 8) == 3 && out.value == 0xFFFFFFFC);
    IS(mcp_read_ram(&line, 0x400, out.buf, 6) == 4 && out.value == 6);
    IS(mcp_write_ram(&line, 0xC00, bytes, 4) == 3 && out.value == 0xC00);
    IS(mcp_write_ram(&line, 0x404, bytes, 2) == 5 && out.value == 2);
    IS(exchanges == 0);
    out.value = before.value;
    IS(untouched());
    /* Of a push and a peek: the user address (exchange 3) is 0x400 below the address that is told. */
    twist_at = 3, twist = 0x7F8;
    IS(mcp_push(&line, 1, &header, 5, bytes, 8) == 3 && out.value == 0xBF8 && exchanges == 3);
    exchanges = 0, twist = 0x7FC;
    IS(mcp_peek(&line, 3, out.buf, 72, &out.message) == 3 && out.value == 0xBFC && exchanges == 3);
    exchanges = 0, twist = 0x7F8; /* the header lies in RAM, what follows does not */
    IS(mcp_get(&line, 2, out.buf, 72, &out.message) == 3 && out.value == 0xC00 && exchanges == 5);
    exchanges = 0, twist = 0xFC00;
    out.value = before.value;
    IS(mcp_push(&line, 1, &header, 5, bytes, 8) == 25 && exchanges == 3);
    exchanges = 0, twist_at = 0;
    IS(mcp_push(&line, 2, &header, 5, bytes, 8) == 6 && mcp_get(&line, 1, out.buf, 72, &out.message) == 9);
    IS(untouched());
    /* Nobody needs to be told. */
    const mcp_line untold = { .transfer = transfer, .wait = mcp_chip_wait, .context = &chip };
    IS(mcp_read_ram(&untold, 0x3FF, out.buf, 3) == 3 && untouched());
}

/* Each field by itself, and the bits that it stands in. */
static void fifo_fields(void)
{
    static const struct { mcp_fifo settings; uint32_t control; } fields[] = {
        /* After a reset TXAT is 3 and FRESET 1. One that sends sets TXAT; one that receives leaves it. */
        { { .transmit = 1, .size = 1 }, 0x00000480 },
        { { .transmit = 1, .size = 32 }, 0x1F000480 },
        { { .transmit = 255, .size = 1, .plsize = 7 }, 0xE0000480 },
        { { .transmit = 1, .size = 1, .txpri = 31 }, 0x001F0480 },
        { { .transmit = 1, .size = 1, .txat = 3 }, 0x00600480 },
        { { .transmit = 1, .size = 1, .rtren = 2 }, 0x000004C0 },
        { { .transmit = 1, .size = 1, .txatie = 1 }, 0x00000490 },
        { { .transmit = 1, .size = 1, .tx_empty = 1 }, 0x00000484 },
        { { .transmit = 1, .size = 1, .tx_half = 1 }, 0x00000482 },
        { { .transmit = 1, .size = 1, .tx_notfull = 1 }, 0x00000481 },
        { { .transmit = 1, .size = 1, .rxtsen = 1, .rxovie = 1, .rx_full = 1, .rx_half = 1, .rx_notempty = 1 }, 0x00000480 },
        { { .size = 1 }, 0x00600400 },
        { { .size = 1, .rxtsen = 1 }, 0x00600420 },
        { { .size = 1, .rxovie = 128 }, 0x00600408 },
        { { .size = 1, .rx_full = 1 }, 0x00600404 },
        { { .size = 1, .rx_half = 1 }, 0x00600402 },
        { { .size = 1, .rx_notempty = 1 }, 0x00600401 },
        { { .size = 1, .txpri = 99, .txat = 99, .rtren = 1, .txatie = 1, .tx_empty = 1, .tx_half = 1, .tx_notfull = 1 }, 0x00600400 },
    };
    for (size_t i = 0; i < sizeof fields / sizeof *fields; i++) {
        IS(mcp_chip_new(&chip) == 0 && mcp_configure_fifo(&line, 31, &fields[i].settings) == 0);
        IS(reg(0x1C4) == fields[i].control);
    }
}

static void queue_fields(void)
{
    static const struct { mcp_tx_queue settings; uint32_t control; } fields[] = {
        /* After a reset TXAT is 3 and FRESET 1; TXEN is always 1. */
        { { .size = 1 }, 0x00000480 },
        { { .size = 32 }, 0x1F000480 },
        { { .size = 33 }, 0x1F000480 },
        { { .size = 1, .plsize = 7 }, 0xE0000480 },
        { { .size = 1, .txpri = 31 }, 0x001F0480 },
        { { .size = 1, .txat = 3 }, 0x00600480 },
        { { .size = 1, .txatie = 2 }, 0x00000490 },
        { { .size = 1, .empty = 128 }, 0x00000484 },
        { { .size = 1, .notfull = 255 }, 0x00000481 },
    };
    static const mcp_tx_queue wide[] = {
        { .size = 0 }, { .size = 1, .plsize = 8 }, { .size = 1, .txpri = 32 }, { .size = 1, .txat = 4 }, { .size = 1, .plsize = 0x100 },
        { .size = 1, .txpri = 0xFFFFFFFF }, { .size = 1, .txat = 0x10000 }, { .size = 0, .txatie = 1, .empty = 1, .notfull = 1 },
    };
    for (size_t i = 0; i < sizeof fields / sizeof *fields; i++) {
        IS(mcp_chip_new(&chip) == 0 && mcp_disable_tx_queue(&line) == 0 && reg(0x000) == 0x04880760 && reg(0x050) == 0x00600480);
        IS(mcp_configure_tx_queue(&line, &fields[i].settings) == 0);
        IS(reg(0x000) == 0x04980760 && reg(0x050) == fields[i].control);
    }
    exchanges = 0;
    for (size_t i = 0; i < sizeof wide / sizeof *wide; i++)
        IS(mcp_configure_tx_queue(&line, &wide[i]) == 24 && exchanges == 0);
}

static void settings_fields(void)
{
    static const struct { mcp_settings settings; uint32_t address, word; } fields[] = {
        { { .dncnt = 0 }, 0xE00, 0x00000460 }, /* OSC as after a reset */
        { { .oscillator.pll = 1 }, 0xE00, 0x00000561 }, /* PLLRDY follows PLLEN */
        { { .oscillator.divide = 1 }, 0xE00, 0x00000470 },
        { { .dncnt = 0 }, 0xE04, 0x03000003 }, /* IOCON as after a reset */
        { { .io.xstbyen = 1 }, 0xE04, 0x03000043 },
        { { .io.txcanod = 1 }, 0xE04, 0x13000003 },
        { { .io.sof = 1 }, 0xE04, 0x23000003 },
        { { .io.intod = 1 }, 0xE04, 0x43000003 },
        { { .bittime.nominal.brp = 255 }, 0x004, 0xFF000000 },
        { { .bittime.nominal.tseg1 = 255 }, 0x004, 0x00FF0000 },
        { { .bittime.nominal.tseg2 = 127 }, 0x004, 0x00007F00 },
        { { .bittime.nominal.sjw = 127 }, 0x004, 0x0000007F },
        { { .bittime.data.brp = 255 }, 0x008, 0xFF000000 },
        { { .bittime.data.tseg1 = 31 }, 0x008, 0x001F0000 },
        { { .bittime.data.tseg2 = 15 }, 0x008, 0x00000F00 },
        { { .bittime.data.sjw = 15 }, 0x008, 0x0000000F },
        { { .bittime.data.tdco = 63 }, 0x00C, 0x00023F00 }, /* TDCMOD 2 */
        { { .bittime.data.tdco = -1 }, 0x00C, 0x00027F00 },
        { { .bittime.data.tdco = -64 }, 0x00C, 0x00024000 },
        { { .dncnt = 0 }, 0x000, 0x04810760 }, /* CiCON: Configuration, TXQEN and STEF 0, RTXAT 1 */
        { { .dncnt = 18 }, 0x000, 0x04810772 },
        { { .dncnt = 0 }, 0x014, 0x00000000 },
        { { .counter = 1 }, 0x014, 0x00010000 },
        { { .dncnt = 0 }, 0x01C, 0x00030000 }, /* CiINT: RXIE, TXIE */
        { { .counter = 1 }, 0x01C, 0x00070000 },
        { { .canerrors = 1 }, 0x01C, 0xB0030000 },
        { { .spierror = 1 }, 0x01C, 0x02030000 },
        { { .eccerror = 1 }, 0x01C, 0x01030000 },
    };
    for (size_t i = 0; i < sizeof fields / sizeof *fields; i++) {
        IS(mcp_chip_new(&chip) == 0 && mcp_configure(&line, &fields[i].settings) == 0);
        IS(reg(fields[i].address) == fields[i].word);
    }
    /* The calls for one part go by the same structures. */
    mcp_settings s = plain;
    IS(mcp_chip_new(&chip) == 0);
    s.oscillator.divide = s.io.sof = 1;
    IS(mcp_configure_osc(&line, &s.oscillator) == 0 && reg(0xE00) == 0x00000470);
    IS(mcp_configure_io(&line, &s.io) == 0 && reg(0xE04) == 0x23000003);
    IS(mcp_configure_bit_timing(&line, &s.bittime) == 0);
    IS(reg(0x004) == 0x003E0F0F && reg(0x008) == 0x000E0303 && reg(0x00C) == 0x00020000);
    s.bittime.data.tdco = 64;
    IS(mcp_configure(&line, &s) == 24);
    s.bittime.data.tdco = -65;
    IS(mcp_configure(&line, &s) == 24);
}

/* Filter 5 is byte 1 of control 1, at 0x1D4; its object is at 0x218, its mask 4 above. */
static void filter_fields(void)
{
    static const struct { mcp_filter settings; uint32_t control, object, mask; } fields[] = {
        { { 31, MCP_STANDARD, { 0x7FF, 0 }, { 0x123, 0 } }, 0x00009F00, 0x000007FF, 0x40000123 },
        { { 1, MCP_EXTENDED, { 0x18DA00F1, 1 }, { 0x123, 0 } }, 0x00008100, 0x50078E36, 0x40000123 },
        { { 1, MCP_BOTH, { 0x123, 0 }, { 0x18DA00F1, 7 } }, 0x00008100, 0x00000123, 0x10078E36 },
    };
    for (size_t i = 0; i < sizeof fields / sizeof *fields; i++) {
        IS(mcp_chip_new(&chip) == 0 && mcp_configure_filter(&line, 5, &fields[i].settings) == 0);
        IS(reg(0x1D4) == fields[i].control && reg(0x218) == fields[i].object && reg(0x21C) == fields[i].mask);
        IS(mcp_disable_filter(&line, 5) == 0 && reg(0x1D4) == (fields[i].control & 0x1F00));
    }
}

/* A header's fields as the first two words of an object, sent and received. */
static void header_fields(void)
{
    static const struct { mcp_header header; uint32_t seq; size_t len; uint32_t words[2]; } fields[] = {
        { { .id = 0x123 }, 5, 3, { 0x00000123, 0x00000A03 } },
        { { .id = 0x18DA00F1, .extended = 9 }, 0, 0, { 0x10078E36, 0x00000010 } },
        { { .id = 0x7FF, .rtr = 1 }, 0, 8, { 0x000007FF, 0x00000028 } },
        { { .brs = 1 }, 0, 1, { 0, 0x00000041 } },
        { { .fdf = 1 }, 0, 64, { 0, 0x0000008F } },
        { { .esi = 1 }, 0x7FFFFF, 0, { 0, 0xFFFFFF00 } },
    };
    for (size_t i = 0; i < sizeof fields / sizeof *fields; i++) {
        const mcp_fifo wide = { .size = 1, .plsize = 7, .transmit = 1 }, stamped = { .size = 1, .plsize = 7, .rxtsen = 1 };
        const mcp_header *h = &fields[i].header;
        size_t len = fields[i].len;
        uint32_t dlc = fields[i].words[1] % 16;
        uint8_t object[72];
        mcp_header is; /* flags come back as 0 or 1 */
        memset(&is, 0, sizeof is);
        is.id = h->id, is.extended = h->extended != 0, is.rtr = h->rtr, is.brs = h->brs, is.fdf = h->fdf, is.esi = h->esi;
#define SAME(h) ((h).id == is.id && (h).extended == is.extended && (h).rtr == is.rtr && (h).brs == is.brs && (h).fdf == is.fdf && \
                 (h).esi == is.esi)
        IS(mcp_chip_new(&chip) == 0 && mcp_configure(&line, &plain) == 0);
        IS(mcp_configure_fifo(&line, 1, &wide) == 0 && mcp_configure_fifo(&line, 2, &stamped) == 0 && mcp_set_op_mode(&line, 0) == 0);
        fresh();
        IS(mcp_transmit(&line, 1, h, fields[i].seq, bytes, len, &out.accepted) == 0 && out.accepted == 1);
        IS(mcp_read_ram(&line, 0x400, object, 72) == 0);
        for (size_t b = 0; b < 8; b++)
            IS(object[b] == (uint8_t)(fields[i].words[b / 4] >> 8 * (b % 4)));
        IS(!memcmp(object + 8, bytes, len));
        IS(mcp_chip_held_at(&chip, 1, 0, &out.frame) == 0);
        IS(out.frame.kind == MCP_FRAME && SAME(out.frame.header) && out.frame.seq == fields[i].seq && out.frame.len == len);
        IS(out.frame.dlc == dlc && !out.frame.filter && !out.frame.stamped && !out.frame.time && !memcmp(out.frame.payload, bytes, len));
        memset(&out.frame, 0x5A, sizeof out.frame);
        IS(mcp_chip_send(&chip, 1, &out.frame) == 0);
        IS(out.frame.kind == MCP_FRAME && SAME(out.frame.header) && out.frame.seq == fields[i].seq && out.frame.len == len);
        IS(out.frame.dlc == dlc && !out.frame.filter && !out.frame.stamped && !out.frame.time && !memcmp(out.frame.payload, bytes, len));
        IS(mcp_chip_send(&chip, 1, &out.frame) == 0 && out.frame.kind == MCP_NOTHING && out.frame.len == 0 && out.frame.dlc == 0 && out.frame.filter == 0);

        IS(mcp_chip_deliver(&chip, 2, h, dlc, 0xA1B2C3D4, bytes, len, &out.word) == 0 && out.word == MCP_DELIVERED);
        IS(mcp_chip_held_at(&chip, 2, 0, &out.frame) == 0);
        IS(out.frame.kind == MCP_FRAME && SAME(out.frame.header) && out.frame.seq == 0 && out.frame.len == len);
        IS(out.frame.dlc == dlc && out.frame.stamped == 1 && out.frame.time == 0xA1B2C3D4 && !memcmp(out.frame.payload, bytes, len));
        IS(mcp_has_next(&line, 2, &out.next) == 0 && out.next == 1);
        for (int get = 0; get < 2; get++) {
            fresh();
            IS((get ? mcp_get : mcp_peek)(&line, 2, out.buf, 72, &out.message) == 0);
            IS(out.message.found == 1 && SAME(out.message.header) && out.message.len == len && out.message.dlc == dlc && !out.message.filter);
            IS(out.message.stamped == 1 && out.message.time == 0xA1B2C3D4 && !memcmp(out.buf, bytes, len));
            for (size_t b = len; b < 72; b++)
                IS(out.buf[b] == 0x5A);
        }
        /* Empty: values with 0. */
        fresh();
        IS(mcp_has_next(&line, 2, &out.next) == 0 && out.next == 0);
        for (int get = 0; get < 2; get++) {
            memset(&out.message, 0x5A, sizeof out.message);
            IS((get ? mcp_get : mcp_peek)(&line, 2, out.buf, 72, &out.message) == 0);
            IS(!out.message.found && !out.message.len && !out.message.dlc && !out.message.stamped && !out.message.time);
            IS(!out.message.header.id && !out.message.filter);
            IS(!memcmp(out.buf, before.buf, 72));
        }
        IS(mcp_chip_held_at(&chip, 2, 0, &out.frame) == 0 && out.frame.kind == MCP_NOTHING);
    }
}

/* What only the chip tells. */
static void the_chip(void)
{
    const mcp_fifo deep = { .size = 22, .plsize = 7, .transmit = 1 };
    const mcp_header fd = { .id = 1, .fdf = 1 };
    static const uint8_t dlc_9[4] = { 9, 0, 0, 0 };
    prepare();
    /* A slot whose classic DLC is above 8 is taken and is no frame; then nothing is left. */
    IS(mcp_push(&line, 1, &header, 5, bytes, 8) == 0 && mcp_request(&line, 1) == 0 && mcp_write_ram(&line, 0x404, dlc_9, 4) == 0);
    IS(mcp_chip_held_at(&chip, 1, 0, &out.frame) == 0 && out.frame.kind == MCP_NO_FRAME);
    IS(mcp_chip_send(&chip, 1, &out.frame) == 0 && out.frame.kind == MCP_NO_FRAME && held(1) == 0);
    IS(mcp_chip_send(&chip, 1, &out.frame) == 0 && out.frame.kind == MCP_NOTHING);
    /* Held, but not requested; and held in the order of pushing. */
    IS(mcp_push(&line, 1, &header, 6, bytes, 8) == 0 && mcp_push(&line, 1, &header, 7, bytes, 8) == 0);
    IS(mcp_chip_send(&chip, 1, &out.frame) == 0 && out.frame.kind == MCP_NOTHING && held(1) == 2);
    IS(mcp_chip_held_at(&chip, 1, 0, &out.frame) == 0 && out.frame.seq == 6);
    IS(mcp_chip_held_at(&chip, 1, 1, &out.frame) == 0 && out.frame.seq == 7);
    IS(mcp_chip_held_at(&chip, 1, 2, &out.frame) == 0 && out.frame.kind == MCP_NOTHING);
    IS(mcp_chip_held_at(&chip, 1, 257, &out.frame) == 0 && out.frame.kind == MCP_NOTHING);
    /* Causes to turn a frame down, and what no push could carry. */
    IS(mcp_chip_deliver(&chip, 1, &header, 8, 0, bytes, 8, &out.word) == 0 && out.word == MCP_NOT_RECEIVING);
    IS(mcp_chip_deliver(&chip, 3, &fd, 9, 0, bytes, 12, &out.word) == 0 && out.word == MCP_TOO_LONG);
    IS(mcp_chip_deliver(&chip, 3, &header, 8, 0, bytes, 8, &out.word) == 0 && out.word == MCP_DELIVERED);
    IS(mcp_chip_deliver(&chip, 3, &header, 8, 0, bytes, 8, &out.word) == 0 && out.word == MCP_FULL);
    IS(mcp_chip_deliver(&chip, 3, &header, 9, 0, bytes, 9, &out.word) == 22);
    IS(mcp_set_op_mode(&line, 4) == 0);
    IS(mcp_chip_deliver(&chip, 3, &header, 8, 0, bytes, 8, &out.word) == 0 && out.word == MCP_IN_CONFIGURATION);
    /* 22 messages of 64 bytes, with the others' 2 x 76 + 2 x 16, do not fit: 27 on the chip's side, 12 on the driver's. */
    IS(mcp_chip_no_layout(&chip, &out.word) == 0 && out.word == 0);
    IS(mcp_configure_fifo(&line, 1, &deep) == 0 && mcp_set_op_mode(&line, 0) == 12);
    IS(mcp_chip_no_layout(&chip, &out.word) == 0 && out.word == 1);
    IS(mcp_get_op_mode(&line, &out.word) == 0 && out.word == 4);
    IS(mcp_chip_transfer(&chip, bytes, 8, NULL, 0) == 1); /* no such exchange */
    /* All of the RAM. */
    static uint8_t whole[2048], all_of_it[2048];
    for (size_t i = 0; i < 2048; i++)
        whole[i] = (uint8_t)(i * 7 / 3);
    IS(mcp_write_ram(&line, 0x400, whole, 2048) == 0 && mcp_read_ram(&line, 0x400, all_of_it, 2048) == 0);
    IS(!memcmp(whole, all_of_it, 2048));
}

/* Whether a frame is sorted so: with an identifier and a payload's length, FD above 9 bytes; DLC 9 above 8. */
static int comes_to(uint32_t id, size_t len, uint32_t turned_down, uint32_t fifo, uint32_t taken_by)
{
    const mcp_header h = { .id = id, .fdf = len > 9 };
    return mcp_chip_sort(&chip, &h, len > 8 ? 9 : (uint32_t)len, 7, bytes, len, &out.sorted) == 0 && out.sorted.turned_down == turned_down &&
           out.sorted.fifo == fifo && out.sorted.filter == taken_by;
}

static int refused_by(uint32_t id, size_t len)
{
    const mcp_header h = { .id = id, .fdf = len > 9 };
    fresh();
    int r = mcp_chip_sort(&chip, &h, len > 8 ? 9 : (uint32_t)len, 7, bytes, len, &out.sorted);
    IS(untouched());
    return r;
}

/* A frame that the filters sort: document 02's 21, 22, 31, 30, then the causes of a delivery. */
static void sorting(void)
{
    mcp_filter f = filter;
    uint8_t word[4];
    prepare();
    IS(refused_by(0x123, 8) == 30);
    IS(mcp_configure_filter(&line, 0, &filter) == 0);
    f.fifo = 3, f.object.id = 0x200;
    IS(mcp_configure_filter(&line, 9, &f) == 0);
    f.fifo = 1, f.object.id = 0x300;
    IS(mcp_configure_filter(&line, 31, &f) == 0);
    IS(comes_to(0x123, 8, MCP_DELIVERED, 2, 0) && held(2) == 2);
    IS(comes_to(0x223, 5, MCP_DELIVERED, 3, 9) && held(3) == 2);
    /* FILHIT, bits 15 to 11 of word 1: FIFO 3 is behind 4 x 16 and 2 x 76 bytes, the frame in its second slot. */
    IS(mcp_read_ram(&line, 0x400 + 64 + 152 + 16 + 4, word, 4) == 0 && word[0] == 5 && word[1] == 9 << 3 && word[2] == 0);
    IS(comes_to(0x223, 8, MCP_FULL, 3, 9) && comes_to(0x223, 12, MCP_TOO_LONG, 3, 9) && comes_to(0x323, 12, MCP_NOT_RECEIVING, 1, 31));
    IS(mcp_set_op_mode(&line, 4) == 0 && comes_to(0x323, 12, MCP_IN_CONFIGURATION, 1, 31));
    IS(refused_by(0x423, 12) == MCP_NO_MATCH);
    IS(mcp_modify_register(&line, 0, 0x1F, 0x10) == 0);
    IS(refused_by(0x423, 12) == MCP_DEVICE_NET && refused_by(0x423, 9) == MCP_BAD_PAYLOAD && refused_by(0x800, 9) == MCP_BAD_IDENTIFIER);
}

/* Whether the oldest message of a FIFO, and a peek, and a get that takes it, say that this filter took it. */
static int says_filter(uint32_t fifo, uint32_t f)
{
    int is = mcp_chip_held_at(&chip, fifo, 0, &out.frame) == 0 && out.frame.kind == MCP_FRAME && out.frame.filter == f;
    for (int get = 0; get < 2; get++) {
        memset(&out.message, 0x5A, sizeof out.message);
        is = is && (get ? mcp_get : mcp_peek)(&line, fifo, out.buf, 72, &out.message) == 0 && out.message.found == 1;
        is = is && out.message.filter == f && out.message.dlc == 5 && out.message.header.id == 0x123;
    }
    return is;
}

/* Document 02: a received message says which filter took it, with a timestamp (FIFO 2) and without (FIFO 3); one delivered by name says 0. */
static void every_filter(void)
{
    static const uint32_t high[] = { 0x200, 0x400, 0x800, 0x1000, 0x2000, 0x4000, 0x8000, 0x10000, 0x80000000, 0xFFFF0600, 0xFFFFFE00 };
    for (uint32_t fifo = 2; fifo <= 3; fifo++)
        for (uint32_t f = 0; f < 32; f++) {
            mcp_filter to = filter;
            to.fifo = fifo;
            prepare();
            IS(mcp_configure_filter(&line, f, &to) == 0 && mcp_get(&line, fifo, out.buf, 72, &out.message) == 0);
            IS(comes_to(0x123, 5, MCP_DELIVERED, fifo, f));
            IS(mcp_chip_deliver(&chip, fifo, &header, 5, 7, bytes, 5, &out.word) == 0 && out.word == MCP_DELIVERED);
            IS(mcp_disable_filter(&line, f) == 0); /* the message keeps the one that took it */
            IS(says_filter(fifo, f) && says_filter(fifo, 0) && held(fifo) == 0);
        }
    /* Every bit of word 1 above the flags, in FIFO 3's oldest, behind 4 x 16 and 2 x 76 bytes: 15 to 11 alone count. */
    for (size_t i = 0; i < sizeof high / sizeof *high; i++) {
        const uint32_t w = high[i] | 5;
        const uint8_t word[4] = { (uint8_t)w, (uint8_t)(w >> 8), (uint8_t)(w >> 16), (uint8_t)(w >> 24) };
        prepare();
        IS(mcp_write_ram(&line, 0x400 + 64 + 152 + 4, word, 4) == 0 && says_filter(3, w / 2048 % 32));
    }
}

/* Whether a DLC means so many bytes: a classic frame has 8 at most; there is none above 15. */
static int is_meant(uint32_t dlc, int fdf, size_t len)
{
    static const uint8_t lengths[16] = { 0, 1, 2, 3, 4, 5, 6, 7, 8, 12, 16, 20, 24, 32, 48, 64 };
    return dlc < 16 && len == (fdf || dlc < 8 ? lengths[dlc] : 8u);
}

/* Whether a peek or a get on FIFO 3 finds a classic message with this DLC and length. */
static int finds(int (*call)(const mcp_line *, uint32_t, uint8_t *, size_t, mcp_message *), uint32_t dlc, size_t len)
{
    fresh();
    return call(&line, 3, out.buf, 72, &out.message) == 0 && out.message.found == 1 && out.message.header.id == 0x123 &&
           !out.message.header.fdf && !out.message.stamped && out.message.dlc == dlc && out.message.len == len &&
           !memcmp(out.buf + len, before.buf + len, 72 - len);
}

/* Document 02: 22 where the payload is not as long as the DLC means, or the DLC is above 15; otherwise the message that is held, looked
 * at and taken has the DLC that the frame brought. */
static void arrives(uint32_t dlc, int fdf, size_t len, int by_filter, view kept)
{
    static const uint8_t payload[72] = { 1, 2, 3, 4, 5, 6, 7, 8, 9, [15] = 16, [19] = 20, [23] = 24, [31] = 32, [47] = 48, [63] = 64 };
    const mcp_header h = { .id = 0x123, .fdf = (uint8_t)fdf };
    fresh();
    int r = by_filter ? mcp_chip_sort(&chip, &h, dlc, 0xA1B2C3D4, payload, len, &out.sorted)
                      : mcp_chip_deliver(&chip, 2, &h, dlc, 0xA1B2C3D4, payload, len, &out.word);
    if (!is_meant(dlc, fdf, len)) {
        IS(r == MCP_BAD_PAYLOAD && untouched() && is_same(kept));
        return;
    }
    IS(r == 0 && (by_filter ? out.sorted.turned_down : out.word) == MCP_DELIVERED && held(2) == 1);
    IS(mcp_chip_held_at(&chip, 2, 0, &out.frame) == 0 && out.frame.kind == MCP_FRAME && out.frame.header.fdf == fdf);
    IS(out.frame.dlc == dlc && out.frame.len == len && !memcmp(out.frame.payload, payload, len));
    for (int get = 0; get < 2; get++) {
        fresh();
        IS((get ? mcp_get : mcp_peek)(&line, 2, out.buf, 72, &out.message) == 0 && out.message.found == 1);
        IS(out.message.dlc == dlc && out.message.len == len && out.message.header.fdf == fdf && out.message.header.id == 0x123);
        IS(!memcmp(out.buf, payload, len) && !memcmp(out.buf + len, before.buf + len, 72 - len));
    }
    IS(held(2) == 0);
}

static void every_dlc(void)
{
    /* 264 is 8 in a byte */
    static const uint32_t dlcs[] = { 0, 1, 2, 3, 4, 5, 6, 7, 8, 9, 10, 11, 12, 13, 14, 15, 16, 17, 31, 255, 256, 264, 0x10008, 0xFFFFFFFF };
    prepare();
    IS(mcp_configure_filter(&line, 0, &filter) == 0 && mcp_get(&line, 2, out.buf, 72, &out.message) == 0);
    const mcp_chip ready = chip;
    const view kept = looked_at();
    for (size_t i = 0; i < sizeof dlcs / sizeof *dlcs; i++)
        for (size_t len = 0; len <= 72; len++)
            for (int k = 0; k < 4; k++) {
                chip = ready;
                arrives(dlcs[i], k % 2, len, k / 2, kept);
            }
}

/* Classic DLCs of 9 to 15 where no frame brought them, and beside what else is refused or turned down; none of them is ever sent. */
static void classic_dlcs(void)
{
    const mcp_header far = { .id = 0x800 };
    prepare();
    /* 20, 21, 22 in this order; FIFO 3 has slots for 8 bytes. */
    IS(mcp_chip_deliver(&chip, 0, &far, 16, 0, bytes, 8, &out.word) == 20);
    IS(mcp_chip_deliver(&chip, 3, &far, 16, 0, bytes, 8, &out.word) == 21);
    IS(mcp_chip_deliver(&chip, 3, &header, 16, 0, bytes, 8, &out.word) == 22 && untouched());
    IS(mcp_chip_deliver(&chip, 3, &header, 15, 0, bytes, 8, &out.word) == 0 && out.word == MCP_DELIVERED);
    IS(mcp_chip_deliver(&chip, 3, &header, 15, 0, bytes, 8, &out.word) == 0 && out.word == MCP_FULL);
    IS(finds(mcp_get, 5, 5) && finds(mcp_get, 15, 8) && !memcmp(out.buf, bytes, 8));
    for (uint32_t dlc = 9; dlc <= 15; dlc++) {
        /* Left by a raw write in word 1 of FIFO 3's oldest, behind 4 x 16 and 2 x 76 bytes: 8 bytes, of which 5 were delivered. */
        const uint8_t word[4] = { (uint8_t)dlc, 0, 0, 0 }, padded[8] = { 1, 2, 3, 4, 5, 0, 0, 0 };
        prepare();
        IS(mcp_write_ram(&line, 0x400 + 64 + 152 + 4, word, 4) == 0 && mcp_chip_held_at(&chip, 3, 0, &out.frame) == 0);
        IS(out.frame.kind == MCP_FRAME && out.frame.dlc == dlc && out.frame.len == 8 && !memcmp(out.frame.payload, padded, 8));
        IS(finds(mcp_peek, dlc, 8) && finds(mcp_get, dlc, 8) && !memcmp(out.buf, padded, 8) && held(3) == 0);
    }
    /* A push writes DLC 8 at most, and refuses what is longer before any exchange. */
    for (size_t len = 0; len <= 64; len++) {
        prepare();
        if (len > 8) {
            IS(mcp_push(&line, 1, &header, 5, bytes, len) == 22 && exchanges == 0);
            continue;
        }
        IS(mcp_push(&line, 1, &header, 5, bytes, len) == 0 && mcp_request(&line, 1) == 0 && mcp_chip_send(&chip, 1, &out.frame) == 0);
        IS(out.frame.kind == MCP_FRAME && out.frame.dlc == len && out.frame.len == len);
    }
}

/* Document 02, request 7: 35 where the header means more bytes than PLSIZE, bits 31..29 of control as exchange 5 reads it again: in an FD frame
 * DLC 9 to 15 mean what PLSIZE 1 to 7 do. Nothing more is asked for then, the message stays, and nothing is written to. */
static void beyond_slot(void)
{
    prepare();
    const mcp_chip ready = chip;
    for (uint32_t low = 0; low < 0x200; low++) { /* DLC, IDE, RTR, BRS, FDF and ESI of FIFO 2's oldest, behind 4 x 16 bytes */
        const uint8_t second[4] = { (uint8_t)low, (uint8_t)(low >> 8), 0, 0 };
        for (uint32_t k = 0; k < 32; k++) {
            const uint32_t plsize = k / 4, rest = k % 2 ? 0x1FFFFFFF : 0x20;
            const int get = k / 2 % 2;
            chip = ready;
            IS(mcp_write_ram(&line, 0x400 + 64 + 4, second, 4) == 0);
            const view kept = looked_at();
            fresh();
            twist_at = 5, twist = plsize << 29 | rest;
            int r = (get ? mcp_get : mcp_peek)(&line, 2, out.buf, 72, &out.message);
            if (low & 0x80 && low % 16 > 8 + plsize) {
                IS(r == MCP_LENGTH_BEYOND_SLOT && exchanges == 5 && untouched() && is_same(kept));
                continue;
            }
            IS(r == 0 && out.message.found == 1 && out.message.dlc == low % 16 && is_meant(low % 16, low & 0x80, out.message.len));
            IS(exchanges == (get ? 9u : 7u) && held(2) == !get);
        }
    }
    /* Before 3 of what follows the header, which ends with the RAM: 12 bytes, then 8, in FIFO 3's slots for 8; has-next does not look. */
    for (uint8_t dlc = 9; dlc >= 8; dlc--) {
        const uint8_t object[8] = { 0x23, 1, 0, 0, (uint8_t)(0x80 | dlc), 0, 0, 0 };
        prepare();
        IS(mcp_write_ram(&line, 0xBF8, object, 8) == 0 && mcp_has_next(&line, 3, &out.next) == 0 && out.next == 1);
        fresh();
        twist_at = 3, twist = 0x7F8;
        IS(mcp_get(&line, 3, out.buf, 72, &out.message) == (dlc == 9 ? 35 : 3) && exchanges == 5 && held(3) == 1);
        IS(out.value == (dlc == 9 ? before.value : 0xC00));
    }
}

/* A push to the queue of two bytes, the second of them SEQ. */
static int queued(uint32_t id, uint8_t extended, uint32_t seq)
{
    const mcp_header h = { .id = id, .extended = extended };
    const uint8_t payload[2] = { 0xB0, (uint8_t)seq };
    return mcp_queue_push(&line, &h, seq, payload, 2);
}

static int is_queued(mcp_frame f, uint32_t id, uint8_t extended, uint32_t seq)
{
    return f.kind == MCP_FRAME && f.header.id == id && f.header.extended == extended && !f.header.rtr && !f.header.brs && !f.header.fdf &&
           !f.header.esi && f.seq == seq && !f.stamped && !f.time && f.len == 2 && f.dlc == 2 && f.payload[0] == 0xB0 &&
           f.payload[1] == seq;
}

/* Whether the queue's slots 0 to 3 hold the messages with these SEQs, 0 for none. */
static int slots(uint32_t a, uint32_t b, uint32_t c, uint32_t d)
{
    const uint32_t seqs[4] = { a, b, c, d };
    uint32_t count = 0;
    for (uint32_t k = 0; k < 4; k++) {
        IS(mcp_chip_held_queue_at(&chip, k, &out.frame) == 0);
        if (out.frame.kind != (seqs[k] ? MCP_FRAME : MCP_NOTHING) || out.frame.seq != seqs[k])
            return 0;
        count += seqs[k] != 0;
    }
    return held(QUEUE) == count;
}

/* Whether the queue sends this; SEQ 0: nothing. */
static int sends(uint32_t id, uint8_t extended, uint32_t seq)
{
    memset(&out.frame, 0x5A, sizeof out.frame);
    IS(mcp_chip_send_queue(&chip, &out.frame) == 0);
    return seq ? is_queued(out.frame, id, extended, seq) : out.frame.kind == MCP_NOTHING && !out.frame.seq && !out.frame.len;
}

/* Document 02: smaller 11-bit base first, at equal base standard before extended, then smaller low 18 bits, then the lowest slot; one free
 * slot is shown until UINC claims it, then the lowest free one; of a full queue the first freed comes next. */
static void overtaking(void)
{
    prepare_with(1);
    IS(queued(0x320, 0, 1) == 0 && queued(0x310, 0, 2) == 0 && queued(0x320, 0, 3) == 0 && slots(1, 2, 3, 0) && sends(0, 0, 0));
    IS(queued(0x010, 0, 4) == 0 && slots(1, 2, 3, 4));
    const view full = looked_at();
    exchanges = 0;
    IS(queued(0x011, 0, 5) == MCP_FIFO_FULL && exchanges == 3 && is_same(full));
    IS(mcp_queue_request(&line) == 0 && sends(0x010, 0, 4) && sends(0x310, 0, 2) && slots(1, 0, 3, 0));
    IS(queued(0x18DA00F1, 1, 5) == 0 && slots(1, 0, 3, 5) && queued(0x320, 0, 6) == 0 && slots(1, 6, 3, 5));
    IS(queued(0x011, 0, 7) == 8 && sends(0x320, 0, 1) && queued(0x011, 0, 7) == 0 && slots(7, 6, 3, 5));
    IS(sends(0x011, 0, 7) && sends(0x320, 0, 6) && sends(0x320, 0, 3) && slots(0, 0, 0, 5));
    /* 18D80000 and 18DA00F1 have the base 636, and the low bits 0 and 200F1. */
    IS(queued(0x18D80000, 1, 8) == 0 && queued(0x636, 0, 9) == 0 && queued(0x18DA00F2, 1, 10) == 0 && slots(8, 9, 10, 5));
    IS(sends(0x636, 0, 9) && sends(0x18D80000, 1, 8) && sends(0x18DA00F1, 1, 5) && sends(0x18DA00F2, 1, 10) && sends(0, 0, 0));
    IS(held(QUEUE) == 0 && queued(0x001, 0, 11) == 0 && sends(0, 0, 0)); /* empty: TXREQ was 0 again */
    IS(mcp_queue_request(&line) == 0 && sends(0x001, 0, 11));
    /* Slots that there are not, 256 is 0 in a byte. */
    static const uint32_t none[] = { 4, 31, 32, 255, 256, 0x10000, 0xFFFFFFFF };
    IS(queued(0x001, 0, 12) == 0 && slots(12, 0, 0, 0));
    for (size_t i = 0; i < sizeof none / sizeof *none; i++)
        IS(mcp_chip_held_queue_at(&chip, none[i], &out.frame) == 0 && out.frame.kind == MCP_NOTHING);
    /* The FIFOs are what they were. */
    IS(held(1) == 0 && held(2) == 1 && held(3) == 1 && finds(mcp_get, 5, 5) && !memcmp(out.buf, bytes, 5));
}

/* 21, 24, 22 before any exchange; then 34, 7, 8, 25, 3 in this order, each told by the word that it stands in: CiCON, control, status, user
 * address. 6 is not: TXEN is not asked for. */
static void queue_refusals(void)
{
    static int (*const pushes[])(const mcp_line *, const mcp_header *, uint32_t, const uint8_t *, size_t) = { mcp_queue_push,
                                                                                                          mcp_queue_push_unchecked };
    const mcp_header far = { .id = 0x800 }, fd = { .id = 0x123, .fdf = 1 };
    prepare_with(1);
    const view kept = looked_at();
    for (size_t i = 0; i < 2; i++) {
        IS(pushes[i](&line, &far, 0x800000, bytes, 9) == 21 && pushes[i](&line, &header, 0x800000, bytes, 9) == 24);
        IS(pushes[i](&line, &header, 0x7FFFFF, bytes, 9) == 22 && pushes[i](&line, &header, 0, bytes, 12) == 22);
        IS(pushes[i](&line, &fd, 0, bytes, 13) == 22 && pushes[i](&line, &fd, 0, bytes, 72) == 22);
    }
    IS(exchanges == 0 && untouched() && is_same(kept));
    /* Exchange k is answered by a word: what is answered then, after how many exchanges. 12 bytes are too long for this queue. */
    static const struct {
        size_t len;
        unsigned at;
        uint32_t word;
        int answer;
        unsigned exchanges;
    } cases[] = {
        { 12, 1, 0xFFEFFFFF, 34, 1 }, { 12, 0, 0, 7, 2 },           { 8, 1, 0x00000000, 34, 1 }, { 8, 2, 0x00000000, 0, 6 },
        { 8, 3, 0xFFFFFFFE, 8, 3 },   { 12, 2, 0x1FFFFFFF, 7, 2 },  { 8, 4, 0xFFFFFFFF, 25, 4 }, { 8, 4, 0x0000FC00, 25, 4 },
        { 8, 4, 0x0000FBFF, 3, 4 },   { 8, 4, 0x000007F4, 3, 4 },   { 8, 4, 0x000007F0, 0, 6 },
    };
    for (size_t i = 0; i < sizeof cases / sizeof *cases; i++) {
        prepare_with(1);
        twist_at = cases[i].at, twist = cases[i].word;
        int r = mcp_queue_push(&line, &fd, 5, bytes, cases[i].len);
        IS(r == cases[i].answer && exchanges == cases[i].exchanges);
        IS(out.value == (r == 3 ? twist + 0x400 : 0x5A5A5A5A));
        if (cases[i].at == 4) { /* unchecked the user address is exchange 1 */
            prepare_with(1);
            twist_at = 1, twist = cases[i].word;
            IS(mcp_queue_push_unchecked(&line, &fd, 5, bytes, cases[i].len) == r && exchanges == (r ? 1 : 4));
            IS(out.value == (r == 3 ? twist + 0x400 : 0x5A5A5A5A));
        }
    }
    /* Off: 34, nothing is held or sent, and a request is done. */
    prepare();
    IS(mcp_queue_push(&line, &header, 5, bytes, 8) == MCP_TX_QUEUE_DISABLED && exchanges == 1 && untouched());
    IS(mcp_queue_request(&line) == 0 && held(QUEUE) == 0 && sends(0, 0, 0));
}

/* On and off only in Configuration, where the queue is emptied; behind mcp_configure it is off; its place is before FIFO 1. */
static void queue_on_and_off(void)
{
    const mcp_tx_queue other = { .size = 2, .plsize = 3, .txpri = 9, .txat = 1, .txatie = 1, .empty = 1, .notfull = 1 };
    const mcp_tx_queue most = { .size = 18, .plsize = 7 }, more = { .size = 19, .plsize = 7 };
    prepare_with(1);
    IS(reg(0x064) == 64 && reg(0x054) == 5 && reg(0x058) == 0 && queued(0x123, 0, 1) == 0 && reg(0x058) == 16 && reg(0x054) == 1);
    IS(mcp_disable_tx_queue(&line) == 0 && (reg(0x000) & 0x00100000) && queued(0x123, 0, 2) == 0 && slots(1, 2, 0, 0));
    IS(mcp_configure_tx_queue(&line, &other) == 0 && reg(0x050) == 0x03290095);
    IS(mcp_set_op_mode(&line, 4) == 0 && held(QUEUE) == 0 && mcp_set_op_mode(&line, 0) == 0 && slots(0, 0, 0, 0));
    prepare();
    IS(reg(0x064) == 0 && reg(0x054) == 0 && reg(0x058) == 0);
    IS(mcp_configure_tx_queue(&line, &queue) == 0 && !(reg(0x000) & 0x00100000) && queued(0x123, 0, 1) == 34);
    prepare_with(1);
    IS(mcp_configure(&line, &plain) == 0 && !(reg(0x000) & 0x00100000));
    /* FIFOs 1 to 3 have 64, 152 and 32 bytes, 4 to 31 have 16 each: 1,352 are left, 18 slots of 72. */
    IS(mcp_configure_tx_queue(&line, &more) == 0 && mcp_set_op_mode(&line, 0) == 12);
    IS(mcp_chip_no_layout(&chip, &out.word) == 0 && out.word == 1);
    IS(mcp_set_op_mode(&line, 4) == 0 && mcp_configure_tx_queue(&line, &most) == 0 && mcp_set_op_mode(&line, 0) == 0);
    IS(reg(0x064) == 18 * 72);
}

/* What an unchecked push overwrites: of a full queue the message that was pushed last, also where the call is refused; with the queue off
 * the message of FIFO 1 at 0x400. */
static void unchecked(void)
{
    prepare_with(1);
    for (uint32_t seq = 1; seq <= 4; seq++)
        IS(mcp_queue_push_unchecked(&line, &header, seq, bytes, 8) == 0 && held(QUEUE) == seq);
    IS(slots(1, 2, 3, 4) && mcp_queue_push_unchecked(&line, &header, 5, bytes, 8) == 0 && slots(1, 2, 3, 5));
    for (unsigned k = 1; k <= 4; k++) {
        exchanges = 0, fail_at = k;
        IS(mcp_queue_push_unchecked(&line, &header, 5 + k, bytes, 8) == (k == 2 ? 2 : 1) && slots(1, 2, 3, k < 3 ? 5 : 5 + k));
    }
    prepare();
    IS(mcp_push(&line, 1, &header, 1, bytes, 8) == 0 && mcp_queue_push_unchecked(&line, &header, 2, bytes, 8) == 0 && held(QUEUE) == 0);
    IS(mcp_chip_held_at(&chip, 1, 0, &out.frame) == 0 && out.frame.kind == MCP_FRAME && out.frame.seq == 2 && held(1) == 1);
    /* A slot that is no frame takes part by its identifier bits. */
    static const uint8_t dlc_9[4] = { 9, 0, 0, 0 };
    prepare_with(1);
    IS(queued(0x200, 0, 1) == 0 && queued(0x100, 0, 2) == 0 && mcp_write_ram(&line, 0x414, dlc_9, 4) == 0);
    IS(mcp_chip_held_queue_at(&chip, 1, &out.frame) == 0 && out.frame.kind == MCP_NO_FRAME && mcp_queue_request(&line) == 0);
    IS(mcp_chip_send_queue(&chip, &out.frame) == 0 && out.frame.kind == MCP_NO_FRAME && sends(0x200, 0, 1) && sends(0, 0, 0));
}

/* Filter 0 as `filter` sets it up: control of filters 0 to 3, of which its byte is cared for; its object; its mask. */
static const mcp_watch watched[3] = {
    { 0x1D0, 0x00000082, 0x000000FF }, { 0x1F0, 0x00000100, 0xFFFFFFFF }, { 0x1F4, 0x40000700, 0xFFFFFFFF },
};

static void prepare_filter(void)
{
    prepare();
    IS(mcp_configure_filter(&line, 0, &filter) == 0);
    fresh();
}

/* One step from a place, which has to go on to another, with exchanges that mismatch, by a bit each, and one that fails. */
static mcp_report step_amiss(unsigned wrong, unsigned fails, size_t place, const mcp_watch *list, size_t n, int rewrite, size_t after)
{
    fresh();
    wrong_crcs = wrong, fail_at = fails;
    out.scrubber.place = place;
    IS(mcp_scrub(&line, &out.scrubber, list, n, rewrite, &out.report) == 0 && out.scrubber.place == after);
    wrong_crcs = fail_at = 0;
    mcp_report r = out.report;
    out.scrubber = before.scrubber, out.report = before.report;
    IS(untouched());
    return r;
}

static mcp_report step(size_t place, const mcp_watch *list, size_t n, int rewrite, size_t after)
{
    return step_amiss(0, 0, place, list, n, rewrite, after);
}

/* A step that is refused, and changes nothing. */
static int turned_down(size_t place, const mcp_watch *list, size_t n)
{
    fresh();
    out.scrubber.place = place;
    int r = mcp_scrub(&line, &out.scrubber, list, n, 1, &out.report);
    IS(out.scrubber.place == place && exchanges == 0);
    out.scrubber = before.scrubber;
    IS(untouched());
    return r;
}

static int is_report(mcp_report r, mcp_report is)
{
    return r.seen == is.seen && r.address == is.address && r.read == is.read && r.wanted == is.wanted && r.rewrite == is.rewrite &&
           r.back == is.back && r.number == is.number && r.mismatches == is.mismatches && r.back_mismatches == is.back_mismatches;
}

static int agrees(mcp_report r, uint32_t address) { return is_report(r, (mcp_report){ .seen = MCP_AGREE, .address = address }); }

/* Document 02: each entry in turn, whatever is called between; a place beyond the end starts again at the first. */
static void scrubbed_in_turn(void)
{
    static const size_t starts[] = { 0, 1, 2, 3, 4, 255, (size_t)-1 };
    for (size_t i = 0; i < sizeof starts / sizeof *starts; i++) {
        size_t place = starts[i], due = place < 3 ? place : 0;
        prepare_filter();
        for (int k = 0; k < 6; k++, due = (due + 1) % 3) {
            IS(agrees(step(place, watched, 3, 1, due + 1), watched[due].address));
            place = due + 1;
            IS(mcp_transmit(&line, 1, &header, 5, bytes, 8, NULL) == 0 && mcp_chip_send(&chip, 1, &out.frame) == 0);
            IS(mcp_peek(&line, 2, out.buf, 72, &out.message) == 0 && turned_down(place, watched, 0) == MCP_EMPTY_LIST);
        }
    }
    IS(agrees(step(1, watched, 1, 1, 1), 0x1D0) && agrees(step(1, watched, 2, 1, 2), 0x1F0));
    IS(agrees(step(2, watched, 3, 1, 3), 0x1F4) && agrees(step(3, watched, 2, 1, 1), 0x1D0));
}

/* Each field of an entry and of a report; a flipped cared-for bit is reported and no other; exactly the cared-for bits are rewritten. */
static void every_flipped_bit(void)
{
    static const uint32_t addresses[] = { 0x004, 0x00C, 0x01C, 0x1F0, 0x2EC, 0xE04 };
    prepare_filter();
    for (size_t i = 0; i < sizeof addresses / sizeof *addresses; i++) {
        const uint32_t address = addresses[i], right = reg(address);
        for (uint32_t bit = 1; bit; bit <<= 1) {
            const uint32_t wrong = right ^ bit, cares[] = { 0, 1, bit, bit | 1, ~bit, 0xFFFF0000, 0x0000FFFF, 0xFFFFFFFF };
            for (size_t k = 0; k < sizeof cares / sizeof *cares; k++) {
                /* beside the cared-for bits nothing is wanted: there the word is another in every bit */
                const mcp_watch w = { address, (right & cares[k]) | (~right & ~cares[k]), cares[k] };
                IS(mcp_write_register(&line, address, wrong) == 0);
                if (!(bit & cares[k])) {
                    IS(agrees(step(0, &w, 1, 1, 1), address) && exchanges == 1 && reg(address) == wrong);
                    continue;
                }
                const mcp_report seen = { MCP_DIFFER, address, wrong, w.wanted, MCP_NO_REWRITE, 0, 0, 0, 0 };
                const mcp_report mended = { MCP_DIFFER, address, wrong, w.wanted, MCP_READ_BACK, right, 0, 0, 0 };
                IS(is_report(step(0, &w, 1, 0, 1), seen) && exchanges == 1 && reg(address) == wrong);
                IS(is_report(step(0, &w, 1, 256, 1), mended) && exchanges == 3 && reg(address) == right);
            }
            IS(mcp_write_register(&line, address, right) == 0);
        }
    }
    /* A bit that can't be had: FIFO 2 holds a message, status bit 0. */
    const mcp_watch status = { 0x06C, 0, 1 };
    IS(is_report(step(0, &status, 1, 1, 1), (mcp_report){ MCP_DIFFER, 0x06C, 1, 0, MCP_READ_BACK, 1, 0, 0, 0 }));
}

/* What goes wrong on the line is the entry's visit: exchanges that mismatch, by a bit each, one that fails, and what is reported. */
static void scrubbed_amiss(void)
{
    static const struct {
        unsigned wrong, fails;
        mcp_report report;
        unsigned exchanges;
        uint32_t after;
    } cases[] = {
        { 0, 1, { MCP_UNREAD, 0x004, 0, 0, 0, 0, 1, 0, 0 }, 1, 0x003E0F0F },
        { 0, 2, { MCP_DIFFER, 0x004, 0x003E0F0F, 0x003E0F0E, MCP_NOT_READ_BACK, 0, 1, 0, 0 }, 2, 0x003E0F0F },
        { 0, 3, { MCP_DIFFER, 0x004, 0x003E0F0F, 0x003E0F0E, MCP_NOT_READ_BACK, 0, 1, 0, 0 }, 3, 0x003E0F0E },
        { 0x0E, 0, { MCP_UNREAD, 0x004, 0, 0, 0, 0, 10, 0, 0 }, 3, 0x003E0F0F },
        { 0x06, 3, { MCP_UNREAD, 0x004, 0, 0, 0, 0, 1, 0, 0 }, 3, 0x003E0F0F },
        { 0x38, 0, { MCP_DIFFER, 0x004, 0x003E0F0F, 0x003E0F0E, MCP_NOT_READ_BACK, 0, 10, 0, 0 }, 5, 0x003E0F0E },
        { 0x06, 4, { MCP_DIFFER, 0x004, 0x003E0F0F, 0x003E0F0E, MCP_NOT_READ_BACK, 0, 1, 2, 0 }, 4, 0x003E0F0F },
        { 0x66, 0, { MCP_DIFFER, 0x004, 0x003E0F0F, 0x003E0F0E, MCP_READ_BACK, 0x003E0F0E, 0, 2, 2 }, 7, 0x003E0F0E },
        { 0x66, 7, { MCP_DIFFER, 0x004, 0x003E0F0F, 0x003E0F0E, MCP_NOT_READ_BACK, 0, 1, 2, 0 }, 7, 0x003E0F0E },
        { 0x72, 0, { MCP_DIFFER, 0x004, 0x003E0F0F, 0x003E0F0E, MCP_NOT_READ_BACK, 0, 10, 1, 0 }, 6, 0x003E0F0E },
    };
    for (size_t i = 0; i < sizeof cases / sizeof *cases; i++) {
        prepare();
        IS(is_report(step_amiss(cases[i].wrong, cases[i].fails, 0, &differs, 1, 1, 1), cases[i].report));
        IS(exchanges == cases[i].exchanges && reg(0x004) == cases[i].after);
    }
}

/* A checked read of OSC, with exchanges that mismatch, by a bit each, and one that fails: what it answers, and how many mismatches it tells
 * where that is 0. */
static int checked_amiss(unsigned wrong, unsigned fails, uint32_t mismatches)
{
    fresh();
    wrong_crcs = wrong, fail_at = fails;
    int r = mcp_checked_read(&line, 0xE00, &out.word, &out.mismatches);
    wrong_crcs = fail_at = 0;
    if (r == 0) {
        IS(out.word == 0x00000460 && out.mismatches == mismatches);
        out.word = before.word, out.mismatches = before.mismatches;
    }
    IS(untouched());
    return r;
}

/* Document 02: 0, 1 or 2, "equal to the mismatches in the answers given"; document 01: the third is 10, any other failure stops at once.
 * Each behind each, so that a count which stayed from the call before would be seen. */
static void mismatches_told(void)
{
    static const struct {
        unsigned wrong, fails;
        int answer;
        uint32_t mismatches;
        unsigned exchanges;
    } cases[] = {
        { 0x0, 0, 0, 0, 1 }, { 0x2, 0, 0, 1, 2 }, { 0x6, 0, 0, 2, 3 }, { 0xE, 0, 10, 0, 3 },
        { 0x0, 1, 1, 0, 1 }, { 0x2, 2, 1, 0, 2 }, { 0x6, 3, 1, 0, 3 }, { 0xE, 2, 1, 0, 2 },
        /* what would go wrong behind the end is not asked for */
        { 0xC, 0, 0, 0, 1 }, { 0xA, 0, 0, 1, 2 }, { 0x8, 2, 0, 0, 1 }, { 0x2, 3, 0, 1, 2 }, { 0x6, 4, 0, 2, 3 }, { 0xE, 4, 10, 0, 3 },
    };
    const size_t n = sizeof cases / sizeof *cases;
    prepare();
    for (size_t i = 0; i < 2 * n * n; i++) {
        const size_t k = i % 2 ? i / 2 % n : i / 2 / n;
        IS(checked_amiss(cases[k].wrong, cases[k].fails, cases[k].mismatches) == cases[k].answer && exchanges == cases[k].exchanges);
    }
}

/* So many exchanges that mismatch, from `at` on. */
static unsigned in_a_row(unsigned at, unsigned mismatches) { return ((1u << mismatches) - 1) << at; }

/* A scrub step tells the mismatches of the visit, and of the read-back its own; per entry, and none of the step or the call before. */
static void mismatches_scrubbed(void)
{
    static const uint32_t counts[] = { 2, 0, 1, 0, 1, 2, 1, 2, 0 };
    for (uint32_t visit = 0; visit < 3; visit++)
        for (uint32_t back = 0; back < 3; back++) {
            const mcp_report seen = { MCP_DIFFER, 0x004, 0x003E0F0F, 0x003E0F0E, MCP_NO_REWRITE, 0, 0, visit, 0 };
            const mcp_report mended = { MCP_DIFFER, 0x004, 0x003E0F0F, 0x003E0F0E, MCP_READ_BACK, 0x003E0F0E, 0, visit, back };
            const mcp_report agreed = { .seen = MCP_AGREE, .address = 0x004, .mismatches = back };
            prepare();
            IS(is_report(step_amiss(in_a_row(1, visit), 0, 0, &differs, 1, 0, 1), seen) && exchanges == visit + 1);
            /* the word is exchange visit + 1, the write follows it */
            IS(is_report(step_amiss(in_a_row(1, visit) | in_a_row(visit + 3, back), 0, 0, &differs, 1, 1, 1), mended));
            IS(exchanges == visit + back + 3);
            IS(is_report(step_amiss(in_a_row(1, back), 0, 0, &differs, 1, 1, 1), agreed) && exchanges == back + 1);
        }
    prepare_filter();
    for (size_t k = 0; k < sizeof counts / sizeof *counts; k++) {
        const mcp_report agreed = { .seen = MCP_AGREE, .address = watched[k % 3].address, .mismatches = counts[k] };
        IS(is_report(step_amiss(in_a_row(1, counts[k]), 0, k % 3, watched, 3, 1, k % 3 + 1), agreed));
        IS(checked_amiss(in_a_row(1, k % 3), 0, k % 3) == 0);
    }
}

/* 32, then 33, which any entry's address makes, the one that is due or another. */
static void scrubs_refused(void)
{
    prepare_filter();
    for (uint32_t a = 0; a < 0x2010; a++) {
        const uint32_t far[] = { 0xFFFF, 0x10000, 0x101D0, 0xFFFFFFFF }, address = a < 0x2000 ? a : far[a % 4];
        const int is_carried = address % 4 == 0 && (address <= 0x00C || address == 0x014 || address == 0x01C ||
                                                    (address >= 0x050 && address <= 0x2EC) || address == 0xE00 || address == 0xE04);
        for (size_t bad = 0; bad < 3; bad++) {
            mcp_watch list[3] = { watched[0], watched[1], watched[2] };
            list[bad] = (mcp_watch){ address, 0, 0 };
            if (is_carried)
                IS(agrees(step(2, list, 3, 1, 3), list[2].address));
            else
                for (size_t place = 0; place < 4; place++)
                    IS(turned_down(place, list, 3) == MCP_NOT_CARRIED);
        }
    }
    IS(turned_down(0, NULL, 0) == MCP_EMPTY_LIST && turned_down((size_t)-1, watched, 0) == MCP_EMPTY_LIST);
}

int main(void)
{
    failing();
    transmitted();
    nulls();
    numbers();
    fifo_fields();
    queue_fields();
    settings_fields();
    filter_fields();
    header_fields();
    the_chip();
    sorting();
    every_filter();
    every_dlc();
    classic_dlcs();
    beyond_slot();
    overtaking();
    queue_refusals();
    queue_on_and_off();
    unchecked();
    scrubbed_in_turn();
    every_flipped_bit();
    scrubbed_amiss();
    mismatches_told();
    mismatches_scrubbed();
    scrubs_refused();
    printf("calls: %lu looked at, all as written down\n", looked);
    return 0;
}
