/* junk [CALLS [SEED]]: random calls with random numbers, NULLs and lengths over a line that fails, answers junk, fills only part of what
 * was wanted, and otherwise is the modelled chip. No call may panic (which ends the program), send what is no instruction, go on after
 * a failed exchange, change a byte where it is refused, write outside what it was lent, tell a message whose length is not what its DLC
 * means, leave a scrubber where it does not belong, count other mismatches than the answers had, or answer what documents 01 and 02 do not
 * have for it. Prints how often each number was answered, or reported, how many classic messages with a DLC above 8 were found, how many
 * entries were seen, how many checked reads were done behind 0, 1 and 2 mismatches, and what the transmit queue sent. */
#include "masevuru.h"
#include <stdio.h>
#include <stdlib.h>
#include <string.h>

static unsigned long calls_made;
#define IS(what) ((what) ? (void)0 : (printf("call %lu, junk.c:%d: not so: %s\n", calls_made, __LINE__, #what), exit(1)))

static mcp_chip chip;
static uint64_t seed = 0x9E3779B97F4A7C15u;
static unsigned asked;      /* exchanges of this call */
static unsigned mismatched; /* of these, with another CRC than their bytes have */
static int failed;          /* one of them was not carried out */
static unsigned plsize;     /* PLSIZE of the word that the fifth received: of a peek or a get control, read again */
static unsigned rough;      /* one exchange in so many fails, another is answered by some junk, a third by ones; none where it is 0 */

static uint64_t next(void)
{
    seed ^= seed << 13;
    seed ^= seed >> 7;
    seed ^= seed << 17;
    return seed;
}

/* Small numbers, edges and wild ones. */
static uint32_t number(void)
{
    static const uint32_t edges[] = { 0x3FF, 0x400, 0x7FF, 0x800, 0xBFC, 0xC00, 0xFBFF, 0xFFFF, 0x105C, 257, 0x7FFFFF, 0x800000,
                                      0x1FFFFFFF, 0x20000000, 0xFFFFFC00, 0xFFFFFFFF };
    uint64_t r = next();
    switch (r % 4) {
    case 0: return (uint32_t)(r >> 8) % 36;
    case 1: return edges[(r >> 8) % 16];
    case 2: return (uint32_t)(r >> 8) % 0x1000;
    default: return (uint32_t)(r >> 8);
    }
}

/* RESET, WRITE, READ and READ_CRC as document 01 has them; no other opcode is ever sent. */
static int is_instruction(const uint8_t *tx, size_t tx_len, size_t rx_len)
{
    if (tx_len < 2)
        return 0;
    switch (tx[0] >> 4) {
    case 0: return tx_len == 2 && tx[0] == 0 && tx[1] == 0 && rx_len == 0;
    case 2: return tx_len <= 2050 && tx_len % 4 == 2 && rx_len == 0;
    case 3: return tx_len == 2 && rx_len <= 2048 && rx_len % 4 == 0;
    case 11: return tx_len == 3 && tx[2] == 4 && rx_len == 6;
    default: return 0;
    }
}

/* Document 01's CRC over what was sent and what came, bit by bit: whether the answer to a READ_CRC has another. */
static int is_mismatch(const uint8_t *tx, const uint8_t *rx)
{
    uint32_t crc = 0xFFFF;
    if (tx[0] >> 4 != 11)
        return 0;
    for (int i = 0; i < 7; i++) {
        crc ^= (uint32_t)(i < 3 ? tx[i] : rx[i - 3]) << 8;
        for (int k = 0; k < 8; k++)
            crc = (crc & 0x8000 ? crc << 1 ^ 0x8005 : crc << 1) & 0xFFFF;
    }
    return crc != (uint32_t)(rx[4] << 8 | rx[5]);
}

static int transfer(void *context, const uint8_t *tx, size_t tx_len, uint8_t *rx, size_t rx_len)
{
    int r = 0;
    IS(context == &chip && !failed && is_instruction(tx, tx_len, rx_len));
    asked++;
    switch (rough ? next() % rough : 3) {
    case 0: r = next() % 2 ? 1 : -1; break;
    case 1: /* short: only the first bytes come */
        for (size_t i = 0, n = next() % (rx_len + 1); i < n; i++)
            rx[i] = (uint8_t)next();
        break;
    case 2:
        for (size_t i = 0; i < rx_len; i++)
            rx[i] = 0xFF;
        break;
    default: r = mcp_chip_transfer(context, tx, tx_len, rx, rx_len);
    }
    failed = r != 0;
    if (asked == 5 && rx_len == 4) plsize = rx[3] >> 5;
    mismatched += !failed && is_mismatch(tx, rx);
    return r;
}

static void wait(void *context, uint32_t microseconds) { IS(context == &chip && !failed && microseconds == 500); }

/* The calls, and how many exchanges each asks for at most, whatever is answered. */
enum { RESET, READ, WRITE, MODIFY, CHECKED, READ_RAM, WRITE_RAM, VERIFY, VERIFY_LONG, SET_MODE, GET_MODE, CONFIGURE, OSC, IO, TIMING, FIFO,
       FILTER, DISABLE, PUSH, REQUEST, TRANSMIT, HAS_NEXT, PEEK, GET, SCRUB, QUEUE, QUEUE_OFF, QUEUE_PUSH, QUEUE_BARE, QUEUE_REQUEST, SEND,
       DELIVER, SORT, HELD, HELD_AT, SEND_QUEUE, HELD_QUEUE, HELD_QUEUE_AT, KINDS };
static const unsigned bound[KINDS] = { 1, 1, 1, 2, 3, 1, 1, 64, 2, 7, 1, 96, 5, 2, 6, 2, 8, 2, 5, 2, 7, 2, 7, 9, 7, 4, 2, 6, 4, 2 };

/* Whether the documents have a number for a call, or for its report: what a failed exchange is; what is tested before the first; what comes
 * later. */
static int is_answer(int call, int r)
{
    static const struct { int failed[2], others[9]; } has[KINDS] = {
        [RESET] = { { 2 }, { 0 } }, [READ] = { { 1 }, { 24 } }, [WRITE] = { { 1 }, { 24 } }, [MODIFY] = { { 1 }, { 24 } },
        [CHECKED] = { { 1 }, { 24, 10 } }, [READ_RAM] = { { 1 }, { 3, 4 } }, [WRITE_RAM] = { { 2 }, { 3, 5 } },
        [VERIFY] = { { 11 }, { 13 } }, [VERIFY_LONG] = { { 11 }, { 13 } }, [SET_MODE] = { { 11 }, { 24, 12 } },
        [GET_MODE] = { { 1 }, { 0 } },
        [CONFIGURE] = { { 11 }, { 24, 11, 13, 14 } }, [OSC] = { { 11 }, { 14 } }, [IO] = { { 11 }, { 0 } }, [TIMING] = { { 11 }, { 24 } },
        [FIFO] = { { 1 }, { 20, 24 } }, [FILTER] = { { 1 }, { 20, 21, 24 } }, [DISABLE] = { { 1 }, { 20 } },
        [PUSH] = { { 1, 2 }, { 20, 21, 24, 22, 6, 7, 8, 25, 3 } }, [REQUEST] = { { 1 }, { 20 } },
        [TRANSMIT] = { { 1, 2 }, { 20, 21, 24, 22, 6, 7, 8, 25, 3 } }, [HAS_NEXT] = { { 1 }, { 20, 9 } },
        [PEEK] = { { 1 }, { 20, 28, 9, 25, 3, 35 } }, [GET] = { { 1 }, { 20, 28, 9, 25, 3, 35 } }, [SCRUB] = { { 1 }, { 32, 33, 10 } },
        [QUEUE] = { { 11 }, { 24 } }, [QUEUE_OFF] = { { 11 }, { 0 } }, [QUEUE_PUSH] = { { 1, 2 }, { 21, 24, 22, 34, 7, 8, 25, 3 } },
        [QUEUE_BARE] = { { 1, 2 }, { 21, 24, 22, 25, 3 } }, [QUEUE_REQUEST] = { { 1 }, { 0 } },
        [SEND] = { { 0 }, { 20 } }, [DELIVER] = { { 0 }, { 20, 21, 22 } }, [SORT] = { { 0 }, { 21, 22, 31, 30 } },
        [HELD] = { { 0 }, { 20 } }, [HELD_AT] = { { 0 }, { 20 } }, /* of the queue: nothing is refused */
    };
    if (failed)
        return r > 0 && (r == has[call].failed[0] || r == has[call].failed[1]);
    for (int i = 0; i < 9; i++)
        if (r == has[call].others[i]) return 1;
    return r == 0;
}

/* Tested before the first exchange: of 3, 4 and 5 those of the RAM calls. */
static int is_first(int call, int r)
{
    return r == 20 || r == 21 || r == 22 || r == 24 || r == 28 || r == 32 || r == 33 || r == 4 || r == 5 ||
           (r == 3 && (call == READ_RAM || call == WRITE_RAM));
}

/* What DLC 0 to 15 mean in an FD frame; a classic one has 8 bytes at most. */
static const uint8_t lengths[16] = { 0, 1, 2, 3, 4, 5, 6, 7, 8, 12, 16, 20, 24, 32, 48, 64 };

/* What PLSIZE 0 to 7 mean. */
static const uint8_t slots[8] = { 8, 12, 16, 20, 24, 32, 48, 64 };

static uint8_t meant(uint8_t dlc, uint8_t fdf)
{
    IS(dlc < 16);
    return fdf || dlc < 8 ? lengths[dlc] : 8;
}

/* A chip outside Configuration with four FIFOs, two of which send, and often the transmit queue, so that calls have something to do. */
static void settle(void)
{
    const mcp_line line = { .transfer = transfer, .wait = wait, .context = &chip };
    const mcp_settings settings = { .dncnt = 0 };
    asked = 0, failed = 0, rough = 0;
    const mcp_tx_queue queue = { .size = 1 + next() % 4, .plsize = next() % 8 };
    IS(mcp_chip_new(&chip) == 0 && mcp_configure(&line, &settings) == 0);
    if (next() % 4)
        IS(mcp_configure_tx_queue(&line, &queue) == 0);
    for (uint32_t n = 1; n <= 4; n++) {
        const mcp_fifo fifo = { .size = 1 + next() % 4, .plsize = next() % 8, .transmit = n % 2, .rxtsen = next() % 2 };
        const mcp_filter filter = { .fifo = n, .mode = next() % 3, .object = { next() % 0x800, 0 }, .mask = { next() % 4, 0 } };
        IS(mcp_configure_fifo(&line, n, &fifo) == 0 && mcp_configure_filter(&line, n, &filter) == 0);
    }
    IS(mcp_set_op_mode(&line, 0) == 0);
}

static void fill(void *p, size_t n)
{
    for (size_t i = 0; i < n; i++)
        ((uint8_t *)p)[i] = (uint8_t)next();
}

/* All that calls write to, as it is before a call and after. */
static struct {
    uint8_t to[4096 + 8];
    mcp_message message;
    mcp_frame frame;
    mcp_sorted sorted;
    mcp_scrubber scrubber;
    mcp_report report;
    uint32_t word, value, mismatches;
    uint8_t flag, accepted;
} out, before;

/* Whether a report tells the mismatches that the answers had, 0, 1 or 2 of a read: behind them its word was read. A read that fails or
 * mismatches for the third time tells no count. */
static int is_counted(mcp_report r)
{
    if (r.mismatches > 2 || r.back_mismatches > 2)
        return 0;
    if (r.seen == MCP_UNREAD || r.rewrite == MCP_NOT_READ_BACK)
        return !r.back_mismatches && (r.seen == MCP_DIFFER || !r.mismatches) && mismatched >= r.mismatches &&
               (mismatched - r.mismatches == 3) == (r.number == 10);
    if (r.rewrite == MCP_READ_BACK) /* two reads, and the write between them */
        return mismatched == r.mismatches + r.back_mismatches && asked == mismatched + 3;
    return !r.back_mismatches && mismatched == r.mismatches && asked == mismatched + 1;
}

/* Whether a step that visited an entry reports that one, has moved on behind it, and tells a rewrite only where it was told so. */
static int is_visit(const mcp_watch *list, size_t n, size_t place, int rewrite, mcp_report r)
{
    size_t due = place < n ? place : 0;
    if (out.scrubber.place != due + 1 || r.address != list[due].address || (r.number && r.number != 1 && r.number != 10))
        return 0;
    if (r.seen != MCP_DIFFER)
        return !r.read && !r.wanted && !r.rewrite && !r.back && (r.seen == MCP_UNREAD ? r.number != 0 : r.seen == MCP_AGREE && !r.number);
    return r.wanted == list[due].wanted && ((r.read ^ r.wanted) & list[due].care) && (r.rewrite != MCP_NO_REWRITE) == (rewrite != 0) &&
           (r.rewrite == MCP_NOT_READ_BACK ? r.number && !r.back : r.rewrite <= MCP_READ_BACK && !r.number);
}

int main(int argc, char **argv)
{
    unsigned long calls = argc > 1 ? strtoul(argv[1], NULL, 0) : 100000, counts[37] = { 0 }, coded = 0, seen[3] = { 0 };
    unsigned long checked[3] = { 0 }, queued[3] = { 0 };
    size_t place = 0;
    static uint8_t from[4096];
    if (argc > 2)
        seed ^= strtoull(argv[2], NULL, 0);
    fill(from, sizeof from);
    mcp_chip_new(&chip);
    memset(&before, 0x5A, sizeof before);
    for (calls_made = 0; calls_made < calls; calls_made++) {
        mcp_line line = { transfer, wait, &chip, &out.value };
        mcp_header header;
        mcp_settings settings;
        mcp_fifo fifo;
        mcp_tx_queue queue;
        mcp_filter filter;
        mcp_watch list[4];
        uint32_t a = number(), b = number(), c = number(), dlc = number();
        size_t len = next() % 2 ? next() % 68 : next() % 4096;
        size_t lent = next() % 32 ? len : (size_t)-1 - next() % 3; /* longer than any object is told as NULL is */
        uint8_t *p = next() % 32 ? out.to : NULL;
        uint8_t *q = next() % 32 ? from : NULL;
        const mcp_header *h = next() % 32 ? &header : NULL;
        const mcp_line *l = next() % 64 ? &line : NULL;
        mcp_message *m = next() % 32 ? &out.message : NULL;
        mcp_frame *f = next() % 32 ? &out.frame : NULL;
        mcp_sorted *s = next() % 32 ? &out.sorted : NULL;
        uint32_t *w = next() % 32 ? &out.word : NULL;
        uint8_t *x = next() % 4 ? &out.accepted : NULL;
        uint32_t *y = next() % 32 ? &out.mismatches : NULL;
        mcp_scrubber *at = next() % 32 ? &out.scrubber : NULL;
        mcp_report *seen_at = next() % 32 ? &out.report : NULL;
        const mcp_watch *entries = next() % 32 ? list : NULL;
        size_t n = next() % 5, listed = next() % 32 ? n : (size_t)-1 / sizeof *list + next() % 4; /* the same, of entries */
        int rewrite = next() % 2 ? 0 : (int)next();
        int call = (int)(next() % KINDS), none, no_to, no_from, r;
        if (next() % 64 == 0) line.transfer = NULL;
        if (next() % 64 == 0) line.wait = NULL;
        if (next() % 4 == 0) line.value = NULL;
        fill(&header, sizeof header);
        fill(&settings, sizeof settings);
        fill(&fifo, sizeof fifo);
        fill(&queue, sizeof queue);
        fill(&filter, sizeof filter);
        for (size_t i = 0; i < 4; i++)
            list[i] = (mcp_watch){ number(), number(), number() };
        if (next() % 4) { /* such as are taken */
            for (size_t i = 0; i < 4; i++)
                list[i].address = 0x1D0 + 4 * (next() % 20);
            header.id %= 0x800;
            settings.bittime = (mcp_bittime){ { a % 256, b % 256, c % 128, a % 128 }, { a % 256, b % 32, c % 16, a % 16, (int32_t)(b % 128) - 64 } };
            settings.dncnt %= 32;
            fifo.size = a % 40;
            fifo.plsize = b % 9;
            fifo.txpri %= 33;
            fifo.txat %= 4;
            queue.size = a % 40;
            queue.plsize = b % 9;
            queue.txpri %= 33;
            queue.txat %= 4;
            filter.fifo = number() % 33;
            filter.mode %= 4;
            filter.object.id %= 0x800;
            filter.mask.id %= 0x800;
            b %= 0x800000;
            a %= next() % 2 ? 6 : next() % 2 ? 34 : 0x1000;
            if (next() % 2) header.fdf = header.extended = 0;
            dlc %= 16;
            if (lent == len && (call == PUSH || call == TRANSMIT || call == QUEUE_PUSH || call == QUEUE_BARE)) lent = len = lengths[dlc];
            if (lent == len && (call == DELIVER || call == SORT)) lent = len = meant((uint8_t)dlc, header.fdf);
            if (lent == len && (call == PEEK || call == GET)) lent = len |= 64;
        }
        no_to = lent && (!p || lent != len), no_from = lent && (!q || lent != len);
        none = call < SEND && (!l || !line.transfer || !line.wait); /* whether a pointer is NULL that must not be */
        if (calls_made % 64 == 0)
            settle();
        if (next() % 64 == 0) place = (size_t)next();
        out = before;
        if (call == SCRUB) out.scrubber.place = place;
        asked = mismatched = 0, failed = 0, rough = 4u << 2 * (next() % 3);
        switch (call) {
        case RESET: r = mcp_reset(l); break;
        case READ: r = mcp_read_register(l, a, w); none |= !w; break;
        case WRITE: r = mcp_write_register(l, a, b); break;
        case MODIFY: r = mcp_modify_register(l, a, b, c); break;
        case CHECKED: r = mcp_checked_read(l, a, w, y); none |= !w || !y; break;
        case READ_RAM: r = mcp_read_ram(l, c, p, lent); none |= no_to; break;
        case WRITE_RAM: r = mcp_write_ram(l, c, q, lent); none |= no_from; break;
        case VERIFY: r = mcp_verify(l); break;
        case VERIFY_LONG: r = mcp_verify_long(l); break;
        case SET_MODE: r = mcp_set_op_mode(l, c % 9); break;
        case GET_MODE: r = mcp_get_op_mode(l, w); none |= !w; break;
        case CONFIGURE: r = mcp_configure(l, &settings); break;
        case OSC: r = mcp_configure_osc(l, &settings.oscillator); break;
        case IO: r = mcp_configure_io(l, &settings.io); break;
        case TIMING: r = mcp_configure_bit_timing(l, &settings.bittime); break;
        case FIFO: r = mcp_configure_fifo(l, a, &fifo); break;
        case FILTER: r = mcp_configure_filter(l, a, &filter); break;
        case DISABLE: r = mcp_disable_filter(l, a); break;
        case PUSH: r = mcp_push(l, a, h, b, q, lent); none |= !h || no_from; break;
        case REQUEST: r = mcp_request(l, a); break;
        case TRANSMIT: r = mcp_transmit(l, a, h, b, q, lent, x); none |= !h || no_from; break;
        case HAS_NEXT: r = mcp_has_next(l, a, &out.flag); break;
        case PEEK: r = mcp_peek(l, a, p, lent, m); none |= !m || no_to; break;
        case GET: r = mcp_get(l, a, p, lent, m); none |= !m || no_to; break;
        case SCRUB:
            r = mcp_scrub(l, at, entries, listed, rewrite, seen_at);
            none |= !at || !seen_at || listed != n || (n && !entries);
            break;
        case QUEUE: r = mcp_configure_tx_queue(l, &queue); break;
        case QUEUE_OFF: r = mcp_disable_tx_queue(l); break;
        case QUEUE_PUSH: r = mcp_queue_push(l, h, b, q, lent); none |= !h || no_from; break;
        case QUEUE_BARE: r = mcp_queue_push_unchecked(l, h, b, q, lent); none |= !h || no_from; break;
        case QUEUE_REQUEST: r = mcp_queue_request(l); break;
        case SEND: r = mcp_chip_send(&chip, a, f); none |= !f; break;
        case DELIVER: r = mcp_chip_deliver(&chip, a, h, dlc, c, q, lent, w); none |= !h || !w || no_from; break;
        case SORT: r = mcp_chip_sort(&chip, h, dlc, c, q, lent, s); none |= !h || !s || no_from; break;
        case HELD: r = mcp_chip_held(&chip, a, w); none |= !w; break;
        case HELD_AT: r = mcp_chip_held_at(&chip, a, b, f); none |= !f; break;
        case SEND_QUEUE: r = mcp_chip_send_queue(&chip, f); none |= !f; break;
        case HELD_QUEUE: r = mcp_chip_held_queue(&chip, w); none |= !w; break;
        default: r = mcp_chip_held_queue_at(&chip, a, f); none |= !f; break;
        }
        const int told = call == SCRUB && r == 0 ? (int)out.report.number : r;
        IS(none ? r == MCP_NULL && asked == 0 : is_answer(call, told) && (call != SCRUB || r == 0 || r == 32 || r == 33));
        IS(asked <= bound[call]);
        IS(!is_first(call, r) || asked == 0);
        if (line.value && (r == 3 || r == 4 || r == 5)) {
            /* the caller's own, or where an object of at most 72 bytes is not inside RAM */
            IS(r != 3 ? out.value == len : is_first(call, r) ? out.value == c : out.value > 0xC00 - 72 && out.value < 0x10010);
            out.value = before.value;
        }
        if (call == TRANSMIT && x && r != MCP_NULL) { /* also where it is refused; a push's exchanges are five */
            IS(out.accepted == (asked > 5));
            out.accepted = before.accepted;
        }
        if (call == SCRUB && r) { /* it stays */
            IS(out.scrubber.place == place);
            out.scrubber = before.scrubber;
        }
        if (r) {
            IS(!memcmp(&out, &before, sizeof out));
        } else {
            if (call == SCRUB) {
                IS(is_visit(list, n, place, rewrite, out.report) && is_counted(out.report));
                seen[out.report.seen]++;
                place = out.scrubber.place;
            }
            if (call == CHECKED) {
                IS(out.mismatches < 3 && out.mismatches == mismatched && asked == mismatched + 1);
                checked[out.mismatches]++;
                out.mismatches = before.mismatches;
            }
            IS(out.mismatches == before.mismatches);
            size_t filled = call == READ_RAM ? len : 0;
            if (call == PEEK || call == GET) {
                IS(len >= 64 && out.message.found <= 1 && out.message.stamped <= out.message.found);
                IS(out.message.filter < 32 && (out.message.found || (!out.message.dlc && !out.message.filter)));
                IS(out.message.len == meant(out.message.dlc, out.message.header.fdf) && out.message.len <= slots[plsize]);
                coded += !out.message.header.fdf && out.message.dlc > 8;
                filled = out.message.len;
            }
            IS(!memcmp(out.to + filled, before.to + filled, sizeof out.to - filled));
            IS(call == HAS_NEXT ? out.flag <= 1 : out.flag == 0x5A);
            if (call == SEND || call == HELD_AT || call == SEND_QUEUE || call == HELD_QUEUE_AT) {
                IS(out.frame.kind <= MCP_NO_FRAME && (out.frame.kind == MCP_FRAME || !out.frame.dlc));
                IS(out.frame.filter < (out.frame.kind == MCP_FRAME && call == HELD_AT ? 32 : 1));
                IS(out.frame.len == meant(out.frame.dlc, out.frame.header.fdf));
            }
            IS(call != SORT || (out.sorted.turned_down <= MCP_FULL && out.sorted.fifo < 32 && out.sorted.filter < 32));
            IS((call != DELIVER || out.word <= MCP_FULL) && (call != GET_MODE || out.word <= 7));
            IS((call != HELD && call != HELD_QUEUE) || out.word <= 32);
            if (call == SEND_QUEUE) queued[out.frame.kind]++;
            IS(call != HELD_QUEUE_AT || a < 32 || out.frame.kind == MCP_NOTHING);
            IS(out.value == before.value);
        }
        counts[told + 1]++;
    }
    for (int r = 0; r < 37; r++)
        if (counts[r]) printf("%d: %lu\n", r - 1, counts[r]);
    printf("classic, DLC above 8: %lu\n", coded);
    printf("entries that agreed, differed, were not read: %lu %lu %lu\n", seen[0], seen[1], seen[2]);
    printf("checked reads behind 0, 1, 2 mismatches: %lu %lu %lu\n", checked[0], checked[1], checked[2]);
    printf("sent from the queue, nothing, a frame, no frame: %lu %lu %lu\n", queued[0], queued[1], queued[2]);
    return 0;
}
