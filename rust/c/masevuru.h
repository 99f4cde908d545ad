/* Masevuru: a proved driver for Microchip's CAN FD controller MCP2518FD, from C.
 *
 * A call runs to its end over the two functions of a line. It answers 0 where it is done; document 01's or 02's number where it is refused;
 * or MCP_NULL, which is none of these. A refused call has asked for no exchange after the one that it was refused at, and has changed no
 * byte that was lent to it; what a call writes elsewhere (*word, *message and so on) is written only where it answers 0, but for *accepted
 * of mcp_transmit. What a call writes to need not be initialised, but for *scrubber of mcp_scrub. Any number may be given, of a FIFO, a
 * filter or a register too: what there is not is refused before any exchange.
 *
 * What the caller keeps to:
 * - A pointer is NULL or points to what its type says, as many as the length beside it, and aligned.
 * - What a call writes to overlaps nothing else that it was given, and nobody else touches what a call was given until it has returned:
 *   not the line's functions, no interrupt, no other task. What they share with others is at the line's context.
 * - One call at a time on one chip: the line's functions make none on their own. Nothing is kept between calls, and nothing but the stack
 *   is used: calls on two chips may run at once. */
#ifndef MASEVURU_H
#define MASEVURU_H

#include <stddef.h>
#include <stdint.h>

#ifdef __cplusplus
extern "C" {
#endif

enum {
    MCP_DONE = 0,
    MCP_SPI_READ = 1,                    /* a read, or a register write, failed */
    MCP_SPI_WRITE = 2,                   /* a RAM write or the reset failed */
    MCP_INVALID_RAM_ADDRESS = 3,         /* an access does not lie in 0x400 to 0xBFF; carries the address */
    MCP_INVALID_READ_LENGTH = 4,         /* in range, but no multiple of 4; carries the length */
    MCP_INVALID_WRITE_LENGTH = 5,
    MCP_FIFO_NOT_TX = 6,                 /* push on a FIFO that receives */
    MCP_FIFO_TOO_SMALL = 7,              /* the payload is longer than the FIFO's, or the transmit queue's */
    MCP_FIFO_FULL = 8,                   /* push on a full FIFO, or to a full queue */
    MCP_FIFO_NOT_RX = 9,                 /* has-next, peek or get on a FIFO that sends */
    MCP_CRC_MISMATCH = 10,               /* three checked reads in a row mismatched */
    MCP_CONFIGURATION_MODE_TIMEOUT = 11, /* mcp_configure: five polls without the mode; of the calls marked (11): a failed exchange */
    MCP_CHANGE_OP_MODE_TIMEOUT = 12,     /* mcp_set_op_mode: five polls without the mode */
    MCP_SPI_FAILED_RAM_ECHO = 13,        /* an echo differed */
    MCP_PLL_NOT_READY = 14,              /* three polls without PLLRDY */
    MCP_BAD_NUMBER = 20,                 /* FIFO not 1 to 31, filter not 0 to 31 */
    MCP_BAD_IDENTIFIER = 21,             /* standard above 0x7FF, extended above 0x1FFFFFFF */
    MCP_BAD_PAYLOAD = 22,                /* a length that no message has; of a frame that arrives: not its DLC's, or a DLC above 15 */
    /* 23 is given no more: a classic frame with a DLC above 8 is received, with 8 bytes */
    MCP_BAD_SETTING = 24,                /* size 0 of a FIFO or of the queue, or a number wider than its field */
    MCP_BAD_USER_ADDRESS = 25,           /* the chip's user address is above 0xFBFF */
    MCP_WRONG_ANSWER = 26,               /* never answered here: the loop gives each answer as it was asked for */
    MCP_NO_LAYOUT = 27,                  /* never answered here: see mcp_chip_no_layout */
    MCP_BUFFER_TOO_SMALL = 28,           /* the buffer for a payload has fewer than 64 bytes */
    MCP_NO_MATCH = 30,                   /* mcp_chip_sort: no enabled filter matches the frame */
    MCP_DEVICE_NET = 31,                 /* mcp_chip_sort: DNCNT is above 0 */
    MCP_EMPTY_LIST = 32,                 /* mcp_scrub: the list has no entry */
    MCP_NOT_CARRIED = 33,                /* mcp_scrub: an entry's address is no register's that mcp_watch names */
    MCP_TX_QUEUE_DISABLED = 34,          /* mcp_queue_push: the transmit queue is off */
    MCP_LENGTH_BEYOND_SLOT = 35,         /* peek or get: the header says more bytes than a slot of the FIFO has; none of them is read */
    /* A pointer is NULL that must not be, one of the line's functions too, or more than PTRDIFF_MAX bytes are lent, as no object has.
     * Nothing was done. This is told before any refusal. NULL with a length of 0 is an empty buffer, or an empty list. */
    MCP_NULL = -1
};

/* One exchange under one chip select: all of tx goes out, then rx_len bytes are clocked into rx. tx_len is 2 or more; where rx_len is 0
 * nothing is clocked in and rx is not to be used. tx and rx are the call's own memory, and are gone when it has returned. 0 says that
 * every byte went and came; anything else that nothing was carried out: what is promised of refused calls holds where that is so. It must
 * not longjmp or throw. */
typedef int (*mcp_transfer)(void *context, const uint8_t *tx, size_t tx_len, uint8_t *rx, size_t rx_len);

/* Waits for at least so long: 500, where a mode or the PLL is polled. */
typedef void (*mcp_wait)(void *context, uint32_t microseconds);

/* value is NULL, or where a call that answers 3, 4 or 5 puts the address or the length that the refusal carries: of a push, a peek or a
 * get the address of that part of the message which does not lie in RAM. No other answer changes it. */
typedef struct {
    mcp_transfer transfer;
    mcp_wait wait;
    void *context;
    uint32_t *value;
} mcp_line;

/* A flag is 0 or anything else, here and below. A payload has 0 to 8 bytes, with fdf also 12, 16, 20, 24, 32, 48 or 64. */
typedef struct {
    uint32_t id;
    uint8_t extended, rtr, brs, fdf, esi;
} mcp_header;

/* What peek and get found. found is 0, as everything else, where the FIFO holds no message; time is that of a FIFO with timestamps
 * (stamped); the payload is the first len bytes of the buffer that was lent, whose other bytes stay. dlc is the DLC as it was received, 0 to
 * 15: a classic frame with 9 to 15 has a len of 8. filter is the number of the filter that took it, 0 to 31, as the chip wrote it into the
 * object (FILHIT). */
typedef struct {
    mcp_header header;
    uint32_t time;
    uint8_t found, stamped, len, dlc, filter;
} mcp_message;

/* divide: the system clock is half of the oscillator's or the PLL's. */
typedef struct { uint8_t pll, divide; } mcp_oscillator;
typedef struct { uint8_t xstbyen, txcanod, sof, intod; } mcp_io;

/* Fields as CiNBTCFG and CiDBTCFG have them, one less than what they count; tdco: -64 to 63. */
typedef struct { uint32_t brp, tseg1, tseg2, sjw; } mcp_nominal;
typedef struct { uint32_t brp, tseg1, tseg2, sjw; int32_t tdco; } mcp_data;
typedef struct { mcp_nominal nominal; mcp_data data; } mcp_bittime;

/* counter: the time base counter; dncnt: DNCNT, 0 to leave it; canerrors to eccerror: interrupts beside those of transmit and receive. */
typedef struct {
    mcp_oscillator oscillator;
    mcp_io io;
    mcp_bittime bittime;
    uint32_t dncnt;
    uint8_t counter, canerrors, spierror, eccerror;
} mcp_settings;

/* size: how many messages, 1 to 32 (above 32 is 32); plsize 0 to 7: of up to 8, 12, 16, 20, 24, 32, 48 or 64 bytes. A FIFO that sends
 * (transmit) has txpri, txat and the fields rtren to tx_notfull, one that receives rxtsen to rx_notempty; the others are not looked at. */
typedef struct {
    uint32_t size, plsize, txpri, txat;
    uint8_t transmit;
    uint8_t rtren, txatie, tx_empty, tx_half, tx_notfull;
    uint8_t rxtsen, rxovie, rx_full, rx_half, rx_notempty;
} mcp_fifo;

/* The transmit queue: size, plsize, txpri and txat as a FIFO's that sends, and its interrupt enables. */
typedef struct {
    uint32_t size, plsize, txpri, txat;
    uint8_t txatie, empty, notfull;
} mcp_tx_queue;

/* The frames that a filter takes. */
enum { MCP_STANDARD = 0, MCP_EXTENDED = 1, MCP_BOTH = 2 };

/* Frames that match object where mask has ones go to fifo. */
typedef struct { uint32_t id; uint8_t extended; } mcp_identifier;
typedef struct {
    uint32_t fifo, mode;
    mcp_identifier object, mask;
} mcp_filter;

/* An entry of a list that mcp_scrub goes through: the address of a register, the word that it is to have, and a 1 for each bit that is
 * cared for. The registers are CiCON (0x000), CiNBTCFG (0x004), CiDBTCFG (0x008), CiTDC (0x00C), CiTSCON (0x014), CiINT (0x01C), of the
 * transmit queue, FIFOs and filters all (every fourth address from 0x050 to 0x2EC), OSC (0xE00) and IOCON (0xE04). */
typedef struct { uint32_t address, wanted, care; } mcp_watch;

/* How far a scrubber is: the place in the list of the entry that it visits next, at first 0. One beyond the list's end is the first. */
typedef struct { size_t place; } mcp_scrubber;

/* What a step saw of the entry that it visited. read and wanted are told where they differ; back where the rewrite was read back, as wanted
 * or not; number where the entry was not read (1 or 10), or the write failed (1) or its read-back (1 or 10). mismatches is told where the
 * entry was read, back_mismatches where the rewrite was read back: how many exchanges of that read mismatched before its word, 0, 1 or 2.
 * What is not told is 0. */
enum { MCP_AGREE = 0, MCP_DIFFER = 1, MCP_UNREAD = 2 };                /* seen: the cared-for bits are as wanted, or not; or not read */
enum { MCP_NO_REWRITE = 0, MCP_READ_BACK = 1, MCP_NOT_READ_BACK = 2 }; /* rewrite: none; written and read back; one of the two failed */
typedef struct {
    uint32_t seen, address, read, wanted, rewrite, back, number, mismatches, back_mismatches;
} mcp_report;

/* Behind each call: its refusals, beside 1 for a failed exchange (2 of a RAM write and the reset; 11 where (11) stands). */

int mcp_reset(const mcp_line *line);
int mcp_read_register(const mcp_line *line, uint32_t address, uint32_t *word);                          /* 24 */
int mcp_write_register(const mcp_line *line, uint32_t address, uint32_t word);                          /* 24 */
/* The register with the bits of clear at 0, then those of set at 1. */
int mcp_modify_register(const mcp_line *line, uint32_t address, uint32_t clear, uint32_t set);          /* 24 */
/* The CRC is tested, in at most three tries. *mismatches is how many of them mismatched before the one that *word is from: 0, 1 or 2. It
 * tells a harness that is getting bad before 10 does. */
int mcp_checked_read(const mcp_line *line, uint32_t address, uint32_t *word, uint32_t *mismatches);     /* 24; 10 */

/* All of buf or bytes, or nothing; about 2 kB of the stack. A length of 0 in range is an exchange. */
int mcp_read_ram(const mcp_line *line, uint32_t address, uint8_t *buf, size_t len);                     /* 3, 4 */
int mcp_write_ram(const mcp_line *line, uint32_t address, const uint8_t *bytes, size_t len);            /* 3, 5 */

/* Each bit by itself through the RAM's first word, 64 exchanges; 32 words through RAM at once, 2 exchanges. */
int mcp_verify(const mcp_line *line);                                                                   /* (11) 13 */
int mcp_verify_long(const mcp_line *line);                                                              /* (11) 13 */

/* 0 CAN FD, 1 Sleep, 2 internal loopback, 3 listen only, 4 Configuration, 5 external loopback, 6 CAN 2.0, 7 restricted. */
int mcp_set_op_mode(const mcp_line *line, uint32_t mode);                                               /* (11) 24; 12 */
int mcp_get_op_mode(const mcp_line *line, uint32_t *mode);

/* Takes the chip to Configuration, tries the RAM and sets up all but FIFOs and filters; transmit queue and event FIFO are turned off:
 * mcp_configure_tx_queue comes behind it. */
int mcp_configure(const mcp_line *line, const mcp_settings *settings);                                  /* (11) 24; 11, 13, 14 */
int mcp_configure_osc(const mcp_line *line, const mcp_oscillator *oscillator);                          /* (11) 14 */
int mcp_configure_io(const mcp_line *line, const mcp_io *io);                                           /* (11) */
int mcp_configure_bit_timing(const mcp_line *line, const mcp_bittime *bittime);                         /* (11) 24 */
/* Size, payload size, direction and rxtsen take effect only in Configuration. */
int mcp_configure_fifo(const mcp_line *line, uint32_t fifo, const mcp_fifo *settings);                  /* 20, 24 */
/* The transmit queue is turned on and set up, or turned off. On, it lies in RAM before FIFO 1. Whether it is on, its size and its payload
 * size change only in Configuration: outside, the call answers 0 all the same. CiCON is written back as it was read, but for TXQEN: where a
 * mode was asked for and not granted (12), it is asked for again, and may be granted before size and payload size are written.
 * mcp_set_op_mode with 4 before it makes sure. */
int mcp_configure_tx_queue(const mcp_line *line, const mcp_tx_queue *settings);                         /* (11) 24 */
int mcp_disable_tx_queue(const mcp_line *line);                                                         /* (11) */
int mcp_configure_filter(const mcp_line *line, uint32_t filter, const mcp_filter *settings);            /* 20, 21, 24 */
int mcp_disable_filter(const mcp_line *line, uint32_t filter);                                          /* 20 */

/* 0 says that the message is in the chip; where it is refused, the FIFO holds what it held. seq has 23 bits. */
int mcp_push(const mcp_line *line, uint32_t fifo, const mcp_header *header, uint32_t seq,
             const uint8_t *payload, size_t len);                                                       /* 20, 21, 24, 22; 6, 7, 8, 25, 3 */
/* What the FIFO holds is to be sent. */
int mcp_request(const mcp_line *line, uint32_t fifo);                                                   /* 20 */
/* Push, then request. Where accepted is not NULL, *accepted is 1 where the message is in the chip, else 0: also where the call is refused.
 * Refused and accepted, only the request was refused: mcp_request is what to try again, another transmit would send the message twice. */
int mcp_transmit(const mcp_line *line, uint32_t fifo, const mcp_header *header, uint32_t seq,
                 const uint8_t *payload, size_t len, uint8_t *accepted);                                /* as push */

/* A push to the transmit queue, from which the message goes out first whose identifier wins arbitration, whatever was pushed before. */
int mcp_queue_push(const mcp_line *line, const mcp_header *header, uint32_t seq,
                   const uint8_t *payload, size_t len);                                                 /* 21, 24, 22; 34, 7, 8, 25, 3 */
/* Two exchanges less: it does not test whether the queue is on, has room, and takes the payload. Where it has no room, the message that
 * was pushed last is overwritten; where it is off, or the payload is longer than the queue's, what other slots hold, a FIFO's too. That may
 * have happened also where the call is refused, and where it answers 0 the queue need not hold the message. */
int mcp_queue_push_unchecked(const mcp_line *line, const mcp_header *header, uint32_t seq,
                             const uint8_t *payload, size_t len);                                       /* 21, 24, 22; 25, 3 */
/* What the queue holds is to be sent, and what is pushed to it before it is empty. Nothing is tested: it answers 0 also where it is off. */
int mcp_queue_request(const mcp_line *line);

/* *next is 1 where the FIFO holds a message, else 0. */
int mcp_has_next(const mcp_line *line, uint32_t fifo, uint8_t *next);                                   /* 20; 9 */
/* The oldest message, which stays in the FIFO, or is taken from it. buf has 64 bytes, also for shorter messages. Where a get is refused the
 * FIFO still holds the message. */
int mcp_peek(const mcp_line *line, uint32_t fifo, uint8_t *buf, size_t room, mcp_message *message);     /* 20, 28; 9, 25, 3, 35, 3 */
int mcp_get(const mcp_line *line, uint32_t fifo, uint8_t *buf, size_t room, mcp_message *message);      /* as peek */

/* One step of a scrubber over a list of n entries: reads the register of the entry that is due, its CRC tested in at most three tries, and
 * reports whether the cared-for bits are the wanted ones. Where they are not and rewrite is not 0, the word that was read is written, once,
 * with these bits as wanted, and read back, checked: 7 exchanges at most. The write has the effects of any write to that register. A failed
 * exchange is no refusal here: it answers 0, and the report tells it. Where it answers 0 the scrubber moves on to the entry behind, else it
 * stays: n steps over one list of n visit each entry once, whatever is called between. */
int mcp_scrub(const mcp_line *line, mcp_scrubber *scrubber, const mcp_watch *list, size_t n, int rewrite,
              mcp_report *report);                                                                      /* 32, 33; no 1 */

/* The modelled chip, to test your own code against: in a library built with the feature chip. A chip is plain memory of the caller's, and
 * has to be made by mcp_chip_new, as after a reset with RAM of zeros, before anything else is done with it. It may be copied. */
typedef struct { uint32_t words[704]; } mcp_chip;

int mcp_chip_new(mcp_chip *chip);

/* The chip as a line, the chip being the context; or to be called by a transfer of your own, which makes some exchanges fail or answers
 * otherwise. 1: the chip does not know such an exchange, and nothing changed. */
int mcp_chip_transfer(void *chip, const uint8_t *tx, size_t tx_len, uint8_t *rx, size_t rx_len);
void mcp_chip_wait(void *chip, uint32_t microseconds);

/* A message in the chip or on the bus: all zeros but kind where that is not MCP_FRAME. seq is 0 in one received, filter in one to send. */
enum {
    MCP_NOTHING = 0, /* nothing was sent, nothing is held there */
    MCP_FRAME = 1,
    MCP_NO_FRAME = 2 /* a message that no frame can be: a classic one to send with a DLC above 8, or a payload beyond the slot */
};
typedef struct {
    mcp_header header;
    uint32_t seq, time;
    uint8_t kind, stamped, len, dlc, filter, payload[64];
} mcp_frame;

/* The chip sends the oldest message of a FIFO, if sending is requested there. */
int mcp_chip_send(mcp_chip *chip, uint32_t fifo, mcp_frame *frame);                                     /* 20 */

/* The chip sends from the transmit queue, if sending is requested there: of all that it holds the message whose identifier wins
 * arbitration, of equal ones that in the lowest slot. Nothing is sent where the queue is off. */
int mcp_chip_send_queue(mcp_chip *chip, mcp_frame *frame);

/* A frame arrives for a FIFO. Its payload is as long as its DLC means: DLC 0 to 8 as many bytes, 9 to 15 in an FD frame 12, 16, 20, 24, 32,
 * 48 or 64, in a classic one 8. */
enum { MCP_DELIVERED = 0, MCP_IN_CONFIGURATION = 1, MCP_NOT_RECEIVING = 2, MCP_TOO_LONG = 3, MCP_FULL = 4 };
int mcp_chip_deliver(mcp_chip *chip, uint32_t fifo, const mcp_header *header, uint32_t dlc, uint32_t time,
                     const uint8_t *payload, size_t len, uint32_t *turned_down);                        /* 20, 21, 22 */

/* A frame arrives, and the filters sort it: the lowest-numbered enabled one that matches gives it to its FIFO. dlc and turned_down are
 * as above; fifo and filter are those that the frame was for, also where it was turned down. */
typedef struct { uint32_t turned_down, fifo, filter; } mcp_sorted;
int mcp_chip_sort(mcp_chip *chip, const mcp_header *header, uint32_t dlc, uint32_t time,
                  const uint8_t *payload, size_t len, mcp_sorted *sorted);                              /* 21, 22, 31, 30 */

/* How many messages a FIFO holds, and the one k places behind the oldest, decoded from the chip's RAM. */
int mcp_chip_held(const mcp_chip *chip, uint32_t fifo, uint32_t *count);                                /* 20 */
int mcp_chip_held_at(const mcp_chip *chip, uint32_t fifo, uint32_t k, mcp_frame *frame);                /* 20 */

/* How many messages the transmit queue holds, none where it is off; and the one in a slot, 0 to 31, MCP_NOTHING where it holds none. */
int mcp_chip_held_queue(const mcp_chip *chip, uint32_t *count);
int mcp_chip_held_queue_at(const mcp_chip *chip, uint32_t slot, mcp_frame *frame);

/* How often leaving Configuration was asked for and not granted (27), because the FIFOs, and the transmit queue where it is on, do not fit
 * into RAM or the event FIFO is on. Such a write is done on the line, so no call is told: mcp_set_op_mode polls in vain and answers 12. */
int mcp_chip_no_layout(const mcp_chip *chip, uint32_t *count);

/* The sizes and places that the library was built with; a compiler that lays structures out otherwise stops here. */
#define MCP_AT(type, field, place) (offsetof(type, field) == (place))
#define MCP_LAYOUT(type, size, places) typedef char type##_layout[sizeof(type) == (size) && (places) ? 1 : -1]
MCP_LAYOUT(mcp_line, 4 * sizeof(void *), MCP_AT(mcp_line, transfer, 0) && MCP_AT(mcp_line, wait, sizeof(void *)) &&
    MCP_AT(mcp_line, context, 2 * sizeof(void *)) && MCP_AT(mcp_line, value, 3 * sizeof(void *)));
MCP_LAYOUT(mcp_header, 12, MCP_AT(mcp_header, id, 0) && MCP_AT(mcp_header, extended, 4) && MCP_AT(mcp_header, rtr, 5) &&
    MCP_AT(mcp_header, brs, 6) && MCP_AT(mcp_header, fdf, 7) && MCP_AT(mcp_header, esi, 8));
MCP_LAYOUT(mcp_message, 24, MCP_AT(mcp_message, header, 0) && MCP_AT(mcp_message, time, 12) && MCP_AT(mcp_message, found, 16) &&
    MCP_AT(mcp_message, stamped, 17) && MCP_AT(mcp_message, len, 18) && MCP_AT(mcp_message, dlc, 19) &&
    MCP_AT(mcp_message, filter, 20));
MCP_LAYOUT(mcp_oscillator, 2, MCP_AT(mcp_oscillator, pll, 0) && MCP_AT(mcp_oscillator, divide, 1));
MCP_LAYOUT(mcp_io, 4, MCP_AT(mcp_io, xstbyen, 0) && MCP_AT(mcp_io, txcanod, 1) && MCP_AT(mcp_io, sof, 2) && MCP_AT(mcp_io, intod, 3));
MCP_LAYOUT(mcp_nominal, 16, MCP_AT(mcp_nominal, brp, 0) && MCP_AT(mcp_nominal, tseg1, 4) && MCP_AT(mcp_nominal, tseg2, 8) &&
    MCP_AT(mcp_nominal, sjw, 12));
MCP_LAYOUT(mcp_data, 20, MCP_AT(mcp_data, brp, 0) && MCP_AT(mcp_data, tseg1, 4) && MCP_AT(mcp_data, tseg2, 8) &&
    MCP_AT(mcp_data, sjw, 12) && MCP_AT(mcp_data, tdco, 16));
MCP_LAYOUT(mcp_bittime, 36, MCP_AT(mcp_bittime, nominal, 0) && MCP_AT(mcp_bittime, data, 16));
MCP_LAYOUT(mcp_settings, 52, MCP_AT(mcp_settings, oscillator, 0) && MCP_AT(mcp_settings, io, 2) && MCP_AT(mcp_settings, bittime, 8) &&
    MCP_AT(mcp_settings, dncnt, 44) && MCP_AT(mcp_settings, counter, 48) && MCP_AT(mcp_settings, canerrors, 49) &&
    MCP_AT(mcp_settings, spierror, 50) && MCP_AT(mcp_settings, eccerror, 51));
MCP_LAYOUT(mcp_fifo, 28, MCP_AT(mcp_fifo, size, 0) && MCP_AT(mcp_fifo, plsize, 4) && MCP_AT(mcp_fifo, txpri, 8) &&
    MCP_AT(mcp_fifo, txat, 12) && MCP_AT(mcp_fifo, transmit, 16) && MCP_AT(mcp_fifo, rtren, 17) && MCP_AT(mcp_fifo, txatie, 18) &&
    MCP_AT(mcp_fifo, tx_empty, 19) && MCP_AT(mcp_fifo, tx_half, 20) && MCP_AT(mcp_fifo, tx_notfull, 21) && MCP_AT(mcp_fifo, rxtsen, 22) &&
    MCP_AT(mcp_fifo, rxovie, 23) && MCP_AT(mcp_fifo, rx_full, 24) && MCP_AT(mcp_fifo, rx_half, 25) && MCP_AT(mcp_fifo, rx_notempty, 26));
MCP_LAYOUT(mcp_tx_queue, 20, MCP_AT(mcp_tx_queue, size, 0) && MCP_AT(mcp_tx_queue, plsize, 4) && MCP_AT(mcp_tx_queue, txpri, 8) &&
    MCP_AT(mcp_tx_queue, txat, 12) && MCP_AT(mcp_tx_queue, txatie, 16) && MCP_AT(mcp_tx_queue, empty, 17) &&
    MCP_AT(mcp_tx_queue, notfull, 18));
MCP_LAYOUT(mcp_identifier, 8, MCP_AT(mcp_identifier, id, 0) && MCP_AT(mcp_identifier, extended, 4));
MCP_LAYOUT(mcp_filter, 24, MCP_AT(mcp_filter, fifo, 0) && MCP_AT(mcp_filter, mode, 4) && MCP_AT(mcp_filter, object, 8) &&
    MCP_AT(mcp_filter, mask, 16));
MCP_LAYOUT(mcp_watch, 12, MCP_AT(mcp_watch, address, 0) && MCP_AT(mcp_watch, wanted, 4) && MCP_AT(mcp_watch, care, 8));
MCP_LAYOUT(mcp_scrubber, sizeof(void *), MCP_AT(mcp_scrubber, place, 0));
MCP_LAYOUT(mcp_report, 36, MCP_AT(mcp_report, seen, 0) && MCP_AT(mcp_report, address, 4) && MCP_AT(mcp_report, read, 8) &&
    MCP_AT(mcp_report, wanted, 12) && MCP_AT(mcp_report, rewrite, 16) && MCP_AT(mcp_report, back, 20) && MCP_AT(mcp_report, number, 24) &&
    MCP_AT(mcp_report, mismatches, 28) && MCP_AT(mcp_report, back_mismatches, 32));
MCP_LAYOUT(mcp_chip, 2816, MCP_AT(mcp_chip, words, 0));
MCP_LAYOUT(mcp_frame, 92, MCP_AT(mcp_frame, header, 0) && MCP_AT(mcp_frame, seq, 12) && MCP_AT(mcp_frame, time, 16) &&
    MCP_AT(mcp_frame, kind, 20) && MCP_AT(mcp_frame, stamped, 21) && MCP_AT(mcp_frame, len, 22) && MCP_AT(mcp_frame, dlc, 23) &&
    MCP_AT(mcp_frame, filter, 24) && MCP_AT(mcp_frame, payload, 25));
MCP_LAYOUT(mcp_sorted, 12, MCP_AT(mcp_sorted, turned_down, 0) && MCP_AT(mcp_sorted, fifo, 4) && MCP_AT(mcp_sorted, filter, 8));
#undef MCP_LAYOUT
#undef MCP_AT

#ifdef __cplusplus
}
#endif

#endif
