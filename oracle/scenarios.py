#!/usr/bin/env python3
"""scenarios.py SEED COUNT: COUNT random scenarios for drive and second.py, as a script (docs/SCRIPTS.md); the same for the same seed.
A scenario sets up some FIFOs and filters, leaves Configuration, and then calls, delivers, sorts, sends, fails and looks, with good
arguments and bad ones. Filters and the frames that are sorted go by the same few identifiers, so that masks and kinds decide; filters are
set by calls and by raw words (targets may be 0, unused bits may be 1), single bits of them change on the way, and DNCNT is now and then above 0.
Frames arrive with any DLC, with one that does not fit their length, with one above 15, or without; header words are now and then overwritten, also
by lengths near the slot's, which are then looked at and taken, some with another PLSIZE read behind the header.
A scrubber steps over lists of 0 to 6 entries, often the same as before, one longer or shorter, with words that are there, near them, or any;
a bit of a filter's register is flipped, frames are sorted, and a list that cares for it is stepped over. One in three checked reads and scrub
steps has a bad harness: none to three answers mismatch, often in one bit, in a visit and in its read-back each for itself; behind them is the
chip's answer or another with its CRC, or the exchange fails, or its answer has another length.
In two of three scenarios the transmit queue has a share of calls and bus steps: pushes, checked and not, of a few identifiers that are equal, or
differ in a bit or in kind; requests, sends between calls and inside them; raw writes of UINC, TXREQ and FRESET, of words in its slots, and of
CiCON, which change the mode and ask for TXQEN as it comes. Three in four begin with it on."""
import random, sys

if sys.argv[1:2] in (['-h'], ['--help']): sys.exit(print(__doc__))
if len(sys.argv) != 3 or not all(w.isdigit() for w in sys.argv[1:]): sys.exit('usage: scenarios.py SEED COUNT')
seed, count = int(sys.argv[1]), int(sys.argv[2])
r = random.Random(seed)
out = []

def hexed(n): return ''.join('%02x' % r.randrange(256) for _ in range(n)) or '-'
def le(w): return w.to_bytes(4, 'little').hex()
def rare(n): return r.randrange(n) == 0
def flags(): return ''.join(c for c in 'fber' if not r.randrange(3)) or '-'
FD = [12, 16, 20, 24, 32, 48, 64]
def length(fl):
    if rare(20): return r.randrange(80)
    return r.choice(FD) if 'f' in fl and r.randrange(2) else r.randrange(9)
def arriving(): # flags, timestamp, payload and, mostly, the DLC
    fl, dlc = flags(), r.choice([8, 9, 15, *range(16)])
    n = dlc if dlc < 9 else FD[dlc - 9] if 'f' in fl else 8
    if rare(12): n = r.choice([n + 1, max(n - 1, 0), dlc, length(fl)])
    if rare(12): dlc = r.choice([16, 24, 31, 255, 264, 265, 65545, 4294967295, 4294967304, 999999999999])
    text = '%s %08x %s' % (fl, r.randrange(1 << 32), hexed(n))
    return text if rare(3) else '%s %d' % (text, dlc)
def ident():
    if rare(25): return r.choice(['s800', 'x20000000', 'sffffffff', 'xffffffff'])
    return 's%x' % r.randrange(0x800) if r.randrange(2) else 'x%x' % r.randrange(1 << 29)
def known(): # one of the scenario's few identifiers; sometimes a bit differs, or the kind
    i = r.choice(ids)
    if rare(4): i ^= 1 << r.randrange(29)
    return 'x%x' % i if r.randrange(2) else 's%x' % (i >> 18)
def number(fifos): return r.choice([0, 32, 255, 1, 31]) if rare(15) else r.choice(fifos)
def step(fifos):
    if r.randrange(10) < queue: return 'send queue'
    k = r.randrange(6)
    if k < 2: return 'send %d' % number(fifos)
    if k < 4: return 'deliver %d %s %s' % (number(fifos), ident(), arriving())
    return 'sort %s %s' % (ident() if rare(8) else known(), arriving())
def control(): # PLSIZE, FSIZE, TXAT, priority, then the low bits; FIFOs are small, so that they fill up
    return r.choice([0, 0, 1, 3, 7]) << 29 | r.randrange(4) << 24 | r.randrange(128) << 16 | r.randrange(2) << 10 | r.choice([0, 0x200]) | r.randrange(256)
def address():
    return r.choice([0, 4, 8, 0xC, 0x14, 0x1C, 0xE00, 0xE04, 0x10, 0x400, 0xBFC, 0xC00, 0x4C + 4 * r.randrange(4), 0x5C + 4 * r.randrange(93),
                     0x1D0 + 4 * r.randrange(72)])

def raw_write(a, w):
    there[a] = w
    return 'raw 2%03x%s 0' % (a, le(w))
def object_size(w): return 8 + (4 if w & 0xa0 == 0x20 else 0) + [8, *FD][w >> 29]
def depth(w): return (w >> 24 & 31) + 1
def slots(n): # where FIFO n's slots lie, or the queue's, 0, by the words that the scenario began with
    before = sum(depth(w) * object_size(w) for w in (words.get(k, 0) for k in range(0 if on else 1, n)))
    return [before + k * object_size(words[n]) for k in range(depth(words[n]))]
def header_word(fifos): # word 1 of a slot: any DLC, mostly classic, any bits above
    at = r.choice(slots(r.choice(fifos))) + 4
    return raw_write(0x400 + at, r.randrange(1 << 32) & (0xffffffff if rare(4) else 0xffffff7f)) if at < 0x800 else 'held 1'
def beyond(fifos): # a header word whose length is near its slot's, mostly FD; peek and get of it, some with another PLSIZE read behind the header
    n = r.choice(fifos)
    at = r.choice(slots(n)) + 4
    if at >= 0x800: return
    out.append('deliver %d %s %s' % (n, known(), arriving()))
    dlc = min(15, 8 + (words[n] >> 29) + r.choice([-1, 0, 0, 1, 1, 2]))
    out.append(raw_write(0x400 + at, r.choice([0x80, 0x80, 0x80, 0]) | dlc | r.choice([0, 0x10, 0x60, 0x100, r.randrange(1 << 23) << 9])))
    for _ in range(1 + r.randrange(3)):
        at_lines(fifos, '%s %d' % (r.choice(['peek', 'get']), n), r.choice([0, 0, 1]), 9)
        if rare(3): out.append('@5 answer ' + le(r.randrange(8) << 29 | r.choice([0, 0x20, 0x1fffffdf, 0x1fffffff])))
def filter_call(fifos):
    i, m = (known(), r.choice(['s7ff', 's0', 'x1fffffff', known()])) if r.randrange(3) else (ident(), ident())
    return 'configure_filter %d %s' % (r.choice(near), 'off' if rare(8) else '%d %s %s %s' % (number(fifos), r.choice(['std', 'ext', 'both']), i, m))
def filter_words(fifos): # object, mask and the control word of four filters
    f, i = r.choice(near), r.choice(ids)
    out.append(raw_write(0x1F0 + 8 * f, i >> 18 | (i & 0x3ffff) << 11 | r.randrange(8) << 29))
    mask = r.choice([0, 0x7FF, 0x1FFFFFFF, 1 << r.randrange(29), r.randrange(1 << 29)])
    out.append(raw_write(0x1F4 + 8 * f, mask | r.randrange(8) << 29))
    four = [r.choice([0, 0x80]) | r.choice([*fifos, *fifos, 0]) | r.choice([0, 0x60]) for _ in range(4)]
    out.append(raw_write(0x1D0 + f // 4 * 4, int.from_bytes(four, 'little')))
def filter_bit(): # of a filter's register, set or cleared
    f = r.choice(near)
    a = r.choice([0x1D0 + f // 4 * 4, 0x1F0 + 8 * f, 0x1F4 + 8 * f])
    clear, set_ = r.sample([0, 1 << r.randrange(32)], 2)
    there[a] = there.get(a, 0) & ~clear | set_
    return 'modify_register %x %08x %08x' % (a, clear, set_)

def watched(fifos): # an address: of the scenario's filters and FIFOs, of another register, or of none
    if rare(40): return r.choice([0x10, 0x18, 0x4C, 0x5D, 0x400, 0xE08, 0xE14, 0x1000, 0x1005C, 0xFFFFFFFF])
    if r.randrange(12) < queue: return r.choice([0x50, 0x50, 0x54, 0x58])
    f = r.choice(near)
    return r.choice([0x1D0 + f // 4 * 4, 0x1F0 + 8 * f, 0x1F4 + 8 * f, 0x5C + 12 * (r.choice(fifos) - 1) + r.choice([0, 0, 4, 8]),
                     r.choice([0, 4, 8, 0xC, 0x14, 0x1C, 0xE00, 0xE04, 0x50 + 4 * r.randrange(96), 0x1D0 + 4 * r.randrange(72)])])
def care(a): # of CiCON mostly DNCNT or a single bit: a mode asked for empties the FIFOs
    if a == 0 and not rare(4): return r.choice([0x1F, 1 << r.randrange(24)])
    return r.choice([0, 0xFFFFFFFF, 0xFFFFFFFF, 0xFFFFFFFF, 0x700, 1 << r.randrange(32), r.randrange(1 << 32)])
def entry(fifos):
    a = watched(fifos)
    w = there.get(a, RESETS.get(a, 0x00600000 if 0x5C <= a < 0x1D0 and a % 12 == 8 else 0))
    if rare(3): w ^= 1 << r.randrange(32)
    if rare(10): w = r.randrange(1 << 32)
    return a, w & 0xFFFFFFFF, care(a)
def relist(fifos): # the list of the last step again, changed at its end, or another one
    k = r.randrange(12)
    if k == 0: watch.append(entry(fifos))
    elif k == 1: del watch[r.randrange(1 + len(watch)):]
    elif k < 5 or not watch: watch[:] = [entry(fifos) for _ in range(r.randrange(7))]
    del watch[6:]
def listed(how): return ' '.join(['scrub', how] + [r.choice(['%x', '%03x']) % a + ':%08x:%08x' % (w, m) for a, w, m in watch])
def scrub(fifos):
    relist(fifos)
    return listed(r.choice(['report', 'rewrite']))
def crc(bs):
    c = 0xFFFF
    for b in bs:
        c ^= b << 8
        for _ in range(8): c = (c << 1 ^ (0x18005 if c & 0x8000 else 0)) & 0xFFFF
    return c
def checked(a): # what a checked read of a is answered: the word that is there, or any, and the CRC
    w = le(r.randrange(1 << 32) if rare(3) else there.get(a, RESETS.get(a, 0)) & 0xFFFFFFFF)
    return w + '%04x' % crc(bytes.fromhex('b%03x04' % (a & 0xFFF) + w))
def mismatch(a): # the same with a bit wrong, with the bytes of the CRC exchanged, or of another address; or any six bytes
    k, good = r.randrange(8), checked(a)
    if k < 4: return '%012x' % (int(good, 16) ^ 1 << r.randrange(48))
    if k == 4: return good[:8] + good[10:] + good[8:10]
    return checked(a ^ 4) if k == 5 else hexed(6)
def carried(a): return a in RESETS or a in (0x14, 0x1C) or 0x50 <= a < 0x2F0 and a % 4 == 0
def due(): # the address of the entry that this step visits, by the place that drive keeps; None where the list is refused
    global place
    if not watch or not all(carried(a) for a, _, _ in watch): return None
    k = place if place < len(watch) else 0
    place = k + 1
    return watch[k][0]
def harness(a, reads): # answers of a's checked reads: none to three that mismatch, then mostly the chip's; between two reads is the rewrite
    at = 1
    for _ in range(reads):
        for _ in range(r.choice([0, 1, 1, 1, 2, 2, 2, 3])):
            out.append('@%d answer %s' % (at, mismatch(a)))
            at += 1
        if rare(4): out.append('@%d answer %s' % (at, checked(a)))
        elif rare(9): out.append('@%d %s' % (at, r.choice(['fail', 'answer ' + hexed(r.choice([0, 4, 5, 7, 8]))])))
        at += 2
def at_lines(fifos, text, times, last):
    name, *words = text.split()
    out.append('call ' + text)
    a = int(words[0], 16) if name == 'checked_read' else due() if name == 'scrub' else None
    if a is not None and rare(3): harness(a, 2 if name == 'scrub' else 1)
    for _ in range(times):
        at = 1 + r.randrange(last)
        given = hexed(r.choice([0, 4, 4, 4, 8, 3])) if a is None or rare(3) else r.choice([checked, mismatch])(a)
        out.append('@%d %s' % (at, 'fail' if rare(4) else 'answer ' + given if rare(6) else step(fifos)))
def flipped(fifos): # a bit of a filter's register that a list cares for: frames before and behind the step that visits it
    f = r.choice(near)
    a = r.choice([0x1D0 + f // 4 * 4, 0x1F0 + 8 * f, 0x1F4 + 8 * f])
    w, bit = there.get(a, 0) & 0xFFFFFFFF, 1 << r.randrange(32)
    out.append(raw_write(a, w ^ bit))
    there[a] = w
    out.append('sort %s %s' % (known(), arriving()))
    watch[:] = [entry(fifos) for _ in range(r.randrange(3))]
    watch.insert(r.randrange(1 + len(watch)), (a, w, r.choice([bit, 0xFFFFFFFF, 0xFFFFFFFF ^ bit])))
    how = r.choice(['report', 'rewrite', 'rewrite'])
    for _ in watch: at_lines(fifos, listed(how), r.choice([0, 0, 1]), 5)
    out.append('sort %s %s' % (known(), arriving()))

def message(i, fl, n):
    seq = r.choice([0, 1, 0x7fffff, 0x800000]) if rare(10) else r.randrange(1 << 23)
    return '%s %s %d %s' % (i, fl, seq, hexed(n))
def to_fifo(fifos):
    fl = flags()
    return '%d %s' % (number(fifos), message(ident(), fl, length(fl)))
def call(fifos):
    k = r.randrange(48)
    if k < 9: return 'push ' + to_fifo(fifos)
    if k < 13: return 'request %d' % number(fifos)
    if k < 17: return 'transmit ' + to_fifo(fifos)
    if k < 19: return 'has_next %d' % number(fifos)
    if k < 23: return 'peek %d' % number(fifos)
    if k < 31: return 'get %d' % number(fifos)
    if k < 33: return 'checked_read %x' % address()
    if k == 33: return 'read_ram %x %d' % (0x400 + r.randrange(0x800), r.randrange(40))
    if k == 34: return 'write_register %x %08x' % (r.choice([0x10, 0x1C, 0xE04, 0x1F0]), r.randrange(1 << 32))
    if k == 35: return 'read_register %x' % address()
    if k == 36: return r.choice(['set_op_mode %d' % r.randrange(9), 'get_op_mode', 'verify_long', 'reset'] if rare(4) else ['get_op_mode'])
    if k == 37: return 'configure_fifo %d %d %d rx %d %d %d %d %d' % (number(fifos), r.randrange(40), r.randrange(9), *[r.randrange(2) for _ in range(5)])
    if k == 38: return 'configure_filter %d %d %s %s %s' % (r.randrange(33), number(fifos), r.choice(['std', 'ext', 'both']), ident(), ident())
    if k == 39: return filter_call(fifos)
    if k < 42: return filter_bit()
    if k == 42: return 'modify_register 0 0000001f %08x' % (1 << r.randrange(5) if rare(3) else 0)
    if k > 43: return scrub(fifos)
    return 'modify_register %x %08x %08x' % (0x5C + 12 * (r.choice(fifos) - 1), r.randrange(1 << 11), r.randrange(1 << 11))

def contender(): # two identifiers, or a bit beside them: of both kinds, equal ones, of equal base, and neighbours in the order
    i = r.choice(ids[:2])
    if r.randrange(2): i ^= 1 << r.choice([0, 1, 16, 17, 18, 19, 27, 28, r.randrange(29)])
    return 'x%x' % i if r.randrange(2) else 's%x' % (i >> 18)
def to_queue():
    fl = flags()
    return message(ident() if rare(15) else contender(), fl, length(fl) if rare(4) else r.randrange(9))
def queue_word(): # its control word: a few slots, mostly of 8 bytes; TXEN as it comes
    return r.choice([0, 0, 0, 1, 7]) << 29 | r.randrange(6) << 24 | r.randrange(128) << 16 | r.choice([0, 0, 0x200, 0x400]) | r.randrange(256)
def queue_settings():
    if rare(4): return 'off'
    size, plsize = (r.choice([0, 7, 32, 33, 256]), r.randrange(9)) if rare(6) else (1 + r.randrange(5), r.choice([0, 0, 1]))
    return '%d %d' % (size, plsize) + ''.join(' %d' % (n if rare(30) else r.randrange(n)) for n in [32, 4, 2, 2, 2])
def queue_call():
    k = r.randrange(16)
    if k < 9: return 'queue_push ' + to_queue()
    if k < 11: return 'queue_push_unchecked ' + to_queue()
    if k < 14: return 'queue_request'
    return 'configure_tx_queue ' + queue_settings() if k == 14 else 'modify_register 50 00000600 %08x' % r.choice([0x100, 0x200, 0x300, 0x400])
def con(mode): return raw_write(0, 0x760 | mode << 24 | r.choice([0, 0x100000, 0x100000]) | (0x80000 if rare(20) else 0))
def modes(): # to another mode, or to Configuration and mostly back
    if r.randrange(2): return out.append(con(r.choice([0, 1, 6, 7])))
    for _ in range(1 + r.randrange(2)): out.extend([con(4), 'raw 3000 4'])
    if rare(3): out.append('call configure_tx_queue ' + queue_settings())
    if rare(4): out.append(raw_write(0x50, queue_word()))
    if not rare(6): out.append(con(r.choice([0, 6])))
def slot_word(): # word 0 or word 1 of one of its slots: another identifier, another DLC or kind, any bits above
    i, at = r.choice(ids[:2]), 0x400 + r.choice(slots(0))
    if r.randrange(2): return raw_write(at, i >> 18 | r.choice([i, i ^ 1, 0]) << 11 & 0x1ffff800 | r.choice([0, 0, r.randrange(8)]) << 29)
    return raw_write(at + 4, r.randrange(1 << 32) & r.choice([0xffffff17, 0xfffffe1f, 0xffffffff]))
def contest(fifos): # pushes that wait, then sends
    for _ in range(2 + r.randrange(5)): at_lines(fifos, 'queue_push ' + to_queue(), 0 if r.randrange(5) else 1, 6)
    if rare(3): out.append(slot_word())
    out.append('held queue')
    if not rare(6): out.append('call queue_request')
    for _ in range(1 + r.randrange(5)): out.append('send queue')
def queue_action(fifos):
    k = r.randrange(24)
    if k < 4: out.append('send queue')
    elif k < 6: out.append('held queue')
    elif k < 8: contest(fifos)
    elif k < 10: out.append('raw 3%03x 4' % r.choice([0x50, 0x54, 0x58, 0x58]))
    elif k == 10: out.append(raw_write(0x50, words[0] & ~0x700 | r.choice([0x100, 0x100, 0x200, 0x300, 0, 0x400, 0x500])))
    elif k == 11: out.append(raw_write(r.choice([0x50, 0x54, 0x58]), r.randrange(1 << 32) & 0xfffffbff)) if rare(2) else out.append(slot_word())
    elif k == 12 and rare(3): modes()
    else: at_lines(fifos, queue_call(), r.choice([0, 0, 1, 1, 2, 3]), 6)

def action(fifos):
    if r.randrange(6) < queue: return queue_action(fifos)
    k = r.randrange(35)
    if k < 7: out.append(step(fifos))
    elif k < 12: out.append('held %d' % number(fifos))
    elif k < 14: out.append('raw 3%03x 4' % (0x5C + 4 * r.randrange(93)))
    elif k == 14: out.append('raw %s %d' % (hexed(r.randrange(8)), r.randrange(8)))
    elif k == 15: filter_words(fifos)
    elif k == 16: out.append(header_word(fifos))
    elif k == 17: flipped(fifos)
    elif k == 18: beyond(fifos)
    else: at_lines(fifos, call(fifos), r.choice([0, 0, 0, 1, 1, 2, 3]), 9)

RESETS = {0: 0x04980760, 4: 0x003E0F0F, 8: 0x000E0303, 0xC: 0x00021000, 0x50: 0x00600480, 0xE00: 0x460, 0xE04: 0x03000003}
for _ in range(count):
    out.append('new')
    there, watch, place = {}, [], 0 # words by address, as raw writes left them, near enough; the list of the last scrub step; the scrubber's place
    fifos = sorted(r.sample(range(1, 32), 1 + r.randrange(4)))
    ids = [r.randrange(1 << 29) for _ in range(3)]
    queue, on = r.choice([0, 2, 4]), int(not rare(4)) # the queue's share, of 6; TXQEN
    if r.randrange(2): ids[1] = ids[0] ^ r.randrange(1 << 19)
    near = r.sample(range(32), 4)
    words = {n: control() for n in fifos}
    words[0] = queue_word() | 0x80 # of the queue; TXEN reads 1
    for n in fifos: out.append(raw_write(0x5C + 12 * (n - 1), words[n]))
    if queue: out.append(raw_write(0x50, words[0]))
    else: words[0] = RESETS[0x50]
    for _ in range(r.randrange(5)): filter_words(fifos) if r.randrange(2) else out.append('call ' + filter_call(fifos))
    stef = 0x80000 if rare(20) else 0
    out.append(raw_write(0, 0x00000760 | r.choice([0, 1, 6]) << 24 | on << 20 | stef | (r.randrange(32) if rare(12) else 0)))
    for _ in range(10 + r.randrange(40)): action(fifos)
    for n in fifos: out.append('held %d' % n)
    if queue: out.append('held queue')
sys.stdout.write('\n'.join(out) + '\n')
