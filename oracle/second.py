#!/usr/bin/env python3
"""A second model of the driver and the modelled chip, in another language: reads a script (docs/SCRIPTS.md) from standard input and writes
the transcript that drive should write. Written from docs/01-scope.md, 02-change-requests.md, chip-facts.md, DECISIONS.md and the formats
alone, without a look at the code or the definitions under crates/ (but for the lines that oracle/README.md names), so that the two can be held
against each other: crates/drive/stdout is what this writes for crates/drive/stdin. A new request changes this file by its own words first."""
import sys, re

PL = [8, 12, 16, 20, 24, 32, 48, 64]
FDLEN = [12, 16, 20, 24, 32, 48, 64]

def bits(w, hi, lo): return (w >> lo) & ((1 << (hi - lo + 1)) - 1)
def setb(w, hi, lo, v):
    m = ((1 << (hi - lo + 1)) - 1) << lo
    return (w & ~m & 0xffffffff) | ((v << lo) & m)
def le(w): return w.to_bytes(4, 'little')
def word(b): return int.from_bytes(b, 'little')
def hx(b): return b.hex() if b else '-'
def crc(bs):
    c = 0xffff
    for b in bs:
        c ^= b << 8
        for _ in range(8):
            c = ((c << 1) ^ 0x8005) & 0xffff if c & 0x8000 else (c << 1) & 0xffff
    return c
assert crc(b'123456789') == 0xaee7

def sent_len(dlc, fd):
    """a classic frame is sent with DLC 8 at most"""
    if dlc <= 8: return dlc
    return FDLEN[dlc - 9] if fd else None
def received_len(dlc, fd):
    """a classic frame with DLC 9 to 15 has 8 data bytes"""
    return sent_len(dlc, fd) if fd or dlc <= 8 else 8
def len_dlc(n, fd):
    if n <= 8: return n
    if fd and n in FDLEN: return 9 + FDLEN.index(n)
    return None
def up4(n): return (n + 3) // 4 * 4

def bad_id(i): return i[1] > (0x1fffffff if i[0] == 'x' else 0x7ff)
def word0(i): return i[1] >> 18 | (i[1] & 0x3ffff) << 11 if i[0] == 'x' else i[1]
def header(i, flags, dlc, rest):
    """rest: SEQ or FILHIT, in its place in word 1"""
    w1 = dlc | (i[0] == 'x') << 4 | ('r' in flags) << 5 | ('b' in flags) << 6 | ('f' in flags) << 7 | ('e' in flags) << 8 | rest
    return le(word0(i)) + le(w1)
def parse_header(b):
    w0, w1 = word(b[:4]), word(b[4:8])
    ext = bits(w1, 4, 4)
    ident = ('ext %x' % (bits(w0, 10, 0) << 18 | bits(w0, 28, 11))) if ext else 'std %x' % bits(w0, 10, 0)
    fl = ''.join(c for c, k in (('f', 7), ('b', 6), ('e', 8), ('r', 5)) if bits(w1, k, k)) or '-'
    return ident, fl, bits(w1, 31, 9), bits(w1, 3, 0), bits(w1, 15, 11)

# ---------------------------------------------------------------- chip
RESETS = {0x000: 0x04980760, 0x004: 0x003E0F0F, 0x008: 0x000E0303, 0x00C: 0x00021000, 0x014: 0, 0x01C: 0,
          0xE00: 0x460, 0xE04: 0x03000003}
class Chip:
    def __init__(s):
        s.ram = bytearray(2048)
        s.reset()
    def reset(s):
        s.reg = dict(RESETS)
        for k in range(8): s.reg[0x1D0 + 4 * k] = 0
        for f in range(32): s.reg[0x1F0 + 8 * f] = 0; s.reg[0x1F4 + 8 * f] = 0
        s.con = [0x00600480] + [0x00600400] * 31
        s.count = [0] * 32; s.old = [0] * 32; s.ovf = [0] * 32
        s.taken, s.shown = set(), 0
        s.conf = True; s.mode = 4
    # geometry; number 0 is the transmit queue, which has no ring: taken are the slots that hold a message, shown is one
    def on(s): return bits(s.reg[0], 20, 20) == 1
    def depth(s, n): return bits(s.con[n], 28, 24) + 1
    def plsize(s, n): return PL[bits(s.con[n], 31, 29)]
    def tx(s, n): return bits(s.con[n], 7, 7) == 1
    def ts(s, n): return not s.tx(n) and bits(s.con[n], 5, 5) == 1
    def osize(s, n): return 8 + (4 if s.ts(n) else 0) + s.plsize(n)
    def base(s, n): return sum(s.depth(k) * s.osize(k) for k in range(0 if s.on() else 1, n))
    def empty(s, n):
        s.count[n] = 0; s.old[n] = 0; s.ovf[n] = 0; s.con[n] &= ~(1 << 9)
        if n == 0: s.taken, s.shown = set(), 0
    def kind(s, a):
        if 0x050 <= a < 0x050 + 12 * 32 and a % 4 == 0: return divmod((a - 0x050) // 4, 3)
        return None
    def carried(s, a): return a in s.reg or s.kind(a) is not None
    def read(s, a):
        k = s.kind(a)
        if k is None:
            w = s.reg[a]
            if a == 0: w = setb(w, 23, 21, s.mode)
            if a == 0xE00: w = setb(w, 8, 8, w & 1)
            return w
        n, k = k
        if k == 0: return s.con[n] & ~(1 << 8)
        if s.conf or n == 0 and not s.on(): return 0
        count = len(s.taken) if n == 0 else s.count[n]
        full, none = count == s.depth(n), count == 0
        if k == 1:
            if s.tx(n): return (not full) | none << 2
            return (not none) | full << 2 | s.ovf[n] << 3
        slot = s.shown if n == 0 else (s.old[n] + count) % s.depth(n) if s.tx(n) else s.old[n]
        return s.base(n) + slot * s.osize(n)
    def write(s, a, w):
        """gives True where leaving was not granted"""
        k = s.kind(a)
        if k is None:
            if a == 0 and not s.conf: w = setb(w, 20, 20, s.on()) # TXQEN goes by the mode that the write finds
            s.reg[a] = w
            if a != 0: return False
            req = bits(w, 26, 24)
            if req == 4:
                if not s.conf:
                    for n in range(32): s.empty(n)
                s.conf, s.mode = True, 4
                return False
            if s.conf:
                if bits(w, 19, 19) or s.base(32) > 2048: return True
                s.conf = False
                for n in range(32): s.con[n] &= ~(1 << 10)
            s.mode = req
            return False
        n, k = k
        if k == 1:
            if not bits(w, 3, 3): s.ovf[n] = 0
        elif k == 0:
            if s.conf: s.con[n] = w & ~(1 << 8) | (n == 0) << 7
            else:
                frozen = 0xff0000a0
                s.con[n] = (s.con[n] & frozen) | (w & ~frozen & ~(1 << 8) & ~(1 << 10) & 0xffffffff)
                if bits(w, 8, 8):
                    if n == 0: s.claim()
                    elif s.tx(n):
                        if s.count[n] < s.depth(n): s.count[n] += 1
                    elif s.count[n]:
                        s.count[n] -= 1; s.old[n] = (s.old[n] + 1) % s.depth(n)
                if bits(w, 10, 10): s.empty(n)
        return False
    def claim(s):
        """UINC of the queue: the slot shown is held from now on, and the lowest free one is shown; where there is none, still the same"""
        if not s.on() or len(s.taken) == s.depth(0): return
        s.taken.add(s.shown)
        s.shown = min(set(range(s.depth(0))) - s.taken, default=s.shown)
    def exchange(s, sent, want):
        """(received or None, 27 due)"""
        no = (None, False)
        if sent == b'\0\0' and want == 0: s.reset(); return b'', False
        if len(sent) < 2: return no
        op, a = sent[0] >> 4, (sent[0] & 15) << 8 | sent[1]
        if op == 3 and len(sent) == 2:
            if s.carried(a):
                return (le(s.read(a)), False) if want == 4 else no
            if want % 4 == 0 and a >= 0x400 and a + want <= 0xC00: return bytes(s.ram[a - 0x400:a - 0x400 + want]), False
        if op == 2 and want == 0:
            d = sent[2:]
            if s.carried(a):
                return (b'', s.write(a, word(d))) if len(d) == 4 else no
            if len(d) % 4 == 0 and a >= 0x400 and a + len(d) <= 0xC00:
                s.ram[a - 0x400:a - 0x400 + len(d)] = d
                return b'', False
        if op == 11 and len(sent) == 3 and sent[2] == 4 and want == 6 and s.carried(a):
            d = le(s.read(a))
            return d + crc(sent + d).to_bytes(2, 'big'), False
        return no
    # bus
    def slot(s, n, i):
        a = s.base(n) + ((s.old[n] + i) % s.depth(n)) * s.osize(n)
        return a
    def decode(s, n, i):
        a = s.slot(n, i)
        ident, fl, seq, dlc, filhit = parse_header(s.ram[a:a + 8])
        ln = (sent_len if s.tx(n) else received_len)(dlc, 'f' in fl)
        if ln is None or ln > s.plsize(n): return 'no frame'
        p = a + 8
        if s.tx(n): return 'frame %s %s %d %s' % (ident, fl, seq, hx(s.ram[p:p + ln]))
        t = '-'
        if s.ts(n): t = '%08x' % word(s.ram[p:p + 4]); p += 4
        return 'message %s %s %s %s %d %d' % (ident, fl, t, hx(s.ram[p:p + ln]), dlc, filhit)
    def send(s, n):
        if not 1 <= n <= 31: return 'refused 20'
        if s.conf or not s.tx(n) or not bits(s.con[n], 9, 9) or s.count[n] == 0: return 'nothing sent'
        f = s.decode(n, 0)
        s.old[n] = (s.old[n] + 1) % s.depth(n); s.count[n] -= 1
        if s.count[n] == 0: s.con[n] &= ~(1 << 9)
        return f
    def rank(s, i):
        """of what lies in slot i of the queue, frame or not: the smaller wins arbitration"""
        a = s.slot(0, i)
        w0, w1 = word(s.ram[a:a + 4]), word(s.ram[a + 4:a + 8])
        extended = bits(w1, 4, 4)
        return bits(w0, 10, 0), extended, bits(w0, 28, 11) if extended else 0, i
    def send_queue(s):
        if s.conf or not bits(s.con[0], 9, 9) or not s.taken: return 'nothing sent'
        i = min(s.taken, key=s.rank)
        f = s.decode(0, i)
        if len(s.taken) == s.depth(0): s.shown = i # the first that is freed
        s.taken.remove(i)
        if not s.taken: s.con[0] &= ~(1 << 9)
        return f
    def unfit(s, i, fl, p, dlc):
        """dlc: None where the payload's length has none and none was named"""
        if bad_id(i): return 'refused 21'
        if dlc is None or dlc > 15 or len(p) != received_len(dlc, 'f' in fl): return 'refused 22'
        return None
    def deliver(s, n, i, fl, t, p, dlc):
        if not 1 <= n <= 31: return 'refused 20'
        return s.unfit(i, fl, p, dlc) or s.append(n, 0, i, fl, t, p, dlc)
    def matches(s, f, i):
        """an enabled filter: SID and, of an extended frame, EID where the mask is 1; the kind where MIDE is 1"""
        if not bits(s.reg[0x1D0 + 4 * (f // 4)], 8 * (f % 4) + 7, 8 * (f % 4) + 7): return False
        obj, mask, ext = s.reg[0x1F0 + 8 * f], s.reg[0x1F4 + 8 * f], i[0] == 'x'
        if bits(mask, 30, 30) and bits(obj, 30, 30) != ext: return False
        return (obj ^ word0(i)) & mask & (0x1fffffff if ext else 0x7ff) == 0
    def sort(s, i, fl, t, p, dlc):
        bad = s.unfit(i, fl, p, dlc)
        if bad: return bad
        if bits(s.reg[0], 4, 0): return 'refused 31'
        hits = [f for f in range(32) if s.matches(f, i)]
        if not hits: return 'refused 30'
        f = hits[0]
        n = bits(s.reg[0x1D0 + 4 * (f // 4)], 8 * (f % 4) + 4, 8 * (f % 4))
        answer = s.append(n, f, i, fl, t, p, dlc)
        return 'delivered %d filter %d' % (n, f) if answer == 'delivered' else answer
    def append(s, n, f, i, fl, t, p, dlc):
        """a frame that filter f took, for FIFO n; 0 is no FIFO"""
        if s.conf: return 'turned down configuration'
        if n == 0 or s.tx(n): return 'turned down not receiving'
        if len(p) > s.plsize(n): return 'turned down too long'
        if s.count[n] == s.depth(n): s.ovf[n] = 1; return 'turned down full'
        o = header(i, fl, dlc, f << 11) + (le(t) if s.ts(n) else b'') + p
        o += bytes(up4(len(o)) - len(o))
        a = s.slot(n, s.count[n])
        s.ram[a:a + len(o)] = o
        s.count[n] += 1
        return 'delivered'
    def held_queue(s): return ['held queue %d' % len(s.taken)] + ['+ ' + s.decode(0, i) for i in sorted(s.taken)]
    def held(s, n):
        if not 1 <= n <= 31: return ['held %d refused 20' % n]
        return ['held %d %d' % (n, s.count[n])] + ['+ ' + s.decode(n, i) for i in range(s.count[n])]

# ---------------------------------------------------------------- driver: generators that yield asks, are sent bytes or None
class Refused(Exception):
    def __init__(s, n, v=None): s.n, s.v = n, v
    def __str__(s): return 'refused %d' % s.n + (' ' + s.v if s.v is not None else '')
WAIT = 'wait'
def ask(sent, want, fail):
    r = yield (sent, want)
    if r is None: raise Refused(fail)
    if len(r) != want: raise Refused(26)
    return r
def cmd(op, a): return bytes([op << 4 | a >> 8, a & 255])
def rd(a, fail=1): return word((yield from ask(cmd(3, a), 4, fail)))
def wr(a, w, fail=1): yield from ask(cmd(2, a) + le(w), 0, fail)
def mod(a, f, fail=1):
    w = yield from rd(a, fail)
    yield from wr(a, f(w), fail)
def fields(*fs):
    def g(w):
        for hi, lo, v in fs: w = setb(w, hi, lo, v)
        return w
    return g
def need(ok, n=24):
    if not ok: raise Refused(n)
def fifo(n): need(1 <= n <= 31, 20)
def conaddr(n): return 0x05C + 12 * (n - 1)
def in_range(a, n): return a >= 0x400 and a + n <= 0xC00
def ramcheck(a, n, bad):
    if not in_range(a, n): raise Refused(3, '%x' % a)
    if n % 4: raise Refused(bad, '%d' % n)

def c_reset(): yield from ask(b'\0\0', 0, 2); return 'ok'
def c_get_op_mode(): return 'mode %d' % bits((yield from rd(0)), 23, 21)
def modechange(m, timeout):
    yield from mod(0, fields((26, 24, m)), 11)
    for i in range(5):
        if i: yield WAIT
        if bits((yield from rd(0, 11)), 23, 21) == m: return
    raise Refused(timeout)
def c_set_op_mode(m):
    need(m < 8)
    yield from modechange(m, 12); return 'ok'
def c_verify():
    for i in range(32):
        yield from wr(0x400, 1 << i, 11)
        if (yield from rd(0x400, 11)) != 1 << i: raise Refused(13)
    return 'ok'
def c_verify_long():
    p = b''.join(le(1 << i) for i in range(32))
    yield from ask(cmd(2, 0x400) + p, 0, 11)
    if (yield from ask(cmd(3, 0x400), 128, 11)) != p: raise Refused(13)
    return 'ok'
def osc(pll, div):
    yield from mod(0xE00, fields((0, 0, pll), (2, 2, 0), (4, 4, div)), 11)
    if pll:
        for i in range(3):
            if i: yield WAIT
            if bits((yield from rd(0xE00, 11)), 8, 8): return
        raise Refused(14)
def io(x, o, so, i): yield from mod(0xE04, fields((6, 6, x), (28, 28, o), (29, 29, so), (30, 30, i)), 11)
def bt(nb, n1, n2, ns, db, d1, d2, ds, td):
    yield from mod(0x004, fields((31, 24, nb), (23, 16, n1), (14, 8, n2), (6, 0, ns)), 11)
    yield from mod(0x008, fields((31, 24, db), (20, 16, d1), (11, 8, d2), (3, 0, ds)), 11)
    yield from mod(0x00C, fields((5, 0, 0), (14, 8, td), (17, 16, 2)), 11)
def fits(vals, widths):
    for v, w in zip(vals, widths): need(v < 1 << w)
BTW = [8, 8, 7, 7, 8, 5, 4, 4, 7]
def c_configure_osc(*a): fits(a, [1, 1]); yield from osc(*a); return 'ok'
def c_configure_io(*a): fits(a, [1] * 4); yield from io(*a); return 'ok'
def c_configure_bit_timing(*a): fits(a, BTW); yield from bt(*a); return 'ok'
def c_configure(*a):
    fits(a, [1] * 6 + BTW + [1, 5, 1, 1, 1])
    counter, dn, can, spi, ecc = a[15:]
    yield from modechange(4, 11)
    yield from c_verify()
    yield from osc(*a[0:2]); yield from io(*a[2:6]); yield from bt(*a[6:15])
    yield from mod(0, fields((19, 19, 0)), 11)
    yield from mod(0, fields((20, 20, 0)), 11)
    if counter: yield from mod(0x14, fields((16, 16, 1)), 11)
    if dn: yield from mod(0, fields((4, 0, dn)), 11)
    yield from mod(0, fields((16, 16, 1)), 11)
    on = [0, 1]
    if can: on += [15, 13, 12]
    if spi: on += [9]
    if ecc: on += [8]
    if counter: on += [2]
    yield from mod(0x1C, fields(*[(16 + k, 16 + k, 1) for k in on]), 11)
    return 'ok'
def c_configure_fifo(n, size, pl, d, *a):
    fifo(n); need(size > 0); need(pl < 8)
    fs = [(28, 24, min(size, 32) - 1), (31, 29, pl)]
    if d == 'tx':
        fits(a, [5, 2, 1, 1, 1, 1, 1])
        fs += [(7, 7, 1)] + [(h, l, v) for (h, l), v in zip([(20, 16), (22, 21), (6, 6), (4, 4), (2, 2), (1, 1), (0, 0)], a)]
    else:
        fits(a, [1] * 5)
        fs += [(7, 7, 0)] + [(h, h, v) for h, v in zip([5, 3, 2, 1, 0], a)]
    yield from mod(conaddr(n), fields(*fs)); return 'ok'
def c_configure_tx_queue(size, pl=None, *a):
    on = size != 'off'
    if on: need(size > 0); need(pl < 8); fits(a, [5, 2, 1, 1, 1])
    yield from mod(0, fields((20, 20, on)), 11)
    if on:
        fs = [(28, 24, min(size, 32) - 1), (31, 29, pl)] + [(h, l, v) for (h, l), v in zip([(20, 16), (22, 21), (4, 4), (2, 2), (0, 0)], a)]
        yield from mod(0x050, fields(*fs), 11)
    return 'ok'
def c_configure_filter(f, t, kind=None, i=None, m=None):
    need(f <= 31, 20)
    con, sh = 0x1D0 + 4 * (f // 4), 8 * (f % 4)
    if t != 'off':
        fifo(t); need(not bad_id(i) and not bad_id(m), 21)
    yield from mod(con, fields((sh + 7, sh + 7, 0)))
    if t == 'off': return 'ok'
    def idf(i): return [(10, 0, i[1] >> 18), (28, 11, i[1] & 0x3ffff)] if i[0] == 'x' else [(10, 0, i[1]), (28, 11, 0)]
    yield from mod(0x1F0 + 8 * f, fields(*idf(i), (30, 30, kind == 'ext')))
    yield from mod(0x1F4 + 8 * f, fields(*idf(m), (30, 30, kind != 'both')))
    yield from mod(con, fields((sh + 4, sh, t), (sh + 7, sh + 7, 1)))
    return 'ok'
def uaddr(n):
    u = yield from rd(conaddr(n) + 8)
    if u > 0xFBFF: raise Refused(25)
    return u + 0x400
def message(i, fl, seq, p):
    """the object that is written"""
    dlc = len_dlc(len(p), 'f' in fl)
    need(not bad_id(i), 21); need(seq < 1 << 23); need(dlc is not None, 22)
    o = header(i, fl, dlc, seq << 9) + p
    return o + bytes(up4(len(o)) - len(o))
def put(n, o):
    a = yield from uaddr(n)
    ramcheck(a, len(o), 5)
    yield from ask(cmd(2, a) + o, 0, 2)
def room(n, con, p):
    if len(p) > PL[bits(con, 31, 29)]: raise Refused(7)
    if not (yield from rd(conaddr(n) + 4)) & 1: raise Refused(8)
def c_push(n, i, fl, seq, p):
    fifo(n); o = message(i, fl, seq, p)
    con = yield from rd(conaddr(n))
    if not bits(con, 7, 7): raise Refused(6)
    yield from room(n, con, p)
    yield from put(n, o)
    yield from wr(conaddr(n), con | 1 << 8)
    return 'ok'
def c_request(n):
    fifo(n); yield from mod(conaddr(n), fields((9, 9, 1))); return 'ok'
def c_queue_push(i, fl, seq, p):
    o = message(i, fl, seq, p)
    if not bits((yield from rd(0)), 20, 20): raise Refused(34)
    con = yield from rd(0x050)
    yield from room(0, con, p)
    yield from put(0, o)
    yield from wr(0x050, con | 1 << 8)
    return 'ok'
def c_queue_push_unchecked(i, fl, seq, p):
    o = message(i, fl, seq, p)
    yield from put(0, o)
    yield from mod(0x050, fields((8, 8, 1))); return 'ok'
def c_queue_request(): yield from mod(0x050, fields((9, 9, 1))); return 'ok'
def c_transmit(*a):
    yield from c_push(*a)
    return (yield from c_request(a[0]))
def c_has_next(n):
    fifo(n)
    if bits((yield from rd(conaddr(n))), 7, 7): raise Refused(9)
    return 'yes' if (yield from rd(conaddr(n) + 4)) & 1 else 'no'
def part(a, n):
    ramcheck(a, n, 4)
    return (yield from ask(cmd(3, a), n, 1))
def c_peek(n):
    if (yield from c_has_next(n)) == 'no': return 'none'
    a = yield from uaddr(n)
    ident, fl, _, dlc, filhit = parse_header((yield from part(a, 8)))
    ln = received_len(dlc, 'f' in fl)
    con = yield from rd(conaddr(n))
    if ln > PL[bits(con, 31, 29)]: raise Refused(35)
    a += 8; t = '-'
    if bits(con, 5, 5):
        t = '%08x' % word((yield from part(a, 4))); a += 4
    p = (yield from part(a, up4(ln)))[:ln]
    return 'message %s %s %s %s %d %d' % (ident, fl, t, hx(p), dlc, filhit)
def c_get(n):
    r = yield from c_peek(n)
    if r != 'none': yield from mod(conaddr(n), fields((8, 8, 1)))
    return r
def c_read_ram(a, n): return 'bytes ' + hx((ramcheck(a, n, 4), (yield from ask(cmd(3, a), n, 1)))[1])
def c_write_ram(a, p): ramcheck(a, len(p), 5); yield from ask(cmd(2, a) + p, 0, 2); return 'ok'
def reg(a): need(a < 0x1000)
def c_read_register(a): reg(a); return 'word %08x' % (yield from rd(a))
def c_write_register(a, w): reg(a); yield from wr(a, w); return 'ok'
def c_modify_register(a, c, st): reg(a); yield from mod(a, lambda w: w & ~c & 0xffffffff | st); return 'ok'
def checked(a):
    """the word, and how many exchanges before it mismatched"""
    s = cmd(11, a) + b'\x04'
    for mismatched in range(3):
        r = yield from ask(s, 6, 1)
        if crc(s + r[:4]) == int.from_bytes(r[4:], 'big'): return word(r[:4]), mismatched
    raise Refused(10)
def c_checked_read(a): reg(a); return 'word %08x %d' % (yield from checked(a))

CARRIED = frozenset(filter(Chip().carried, range(0x1000)))
assert len(CARRIED) == 176
class Scrubber:
    def __init__(s): s.place = 0
    def step(s, rewrite, entries):
        """visits one entry (address, wanted word, care mask) of the list that this step brings; the next place is the one behind it"""
        need(entries, 32)
        need(all(a in CARRIED for a, _, _ in entries), 33)
        k = s.place if s.place < len(entries) else 0
        s.place = k + 1
        a, wanted, care = entries[k]
        try: w, mismatched = yield from checked(a)
        except Refused as e: return 'unread %x %d' % (a, e.n)
        if (w ^ wanted) & care == 0: return 'agree %x %d' % (a, mismatched)
        differ = 'differ %x %08x %08x %d' % (a, w, wanted, mismatched)
        if not rewrite: return differ
        try:
            yield from wr(a, w & ~care | wanted & care)
            return differ + ' back %08x %d' % (yield from checked(a))
        except Refused as e: return differ + ' unread %d' % e.n

# ---------------------------------------------------------------- scripts
class Bad(Exception): pass
def dec(t):
    if not re.fullmatch('[0-9]{1,12}', t): raise Bad
    return int(t)
def hexw(t):
    if not re.fullmatch('[0-9a-f]{1,8}', t): raise Bad
    return int(t, 16)
def byts(t):
    if t == '-': return b''
    if not re.fullmatch('([0-9a-f]{2})+', t): raise Bad
    return bytes.fromhex(t)
def flags(t):
    if t == '-': return ''
    if not re.fullmatch('f?b?e?r?', t) or not t: raise Bad
    return t
def ident(t):
    if t[:1] not in 'sx' or not t: raise Bad
    return t[0], hexw(t[1:])
def direction(t): 
    if t not in ('tx', 'rx'): raise Bad
    return t
def kind(t):
    if t not in ('std', 'ext', 'both'): raise Bad
    return t
D = dec
SIG = dict(reset=[], get_op_mode=[], verify=[], verify_long=[], set_op_mode=[D], configure_osc=[D] * 2, configure_io=[D] * 4,
           configure_bit_timing=[D] * 9, configure=[D] * 20, push=[D, ident, flags, D, byts], transmit=[D, ident, flags, D, byts],
           request=[D], has_next=[D], peek=[D], get=[D], read_ram=[hexw, D], write_ram=[hexw, byts], read_register=[hexw],
           checked_read=[hexw], write_register=[hexw, hexw], modify_register=[hexw] * 3, queue_request=[],
           queue_push=[ident, flags, D, byts], queue_push_unchecked=[ident, flags, D, byts])
def entry(t):
    """ADDR:WORD:MASK"""
    return args([hexw] * 3, t.split(':'))
def args(sig, ts):
    if len(sig) != len(ts): raise Bad
    return [f(t) for f, t in zip(sig, ts)]
def parse_call(ts, scrubber):
    if not ts: raise Bad
    name, a = ts[0], ts[1:]
    if name == 'scrub':
        if a[:1] not in (['report'], ['rewrite']) or len(a) > 1 + 256: raise Bad
        return scrubber.step(a[0] == 'rewrite', [entry(t) for t in a[1:]])
    if name == 'configure_fifo':
        if len(a) < 4: raise Bad
        sig = [D, D, D, direction] + [D] * (7 if a[3] == 'tx' else 5)
    elif name == 'configure_filter':
        sig = [D, lambda t: t] if len(a) == 2 and a[1] == 'off' else [D, D, kind, ident, ident]
    elif name == 'configure_tx_queue':
        sig = [lambda t: t] if a == ['off'] else [D] * 7
    elif name in SIG: sig = SIG[name]
    else: raise Bad
    return globals()['c_' + name](*args(sig, a))
def frame(before, ts):
    """a frame as it arrives; where its DLC is not named, the one that its payload's length has"""
    sig = before + [ident, flags, hexw, byts]
    if len(ts) > len(sig): return args(sig + [D], ts)
    a = args(sig, ts)
    return a + [len_dlc(len(a[-1]), 'f' in a[-3])]
def parse_step(ts):
    if ts == ['send', 'queue']: return lambda c: c.send_queue()
    if ts[0] == 'send': a = args([D], ts[1:]); return lambda c: c.send(*a)
    if ts[0] == 'deliver': a = frame([D], ts[1:]); return lambda c: c.deliver(*a)
    if ts[0] == 'sort': a = frame([], ts[1:]); return lambda c: c.sort(*a)
    raise Bad

def run(text, out):
    chip, scrubber = Chip(), Scrubber()
    lines = text.split('\n')
    if lines and lines[-1] == '': lines.pop()
    i = 0
    def skip(l): return l.startswith('#') or not l.split()
    while i < len(lines):
        l = lines[i]; i += 1
        if skip(l): continue
        ts = l.split(); no = i
        try:
            if ts[0] == 'call':
                call = parse_call(ts[1:], scrubber)
                steps, ans, fails = {}, {}, set()
                while i < len(lines) and (skip(lines[i]) or lines[i].split()[0].startswith('@')):
                    m = lines[i].split() if not skip(lines[i]) else None
                    i += 1
                    if m is None: continue
                    try:
                        k = dec(m[0][1:])
                        if len(m) < 2: raise Bad
                        if m[1:] == ['fail']: fails.add(k)
                        elif m[1] == 'answer': ans[k] = args([byts], m[2:])[0]
                        else: steps.setdefault(k, []).append((' '.join(m[1:]), parse_step(m[1:])))
                    except Bad: out.append('error %d' % i); out.append('')
                out.append(' '.join(ts))
                k, given = 0, None
                try:
                    q = next(call)
                    while True:
                        if q == WAIT:
                            out.append('wait 500'); q = call.send(b'')
                            continue
                        k += 1
                        for t, f in steps.get(k, []): out.append('bus %s = %s' % (t, f(chip)))
                        out.append('> %s %d' % (hx(q[0]), q[1]))
                        if k in fails: out.append('!'); r = None; no27 = True
                        else:
                            r, n27 = chip.exchange(*q)
                            if k in ans: r = ans[k]
                            out.append('!' if r is None else '< ' + hx(r))
                            if n27: out.append('* 27')
                        q = call.send(r)
                except StopIteration as e: out.append('= ' + e.value)
                except Refused as e: out.append('= ' + str(e))
                out.append('')
            elif ts[0] in ('send', 'deliver', 'sort'):
                f = parse_step(ts)
                out += ['bus %s = %s' % (' '.join(ts), f(chip)), '']
            elif ts[0] == 'raw':
                s, w = args([byts, D], ts[1:])
                r, n27 = chip.exchange(s, w)
                out += ['> %s %d' % (hx(s), w), '!' if r is None else '< ' + hx(r)] + (['* 27'] if n27 else []) + ['']
            elif ts == ['held', 'queue']: out += chip.held_queue() + ['']
            elif ts[0] == 'held':
                out += chip.held(*args([D], ts[1:])) + ['']
            elif ts == ['new']:
                chip, scrubber = Chip(), Scrubber(); out += ['new', '']
            else: raise Bad
        except Bad: out += ['error %d' % no, '']
    return out

if __name__ == '__main__':
    if sys.argv[1:]: sys.exit(print(__doc__) if sys.argv[1] in ('-h', '--help') else 'second.py takes no words: the script comes from standard input')
    sys.stdout.write('\n'.join(run(sys.stdin.read(), [])) + '\n')
