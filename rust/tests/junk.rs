//! Random calls with random numbers over a line that answers junk, fails and otherwise is the modelled chip. None may panic, send what is
//! no instruction, go on after a failed exchange, change a byte where it is refused, be refused for what the documents do not have for it,
//! find a message whose length is not what its DLC means, leave a scrubber where it does not belong, count other mismatches than the
//! answers had, or take more turns than it said. What the transmit queue sends it has held.
use masevuru::calls::*;
use masevuru::chip::{Chip, Frame, Sorted, Undecoded, Undelivered, Unsent};
use masevuru::*;

#[derive(Clone)]
struct Junk {
    chip: Chip,
    seed: u64,
    /// Exchanges of this call, how many of their answers mismatched, and whether one of them was not carried out.
    asked: u32,
    mismatched: u32,
    failed: bool,
    /// The word that its fifth exchange received: of a peek or a get control, read again.
    fifth: u32,
    /// One exchange in so many fails, another is answered by some junk, a third by ones; none where it is 0.
    rough: u64,
}

impl Junk {
    fn new(seed: u64) -> Junk {
        Junk { chip: Chip::new(), seed, asked: 0, fifth: 0, mismatched: 0, failed: false, rough: 16 }
    }

    fn next(&mut self) -> u64 {
        self.seed ^= self.seed << 13;
        self.seed ^= self.seed >> 7;
        self.seed ^= self.seed << 17;
        self.seed
    }

    fn below(&mut self, n: u64) -> usize {
        (self.next() % n) as usize
    }

    fn flag(&mut self) -> bool {
        self.next() % 2 == 0
    }

    /// Small numbers, edges and wild ones.
    fn number(&mut self) -> u32 {
        const EDGES: [u32; 14] =
            [257, 0x3FF, 0x400, 0x7FF, 0x800, 0xBFC, 0xC00, 0xFBFF, 0xFFFF, 0x105C, 0x7F_FFFF, 0x1FFF_FFFF, 0xFFFF_FC00, 0xFFFF_FFFF];
        match self.below(4) {
            0 => self.below(36) as u32,
            1 => EDGES[self.below(14)],
            2 => self.below(0x1000) as u32,
            _ => self.next() as u32,
        }
    }
}

/// RESET, WRITE, READ and READ_CRC as document 01 has them; no other opcode is ever sent.
fn is_instruction(tx: &[u8], want: usize) -> bool {
    match (tx[0] >> 4, tx.len()) {
        (0, 2) => tx == [0, 0] && want == 0,
        (2, n) => n <= 2050 && n % 4 == 2 && want == 0,
        (3, 2) => want <= 2048 && want % 4 == 0,
        (11, 3) => tx[2] == 4 && want == 6,
        _ => false,
    }
}

/// Document 01's CRC over what was sent and what came, bit by bit: whether the answer to a READ_CRC has another.
fn is_mismatch(tx: &[u8], rx: &[u8]) -> bool {
    let shift = |c: u16| if c & 0x8000 == 0 { c << 1 } else { c << 1 ^ 0x8005 };
    let byte = |c: u16, b: &u8| (0..8).fold(c ^ u16::from(*b) << 8, |c, _| shift(c));
    tx[0] >> 4 == 11 && tx.iter().chain(&rx[..4]).fold(0xFFFF, byte) != u16::from_be_bytes([rx[4], rx[5]])
}

impl Line for Junk {
    fn transfer(&mut self, tx: &[u8], rx: &mut [u8]) -> Result<(), Failed> {
        assert!(!self.failed, "asked again after a failed exchange");
        assert!(is_instruction(tx, rx.len()), "{tx:02x?}, {} wanted", rx.len());
        self.asked += 1;
        let answer = match if self.rough == 0 { 3 } else { self.below(self.rough) } {
            0 => Err(Failed),
            1 => {
                let n = self.below(rx.len() as u64 + 1);
                rx[..n].iter_mut().for_each(|b| *b = self.next() as u8);
                Ok(())
            }
            2 => {
                rx.fill(0xFF);
                Ok(())
            }
            _ => self.chip.transfer(tx, rx),
        };
        self.failed = answer.is_err();
        if self.asked == 5 && rx.len() == 4 {
            self.fifth = u32::from_le_bytes([rx[0], rx[1], rx[2], rx[3]]);
        }
        self.mismatched += u32::from(!self.failed && is_mismatch(tx, rx));
        answer
    }

    fn wait(&mut self, microseconds: u32) {
        assert!(!self.failed && microseconds == 500);
    }
}

/// For each call: how many exchanges at most, whatever is answered; what a failed one is refused by; what else it is refused by. Of a scrub
/// also what its report tells.
type Row = (&'static str, u32, &'static [u32], &'static [u32]);
const ROWS: [Row; 29] = [
    ("reset", 1, &[2], &[]),
    ("read_register", 1, &[1], &[24]),
    ("write_register", 1, &[1], &[24]),
    ("modify_register", 2, &[1], &[24]),
    ("checked_read", 3, &[1], &[24, 10]),
    ("read_ram", 1, &[1], &[3, 4]),
    ("write_ram", 1, &[2], &[3, 5]),
    ("verify", 64, &[11], &[13]),
    ("verify_long", 2, &[11], &[13]),
    ("set_op_mode", 7, &[11], &[24, 12]),
    ("get_op_mode", 1, &[1], &[]),
    ("configure", 96, &[11], &[24, 11, 13, 14]),
    ("configure_osc", 5, &[11], &[14]),
    ("configure_io", 2, &[11], &[]),
    ("configure_bit_timing", 6, &[11], &[24]),
    ("configure_fifo", 2, &[1], &[20, 24]),
    ("configure_filter", 8, &[1], &[20, 21]),
    ("disable_filter", 2, &[1], &[20]),
    ("push", 5, &[1, 2], &[20, 21, 24, 22, 6, 7, 8, 25, 3]),
    ("request", 2, &[1], &[20]),
    ("transmit", 7, &[1, 2], &[20, 21, 24, 22, 6, 7, 8, 25, 3]),
    ("has_next", 2, &[1], &[20, 9]),
    ("peek", 7, &[1], &[20, 28, 9, 25, 3, 35]),
    ("get", 9, &[1], &[20, 28, 9, 25, 3, 35]),
    ("scrub", 7, &[1], &[32, 33, 10]),
    ("configure_tx_queue", 4, &[11], &[24]),
    ("queue_push", 6, &[1, 2], &[21, 24, 22, 34, 7, 8, 25, 3]),
    ("queue_push_unchecked", 4, &[1, 2], &[21, 24, 22, 25, 3]),
    ("queue_request", 2, &[1], &[]),
];

/// Tested before the first exchange: of 3, 4 and 5 those of the RAM calls.
fn is_first(call: usize, n: u32) -> bool {
    matches!(n, 20 | 21 | 22 | 24 | 28 | 32 | 33 | 4 | 5) || (n == 3 && (call == 5 || call == 6))
}

fn judge(call: usize, answer: Result<(), Refusal>, line: &Junk) {
    let (name, most, failed, others) = ROWS[call];
    let n = answer.map_or_else(number, |()| 0);
    let (asked, due) = (line.asked, if line.failed { failed } else { others });
    assert!(due.contains(&n) || (n == 0 && !line.failed), "{name} answered {n}, failed: {}", line.failed);
    assert!(asked <= most, "{name} asked for {asked}");
    assert!(!is_first(call, n) || asked == 0, "{name} answered {n} after {asked} exchanges");
}

/// What PLSIZE 0 to 7 mean.
const SLOTS: [usize; 8] = [8, 12, 16, 20, 24, 32, 48, 64];

/// What DLC 0 to 15 mean in an FD frame.
const LENGTHS: [usize; 16] = [0, 1, 2, 3, 4, 5, 6, 7, 8, 12, 16, 20, 24, 32, 48, 64];

/// Whether a message is as long as its DLC means: a classic one has 8 bytes at most.
fn is_meant(dlc: u8, fdf: bool, len: usize) -> bool {
    LENGTHS.get(dlc as usize).is_some_and(|&n| len == if fdf { n } else { n.min(8) })
}

/// The same of a message that a call ended with, whose filter is one of 32; and no read, checked and done, has more than 2 mismatches behind it.
fn is_as_meant(end: Outcome) -> bool {
    match end {
        Outcome::Message(found) => found.filter < 32 && is_meant(found.dlc, found.header.fdf, found.len as usize),
        Outcome::Checked(_, mismatches) | Outcome::Scrubbed(Report::Agree { mismatches, .. }) => mismatches < 3,
        Outcome::Scrubbed(Report::Differ { mismatches, rewrite: Rewrite::Back(_, back), .. }) => mismatches < 3 && back < 3,
        Outcome::Scrubbed(Report::Differ { mismatches, .. }) => mismatches < 3,
        _ => true,
    }
}

/// What a report tells, as an answer.
fn reported(report: Report) -> Result<(), Refusal> {
    match report {
        Report::Unread { why, .. } | Report::Differ { rewrite: Rewrite::Unread(why), .. } => Err(why),
        _ => Ok(()),
    }
}

/// The entry that is due at a place, of a list that has some, and the place behind it.
fn due(place: usize, list: &[Watch]) -> (Watch, usize) {
    let at = if place < list.len() { place } else { 0 };
    (list[at], at + 1)
}

/// Whether a report is of this entry, with a rewrite only where one was told, and tells of a difference only where there is one.
fn is_of(report: Report, entry: Watch, rewriting: bool) -> bool {
    match report {
        Report::Agree { address, .. } | Report::Unread { address, .. } => u32::from(address) == entry.address,
        Report::Differ { address, read, wanted, rewrite, .. } => {
            (u32::from(address), wanted) == (entry.address, entry.wanted)
                && (read ^ wanted) & entry.care != 0
                && (rewrite != Rewrite::None) == rewriting
        }
    }
}

/// Whether as many mismatches were told of checked reads as their answers had, 0, 1 or 2 of each: behind them its word was read.
fn is_counted(told: &[u8], asked: u32, mismatched: u32) -> bool {
    let all = told.iter().map(|n| u32::from(*n)).sum::<u32>();
    told.iter().all(|n| *n < 3) && (all + told.len() as u32, all) == (asked, mismatched)
}

/// The same of a step: its visit, and behind the write its read-back. A read that fails or mismatches for the third time tells no count.
fn is_counted_in(report: Report, asked: u32, mismatched: u32) -> bool {
    let is_third = |before: u8, why| mismatched.checked_sub(before.into()).is_some_and(|n| (n == 3) == (why == Refusal::CrcMismatch));
    match report {
        Report::Agree { mismatches, .. } => is_counted(&[mismatches], asked, mismatched),
        Report::Differ { mismatches, rewrite: Rewrite::None, .. } => is_counted(&[mismatches], asked, mismatched),
        Report::Differ { mismatches, rewrite: Rewrite::Back(_, back), .. } => is_counted(&[mismatches, back], asked - 1, mismatched),
        Report::Differ { mismatches, rewrite: Rewrite::Unread(why), .. } => mismatches < 3 && is_third(mismatches, why),
        Report::Unread { why, .. } => is_third(0, why),
    }
}

/// Arguments of a call, and a frame's DLC and length: random, three times of four such as are taken.
struct Given {
    fifo: u32,
    a: u32,
    b: u32,
    c: u32,
    len: usize,
    dlc: u32,
    brought: usize,
    header: Header,
    settings: Settings,
    area: FifoConfiguration,
    queue: Option<TxQueueConfiguration>,
    filter: FilterConfiguration,
    list: Vec<Watch>,
    rewrite: bool,
}

/// Up to four entries: filters' words, where a step is to be taken, or any register's.
fn watched(l: &mut Junk, fits: bool) -> Vec<Watch> {
    let n = l.below(5);
    let address = |l: &mut Junk| if fits { 0x1D0 + 4 * l.below(20) as u32 } else { l.number() };
    (0..n).map(|_| Watch { address: address(l), wanted: l.number(), care: l.number() }).collect()
}

fn given(l: &mut Junk) -> Given {
    let fits = l.below(4) != 0;
    let [a, b, c] = [l.number(), l.number(), l.number()];
    let (dlc, wild) = (l.below(16), l.below(4096));
    let flags: [bool; 16] = core::array::from_fn(|_| l.flag());
    let to = |n: u32, most: u32| if fits { n % most } else { n };
    let [rtren, txatie, empty, half, notfull, ..] = flags;
    let tx = TxFifo { txpri: to(a, 32), txat: to(b, 4), rtren, txatie, empty, half, notfull };
    let rx = RxFifo { rxtsen: rtren, rxovie: txatie, full: empty, half, notempty: notfull };
    let kind = [FilterMode::Standard, FilterMode::Extended, FilterMode::Both][l.below(3)];
    let (object, mask) = (Identifier { extended: flags[5], id: to(a, 0x800) }, Identifier { extended: flags[6], id: to(b, 0x800) });
    Given {
        fifo: if fits { l.below(6) as u32 } else { l.number() },
        a,
        b,
        c,
        len: if fits { LENGTHS[dlc] } else { wild },
        dlc: if fits { dlc as u32 } else { l.number() },
        brought: if !fits { wild % 66 } else if flags[10] { LENGTHS[dlc] } else { LENGTHS[dlc].min(8) },
        header: Header { extended: flags[7], id: to(a, 0x800), rtr: flags[8], brs: flags[9], fdf: flags[10], esi: flags[11] },
        settings: Settings {
            oscillator: OscillatorConfiguration { pll: flags[0], divide: flags[1] },
            io: IoConfiguration { xstbyen: flags[2], txcanod: flags[3], sof: flags[4], intod: flags[5] },
            bittime: BitTimeConfiguration {
                nominal: NominalBitTime { brp: to(a, 256), tseg1: to(b, 256), tseg2: to(c, 128), sjw: to(a, 128) },
                data: DataBitTime { brp: to(a, 256), tseg1: to(b, 32), tseg2: to(c, 16), sjw: to(a, 16), tdco: if fits { (b % 128) as i32 - 64 } else { b as i32 } },
            },
            counter: flags[12],
            dncnt: to(c, 32),
            canerrors: flags[13],
            spierror: flags[14],
            eccerror: flags[15],
        },
        area: FifoConfiguration {
            size: to(a, 33),
            plsize: to(b, 8),
            mode: if flags[6] { FifoMode::Transmit(tx) } else { FifoMode::Receive(rx) },
        },
        queue: (l.below(4) != 0).then_some(TxQueueConfiguration {
            size: to(a, 33),
            plsize: to(b, 8),
            txpri: to(c, 32),
            txat: to(b, 4),
            txatie,
            empty,
            notfull,
        }),
        filter: FilterConfiguration { fifo: to(c, 32), mode: kind, object, mask },
        list: watched(l, fits),
        rewrite: l.flag(),
    }
}

/// A chip outside Configuration with four FIFOs, two of which send, and often the transmit queue, so that calls have something to do.
fn settle(mcp: &mut Mcp<Junk>) {
    mcp.line = Junk { rough: 0, ..Junk::new(mcp.line.seed) };
    while mcp.line.chip.model.fixed.configuring {
        let g = given(&mut mcp.line);
        let _ = mcp.configure(g.settings);
        let _ = mcp.configure_tx_queue(g.queue.map(|c| TxQueueConfiguration { size: 1 + g.a % 4, ..c }));
        for n in 1..=4 {
            let g = given(&mut mcp.line);
            let _ = mcp.configure_fifo(n, FifoConfiguration { size: 1 + g.a % 4, ..g.area });
            let _ = mcp.configure_filter(n, FilterConfiguration { fifo: n, ..g.filter });
        }
        let _ = mcp.set_op_mode(0);
    }
}

#[test]
fn a_hundred_thousand() {
    let mut mcp = Mcp::new(Junk::new(0x9E37_79B9_7F4A_7C15));
    let bytes: Vec<u8> = (0..4096).map(|i| i as u8).collect();
    let (mut buf, before) = (vec![0x5Au8; 4096], vec![0x5Au8; 4096]);
    let (mut counts, mut sorted, mut coded) = ([0u32; 36], [0u32; 37], [0u32; 16]);
    let (mut scrubber, mut seen, mut mismatched, mut queued) = (Scrubber { place: 0 }, [0u32; 4], [0u32; 3], [0u32; 3]);
    for i in 0..100_000 {
        if i % 64 == 0 {
            settle(&mut mcp);
        }
        let g = given(&mut mcp.line);
        let (call, room) = (mcp.line.below(29), g.len * 4 % 4096);
        mcp.line.rough = [4, 16, 64][mcp.line.below(3)];
        (mcp.line.asked, mcp.line.mismatched, mcp.line.failed) = (0, 0, false);
        // how many bytes at the front of `buf` a call that is done has filled
        let mut filled = 0;
        let answer = match call {
            0 => mcp.reset(),
            1 => mcp.read_register(g.a).map(|_| ()),
            2 => mcp.write_register(g.a, g.b),
            3 => mcp.modify_register(g.a, g.b, g.c),
            4 => mcp.checked_read(g.a).map(|read| {
                assert!(is_counted(&[read.mismatches], mcp.line.asked, mcp.line.mismatched), "{read:?}, {} asked", mcp.line.asked);
                mismatched[read.mismatches as usize] += 1;
            }),
            5 => mcp.read_ram(g.a, &mut buf[..g.len]).map(|()| filled = g.len),
            6 => mcp.write_ram(g.a, &bytes[..g.len]),
            7 => mcp.verify(),
            8 => mcp.verify_long(),
            9 => mcp.set_op_mode(g.a % 9),
            10 => mcp.get_op_mode().map(|mode| assert!(mode < 8)),
            11 => mcp.configure(g.settings),
            12 => mcp.configure_osc(g.settings.oscillator),
            13 => mcp.configure_io(g.settings.io),
            14 => mcp.configure_bit_timing(g.settings.bittime),
            15 => mcp.configure_fifo(g.fifo, g.area),
            16 => mcp.configure_filter(g.c, g.filter),
            17 => mcp.disable_filter(g.c),
            18 => mcp.push(g.fifo, g.header, g.b, &bytes[..g.len]),
            19 => mcp.request(g.fifo),
            20 => mcp.transmit(g.fifo, g.header, g.b % 0x80_0000, &bytes[..g.len]).map_err(|refused| {
                assert_eq!(refused.accepted, mcp.line.asked > 5); // a push's exchanges are five
                refused.refusal
            }),
            21 => mcp.has_next(g.fifo).map(|_| ()),
            24 => {
                let place = scrubber.place;
                let answer = mcp.scrub(&mut scrubber, &g.list, g.rewrite);
                match answer {
                    Ok(report) => {
                        let (entry, next) = due(place, &g.list);
                        assert!(is_of(report, entry, g.rewrite) && scrubber.place == next, "{report:?} of {entry:?}");
                        assert!(is_counted_in(report, mcp.line.asked, mcp.line.mismatched), "{report:?}, {} asked", mcp.line.asked);
                        seen[report_number(report)] += 1;
                    }
                    Err(r) => assert!(matches!(r, Refusal::EmptyList | Refusal::NotCarried) && scrubber.place == place),
                }
                answer.and_then(reported)
            }
            25 => mcp.configure_tx_queue(g.queue),
            26 => mcp.queue_push(g.header, g.b % 0x80_0000, &bytes[..g.len]),
            27 => mcp.queue_push_unchecked(g.header, g.b, &bytes[..g.len]),
            28 => mcp.queue_request(),
            _ => {
                let lent = &mut buf[..room];
                let found = if call == 22 { mcp.peek(g.fifo, lent) } else { mcp.get(g.fifo, lent) };
                if let Ok(Some(r)) = found {
                    assert!(r.filter < 32 && is_meant(r.dlc, r.header.fdf, r.len), "{found:?}");
                    assert!(r.len <= SLOTS[(mcp.line.fifth >> 29) as usize], "{found:?}, control {:08x}", mcp.line.fifth);
                    coded[r.dlc as usize] += u32::from(!r.header.fdf);
                }
                found.map(|r| filled = r.map_or(0, |r| r.len))
            }
        };
        judge(call, answer, &mcp.line);
        assert!(filled <= if matches!(call, 22 | 23) { 64 } else { g.len });
        assert!(!matches!(call, 22 | 23) || answer.is_err() || room >= 64, "done with a buffer of {room}");
        assert_eq!(buf[filled..], before[filled..], "{} changed what it was not to fill", ROWS[call].0);
        buf[..filled].fill(0x5A);
        counts[answer.map_or_else(number, |()| 0) as usize] += 1;
        // the bus's turn
        let g = given(&mut mcp.line);
        let (chip, frame) = (&mut mcp.line.chip, &bytes[..g.brought]);
        let _ = chip.send(g.fifo);
        queued[sent_from_queue(chip)] += 1;
        let delivery = chip.deliver(g.fifo, g.header, g.dlc, g.c, frame);
        assert!(delivery != Ok(()) || is_brought(newest(chip, g.fifo), &g, 0, frame));
        let s = chip.sort(g.header, g.dlc, g.c, frame);
        assert!(s.delivery != Ok(()) || is_brought(newest(chip, s.fifo), &g, s.filter, frame));
        sorted[sorted_number(s)] += 1;
        assert!(chip.held(g.fifo).map_or(!(1..32).contains(&g.fifo), |held| held <= 32));
    }
    for (n, count) in sorted.iter().enumerate() {
        assert_eq!(*count == 0, !matches!(n, 21 | 22 | 30..=36), "a sorted frame was answered {n} {count} times: {sorted:?}");
    }
    assert!(!coded.contains(&0), "classic messages with each DLC: {coded:?}");
    assert!(!seen.contains(&0), "entries that agree, differ, were rewritten, were not read: {seen:?}");
    assert!(!mismatched.contains(&0), "checked reads behind 0, 1 and 2 mismatches: {mismatched:?}");
    assert!(!queued.contains(&0), "sent from the queue: nothing, a frame, no frame: {queued:?}");
    for (n, count) in counts.iter().enumerate() {
        let is_never = matches!(n, 15..=19 | 23 | 26 | 27 | 29..=31);
        assert_eq!(*count == 0, is_never, "{n} was answered {count} times: {counts:?}");
    }
}

/// The queue's turn on the bus: 0 where it sends nothing, 1 for a frame, 2 for what is no frame. What goes was held in a slot, and no other
/// slot has lost its message; nothing goes only where nothing is held or requested.
fn sent_from_queue(chip: &mut Chip) -> usize {
    let held = |chip: &Chip| -> Vec<_> { (0..32).map(|k| chip.held_queue_at(k)).collect() };
    let (before, is_requested) = (held(chip), chip.model.queue.control & 0x200 != 0);
    let sent = chip.send_queue();
    let after = held(chip);
    let gone: Vec<_> = before.iter().zip(&after).filter(|(b, a)| b != a).collect();
    assert_eq!(chip.held_queue() as usize, after.iter().flatten().count());
    match (sent, &gone[..]) {
        (Err(Unsent::Nothing), []) => {
            assert!(!is_requested || before.iter().all(Option::is_none));
            0
        }
        (Ok(frame), [(Some(Ok(held)), None)]) if *held == frame => 1,
        (Err(Unsent::NoFrame), [(Some(Err(_)), None)]) => 2,
        _ => panic!("{sent:?}, {gone:?}"),
    }
}

/// The message that a FIFO was given last.
fn newest(chip: &Chip, fifo: u32) -> Result<Frame, Undecoded> {
    chip.held_at(fifo, chip.held(fifo).unwrap() - 1).unwrap().unwrap()
}

/// Whether a slot has the header, the DLC and the payload of a frame, and the filter that took it.
fn is_brought(slot: Result<Frame, Undecoded>, g: &Given, filter: u32, frame: &[u8]) -> bool {
    slot.is_ok_and(|f| {
        let is_same = f.header == g.header && u32::from(f.dlc) == g.dlc && u32::from(f.filter) == filter;
        is_same && &f.payload.bytes[..f.payload.len] == frame
    })
}

fn report_number(report: Report) -> usize {
    match report {
        Report::Agree { .. } => 0,
        Report::Differ { rewrite: Rewrite::None, .. } => 1,
        Report::Differ { .. } => 2,
        Report::Unread { .. } => 3,
    }
}

/// A refusal's number, and 32 and more for what else a frame that is sorted may come to.
fn sorted_number(s: Sorted) -> usize {
    assert!(s.fifo < 32 && s.filter < 32);
    match s.delivery {
        Err(Undelivered::Refused(r)) => {
            assert!(s.fifo == 0 && s.filter == 0);
            number(r) as usize
        }
        Ok(()) => 32,
        Err(Undelivered::Configuration) => 33,
        Err(Undelivered::NotReceiving) => 34,
        Err(Undelivered::TooLong) => 35,
        Err(Undelivered::Full) => 36,
    }
}

/// A call by its number.
fn started(call: usize, g: &Given, bytes: &[u8]) -> Call {
    match call {
        0 => reset(),
        1 => read_register(g.a),
        2 => write_register(g.a, g.b),
        3 => modify_register(g.a, g.b, g.c),
        4 => checked_read(g.a),
        5 => read_ram(0x400, 4096, g.len, g.len),
        6 => write_ram(g.a, g.c as usize),
        7 => verify(),
        8 => verify_long(),
        9 => set_op_mode(g.a % 9),
        10 => get_op_mode(),
        11 => configure(g.settings),
        12 => configure_osc(g.settings.oscillator),
        13 => configure_io(g.settings.io),
        14 => configure_bit_timing(g.settings.bittime),
        15 => configure_fifo(g.fifo, g.area),
        16 => configure_filter(g.c % 33, g.filter),
        17 => disable_filter(g.c),
        18 => push(g.fifo, g.header, g.b, &bytes[..g.len]),
        19 => request(g.fifo),
        20 => transmit(g.fifo, g.header, g.b, &bytes[..g.len]),
        21 => has_next(g.fifo),
        22 => peek(g.fifo, g.len),
        23 => get(g.fifo, 64),
        24 => scrub(Scrubber { place: g.dlc as usize }, &g.list, g.rewrite),
        25 => configure_tx_queue(g.queue),
        26 => queue_push(g.header, g.b, &bytes[..g.len]),
        27 => queue_push_unchecked(g.header, g.b, &bytes[..g.len]),
        28 => queue_request(),
        _ => read_ram(g.a, g.b as usize, g.c as usize, g.len),
    }
}

/// `run` by value, with turns that fall at every answer.
fn by_value(line: &mut Junk, start: Call, lent: &[u8], buf: &mut [u8], tx: &mut [u8], rx: &mut [u8]) -> Outcome {
    let (mut call, mut got) = (start, 0);
    loop {
        let answered;
        (got, answered) = match next(call, lent, tx) {
            Next::Transfer { n, want } => match rx.get_mut(..want) {
                Some(rx) => (want, line.transfer(&tx[..n], rx).map_or(Answer::Failed, |()| Answer::Exchanged)),
                None => (0, Answer::Failed),
            },
            Next::Wait => {
                line.wait(500);
                (0, Answer::Waited)
            }
            Next::Short => (0, Answer::Failed),
            Next::Over => {
                assert_eq!(turns(call), 0);
                return finish(call, &rx[..got], buf);
            }
        };
        let before = turns(call);
        call = answer(call, answered, &rx[..got]);
        assert!(turns(call) < before);
    }
}

/// The loop by itself, with scratch and lent buffers of any length: none of these calls was started with what it is lent later. By value it
/// comes to the same.
#[test]
fn any_buffers() {
    let mut mcp = Mcp::new(Junk::new(0x0123_4567_89AB_CDEF));
    let bytes: Vec<u8> = (0..4096).map(|i| i as u8).collect();
    for i in 0..20_000 {
        if i % 64 == 0 {
            settle(&mut mcp);
        }
        let l = &mut mcp.line;
        l.rough = [4, 16, 64][l.below(3)];
        let (g, number) = (given(l), l.below(30));
        let call = started(number, &g, &bytes);
        let [lent, room, tx, rx] = core::array::from_fn(|_| if l.flag() { l.below(140) } else { l.below(4096) });
        let (mut buf, mut own, before) = (vec![0x5Au8; room], vec![0x5Au8; room], vec![0x5Au8; room]);
        (l.asked, l.failed) = (0, false);
        let mut other = l.clone();
        let end = run(l, call, &bytes[..lent], &mut buf, &mut vec![0; tx], &mut vec![0; rx]);
        assert!(!matches!(end, Outcome::Running | Outcome::Refused(Refusal::WrongAnswer | Refusal::NoLayout)));
        assert!(matches!(end, Outcome::Message(_) | Outcome::Done) || buf == before, "{end:?} changed what was lent");
        assert!(is_as_meant(end), "{end:?}");
        assert_eq!(by_value(&mut other, call, &bytes[..lent], &mut own, &mut vec![0; tx], &mut vec![0; rx]), end);
        assert!(own == buf && other.chip == l.chip && other.asked == l.asked);
    }
}

/// Answers of any kind and length, whatever was asked for: the call is over within the turns that it said, and says how it ended.
#[test]
fn any_answers() {
    let mut l = Junk::new(0x0FED_CBA9_8765_4321);
    let bytes: Vec<u8> = (0..4096).map(|i| i as u8).collect();
    for _ in 0..20_000 {
        let (g, number, wild) = (given(&mut l), l.below(30), l.flag());
        let mut call = started(number, &g, &bytes);
        let (mut tx, mut rx, mut left) = ([0; 2050], [0; 140], turns(call));
        loop {
            let mut got = l.below(140);
            let mut answered = [Answer::Exchanged, Answer::Waited, Answer::Failed][l.below(3)];
            match next(call, &bytes, &mut tx) {
                Next::Over => break,
                _ if wild => {}
                Next::Transfer { want, .. } => (got, answered) = (want.min(140), Answer::Exchanged),
                Next::Wait => (got, answered) = (0, Answer::Waited),
                Next::Short => {}
            }
            rx.iter_mut().for_each(|b| *b = [0, 0xFF, l.next() as u8][l.below(3)]);
            call = answer(call, answered, &rx[..got]);
            assert!(turns(call) < left, "{} turns after {left}", turns(call));
            left = turns(call);
        }
        assert_eq!(left, 0);
        let (room, got) = (l.below(140), l.below(140));
        let mut buf = vec![0x5Au8; room];
        let end = finish(call, &rx[..got], &mut buf);
        assert!(end != Outcome::Running);
        assert!(matches!(end, Outcome::Message(_) | Outcome::Done) || buf == vec![0x5Au8; room], "{end:?} changed what was lent");
        assert!(is_as_meant(end), "{end:?}");
        assert!(!accepted(call) || matches!(number, 18 | 20 | 26 | 27));
        let place = if number == 24 { g.dlc as usize } else { 0 };
        let expected = if let Outcome::Scrubbed(_) = end { due(place, &g.list).1 } else { place };
        assert!(scrubber(call).place == expected && (number == 24 || !matches!(end, Outcome::Scrubbed(_))));
    }
}
