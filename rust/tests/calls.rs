//! Call by call on the modelled chip: exchanges that fail one after the other, answers that come late or wrong, numbers that there are
//! not, what lent buffers hold afterwards, scratch that is too short, turns that are left, frames that the filters sort, every DLC, lists
//! that are scrubbed, mismatches that are counted, messages that overtake others in the transmit queue. What is expected was written down
//! from documents 01 and 02.
use masevuru::calls::*;
use masevuru::chip::{Chip, Frame, Payload, Sorted, Undecoded, Undelivered, Unsent};
use masevuru::*;

/// The chip, with one exchange that fails and some whose answers are changed.
struct Bench {
    chip: Chip,
    exchanges: u32,
    waits: u32,
    fail_at: u32,
    /// What becomes of the bytes that an exchange received, by its number.
    twist: fn(u32, &mut [u8]),
    /// The checked reads that are answered with another CRC: a bit for each exchange, by its number.
    mismatches: u32,
}

fn as_it_is(_: u32, _: &mut [u8]) {}

impl Line for Bench {
    fn transfer(&mut self, tx: &[u8], rx: &mut [u8]) -> Result<(), Failed> {
        self.exchanges += 1;
        if self.exchanges == self.fail_at {
            return Err(Failed);
        }
        self.chip.transfer(tx, rx)?;
        (self.twist)(self.exchanges, rx);
        if rx.len() == 6 && self.exchanges < 32 && self.mismatches >> self.exchanges & 1 == 1 {
            rx[5] ^= 1;
        }
        Ok(())
    }

    fn wait(&mut self, microseconds: u32) {
        assert_eq!(microseconds, 500);
        self.waits += 1;
    }
}

type Driver = Mcp<Bench>;

const HEADER: Header = Header { extended: false, id: 0x123, rtr: false, brs: false, fdf: false, esi: false };
const BYTES: [u8; 8] = [1, 2, 3, 4, 5, 6, 7, 8];

fn settings(all: bool) -> Settings {
    Settings {
        oscillator: OscillatorConfiguration { pll: all, divide: false },
        io: IoConfiguration { xstbyen: false, txcanod: false, sof: false, intod: false },
        bittime: BitTimeConfiguration {
            nominal: NominalBitTime { brp: 0, tseg1: 62, tseg2: 15, sjw: 15 },
            data: DataBitTime { brp: 0, tseg1: 14, tseg2: 3, sjw: 3, tdco: 0 },
        },
        counter: all,
        dncnt: all as u32,
        canerrors: false,
        spierror: false,
        eccerror: false,
    }
}

fn sender() -> FifoConfiguration {
    let tx = TxFifo { txpri: 0, txat: 0, rtren: false, txatie: false, empty: false, half: false, notfull: false };
    FifoConfiguration { size: 4, plsize: 0, mode: FifoMode::Transmit(tx) }
}

fn queue() -> TxQueueConfiguration {
    TxQueueConfiguration { size: 4, plsize: 0, txpri: 0, txat: 0, txatie: false, empty: false, notfull: false }
}

fn receiver(plsize: u32, rxtsen: bool) -> FifoConfiguration {
    let rx = RxFifo { rxtsen, rxovie: false, full: false, half: false, notempty: false };
    FifoConfiguration { size: 2, plsize, mode: FifoMode::Receive(rx) }
}

fn filter() -> FilterConfiguration {
    let (object, mask) = (Identifier { extended: false, id: 0x100 }, Identifier { extended: false, id: 0x700 });
    FilterConfiguration { fifo: 2, mode: FilterMode::Standard, object, mask }
}

fn on(chip: Chip) -> Driver {
    Mcp::new(Bench { chip, exchanges: 0, waits: 0, fail_at: 0, twist: as_it_is, mismatches: 0 })
}

/// Outside Configuration: FIFO 1 sends; FIFO 2, with timestamps, and FIFO 3 receive and hold a message of 5 bytes each.
fn prepared() -> Driver {
    with_queue(None)
}

/// The same, with a transmit queue of 4 slots of 16 bytes.
fn queued() -> Driver {
    with_queue(Some(queue()))
}

fn with_queue(c: Option<TxQueueConfiguration>) -> Driver {
    let mut mcp = on(Chip::new());
    mcp.configure(settings(false)).unwrap();
    mcp.configure_tx_queue(c).unwrap();
    mcp.configure_fifo(1, sender()).unwrap();
    mcp.configure_fifo(2, receiver(7, true)).unwrap();
    mcp.configure_fifo(3, receiver(0, false)).unwrap();
    mcp.set_op_mode(0).unwrap();
    assert_eq!(mcp.line.chip.deliver(2, HEADER, 5, 0xA1B2_C3D4, &BYTES[..5]), Ok(()));
    assert_eq!(mcp.line.chip.deliver(3, HEADER, 5, 0xA1B2_C3D4, &BYTES[..5]), Ok(()));
    mcp.line.exchanges = 0;
    mcp.line.waits = 0;
    mcp
}

fn twisted(twist: fn(u32, &mut [u8])) -> Driver {
    let mut mcp = prepared();
    mcp.line.twist = twist;
    mcp
}

/// What goes wrong in the next call: exchanges that mismatch, by a bit each, and one that fails.
fn amiss(m: &mut Driver, mismatches: u32, fail_at: u32) {
    (m.line.exchanges, m.line.mismatches, m.line.fail_at) = (0, mismatches, fail_at);
}

fn told<T, R: Into<Refusal>>(answer: Result<T, R>) -> u32 {
    answer.map_or_else(|r| number(r.into()), |_| 0)
}

/// The number that a report tells, 0 where it tells none.
fn reported(report: Report) -> u32 {
    match report {
        Report::Unread { why, .. } | Report::Differ { rewrite: Rewrite::Unread(why), .. } => number(why),
        _ => 0,
    }
}

/// The number that a call ended with, by a report too.
fn ended(outcome: Outcome) -> u32 {
    match outcome {
        Outcome::Refused(r) => number(r),
        Outcome::Scrubbed(report) => reported(report),
        _ => 0,
    }
}

/// OSC as after a reset, and CiNBTCFG with a bit that it does not have.
const AGREES: [Watch; 1] = [Watch { address: 0xE00, wanted: 0x0000_0460, care: 0xFFFF_FFFF }];
const DIFFERS: [Watch; 1] = [Watch { address: 0x004, wanted: 0x003E_0F0E, care: 0x0000_00FF }];
const FIRST: Scrubber = Scrubber { place: 0 };

fn scrubbed(m: &mut Driver, list: &[Watch], rewrite: bool) -> u32 {
    m.scrub(&mut FIRST.clone(), list, rewrite).map_or_else(number, reported)
}

/// In the place of a FIFO, in a row.
const QUEUE: u32 = 32;

fn ready(fifo: u32) -> Driver {
    if fifo == QUEUE { queued() } else { prepared() }
}

fn holds(m: &Bench, fifo: u32) -> u8 {
    if fifo == QUEUE { m.chip.held_queue() } else { m.chip.held(fifo).unwrap() }
}

/// A call's name, what it does with the driver and 72 lent bytes, how the same is started for a loop of one's own, and by what number each
/// of its exchanges is refused (of a scrub: reported) that fails: so many times a number. Behind that a FIFO, or the queue, the last
/// exchange whose failing leaves it as it was, and how many messages it holds then and later.
type Row = (&'static str, fn(&mut Driver, &mut [u8; 72]) -> u32, fn() -> Call, &'static [(u32, u32)], (u32, u32, u8, u8));

/// Document 01: 1 where a read or a register write failed; 2 where a RAM write or the reset failed; 11 in place of both in any
/// configuration, mode or echo call but `configure_fifo` and `configure_filter`; `get_op_mode` is a register read. The exchanges are
/// those of "Exchange by exchange"; a change is two, a read and a write. The chip takes a mode at once and shows PLLRDY with PLLEN:
/// one poll. `configure`: mode 2, poll 1, echo 64, OSC 2, PLL's poll 1 if on, IOCON 2, bit timing 6, STEF 2, TXQEN 2, TSCON 2 if
/// the counter is on, DNCNT 2 if not 0, RTXAT 2, CiINT 2. Document 02, of the queue: a change of CiCON, and of control where it is turned
/// on; a push is CiCON, control, status, user address, RAM write, control; unchecked user address, RAM write, and a change of control.
const ROWS: [Row; 36] = [
    ("reset", |m, _| told(m.reset()), || reset(), &[(1, 2)], (0, 0, 0, 0)),
    ("read_register", |m, _| told(m.read_register(0x000)), || read_register(0x000), &[(1, 1)], (0, 0, 0, 0)),
    ("write_register", |m, _| told(m.write_register(0x004, 7)), || write_register(0x004, 7), &[(1, 1)], (0, 0, 0, 0)),
    ("modify_register", |m, _| told(m.modify_register(0x004, 1, 2)), || modify_register(0x004, 1, 2), &[(2, 1)], (0, 0, 0, 0)),
    ("checked_read", |m, _| told(m.checked_read(0xE00)), || checked_read(0xE00), &[(1, 1)], (0, 0, 0, 0)),
    ("read_ram", |m, buf| told(m.read_ram(0x400, buf)), || read_ram(0x400, 72, 0, 72), &[(1, 1)], (0, 0, 0, 0)),
    ("write_ram", |m, _| told(m.write_ram(0x800, &BYTES)), || write_ram(0x800, 8), &[(1, 2)], (0, 0, 0, 0)),
    ("verify", |m, _| told(m.verify()), || verify(), &[(64, 11)], (0, 0, 0, 0)),
    ("verify_long", |m, _| told(m.verify_long()), || verify_long(), &[(2, 11)], (0, 0, 0, 0)),
    ("set_op_mode", |m, _| told(m.set_op_mode(4)), || set_op_mode(4), &[(3, 11)], (0, 0, 0, 0)),
    ("get_op_mode", |m, _| told(m.get_op_mode()), || get_op_mode(), &[(1, 1)], (0, 0, 0, 0)),
    ("configure", |m, _| told(m.configure(settings(false))), || configure(settings(false)), &[(85, 11)], (0, 0, 0, 0)),
    ("configure, all on", |m, _| told(m.configure(settings(true))), || configure(settings(true)), &[(90, 11)], (0, 0, 0, 0)),
    (
        "configure_osc",
        |m, _| told(m.configure_osc(settings(false).oscillator)),
        || configure_osc(settings(false).oscillator),
        &[(2, 11)],
        (0, 0, 0, 0),
    ),
    (
        "configure_osc, PLL on",
        |m, _| told(m.configure_osc(settings(true).oscillator)),
        || configure_osc(settings(true).oscillator),
        &[(3, 11)],
        (0, 0, 0, 0),
    ),
    ("configure_io", |m, _| told(m.configure_io(settings(false).io)), || configure_io(settings(false).io), &[(2, 11)], (0, 0, 0, 0)),
    (
        "configure_bit_timing",
        |m, _| told(m.configure_bit_timing(settings(false).bittime)),
        || configure_bit_timing(settings(false).bittime),
        &[(6, 11)],
        (0, 0, 0, 0),
    ),
    ("configure_fifo", |m, _| told(m.configure_fifo(1, sender())), || configure_fifo(1, sender()), &[(2, 1)], (0, 0, 0, 0)),
    ("configure_filter", |m, _| told(m.configure_filter(0, filter())), || configure_filter(0, filter()), &[(8, 1)], (0, 0, 0, 0)),
    ("disable_filter", |m, _| told(m.disable_filter(0)), || disable_filter(0), &[(2, 1)], (0, 0, 0, 0)),
    ("push", |m, _| told(m.push(1, HEADER, 5, &BYTES)), || push(1, HEADER, 5, &BYTES), &[(3, 1), (1, 2), (1, 1)], (1, 5, 0, 1)),
    ("request", |m, _| told(m.request(1)), || request(1), &[(2, 1)], (1, 2, 0, 0)),
    ("transmit", |m, _| told(m.transmit(1, HEADER, 5, &BYTES)), || transmit(1, HEADER, 5, &BYTES), &[(3, 1), (1, 2), (3, 1)], (1, 5, 0, 1)),
    ("has_next", |m, _| told(m.has_next(2)), || has_next(2), &[(2, 1)], (2, 2, 1, 1)),
    ("peek, with a timestamp", |m, buf| told(m.peek(2, buf)), || peek(2, 72), &[(7, 1)], (2, 7, 1, 1)),
    ("peek, without", |m, buf| told(m.peek(3, buf)), || peek(3, 72), &[(6, 1)], (3, 6, 1, 1)),
    ("get, with a timestamp", |m, buf| told(m.get(2, buf)), || get(2, 72), &[(9, 1)], (2, 9, 1, 0)),
    ("get, without", |m, buf| told(m.get(3, buf)), || get(3, 72), &[(8, 1)], (3, 8, 1, 0)),
    ("scrub", |m, _| scrubbed(m, &DIFFERS, false), || scrub(FIRST, &DIFFERS, false), &[(1, 1)], (0, 0, 0, 0)),
    ("scrub, rewriting", |m, _| scrubbed(m, &DIFFERS, true), || scrub(FIRST, &DIFFERS, true), &[(3, 1)], (0, 0, 0, 0)),
    ("scrub, nothing to rewrite", |m, _| scrubbed(m, &AGREES, true), || scrub(FIRST, &AGREES, true), &[(1, 1)], (0, 0, 0, 0)),
    (
        "configure_tx_queue",
        |m, _| told(m.configure_tx_queue(Some(queue()))),
        || configure_tx_queue(Some(queue())),
        &[(4, 11)],
        (QUEUE, 4, 0, 0),
    ),
    (
        "configure_tx_queue, off",
        |m, _| told(m.configure_tx_queue(None)),
        || configure_tx_queue(None),
        &[(2, 11)],
        (QUEUE, 2, 0, 0),
    ),
    (
        "queue_push",
        |m, _| told(m.queue_push(HEADER, 5, &BYTES)),
        || queue_push(HEADER, 5, &BYTES),
        &[(4, 1), (1, 2), (1, 1)],
        (QUEUE, 6, 0, 1),
    ),
    (
        "queue_push_unchecked",
        |m, _| told(m.queue_push_unchecked(HEADER, 5, &BYTES)),
        || queue_push_unchecked(HEADER, 5, &BYTES),
        &[(1, 1), (1, 2), (2, 1)],
        (QUEUE, 4, 0, 1),
    ),
    ("queue_request", |m, _| told(m.queue_request()), || queue_request(), &[(2, 1)], (QUEUE, 2, 0, 0)),
];

fn each_of(parts: &[(u32, u32)]) -> Vec<u32> {
    parts.iter().flat_map(|&(times, n)| (0..times).map(move |_| n)).collect()
}

#[test]
fn each_exchange_fails() {
    for (name, call, _, parts, (fifo, last, then, after)) in ROWS {
        let answers = each_of(parts);
        for (k, n) in (1..).zip(&answers) {
            let (mut mcp, mut buf) = (ready(fifo), [0x5A; 72]);
            mcp.line.fail_at = k;
            assert_eq!(call(&mut mcp, &mut buf), *n, "{name}, exchange {k}");
            assert_eq!(mcp.line.exchanges, k, "{name} asked for more after exchange {k}");
            assert_eq!(buf, [0x5A; 72], "{name}, exchange {k}");
            if fifo != 0 {
                assert_eq!(holds(&mcp.line, fifo), if k <= last { then } else { after }, "{name}, exchange {k}");
            }
        }
        let (mut mcp, mut buf) = (ready(fifo), [0x5A; 72]);
        assert_eq!(call(&mut mcp, &mut buf), 0, "{name}");
        assert_eq!((mcp.line.exchanges as usize, mcp.line.waits), (answers.len(), 0), "{name}");
        if fifo != 0 {
            assert_eq!(holds(&mcp.line, fifo), after, "{name}");
        }
    }
}

/// The loop of the documentation, by value, with turns that fall: the call at its end, and what its last exchange received.
fn turned(line: &mut Bench, start: Call, lent: &[u8]) -> (Call, Vec<u8>) {
    let (mut tx, mut rx, mut got, mut call) = ([0; 130], [0; 128], 0, start);
    loop {
        let answered = match next(call, lent, &mut tx) {
            Next::Transfer { n, want } => {
                got = want;
                line.transfer(&tx[..n], &mut rx[..got]).map_or(Answer::Failed, |()| Answer::Exchanged)
            }
            Next::Wait => {
                got = 0;
                line.wait(500);
                Answer::Waited
            }
            Next::Short => panic!("nothing was too short"),
            Next::Over => {
                assert_eq!(turns(call), 0);
                return (call, rx[..got].to_vec());
            }
        };
        let before = turns(call);
        call = answer(call, answered, &rx[..got]);
        assert!(turns(call) < before, "{} turns after {before}", turns(call));
    }
}

/// A loop of one's own comes to what the method comes to, whichever exchange fails; the message of a push or a transmit is accepted exactly
/// where the FIFO, or the queue, holds it.
#[test]
fn a_loop_of_ones_own() {
    for (name, call, start, parts, (fifo, ..)) in ROWS {
        for k in 0..=each_of(parts).len() as u32 {
            let (mut mcp, mut buf) = (ready(fifo), [0x5A; 72]);
            let (mut other, mut own) = (ready(fifo).line, [0x5A; 72]);
            (mcp.line.fail_at, other.fail_at) = (k, k);
            let answer = call(&mut mcp, &mut buf);
            let (end, received) = turned(&mut other, start(), &BYTES);
            let outcome = finish(end, &received, &mut own);
            assert_eq!(ended(outcome), answer, "{name}, exchange {k}: {outcome:?}");
            assert!(outcome != Outcome::Running);
            assert_eq!((other.exchanges, own), (mcp.line.exchanges, buf), "{name}, exchange {k}");
            assert_eq!(other.chip, mcp.line.chip, "{name}, exchange {k}");
            let is_message = matches!(name, "push" | "transmit" | "queue_push" | "queue_push_unchecked");
            assert_eq!(accepted(end), is_message && holds(&other, fifo) == 1, "{name}, exchange {k}");
        }
    }
}

/// What the calls of the rows, in their order, ask for at most: a mode's poll is five reads and four waits, the PLL's three and two;
/// has-next, peek and get say what a get with a timestamp does; a scrub reads three times, and that is told to rewrite writes and reads
/// three times more.
const TURNS: [u32; 36] =
    [1, 1, 1, 2, 3, 1, 1, 64, 2, 11, 1, 93, 102, 2, 7, 2, 6, 2, 8, 2, 5, 2, 7, 9, 9, 9, 9, 9, 3, 7, 7, 4, 2, 6, 4, 2];

#[test]
fn turns_at_the_start() {
    for ((name, _, start, ..), n) in ROWS.iter().zip(TURNS) {
        assert_eq!(turns(start()), n, "{name}");
    }
    let refused = [push(257, HEADER, 5, &BYTES), read_register(0x1000), set_op_mode(8), request(0), get(1, 63), write_ram(0x400, 7)];
    assert_eq!(refused.map(turns), [0; 6]);
    let none = Some(TxQueueConfiguration { size: 0, ..queue() });
    let refused = [configure_tx_queue(none), queue_push(std(0x800), 5, &BYTES), queue_push_unchecked(HEADER, 5, &[0; 9])];
    assert_eq!(refused.map(turns), [0; 3]);
    let ram = Watch { address: 0x400, ..AGREES[0] };
    assert_eq!([scrub(FIRST, &[], true), scrub(FIRST, &[AGREES[0], ram], true)].map(turns), [0; 2]);
}

/// What is copied at each exchange.
#[test]
fn a_call_is_small() {
    assert!(core::mem::size_of::<Call>() < 200, "{}", core::mem::size_of::<Call>());
}

/// A transmit whose request fails is refused, and the message is in the chip: a request sends it.
#[test]
fn transmitted() {
    for k in 1..=7 {
        let mut m = prepared();
        m.line.fail_at = k;
        let refusal = if k == 4 { Refusal::SpiWrite } else { Refusal::SpiRead };
        assert_eq!(m.transmit(1, HEADER, 5, &BYTES), Err(TransmitRefusal { refusal, accepted: k > 5 }), "exchange {k}");
        assert_eq!(m.request(1), Ok(()));
        assert_eq!(m.line.chip.send(1).map(|frame| frame.seq), if k > 5 { Ok(5) } else { Err(Unsent::Nothing) }, "exchange {k}");
        assert_eq!(m.line.chip.send(1), Err(Unsent::Nothing));
    }
    let mut m = prepared();
    let refused = m.transmit(257, HEADER, 5, &BYTES).unwrap_err();
    assert_eq!(refused, TransmitRefusal { refusal: Refusal::BadNumber, accepted: false });
    assert_eq!(refused.to_string(), "refused 20: BadNumber; the message was not accepted");
    let asked = || -> Result<(), Refusal> { Ok(prepared().transmit(2, HEADER, 5, &BYTES)?) };
    assert_eq!(asked(), Err(Refusal::FifoNotTx));
}

/// What is lent to `finish` is tested again: 28 and 26 change no byte, and the call may be finished again.
#[test]
fn finished_again() {
    let mut line = prepared().line;
    for (start, is_held) in [(peek(2, 64), 1), (get(2, 64), 0)] {
        let (end, received) = turned(&mut line, start, &[]);
        let mut buf = [0x5A; 72];
        for room in [0, 5, 63] {
            assert_eq!(finish(end, &received, &mut buf[..room]), Outcome::Refused(Refusal::BufferTooSmall));
        }
        assert_eq!((buf, line.chip.held(2)), ([0x5A; 72], Ok(is_held)));
        let found = Found { header: HEADER, dlc: 5, filter: 0, stamp: Some(0xA1B2_C3D4), len: 5 };
        assert_eq!(finish(end, &received, &mut buf[..64]), Outcome::Message(found));
        assert_eq!((&buf[..5], &buf[5..]), (&BYTES[..5], &[0x5A; 67][..]));
    }
    // 8 bytes, to the part from 3 on of a buffer of 12
    line.chip.model.ram[..8].copy_from_slice(&BYTES);
    let (end, received) = turned(&mut line, read_ram(0x400, 12, 3, 8), &[]);
    let mut buf = [0x5A; 12];
    for others in [&[][..], &received[..7], &[0; 9]] {
        assert_eq!(finish(end, others, &mut buf), Outcome::Refused(Refusal::WrongAnswer));
    }
    assert_eq!(finish(end, &received, &mut buf[..10]), Outcome::Refused(Refusal::BufferTooSmall));
    assert_eq!(buf, [0x5A; 12]);
    assert_eq!(finish(end, &received, &mut buf), Outcome::Done);
    assert_eq!(buf, [0x5A, 0x5A, 0x5A, 1, 2, 3, 4, 5, 6, 7, 8, 0x5A]);
    // a call that is not over has no outcome yet, and an answer after the end is wrong
    assert_eq!(finish(get(2, 64), &[], &mut buf), Outcome::Running);
    assert_eq!(finish(answer(end, Answer::Exchanged, &[]), &received, &mut buf), Outcome::Refused(Refusal::WrongAnswer));
}

/// "After a failed exchange in a push only the free slot's bytes may differ": those of slot 0, RAM 0 to 15, and only where the last failed.
/// Of the queue, which holds two messages, those of the slot shown, RAM 32 to 47; of an unchecked push also where the read before failed.
#[test]
fn a_failed_push_leaves_the_chip() {
    let mut half = queued();
    assert_eq!((half.queue_push(HEADER, 1, &BYTES), half.queue_push(HEADER, 2, &BYTES)), (Ok(()), Ok(())));
    let half = half.line.chip;
    for (start, call, slot, written, last) in [
        (&prepared().line.chip, (|m| m.push(1, HEADER, 5, &BYTES)) as fn(&mut Driver) -> Result<(), Refusal>, 0, 4, 5),
        (&half, |m| m.queue_push(HEADER, 5, &BYTES), 32, 5, 6),
        (&half, |m| m.queue_push_unchecked(HEADER, 5, &BYTES), 32, 2, 4),
    ] {
        for k in 1..=last {
            let mut mcp = on(start.clone());
            let mut before = mcp.line.chip.model;
            mcp.line.fail_at = k;
            assert!(call(&mut mcp).is_err());
            if k > written {
                assert_ne!(mcp.line.chip.model, before);
                before.ram[slot..slot + 16].copy_from_slice(&mcp.line.chip.model.ram[slot..slot + 16]);
            }
            assert_eq!(mcp.line.chip.model, before, "exchange {k}");
        }
    }
}

/// A mode that the polls show late or never: five polls with four waits; a CRC that mismatches; an echo that differs; a PLL not ready.
#[test]
fn late_and_wrong_answers() {
    let shown = |mut mcp: Driver, call: fn(&mut Driver) -> u32| (call(&mut mcp), mcp.line.exchanges, mcp.line.waits);
    // exchange 1 reads CiCON, 2 writes it, polls are 3 to 7; OPMOD is bits 23..21
    let late = twisted(|k, rx| if (3..7).contains(&k) { rx[2] = 0 });
    assert_eq!(shown(late, |m| told(m.set_op_mode(4))), (0, 7, 4));
    let never = |k, rx: &mut [u8]| if k >= 3 { rx[2] = 0 };
    assert_eq!(shown(twisted(never), |m| told(m.set_op_mode(4))), (12, 7, 4));
    assert_eq!(shown(twisted(never), |m| told(m.configure(settings(false)))), (11, 7, 4));
    // a failed poll is 11, in both
    for call in [|m: &mut Driver| told(m.set_op_mode(4)), |m: &mut Driver| told(m.configure(settings(false)))] {
        for k in 3..=7 {
            let mut mcp = twisted(never);
            mcp.line.fail_at = k;
            assert_eq!(shown(mcp, call), (11, k, k - 3));
        }
    }
    // three tries; a failed one is 1 and stops at once
    assert_eq!(shown(twisted(|k, rx| if k < 3 { rx[0] ^= 1 }), |m| told(m.checked_read(0xE00))), (0, 3, 0));
    assert_eq!(shown(twisted(|_, rx| rx[5] ^= 0x80), |m| told(m.checked_read(0xE00))), (10, 3, 0));
    for k in 1..=3 {
        let mut mcp = twisted(|_, rx| rx[4] ^= 1);
        mcp.line.fail_at = k;
        assert_eq!(shown(mcp, |m| told(m.checked_read(0xE00))), (1, k, 0));
    }
    // the echo of bit 31 is read by exchange 64, the long one by exchange 2
    assert_eq!(shown(twisted(|k, rx| if k == 64 { rx[3] = 0 }), |m| told(m.verify())), (13, 64, 0));
    assert_eq!(shown(twisted(|k, rx| if k == 2 { rx[127] = 0 }), |m| told(m.verify_long())), (13, 2, 0));
    // PLLRDY is bit 8; polls are 3 to 5
    let pll = |m: &mut Driver| told(m.configure_osc(settings(true).oscillator));
    assert_eq!(shown(twisted(|k, rx| if k >= 3 { rx[1] = 0 }), pll), (14, 5, 2));
    assert_eq!(shown(twisted(|k, rx| if (3..5).contains(&k) { rx[1] = 0 }), pll), (0, 5, 2));
}

/// What is refused before any exchange, or later for what the chip answers; no lent byte is changed.
#[test]
fn refusals() {
    let mut buf = [0x5A; 72];
    let mut m = prepared();
    // 257 is 1 in a byte
    for n in [0, 32, 255, 256, 257, 0x1_0001, u32::MAX] {
        assert_eq!((told(m.peek(n, &mut buf[..63])), told(m.get(n, &mut buf[..63])), told(m.has_next(n))), (20, 20, 20));
        assert_eq!((told(m.push(n, HEADER, 5, &BYTES)), told(m.request(n)), told(m.configure_fifo(n, sender()))), (20, 20, 20));
        let to = FilterConfiguration { fifo: n, ..filter() };
        assert_eq!((told(m.transmit(n, HEADER, 5, &BYTES)), told(m.configure_filter(0, to))), (20, 20));
        assert_eq!(m.line.chip.send(n), Err(Unsent::Refused(Refusal::BadNumber)));
        assert_eq!(m.line.chip.deliver(n, HEADER, 8, 0, &BYTES), Err(Undelivered::Refused(Refusal::BadNumber)));
        assert_eq!((told(m.line.chip.held(n)), told(m.line.chip.held_at(n, 0))), (20, 20));
    }
    for n in [32, 255, 256, 257, u32::MAX] {
        assert_eq!((told(m.configure_filter(n, filter())), told(m.disable_filter(n))), (20, 20));
    }
    // 0x105C is CiFIFOCON1 in 12 bits, 0x1_0000 CiCON in 16
    for a in [0x1000, 0x105C, 0xFFFF, 0x1_0000, u32::MAX] {
        assert_eq!((told(m.read_register(a)), told(m.write_register(a, 0))), (24, 24));
        assert_eq!((told(m.modify_register(a, 0, 0)), told(m.checked_read(a))), (24, 24));
    }
    for len in [0, 1, 63] {
        assert_eq!((told(m.peek(2, &mut buf[..len])), told(m.get(2, &mut buf[..len]))), (28, 28));
    }
    assert_eq!(m.read_ram(0x3FF, &mut buf[..3]), Err(Refusal::InvalidRamAddress(0x3FF)));
    assert_eq!(m.read_ram(0xFFFF_FFFC, &mut buf[..8]), Err(Refusal::InvalidRamAddress(0xFFFF_FFFC)));
    assert_eq!(m.read_ram(0x400, &mut buf[..6]), Err(Refusal::InvalidReadLength(6)));
    assert_eq!(m.write_ram(0xBFC, &BYTES), Err(Refusal::InvalidRamAddress(0xBFC)));
    assert_eq!(m.write_ram(0x400, &BYTES[..7]), Err(Refusal::InvalidWriteLength(7)));
    assert_eq!(m.line.exchanges, 0);
    // 9, at the control word
    assert_eq!((told(m.get(1, &mut buf)), told(m.has_next(1)), m.line.exchanges), (9, 9, 2));
    assert_eq!((told(m.push(2, HEADER, 5, &BYTES)), m.line.exchanges), (6, 3));
    // exchange 3 is the user address, 0x400 below the object's, and 4 the header, which still lies in RAM; what follows it does not
    let address = |k, rx: &mut [u8]| match k {
        3 => rx.copy_from_slice(&0x7F8u32.to_le_bytes()),
        4 if rx.len() == 8 => rx[4] = 5,
        _ => {}
    };
    assert_eq!(twisted(address).get(3, &mut buf), Err(Refusal::InvalidRamAddress(0xC00)));
    assert_eq!(twisted(address).get(2, &mut buf), Err(Refusal::InvalidRamAddress(0xC00)));
    assert_eq!(twisted(address).push(1, HEADER, 5, &BYTES), Err(Refusal::InvalidRamAddress(0xBF8)));
    let above = |k, rx: &mut [u8]| if k == 3 { rx.copy_from_slice(&0xFC00u32.to_le_bytes()) };
    assert_eq!((told(twisted(above).get(3, &mut buf)), told(twisted(above).push(1, HEADER, 5, &BYTES))), (25, 25));
    assert_eq!(buf, [0x5A; 72]);
    assert_eq!(Refusal::InvalidRamAddress(3072).to_string(), "refused 3: InvalidRamAddress(3072)");
}

/// A frame that the filters sort. Document 02: 21, 22, 31, 30, then the causes of a delivery; FILHIT is bits 15 to 11 of word 1.
#[test]
fn sorting() {
    let to = |fifo, id| FilterConfiguration { fifo, object: Identifier { extended: false, id }, ..filter() };
    let sort = |m: &mut Driver, id, bytes: &[u8]| {
        let dlc = if bytes.len() > 8 { 9 } else { bytes.len() as u32 };
        m.line.chip.sort(Header { id, fdf: bytes.len() > 9, ..HEADER }, dlc, 7, bytes)
    };
    let for_fifo = |delivery, fifo, filter| Sorted { delivery, fifo, filter };
    let refused = |r| Sorted { delivery: Err(Undelivered::Refused(r)), fifo: 0, filter: 0 };
    let mut m = prepared();
    assert_eq!(sort(&mut m, 0x123, &BYTES), refused(Refusal::NoMatch));
    m.configure_filter(0, filter()).unwrap();
    m.configure_filter(9, to(3, 0x200)).unwrap();
    m.configure_filter(31, to(1, 0x300)).unwrap();
    assert_eq!(sort(&mut m, 0x123, &BYTES), for_fifo(Ok(()), 2, 0));
    assert_eq!(sort(&mut m, 0x223, &BYTES[..5]), for_fifo(Ok(()), 3, 9));
    assert_eq!(slot(&m, 3, 1).header.id, 0x223);
    // FIFO 3 is behind 4 x 16 and 2 x 76 bytes; the frame is in its second slot
    let mut word = [0; 4];
    m.read_ram(0x400 + 64 + 152 + 16 + 4, &mut word).unwrap();
    assert_eq!(u32::from_le_bytes(word), 9 << 11 | 5);
    assert_eq!(sort(&mut m, 0x223, &BYTES), for_fifo(Err(Undelivered::Full), 3, 9));
    assert_eq!(sort(&mut m, 0x223, &[0; 12]), for_fifo(Err(Undelivered::TooLong), 3, 9));
    assert_eq!(sort(&mut m, 0x323, &[0; 12]), for_fifo(Err(Undelivered::NotReceiving), 1, 31));
    m.set_op_mode(4).unwrap();
    assert_eq!(sort(&mut m, 0x323, &[0; 12]), for_fifo(Err(Undelivered::Configuration), 1, 31));
    assert_eq!(sort(&mut m, 0x423, &[0; 12]), refused(Refusal::NoMatch));
    m.modify_register(0x000, 0x1F, 0x10).unwrap();
    assert_eq!(sort(&mut m, 0x423, &[0; 12]), refused(Refusal::DeviceNet));
    assert_eq!(sort(&mut m, 0x423, &[0; 9]), refused(Refusal::BadPayload));
    assert_eq!(sort(&mut m, 0x800, &[0; 9]), refused(Refusal::BadIdentifier));
    assert_eq!((number(Refusal::NoMatch), number(Refusal::DeviceNet)), (30, 31));
}

/// Document 02: a received message says which filter took it, with a timestamp (FIFO 2) and without (FIFO 3); one delivered by name says 0.
#[test]
fn every_filter() {
    for (fifo, time) in [(2, Some(7)), (3, None)] {
        for f in 0..32 {
            let (mut m, mut buf) = (prepared(), [0x5A; 72]);
            m.configure_filter(f, FilterConfiguration { fifo, ..filter() }).unwrap();
            assert_eq!(m.get(fifo, &mut buf).unwrap().unwrap().filter, 0);
            assert_eq!(m.line.chip.sort(HEADER, 5, 7, &BYTES[..5]), Sorted { delivery: Ok(()), fifo, filter: f });
            assert_eq!(m.line.chip.deliver(fifo, HEADER, 5, 7, &BYTES[..5]), Ok(()));
            let filters = [0, 1].map(|k| slot(&m, fifo, k).filter);
            assert_eq!(filters, [f as u8, 0]);
            m.disable_filter(f).unwrap(); // the message keeps the one that took it
            let found = |filter| Ok(Some(Received { header: HEADER, dlc: 5, filter, time, len: 5 }));
            assert_eq!((m.peek(fifo, &mut buf), m.get(fifo, &mut buf)), (found(f as u8), found(f as u8)));
            assert_eq!((m.peek(fifo, &mut buf), m.get(fifo, &mut buf)), (found(0), found(0)));
        }
    }
    // every bit of word 1 above the flags, left by a raw write in FIFO 3's oldest, behind 4 x 16 and 2 x 76 bytes: 15 to 11 alone count
    for high in [0x0200u32, 0x0400, 0x0800, 0x1000, 0x2000, 0x4000, 0x8000, 0x1_0000, 0x8000_0000, 0xFFFF_0600, 0xFFFF_FE00] {
        let (mut m, mut buf) = (prepared(), [0x5A; 72]);
        m.write_ram(0x400 + 64 + 152 + 4, &(high | 5).to_le_bytes()).unwrap();
        let found = Ok(Some(Received { header: HEADER, dlc: 5, filter: (high / 2048 % 32) as u8, time: None, len: 5 }));
        assert_eq!((m.peek(3, &mut buf), m.get(3, &mut buf)), (found, found));
    }
    // a message to send has none, whatever its SEQ
    let mut m = prepared();
    assert!(m.push(1, HEADER, 0x7F_FFFF, &BYTES).is_ok() && m.request(1).is_ok());
    assert_eq!(slot(&m, 1, 0).filter, 0);
    let frame = m.line.chip.send(1).unwrap();
    assert_eq!((frame.seq, frame.filter), (0x7F_FFFF, 0));
}

/// The message `k` places behind the oldest of FIFO n.
fn slot(m: &Driver, n: u32, k: u8) -> Frame {
    m.line.chip.held_at(n, k).unwrap().unwrap().unwrap()
}

/// How many bytes a DLC means: a classic frame has 8 at most; there is none above 15.
fn meant(dlc: u32, fdf: bool) -> Option<usize> {
    const LENGTHS: [usize; 16] = [0, 1, 2, 3, 4, 5, 6, 7, 8, 12, 16, 20, 24, 32, 48, 64];
    LENGTHS.get(dlc as usize).map(|&n| if fdf { n } else { n.min(8) })
}

/// Document 02: 22 where the payload is not as long as the DLC means, or the DLC is above 15; otherwise the message that is held, looked
/// at and taken has the DLC that the frame brought.
#[test]
fn every_dlc() {
    let (mut ready, bytes) = (prepared(), core::array::from_fn::<u8, 72, _>(|i| i as u8 + 1));
    assert!(ready.configure_filter(0, filter()).is_ok() && ready.get(2, &mut [0; 64]).is_ok());
    let ready = ready.line.chip;
    let refused = Err(Undelivered::Refused(Refusal::BadPayload));
    // 264 is 8 in a byte
    let dlcs = (0..=17).chain([31, 255, 256, 264, 0x1_0008, u32::MAX]);
    for (dlc, fdf, len) in dlcs.flat_map(|dlc| (0..146).map(move |k| (dlc, k % 2 == 1, k / 2))) {
        let (header, time, payload) = (Header { fdf, ..HEADER }, 0xA1B2_C3D4, &bytes[..len]);
        let (mut named, mut sorted) = (ready.clone(), ready.clone());
        let deliveries = (named.deliver(2, header, dlc, time, payload), sorted.sort(header, dlc, time, payload).delivery);
        if meant(dlc, fdf) != Some(len) {
            assert_eq!(deliveries, (refused, refused), "DLC {dlc}, {len} bytes, FD: {fdf}");
            assert!(named == ready && sorted == ready);
            continue;
        }
        assert_eq!(deliveries, (Ok(()), Ok(())), "DLC {dlc}, {len} bytes, FD: {fdf}");
        for chip in [named, sorted] {
            let (mut m, mut held) = (on(chip), Payload { len, bytes: [0; 64] });
            held.bytes[..len].copy_from_slice(payload);
            let frame = Frame { header, dlc: dlc as u8, filter: 0, seq: 0, stamp: Some(time), payload: held };
            assert_eq!(slot(&m, 2, 0), frame);
            // its second slot of 76 bytes, behind 4 x 16: word 1 has the DLC in bits 3 to 0
            let mut word = [0; 4];
            m.read_ram(0x400 + 64 + 76 + 4, &mut word).unwrap();
            assert_eq!(u32::from(word[0] % 16), dlc);
            for call in [Driver::peek, Driver::get] {
                let mut buf = [0x5A; 72];
                assert_eq!(call(&mut m, 2, &mut buf), Ok(Some(Received { header, dlc: dlc as u8, filter: 0, time: Some(time), len })));
                assert_eq!((&buf[..len], &buf[len..]), (payload, &[0x5A; 72][len..]));
            }
            assert_eq!(m.get(2, &mut [0; 64]), Ok(None));
        }
    }
}

/// Classic DLCs of 9 to 15 where no frame brought them, and beside what else is refused or turned down; none of them is ever sent.
#[test]
fn classic_dlcs() {
    let found = |dlc, len| Ok(Some(Received { header: HEADER, dlc, filter: 0, time: None, len }));
    // 20, 21, 22 in this order; FIFO 3 has slots for 8 bytes
    let (mut m, far) = (prepared(), Header { id: 0x800, ..HEADER });
    for (fifo, header, refusal) in [(0, far, Refusal::BadNumber), (3, far, Refusal::BadIdentifier), (3, HEADER, Refusal::BadPayload)] {
        assert_eq!(m.line.chip.deliver(fifo, header, 16, 0, &BYTES), Err(Undelivered::Refused(refusal)));
    }
    assert_eq!(m.line.chip.deliver(3, Header { fdf: true, ..HEADER }, 9, 0, &[0; 12]), Err(Undelivered::TooLong));
    assert_eq!(m.line.chip.deliver(3, HEADER, 15, 0, &BYTES), Ok(()));
    assert_eq!(m.line.chip.deliver(3, HEADER, 15, 0, &BYTES), Err(Undelivered::Full));
    let mut buf = [0x5A; 72];
    assert_eq!((m.get(3, &mut buf), m.get(3, &mut buf)), (found(5, 5), found(15, 8)));
    assert_eq!((&buf[..8], &buf[8..]), (&BYTES[..], &[0x5A; 64][..]));
    for dlc in 9..=15 {
        // left by a raw write in word 1 of FIFO 3's oldest, behind 4 x 16 and 2 x 76 bytes: 8 bytes, of which 5 were delivered
        let (mut m, mut buf) = (prepared(), [0x5A; 72]);
        m.write_ram(0x400 + 64 + 152 + 4, &[dlc, 0, 0, 0]).unwrap();
        let frame = slot(&m, 3, 0);
        assert_eq!((frame.dlc, frame.payload.len), (dlc, 8));
        assert_eq!((m.peek(3, &mut buf), m.get(3, &mut buf)), (found(dlc, 8), found(dlc, 8)));
        assert_eq!((&buf[..8], &buf[8..]), (&[1, 2, 3, 4, 5, 0, 0, 0][..], &[0x5A; 64][..]));
    }
    // a bit read wrong in the header's second word, which exchange 4 brings
    let mut m = twisted(|k, rx| if k == 4 { rx[4] ^= 8 });
    assert_eq!((m.get(3, &mut buf), m.line.exchanges), (found(13, 8), 8));
    // a push writes DLC 8 at most, and refuses what is longer before any exchange
    for len in 0..=64 {
        let (mut m, bytes) = (prepared(), [7; 64]);
        if len > 8 {
            assert_eq!((m.push(1, HEADER, 5, &bytes[..len]), m.line.exchanges), (Err(Refusal::BadPayload), 0));
            continue;
        }
        assert_eq!((m.push(1, HEADER, 5, &bytes[..len]), m.request(1)), (Ok(()), Ok(())));
        let frame = m.line.chip.send(1).unwrap();
        assert_eq!((frame.dlc as usize, frame.payload.len), (len, len));
    }
}

/// With a standard identifier, or an extended one.
fn std(id: u32) -> Header {
    Header { id, ..HEADER }
}

fn ext(id: u32) -> Header {
    Header { extended: true, id, ..HEADER }
}

/// What the queue's slots 0 to 3 hold: its SEQ, 0 where that is nothing.
fn slots(m: &Driver) -> [u32; 4] {
    core::array::from_fn(|k| m.line.chip.held_queue_at(k as u8).map_or(0, |slot| slot.map_or(0, |frame| frame.seq)))
}

/// The SEQ of what the queue sends, 0 where nothing is sent.
fn sent(m: &mut Driver) -> u32 {
    match m.line.chip.send_queue() {
        Ok(frame) => frame.seq,
        Err(other) => {
            assert_eq!(other, Unsent::Nothing);
            0
        }
    }
}

/// A safing command, 010, overtakes routine ones; full is 8; the slot that was freed first is filled next, then the lowest free one.
#[test]
fn overtaking() {
    let mut m = queued();
    for (seq, id) in [(1, 0x320), (2, 0x310), (3, 0x320)] {
        assert_eq!(m.queue_push(std(id), seq, &[0xB0]), Ok(()));
    }
    assert_eq!((slots(&m), m.line.chip.held_queue(), sent(&mut m)), ([1, 2, 3, 0], 3, 0)); // not requested
    assert_eq!((m.queue_push(std(0x010), 4, &[0x5A, 0xFE]), slots(&m)), (Ok(()), [1, 2, 3, 4]));
    let full = m.line.chip.model;
    m.line.exchanges = 0;
    assert_eq!((m.queue_push(std(0x011), 5, &[]), m.line.exchanges), (Err(Refusal::FifoFull), 3));
    assert_eq!((m.line.chip.model == full, m.queue_request(), sent(&mut m), sent(&mut m)), (true, Ok(()), 4, 2));
    assert_eq!((m.queue_push(ext(0x18DA_00F1), 5, &[]), slots(&m)), (Ok(()), [1, 0, 3, 5]));
    assert_eq!((m.queue_push(std(0x320), 6, &[]), slots(&m)), (Ok(()), [1, 6, 3, 5]));
    assert_eq!((m.queue_push(std(0x011), 7, &[]), sent(&mut m)), (Err(Refusal::FifoFull), 1));
    // of equal ones the lowest slot: 6 before 3, which came before it
    assert_eq!((m.queue_push(std(0x011), 7, &[]), slots(&m)), (Ok(()), [7, 6, 3, 5]));
    assert_eq!((sent(&mut m), sent(&mut m), sent(&mut m), slots(&m)), (7, 6, 3, [0, 0, 0, 5]));
    // 18DA00F1 has the base 636
    assert_eq!((m.queue_push(std(0x636), 8, &[]), slots(&m)), (Ok(()), [8, 0, 0, 5]));
    assert_eq!((sent(&mut m), sent(&mut m), sent(&mut m), m.line.chip.held_queue()), (8, 5, 0, 0));
    // empty: TXREQ is 0 again
    assert_eq!((m.queue_push(std(0x001), 9, &[]), sent(&mut m)), (Ok(()), 0));
    assert_eq!((m.queue_request(), sent(&mut m)), (Ok(()), 9));
}

/// "Smaller 11-bit base first, at equal base standard before extended, then smaller low 18 bits."
fn rank(h: Header) -> (u32, bool, u32) {
    if h.extended { (h.id >> 18, true, h.id & 0x3_FFFF) } else { (h.id, false, 0) }
}

/// The queue by document 02's words: each slot's message, by header and SEQ, and the slot shown.
struct Slots {
    held: Vec<Option<(Header, u32)>>,
    shown: usize,
}

impl Slots {
    fn is_full(&self) -> bool {
        self.held.iter().all(Option::is_some)
    }

    /// "Shows one free slot until UINC claims it, then the lowest free one; when all are held it goes on showing the last claimed."
    fn push(&mut self, header: Header, seq: u32) -> Result<(), Refusal> {
        if self.is_full() {
            return Err(Refusal::FifoFull);
        }
        self.held[self.shown] = Some((header, seq));
        self.shown = self.held.iter().position(Option::is_none).unwrap_or(self.shown);
        Ok(())
    }

    /// "Full ties by the lowest slot"; when all were held "the first freed comes next".
    fn send(&mut self) -> Option<(Header, u32)> {
        let rank_of = |k: &usize| self.held[*k].map(|(header, _)| rank(header));
        let winner = (0..self.held.len()).filter(|k| self.held[*k].is_some()).min_by_key(|k| (rank_of(k), *k))?;
        if self.is_full() {
            self.shown = winner;
        }
        self.held[winner].take()
    }
}

/// Pushes and sends in any order, from a queue of every size, with identifiers of which many are equal or have an equal base.
#[test]
fn the_queue_by_document_02() {
    const IDS: [(bool, u32); 12] = [
        (false, 0),
        (true, 0),
        (true, 0x3_FFFF),
        (false, 1),
        (true, 0x4_0000),
        (true, 0x4_0001),
        (false, 0x3FF),
        (false, 0x7FE),
        (true, 0x1FFB_FFFF),
        (false, 0x7FF),
        (true, 0x1FFC_0000),
        (true, 0x1FFF_FFFF),
    ];
    let mut seed = 0x9E37_79B9_7F4A_7C15u64;
    let mut next = move |n: u64| {
        seed ^= seed << 13;
        seed ^= seed >> 7;
        seed ^= seed << 17;
        seed % n
    };
    for size in 1..=32 {
        let mut m = with_queue(Some(TxQueueConfiguration { size, ..queue() }));
        let mut by_words = Slots { held: vec![None; size as usize], shown: 0 };
        let mut full = 0;
        for seq in 1..400 {
            // fifty steps that fill it, then fifty that empty it
            if next(8) < if seq / 50 % 2 == 0 { 7 } else { 1 } {
                let (extended, id) = IDS[next(12) as usize];
                let header = Header { extended, id, ..HEADER };
                let expected = by_words.push(header, seq);
                full += u32::from(expected.is_err());
                assert_eq!(m.queue_push(header, seq, &seq.to_le_bytes()), expected, "{size} slots, SEQ {seq}");
            } else {
                assert_eq!(m.queue_request(), Ok(()));
                let sent = m.line.chip.send_queue();
                assert_eq!(sent.ok().map(|frame| (frame.header, frame.seq)), by_words.send(), "{size} slots, at {seq}");
                assert!(sent.map_or_else(
                    |why| why == Unsent::Nothing,
                    |frame| frame.payload.bytes[..4] == frame.seq.to_le_bytes()
                ));
            }
            for k in 0..=32 {
                let slot = m.line.chip.held_queue_at(k).map(|slot| slot.unwrap()).map(|frame| (frame.header, frame.seq));
                assert_eq!(slot, by_words.held.get(k as usize).copied().flatten(), "{size} slots, slot {k} at {seq}");
            }
            assert_eq!(m.line.chip.held_queue() as usize, by_words.held.iter().flatten().count());
        }
        assert!(full > 0 && m.line.chip.held_queue_at(255).is_none());
        // FIFOs as they were
        assert_eq!((m.line.chip.held(1), m.line.chip.held(2), m.line.chip.held(3)), (Ok(0), Ok(1), Ok(1)));
        assert_eq!(m.get(3, &mut [0; 64]), Ok(Some(Received { header: HEADER, dlc: 5, filter: 0, time: None, len: 5 })));
    }
}

/// How a peek or a get ends, and after how many exchanges, where one is held: control is read, and read again, with `first` and `again`, the
/// user address is `user`, the header's second word `second`, and all else 0.
fn fetched(start: Call, [first, user, second, again]: [u32; 4]) -> (u32, u32) {
    let (mut call, mut exchanges) = (start, 0);
    while let Next::Transfer { want, .. } = next(call, &[], &mut [0; 74]) {
        exchanges += 1;
        let word = match exchanges {
            1 => first,
            2 => 1,
            3 => user,
            4 => second,
            5 => again,
            _ => 0,
        };
        let mut rx = [0; 64];
        rx[want.max(4) - 4..][..4].copy_from_slice(&word.to_le_bytes());
        call = answer(call, Answer::Exchanged, &rx[..want]);
    }
    (ended(finish(call, &[], &mut [0; 64])), exchanges)
}

/// Document 02, request 7: 35 where the header means more bytes than PLSIZE, bits 31..29 of control as it is read again; nothing more is
/// asked for then. What fits is read, timestamp and payload.
#[test]
fn beyond_slot() {
    for (plsize, most) in (0..).zip([8, 12, 16, 20, 24, 32, 48, 64]) {
        // DLC, IDE, RTR, BRS, FDF and ESI, with all other bits 0 and 1
        for second in (0..0x200u32).chain((0..0x200).map(|w| !0x1FF | w)) {
            let is_long = meant(second % 16, second & 0x80 != 0).unwrap() > most;
            for (first, rest) in [(0, 0), (7 << 29, 0x20), (!0x80, 0x1FFF_FFDF), (0, 0x1FFF_FFFF)] {
                let (words, stamp) = ([first, 0x100, second, plsize << 29 | rest], rest >> 5 & 1);
                assert_eq!(fetched(peek(2, 64), words), if is_long { (35, 5) } else { (0, 6 + stamp) }, "{words:08x?}");
                assert_eq!(fetched(get(2, 64), words), if is_long { (35, 5) } else { (0, 8 + stamp) }, "{words:08x?}");
            }
        }
    }
    // behind 20, 28, 9, 25 and 3 of the header, before 3 of timestamp or payload: FD, DLC 9 and 8, in a slot for 8 bytes
    let [long, short] = [0x89, 0x88];
    assert_eq!((fetched(get(0, 63), [0, 0, long, 0]), fetched(get(2, 63), [0, 0, long, 0])), ((20, 0), (28, 0)));
    assert_eq!(fetched(get(2, 64), [0x80, 0, long, 0]), (9, 1));
    for (user, n) in [(!0, 25), (0xFC00, 25), (0xFBFF, 3), (0x7F9, 3)] {
        assert_eq!(fetched(get(2, 64), [0, user, long, 0]), (n, 3), "{user:#X}");
    }
    for (user, again, without) in [(0x7F8, 0, (3, 5)), (0x7F8, 0x20, (3, 5)), (0x7F4, 0x20, (3, 6)), (0x7F0, 0, (0, 8)), (0x7EC, 0x20, (0, 9))] {
        assert_eq!(fetched(get(2, 64), [0, user, long, again]), (35, 5), "{user:#X}");
        assert_eq!(fetched(get(2, 64), [0, user, short, again]), without, "{user:#X}");
    }
    // a bit of FIFO 3's oldest is flipped, FDF, where its DLC is 13; back as it was it is got
    let (mut m, mut buf) = (prepared(), [0x5A; 72]);
    let second = 0x400 + 64 + 152 + 4;
    m.write_ram(second, &[0x8D, 0, 0, 0]).unwrap();
    let before = m.line.chip.model;
    let refused = Err(Refusal::LengthBeyondSlot);
    assert_eq!((m.has_next(3), m.peek(3, &mut buf), m.get(3, &mut buf)), (Ok(true), refused, refused));
    assert!(m.line.chip.model == before && buf == [0x5A; 72]);
    m.write_ram(second, &[0x0D, 0, 0, 0]).unwrap();
    assert_eq!(m.get(3, &mut buf), Ok(Some(Received { header: HEADER, dlc: 13, filter: 0, time: None, len: 8 })));
    assert_eq!((number(Refusal::LengthBeyondSlot), Refusal::LengthBeyondSlot.to_string()), (35, "refused 35: LengthBeyondSlot".into()));
}

/// What a call sends, and how it ends, where each read is answered by the next of these words, as long as there are some.
fn talk(start: Call, words: &[u32]) -> (Vec<Vec<u8>>, Outcome) {
    let (mut call, mut sent, mut tx, mut words) = (start, vec![], [0; 74], words.iter());
    while let Next::Transfer { n, want } = next(call, &[], &mut tx) {
        sent.push(tx[..n].to_vec());
        let word = if want == 4 { words.next().map(|w| w.to_le_bytes().to_vec()) } else { Some(vec![]) };
        let Some(rx) = word else { break };
        call = answer(call, Answer::Exchanged, &rx);
    }
    (sent, finish(call, &[], &mut []))
}

/// Byte by byte, as document 02 names the exchanges: 0x000 is CiCON, 0x050 CiTXQCON, 0x054 CiTXQSTA, 0x058 CiTXQUA.
#[test]
fn queue_talks() {
    let (con, control) = (0x06D0_0760, 0x0300_0080);
    let done = |sent: &[&[u8]]| (sent.iter().map(|bytes| bytes.to_vec()).collect(), Outcome::Done);
    let object = [0x24, 0x10, 0x20, 0x03, 0x00, 0x00, 0x01, 0x02, 0x00, 0x00, 0xB1, 0x00, 0x00, 0x00];
    let claim = [0x20, 0x50, 0x80, 0x01, 0x00, 0x03];
    assert_eq!(
        talk(queue_push(std(0x320), 1, &[0xB1]), &[con, control, 1, 0x10]),
        done(&[&[0x30, 0x00], &[0x30, 0x50], &[0x30, 0x54], &[0x30, 0x58], &object, &claim])
    );
    assert_eq!(
        talk(queue_push_unchecked(std(0x320), 1, &[0xB1]), &[0x10, control]),
        done(&[&[0x30, 0x58], &object, &[0x30, 0x50], &claim])
    );
    assert_eq!(talk(queue_request(), &[control]), done(&[&[0x30, 0x50], &[0x20, 0x50, 0x80, 0x02, 0x00, 0x03]]));
    // every bit that is not the call's is written as it was read
    for kept in [0, !0] {
        let written = |address, w: u32| [&[0x20, address][..], &w.to_le_bytes()].concat();
        assert_eq!(talk(queue_request(), &[kept]).0[1], written(0x50, kept | 0x200));
        assert_eq!(talk(queue_push_unchecked(HEADER, 0, &[]), &[0, kept]).0[3], written(0x50, kept | 0x100));
        assert_eq!(talk(queue_push(HEADER, 0, &[]), &[!0, kept, 1, 0]).0[5], written(0x50, kept | 0x100));
        let off = talk(configure_tx_queue(None), &[kept]);
        assert_eq!(off, done(&[&[0x30, 0x00], &written(0x00, kept & !0x0010_0000)]));
        // PLSIZE 31..29, FSIZE 28..24, TXAT 22..21, TXPRI 20..16, TXATIE 4, TXQEIE 2, TXQNIE 0
        let ones = TxQueueConfiguration { size: 32, plsize: 7, txpri: 31, txat: 3, txatie: true, empty: true, notfull: true };
        let none = TxQueueConfiguration { size: 1, ..queue() };
        for (c, bits) in [(none, 0), (ones, 0xFF7F_0015)] {
            let on = talk(configure_tx_queue(Some(c)), &[kept, kept]);
            let control = written(0x50, kept & !0xFF7F_0015 | bits);
            assert_eq!(on, done(&[&[0x30, 0x00], &written(0x00, kept | 0x0010_0000), &[0x30, 0x50], &control]));
        }
    }
}

/// Which bits decide: TXQEN is bit 20 of CiCON, PLSIZE 31..29 of control, bit 0 of status says that there is room; TXEN, bit 7 of control,
/// is not asked for. 34, 7, 8, 25 and 3 in this order.
#[test]
fn queue_words() {
    let refused = |start, words: &[u32]| {
        let (sent, outcome) = talk(start, words);
        (ended(outcome), sent.len())
    };
    let [con, status] = [0x0010_0000, 1];
    for bit in (0..32).map(|b| 1u32 << b) {
        for word in [bit, !bit] {
            let is_on = word & con != 0;
            assert_eq!(refused(queue_push(HEADER, 0, &[]), &[word, 0, status, 0]), if is_on { (0, 6) } else { (34, 1) });
            let has_room = word & 1 != 0;
            assert_eq!(refused(queue_push(HEADER, 0, &[]), &[con, 0, word, 0]), if has_room { (0, 6) } else { (8, 3) });
        }
    }
    let bytes = [0; 64];
    for (plsize, most) in (0..).zip([8, 12, 16, 20, 24, 32, 48, 64]) {
        for len in [0, 7, 8, 12, 16, 20, 24, 32, 48, 64] {
            for control in [plsize << 29, plsize << 29 | 0x1FFF_FFFF] {
                let pushed = refused(queue_push(Header { fdf: true, ..HEADER }, 0, &bytes[..len]), &[con, control, status, 0]);
                assert_eq!(pushed, if len > most { (7, 2) } else { (0, 6) }, "{len} bytes, PLSIZE {plsize}");
            }
        }
    }
    // the object of 12 bytes has 20
    let long = || queue_push(Header { fdf: true, ..HEADER }, 0, &bytes[..12]);
    assert_eq!(refused(long(), &[!con, 0, 0, !0]), (34, 1));
    assert_eq!(refused(long(), &[con, 0, 0, !0]), (7, 2));
    assert_eq!(refused(long(), &[con, !0, 0, !0]), (8, 3));
    for (address, n) in [(!0, 25), (0xFC00, 25), (0xFBFF, 3), (0x800, 3), (0x7F0, 3), (0x7EC, 0)] {
        assert_eq!(refused(long(), &[con, !0, status, address]), if n == 0 { (0, 6) } else { (n, 4) }, "{address:#X}");
        let bare = queue_push_unchecked(Header { fdf: true, ..HEADER }, 0, &bytes[..12]);
        assert_eq!(refused(bare, &[address, 0]), if n == 0 { (0, 4) } else { (n, 1) }, "{address:#X}, unchecked");
    }
    assert_eq!(talk(long(), &[con, !0, status, 0x7F0]).1, Outcome::Refused(Refusal::InvalidRamAddress(0xBF0)));
    assert_eq!((number(Refusal::TxQueueDisabled), Refusal::TxQueueDisabled.to_string()), (34, "refused 34: TxQueueDisabled".into()));
}

/// 21, 24, 22 in this order, and the settings' 24, before any exchange; a size above 32 is 32.
#[test]
fn queue_inputs() {
    let mut m = queued();
    let before = m.line.chip.model;
    for call in [Driver::queue_push, Driver::queue_push_unchecked] {
        for far in [std(0x800), ext(0x2000_0000), std(u32::MAX)] {
            assert_eq!(call(&mut m, far, 0x80_0000, &[0; 9]), Err(Refusal::BadIdentifier));
        }
        for header in [std(0x7FF), ext(0x1FFF_FFFF)] {
            assert_eq!(call(&mut m, header, 0x80_0000, &[0; 9]), Err(Refusal::BadSetting));
            assert_eq!(call(&mut m, header, u32::MAX, &[0; 9]), Err(Refusal::BadSetting));
            assert_eq!(call(&mut m, header, 0x7F_FFFF, &[0; 9]), Err(Refusal::BadPayload));
        }
        for len in 9..=72 {
            let is_length = matches!(len, 12 | 16 | 20 | 24 | 32 | 48 | 64);
            assert_eq!(call(&mut m, HEADER, 0, &[0; 72][..len]), Err(Refusal::BadPayload));
            assert!(is_length || call(&mut m, Header { fdf: true, ..HEADER }, 0, &[0; 72][..len]) == Err(Refusal::BadPayload));
        }
    }
    let wide = [8, 32, 0x100, 0x1_0001, u32::MAX];
    for n in wide {
        for c in [
            TxQueueConfiguration { plsize: n, ..queue() },
            TxQueueConfiguration { txpri: n.max(32), ..queue() },
            TxQueueConfiguration { txat: n.max(4), ..queue() },
            TxQueueConfiguration { size: 0, plsize: n, ..queue() },
        ] {
            assert_eq!(m.configure_tx_queue(Some(c)), Err(Refusal::BadSetting), "{c:?}");
        }
    }
    assert_eq!(m.configure_tx_queue(Some(TxQueueConfiguration { size: 0, ..queue() })), Err(Refusal::BadSetting));
    assert_eq!(m.configure_tx_queue(Some(TxQueueConfiguration { txat: 4, ..queue() })), Err(Refusal::BadSetting));
    assert_eq!((m.line.exchanges, m.line.chip.model == before), (0, true));
    m.set_op_mode(4).unwrap();
    for (size, fsize) in [(1, 0), (31, 30), (32, 31), (33, 31), (0x101, 31), (u32::MAX, 31)] {
        assert_eq!(m.configure_tx_queue(Some(TxQueueConfiguration { size, ..queue() })), Ok(()));
        assert_eq!(m.read_register(0x050).unwrap() >> 24, fsize);
    }
}

/// The queue lies before FIFO 1 where it is on, and counts among what has to fit into RAM; where it is off it has no place, and its status
/// and its user address read 0.
#[test]
fn the_queue_in_ram() {
    // user address of FIFO 1, and the queue's status and user address
    let shown = |m: &mut Driver| [0x064, 0x054, 0x058].map(|address| m.read_register(address).unwrap());
    assert_eq!((shown(&mut prepared()), shown(&mut queued())), ([0, 0, 0], [64, 5, 0]));
    // 12 slots of 72 bytes, then FIFO 1 of 4 x 16 and so on; the third slot
    let mut m = with_queue(Some(TxQueueConfiguration { size: 12, plsize: 7, ..queue() }));
    assert_eq!((m.queue_push(HEADER, 1, &BYTES), m.queue_push(HEADER, 2, &BYTES)), (Ok(()), Ok(())));
    assert_eq!(shown(&mut m), [12 * 72, 1, 2 * 72]);
    // FIFOs 1 to 3 have 64, 152 and 32 bytes here, 4 to 31 have 16 each: 1,352 are left, 18 slots of 72
    for (size, n) in [(18, 0), (19, 12)] {
        let mut m = prepared();
        let deep = TxQueueConfiguration { size, plsize: 7, ..queue() };
        assert_eq!((m.set_op_mode(4), m.configure_tx_queue(Some(deep)), told(m.set_op_mode(0))), (Ok(()), Ok(()), n));
        assert_eq!(m.line.chip.no_layout, u32::from(n == 12));
        assert_eq!((m.set_op_mode(4), m.configure_tx_queue(None), m.set_op_mode(0)), (Ok(()), Ok(()), Ok(())));
    }
}

/// TXQEN changes only in Configuration, and so do size and payload size; `configure` turns the queue off; Configuration empties it.
#[test]
fn the_queue_on_and_off() {
    let is_on = |m: &mut Driver| m.read_register(0x000).unwrap() & 0x0010_0000 != 0;
    let other = TxQueueConfiguration { size: 2, plsize: 3, txpri: 9, txat: 1, txatie: true, empty: true, notfull: true };
    // outside: priority, TXAT and the enables are taken, and nothing else
    let mut m = queued();
    assert_eq!((m.queue_push(HEADER, 1, &BYTES), m.configure_tx_queue(None), is_on(&mut m)), (Ok(()), Ok(()), true));
    assert_eq!((m.configure_tx_queue(Some(other)), m.read_register(0x050)), (Ok(()), Ok(0x0329_0095)));
    assert_eq!((slots(&m), m.queue_push(HEADER, 2, &BYTES), slots(&m)), ([1, 0, 0, 0], Ok(()), [1, 2, 0, 0]));
    let mut m = prepared();
    assert_eq!((m.configure_tx_queue(Some(queue())), is_on(&mut m)), (Ok(()), false));
    m.line.exchanges = 0;
    assert_eq!((m.queue_push(HEADER, 1, &BYTES), m.line.exchanges), (Err(Refusal::TxQueueDisabled), 1));
    assert_eq!((m.queue_request(), m.line.chip.held_queue(), sent(&mut m)), (Ok(()), 0, 0));
    // entering Configuration
    let mut m = queued();
    assert_eq!((m.queue_push(HEADER, 1, &BYTES), m.queue_request(), m.set_op_mode(4)), (Ok(()), Ok(()), Ok(())));
    assert_eq!((m.line.chip.held_queue(), m.read_register(0x050).unwrap() & 0x200, m.set_op_mode(0)), (0, 0, Ok(())));
    assert_eq!((sent(&mut m), m.queue_push(HEADER, 2, &BYTES), slots(&m)), (0, Ok(()), [2, 0, 0, 0]));
    // FRESET
    assert_eq!((m.modify_register(0x050, 0, 0x400), slots(&m), m.line.chip.held_queue()), (Ok(()), [0; 4], 0));
    // turned off by `configure`, and on again behind it
    let mut m = queued();
    assert_eq!((m.configure(settings(false)), is_on(&mut m), m.configure_tx_queue(Some(other))), (Ok(()), false, Ok(())));
    assert_eq!((is_on(&mut m), m.read_register(0x050).unwrap() >> 24, m.set_op_mode(0)), (true, 0x61, Ok(())));
    // a mode that was asked for and not granted is asked for again by the call's first write, and its second finds the sizes frozen
    let mut m = prepared();
    let deep = FifoConfiguration { size: 32, plsize: 7, ..sender() };
    assert_eq!((m.set_op_mode(4), m.configure_fifo(1, deep), told(m.set_op_mode(0))), (Ok(()), Ok(()), 12));
    assert_eq!((m.configure_fifo(1, sender()), m.get_op_mode()), (Ok(()), Ok(4)));
    let mut careful = on(m.line.chip.clone());
    assert_eq!((m.configure_tx_queue(Some(queue())), m.get_op_mode(), m.read_register(0x050).unwrap() >> 24), (Ok(()), Ok(0), 0));
    assert_eq!((careful.set_op_mode(4), careful.configure_tx_queue(Some(queue())), careful.get_op_mode()), (Ok(()), Ok(()), Ok(4)));
    assert_eq!(careful.read_register(0x050).unwrap() >> 24, 3);
}

/// An unchecked push with room is held as a checked one is; with none it overwrites the message that was pushed last; with the queue off,
/// or a payload beyond its slot, what else lies there.
#[test]
fn unchecked() {
    let (mut m, mut other) = (queued(), queued());
    for seq in 1..=4 {
        let header = std(0x700 - seq);
        assert_eq!((m.queue_push(header, seq, &BYTES), other.queue_push_unchecked(header, seq, &BYTES)), (Ok(()), Ok(())));
        assert_eq!(m.line.chip.model, other.line.chip.model);
    }
    assert_eq!((m.queue_push_unchecked(std(0x700), 5, &BYTES), slots(&m), m.line.chip.held_queue()), (Ok(()), [1, 2, 3, 5], 4));
    // refused, and overwritten all the same: the RAM write is exchange 2
    for k in 3..=4 {
        m.line.exchanges = 0;
        m.line.fail_at = k;
        assert_eq!((m.queue_push_unchecked(HEADER, 3 + k, &BYTES), slots(&m)), (Err(Refusal::SpiRead), [1, 2, 3, 3 + k]));
    }
    m.line.fail_at = 0;
    assert_eq!((m.queue_request(), sent(&mut m)), (Ok(()), 7)); // 123, the smallest
    assert_eq!((m.queue_push_unchecked(HEADER, 8, &BYTES), slots(&m)), (Ok(()), [1, 2, 3, 8]));
    // off: the message that FIFO 1 holds in RAM 0x400 is another
    let mut m = prepared();
    assert_eq!((m.push(1, HEADER, 1, &BYTES), m.queue_push_unchecked(std(0x124), 2, &BYTES)), (Ok(()), Ok(())));
    assert_eq!((m.line.chip.held_queue(), m.line.chip.held(1)), (0, Ok(1)));
    assert_eq!(slot(&m, 1, 0).seq, 2);
    // 12 bytes in a slot for 8: its message is no frame, and the next slot's first word is overwritten
    let (mut m, fd) = (queued(), Header { fdf: true, ..HEADER });
    for seq in 1..=3 {
        assert_eq!(m.queue_push(std(0x200 + seq), seq, &BYTES), Ok(()));
    }
    assert_eq!((m.queue_request(), sent(&mut m), m.queue_push(std(0x300), 4, &BYTES)), (Ok(()), 1, Ok(())));
    assert_eq!(slots(&m), [0, 2, 3, 4]);
    assert_eq!(m.queue_push_unchecked(fd, 5, &[0; 12]), Ok(()));
    let reading = |m: &Driver, k| m.line.chip.held_queue_at(k).map(|slot| slot.map(|frame| frame.header.id));
    assert_eq!((reading(&m, 0), reading(&m, 1)), (Some(Err(Undecoded::Short)), Some(Ok(0))));
    // it takes part in arbitration by its identifier bits: 0 of the spoilt one, then 123, which is no frame
    assert_eq!((sent(&mut m), m.line.chip.send_queue(), sent(&mut m), sent(&mut m)), (2, Err(Unsent::NoFrame), 3, 4));
}

/// Filter 0 as `filter()` sets it up: control of filters 0 to 3, of which its byte is cared for; its object; its mask.
const FILTER: [Watch; 3] = [
    Watch { address: 0x1D0, wanted: 0x0000_0082, care: 0x0000_00FF },
    Watch { address: 0x1F0, wanted: 0x0000_0100, care: 0xFFFF_FFFF },
    Watch { address: 0x1F4, wanted: 0x4000_0700, care: 0xFFFF_FFFF },
];

fn filtering() -> Driver {
    let mut m = prepared();
    m.configure_filter(0, filter()).unwrap();
    m.line.exchanges = 0;
    m
}

/// One step from a place, and the place after it.
fn step(m: &mut Driver, place: usize, list: &[Watch], rewrite: bool) -> (Result<Report, Refusal>, usize) {
    let mut s = Scrubber { place };
    (m.scrub(&mut s, list, rewrite), s.place)
}

fn agree(address: u16, mismatches: u8) -> Result<Report, Refusal> {
    Ok(Report::Agree { address, mismatches })
}

fn differ(address: u16, read: u32, wanted: u32, mismatches: u8, rewrite: Rewrite) -> Result<Report, Refusal> {
    Ok(Report::Differ { address, read, wanted, mismatches, rewrite })
}

/// Document 02: n successive steps that are not refused visit each of n entries once, whatever is called between; with a shorter list a
/// place beyond its end starts again at the first; a list that grew goes on with its new entries.
#[test]
fn scrubbed_in_turn() {
    for start in [0, 1, 2, 3, 4, 255, 1 << 31, usize::MAX] {
        let (mut m, mut s) = (filtering(), Scrubber { place: start });
        let mut visits = [0; 3];
        for k in 0..6 {
            let due = (k + if start < 3 { start } else { 0 }) % 3;
            // steps that are refused, which move nothing, and calls of other kinds; after the reset no entry agrees
            let odd = [FILTER[0], Watch { address: 0x1F2, ..FILTER[1] }];
            assert_eq!((told(m.scrub(&mut s, &[], true)), told(m.scrub(&mut s, &odd, true))), (32, 33));
            assert_eq!((told(m.get(2, &mut [0; 64])), told(m.transmit(1, HEADER, 5, &BYTES)), told(m.checked_read(0))), (0, 0, 0));
            assert_eq!((m.line.chip.send(1).is_ok(), m.reset()), (true, Ok(())));
            m.line.exchanges = 0;
            let Ok(Report::Differ { address, .. }) = m.scrub(&mut s, &FILTER, false) else { panic!("place {start}, step {k}") };
            assert_eq!((u32::from(address), s.place, m.line.exchanges), (FILTER[due].address, due + 1, 1));
            visits[due] += 1;
            m = filtering();
        }
        assert_eq!(visits, [2; 3]);
    }
    let mut m = filtering();
    for (list, place, address, after) in [
        (&FILTER[..1], 0, 0x1D0, 1),
        (&FILTER[..1], 1, 0x1D0, 1),
        (&FILTER[..2], 1, 0x1F0, 2),
        (&FILTER[..3], 2, 0x1F4, 3),
        (&FILTER[..2], 3, 0x1D0, 1),
        (&FILTER[1..], 1, 0x1F4, 2),
        (&FILTER[1..], 2, 0x1F0, 1),
    ] {
        assert_eq!(step(&mut m, place, list, true), (agree(address, 0), after), "{} entries, place {place}", list.len());
    }
}

/// A flipped cared-for bit is always reported, and no other; told so, exactly the cared-for bits are rewritten, whatever the wanted word
/// has beside them.
#[test]
fn every_flipped_bit() {
    // control of FIFO 4 and of the queue, which no other call set up, and those that only hold what is written
    for (address, kept) in
        [(0x004, !0), (0x00C, !0), (0x01C, !0), (0x1F0, !0), (0x2EC, !0), (0xE04, !0), (0x080, 0x1F00_0000), (0x050, 0x1F00_0000)]
    {
        let mut m = filtering();
        m.set_op_mode(4).unwrap();
        let right = m.read_register(address).unwrap();
        for bit in (0..32).map(|b| 1 << b).filter(|bit| kept & bit != 0) {
            for care in [0, 1, bit, bit | 1, !bit, 0xFFFF_0000, 0x0000_FFFF, !0] {
                let wrong = right ^ bit;
                // beside the cared-for bits nothing is wanted: there the word is another in every bit
                let wanted = right & care | !right & !care;
                let list = [Watch { address, wanted, care }];
                m.write_register(address, wrong).unwrap();
                m.line.exchanges = 0;
                let is_seen = bit & care != 0;
                let seen = |rewrite| if is_seen { differ(address as u16, wrong, wanted, 0, rewrite) } else { agree(address as u16, 0) };
                assert_eq!(step(&mut m, 0, &list, false), (seen(Rewrite::None), 1));
                assert_eq!((m.line.exchanges, m.read_register(address)), (1, Ok(wrong)));
                m.line.exchanges = 0;
                assert_eq!(step(&mut m, 0, &list, true), (seen(Rewrite::Back(right, 0)), 1));
                assert_eq!((m.line.exchanges, m.read_register(address)), if is_seen { (3, Ok(right)) } else { (1, Ok(wrong)) });
            }
        }
    }
    // a bit that can't be had: what is read back is told as it is. FIFO 2 holds a message: status bit 0
    let status = [Watch { address: 0x06C, wanted: 0, care: 1 }];
    assert_eq!(step(&mut prepared(), 0, &status, true), (differ(0x06C, 1, 0, 0, Rewrite::Back(1, 0)), 1));
    // a rewrite is a write as any other: a mode asked for, a FIFO emptied by FRESET
    let mut m = prepared();
    let mode = [Watch { address: 0x000, wanted: 0x0400_0000, care: 0x0700_0000 }];
    assert!(matches!(step(&mut m, 0, &mode, true).0, Ok(Report::Differ { rewrite: Rewrite::Back(w, 0), .. }) if w >> 21 & 7 == 4));
    assert_eq!((m.get_op_mode(), m.line.chip.held(2)), (Ok(4), Ok(0)));
    let (mut m, empty) = (prepared(), [Watch { address: 0x068, wanted: 0x400, care: 0x400 }]);
    assert!(matches!(step(&mut m, 0, &empty, true).0, Ok(Report::Differ { rewrite: Rewrite::Back(w, 0), .. }) if w & 0x400 == 0));
    assert_eq!(m.line.chip.held(2), Ok(0));
}

/// A filter's mask flips, and a frame goes to a FIFO where it does not belong; after a rewrite it does not.
#[test]
fn a_filter_mended() {
    let (mut m, mut s) = (filtering(), FIRST);
    let other = Header { id: 0x501, ..HEADER };
    assert_eq!(m.line.chip.sort(other, 8, 0, &BYTES).delivery, Err(Undelivered::Refused(Refusal::NoMatch)));
    m.write_register(0x1F4, 0x4000_0300).unwrap();
    assert_eq!(m.line.chip.sort(other, 8, 0, &BYTES).delivery, Ok(()));
    let steps = [m.scrub(&mut s, &FILTER, true), m.scrub(&mut s, &FILTER, true), m.scrub(&mut s, &FILTER, true)];
    assert_eq!(steps, [agree(0x1D0, 0), agree(0x1F0, 0), differ(0x1F4, 0x4000_0300, 0x4000_0700, 0, Rewrite::Back(0x4000_0700, 0))]);
    assert_eq!(m.line.chip.sort(other, 8, 0, &BYTES).delivery, Err(Undelivered::Refused(Refusal::NoMatch)));
    let steps = [m.scrub(&mut s, &FILTER, true), m.scrub(&mut s, &FILTER, true), m.scrub(&mut s, &FILTER, true)];
    assert_eq!((steps, s.place), ([agree(0x1D0, 0), agree(0x1F0, 0), agree(0x1F4, 0)], 3));
}

/// What goes wrong on the line is the entry's visit, and is reported. READ_CRC's answer has its CRC in bytes 4 and 5: a checked read is
/// tried three times, before the write and behind it.
#[test]
fn scrubbed_amiss() {
    let (one, wanted) = (&DIFFERS, DIFFERS[0].wanted);
    let (read, right) = (0x003E_0F0F, 0x003E_0F0E);
    let unread = |why| Ok(Report::Unread { address: 0x004, why });
    let differs = |mismatches, rewrite| differ(0x004, read, wanted, mismatches, rewrite);
    let lost = |mismatches, why| differs(mismatches, Rewrite::Unread(why));
    const TWISTS: [fn(u32, &mut [u8]); 4] = [
        |_, rx| if rx.len() == 6 { rx[5] ^= 0x80 },
        |k, rx| if k < 3 { rx[0] ^= 1 },
        |k, rx| if k > 1 && rx.len() == 6 { rx[3] ^= 1 },
        |k, rx| if k < 3 || k == 5 || k == 6 { rx[4] ^= 1 },
    ];
    let back = |mismatches| Rewrite::Back(right, mismatches);
    for (twist, fail_at, seen, exchanges, after) in [
        (as_it_is as fn(u32, &mut [u8]), 1, unread(Refusal::SpiRead), 1, read),
        (as_it_is, 2, lost(0, Refusal::SpiRead), 2, read),
        (as_it_is, 3, lost(0, Refusal::SpiRead), 3, right),
        (TWISTS[0], 0, unread(Refusal::CrcMismatch), 3, read),
        (TWISTS[0], 3, unread(Refusal::SpiRead), 3, read),
        (TWISTS[1], 0, differs(2, back(0)), 5, right),
        (TWISTS[2], 0, lost(0, Refusal::CrcMismatch), 5, right),
        (TWISTS[2], 5, lost(0, Refusal::SpiRead), 5, right),
        (TWISTS[3], 0, differs(2, back(2)), 7, right),
        (TWISTS[3], 4, lost(2, Refusal::SpiRead), 4, read),
        (TWISTS[3], 7, lost(2, Refusal::SpiRead), 7, right),
    ] {
        let mut m = twisted(twist);
        m.line.fail_at = fail_at;
        assert_eq!(step(&mut m, 0, one, true), (seen, 1), "exchange {fail_at} fails");
        assert_eq!((m.line.exchanges, m.line.waits), (exchanges, 0), "{seen:?}");
        m.line.twist = as_it_is;
        assert_eq!(m.read_register(0x004), Ok(after), "{seen:?}");
    }
    // not told to rewrite
    for (twist, fail_at, seen, exchanges) in [
        (TWISTS[0], 0, unread(Refusal::CrcMismatch), 3),
        (TWISTS[0], 2, unread(Refusal::SpiRead), 2),
        (TWISTS[1], 0, differs(2, Rewrite::None), 3),
    ] {
        let mut m = twisted(twist);
        m.line.fail_at = fail_at;
        assert_eq!((step(&mut m, 0, one, false), m.line.exchanges), ((seen, 1), exchanges), "{seen:?}");
    }
    // all entries, each read of which fails, are visited
    let (mut m, mut s) = (filtering(), FIRST);
    for watch in FILTER.iter().chain(&FILTER) {
        m.line.fail_at = m.line.exchanges + 1;
        assert_eq!(m.scrub(&mut s, &FILTER, true), Ok(Report::Unread { address: watch.address as u16, why: Refusal::SpiRead }));
    }
}

/// OSC as after a reset, behind so many mismatches.
const fn osc(mismatches: u8) -> Result<Checked, Refusal> {
    Ok(Checked { word: 0x0000_0460, mismatches })
}

/// Exchanges that mismatch, by a bit each, one that fails, what a checked read of OSC then answers, and after how many exchanges. Document
/// 02: 0, 1 or 2, "equal to the mismatches in the answers given"; document 01: the third is 10, any other failure stops at once.
const READS: [(u32, u32, Result<Checked, Refusal>, u32); 14] = [
    (0b0000, 0, osc(0), 1),
    (0b0010, 0, osc(1), 2),
    (0b0110, 0, osc(2), 3),
    (0b1110, 0, Err(Refusal::CrcMismatch), 3),
    (0b0000, 1, Err(Refusal::SpiRead), 1),
    (0b0010, 2, Err(Refusal::SpiRead), 2),
    (0b0110, 3, Err(Refusal::SpiRead), 3),
    (0b1110, 2, Err(Refusal::SpiRead), 2),
    // what would go wrong behind the end is not asked for
    (0b1100, 0, osc(0), 1),
    (0b1010, 0, osc(1), 2),
    (0b1000, 2, osc(0), 1),
    (0b0010, 3, osc(1), 2),
    (0b0110, 4, osc(2), 3),
    (0b1110, 4, Err(Refusal::CrcMismatch), 3),
];

/// Each after each other, so that a count which stayed from the call before would be seen.
#[test]
fn mismatches_told() {
    let mut m = prepared();
    for (first, first_fails, first_answer, _) in READS {
        for (second, fail_at, second_answer, exchanges) in READS {
            amiss(&mut m, first, first_fails);
            assert_eq!(m.checked_read(0xE00), first_answer);
            amiss(&mut m, second, fail_at);
            assert_eq!(m.checked_read(0xE00), second_answer, "{second:#b}, exchange {fail_at} fails, behind {first:#b}");
            assert_eq!((m.line.exchanges, m.line.waits), (exchanges, 0), "{second:#b}, exchange {fail_at} fails");
        }
    }
    amiss(&mut m, 0b0110, 0);
    assert_eq!((m.checked_read(0x105C), m.line.exchanges), (Err(Refusal::BadSetting), 0));
    assert_eq!((m.read_register(0xE00), m.get_op_mode(), m.line.exchanges), (Ok(0x0000_0460), Ok(0), 2)); // no CRC, no count
}

/// In a loop of one's own, whichever bit of the answers is wrong: after 0, 1 or 2 mismatches the right answer is done and tells them, an
/// answer of another length or kind is 26, a failed one is 1, all at once; a third mismatch is 10.
#[test]
fn mismatches_of_ones_own() {
    let over = |call| (turns(call), finish(call, &[], &mut []));
    let refused = |why| (0, Outcome::Refused(why));
    let right = [0x60, 0x04, 0x00, 0x00, 0x6C, 0x41]; // OSC as after a reset, low byte first, and its CRC
    for bit in 0..48 {
        let (mut call, mut wrong) = (checked_read(0xE00), right);
        wrong[bit / 8] ^= 1 << (bit % 8);
        for mismatches in 0..3 {
            assert_eq!(over(call), (3 - u32::from(mismatches), Outcome::Running));
            let done = answer(call, Answer::Exchanged, &right);
            assert_eq!(over(done), (0, Outcome::Checked(0x0000_0460, mismatches)), "bit {bit}");
            assert_eq!(over(answer(done, Answer::Exchanged, &right)), refused(Refusal::WrongAnswer));
            for len in [0, 1, 2, 3, 4, 5, 7, 8] {
                let other = [0x60, 0x04, 0x00, 0x00, 0x6C, 0x41, 0x00, 0x00];
                assert_eq!(over(answer(call, Answer::Exchanged, &other[..len])), refused(Refusal::WrongAnswer), "{len} bytes");
            }
            assert_eq!(over(answer(call, Answer::Waited, &[])), refused(Refusal::WrongAnswer));
            assert_eq!(over(answer(call, Answer::Failed, &right)), refused(Refusal::SpiRead));
            call = answer(call, Answer::Exchanged, &wrong);
        }
        assert_eq!(over(call), refused(Refusal::CrcMismatch), "bit {bit}");
    }
}

/// So many exchanges that mismatch, from `at` on.
fn in_a_row(at: u8, mismatches: u8) -> u32 {
    ((1 << mismatches) - 1) << at
}

/// A scrub step tells the mismatches of the visit, and of the read-back its own; per entry, and none of the step or the call before.
#[test]
fn mismatches_scrubbed() {
    let (wanted, read, right) = (DIFFERS[0].wanted, 0x003E_0F0F, 0x003E_0F0E);
    for visit in 0..3 {
        for back in 0..3 {
            let mut m = prepared();
            // the word is exchange visit + 1, the write follows it
            amiss(&mut m, in_a_row(1, visit) | in_a_row(visit + 3, back), 0);
            let seen = differ(0x004, read, wanted, visit, Rewrite::Back(right, back));
            assert_eq!((step(&mut m, 0, &DIFFERS, true), m.line.exchanges), ((seen, 1), u32::from(visit + back) + 3));
            // a third mismatch, or a failure, of the read-back tells its number; what the visit counted stays told
            for (mismatches, fail_at, why) in [(3, 0, Refusal::CrcMismatch), (back, visit + 3 + back, Refusal::SpiRead)] {
                let mut m = prepared();
                amiss(&mut m, in_a_row(1, visit) | in_a_row(visit + 3, mismatches), fail_at.into());
                assert_eq!(step(&mut m, 0, &DIFFERS, true), (differ(0x004, read, wanted, visit, Rewrite::Unread(why)), 1));
            }
            // the next step begins anew; now the register agrees
            amiss(&mut m, in_a_row(1, back), 0);
            assert_eq!((step(&mut m, 0, &DIFFERS, true), m.line.exchanges), ((agree(0x004, back), 1), u32::from(back) + 1));
        }
        let mut m = prepared();
        amiss(&mut m, in_a_row(1, visit), 0);
        assert_eq!(step(&mut m, 0, &DIFFERS, false), (differ(0x004, read, wanted, visit, Rewrite::None), 1));
    }
    let (mut m, mut s) = (filtering(), FIRST);
    for (k, mismatches) in [2, 0, 1, 3, 1, 2, 0, 3, 0].into_iter().enumerate() {
        let address = FILTER[k % 3].address as u16;
        let unread = Ok(Report::Unread { address, why: Refusal::CrcMismatch });
        amiss(&mut m, in_a_row(1, mismatches), 0);
        assert_eq!(m.scrub(&mut s, &FILTER, true), if mismatches < 3 { agree(address, mismatches) } else { unread }, "step {k}");
        // a call between counts its own
        amiss(&mut m, in_a_row(1, 2 - k as u8 % 3), 0);
        assert_eq!(m.checked_read(0xE00), osc(2 - k as u8 % 3));
    }
}

/// The same in a loop of one's own, where an answer may have another length: the visit's is then unread, and tells no count; of the
/// read-back none is told, and of the visit what it counted.
#[test]
fn mismatches_scrubbed_of_ones_own() {
    let over = |call| (turns(call), finish(call, &[], &mut []));
    let unread = |why| (0, Outcome::Scrubbed(Report::Unread { address: 0x004, why }));
    let differs = |mismatches, rewrite| {
        let (read, wanted) = (0x003E_0F0F, DIFFERS[0].wanted);
        (0, Outcome::Scrubbed(Report::Differ { address: 0x004, read, wanted, mismatches, rewrite }))
    };
    let mut right = [0; 6];
    prepared().line.chip.transfer(&[0xB0, 0x04, 4], &mut right).unwrap();
    assert_eq!(right[..4], [0x0F, 0x0F, 0x3E, 0x00]);
    let wrong = [right[0] ^ 1, right[1], right[2], right[3], right[4], right[5]];
    let mut visit = scrub(FIRST, &DIFFERS, true);
    for before in 0..3 {
        assert_eq!(over(visit), (7 - u32::from(before), Outcome::Running));
        for (answered, rx) in [(Answer::Exchanged, &right[..5]), (Answer::Exchanged, &[]), (Answer::Waited, &[])] {
            assert_eq!(over(answer(visit, answered, rx)), unread(Refusal::WrongAnswer));
        }
        assert_eq!(over(answer(visit, Answer::Failed, &right)), unread(Refusal::SpiRead));
        let written = answer(visit, Answer::Exchanged, &right);
        assert_eq!(over(written), (4, Outcome::Running));
        assert_eq!(over(answer(written, Answer::Exchanged, &right)), differs(before, Rewrite::Unread(Refusal::WrongAnswer)));
        let mut back = answer(written, Answer::Exchanged, &[]);
        for between in 0..3 {
            assert_eq!(over(back), (3 - u32::from(between), Outcome::Running));
            // the register did not take the write, and is read back as it was
            assert_eq!(over(answer(back, Answer::Exchanged, &right)), differs(before, Rewrite::Back(0x003E_0F0F, between)));
            assert_eq!(over(answer(back, Answer::Exchanged, &right[..5])), differs(before, Rewrite::Unread(Refusal::WrongAnswer)));
            assert_eq!(over(answer(back, Answer::Failed, &right)), differs(before, Rewrite::Unread(Refusal::SpiRead)));
            back = answer(back, Answer::Exchanged, &wrong);
        }
        assert_eq!(over(back), differs(before, Rewrite::Unread(Refusal::CrcMismatch)));
        visit = answer(visit, Answer::Exchanged, &wrong);
    }
    assert_eq!(over(visit), unread(Refusal::CrcMismatch));
}

/// The registers of document 01 and the transmit queue's three, by their addresses.
fn is_carried(a: u32) -> bool {
    a % 4 == 0 && matches!(a, 0x000..=0x00C | 0x014 | 0x01C | 0x050..=0x2EC | 0xE00 | 0xE04)
}

/// 32, then 33, which any entry's address makes, the one that is due or another; nothing is exchanged, nothing is moved.
#[test]
fn scrubs_refused() {
    let mut m = filtering();
    for place in [0, 1, 2, 3, 7, usize::MAX] {
        assert_eq!(step(&mut m, place, &[], true), (Err(Refusal::EmptyList), place));
    }
    // 0x105C is CiFIFOCON1 in 12 bits, 0x1_0000 CiCON in 16
    for address in (0..0x2000).chain([0xFFFF, 0x1_0000, 0x1_01D0, 0x1000_0000, u32::MAX - 3, u32::MAX]) {
        for bad in 0..3 {
            for place in 0..4 {
                let mut list = FILTER;
                list[bad] = Watch { address, wanted: 0, care: 0 };
                let due = if place < 3 { place } else { 0 };
                let due_address = list[due].address as u16;
                let refused = (Err(Refusal::NotCarried), place);
                assert_eq!(step(&mut m, place, &list, true), if is_carried(address) { (agree(due_address, 0), due + 1) } else { refused });
            }
        }
        // and the chip has that register
        if (0..0x400).contains(&address) || (0xC00..0x1000).contains(&address) {
            let read = m.line.chip.transfer(&[0x30 | (address >> 8) as u8, address as u8], &mut [0; 4]);
            assert_eq!(read.is_ok(), is_carried(address), "{address:#X}");
        }
    }
    m.line.exchanges = 0;
    assert_eq!(step(&mut m, 0, &[FILTER[0], FILTER[1], Watch { address: 0xE14, ..FILTER[2] }], true).0, Err(Refusal::NotCarried));
    assert_eq!((m.line.exchanges, number(Refusal::EmptyList), number(Refusal::NotCarried)), (0, 32, 33));
}

/// In a loop of one's own the scrubber comes out of the call: as it was until the step reports, and where it is refused; and an answer
/// after the end is wrong, and moves nothing more.
#[test]
fn a_scrubber_of_ones_own() {
    let mut line = filtering().line;
    let place = |call| scrubber(call).place;
    let start = scrub(Scrubber { place: 1 }, &FILTER, true);
    assert_eq!((place(start), finish(start, &[], &mut [])), (1, Outcome::Running));
    let (end, received) = turned(&mut line, start, &[]);
    assert_eq!((place(end), finish(end, &received, &mut [])), (2, Outcome::Scrubbed(Report::Agree { address: 0x1F0, mismatches: 0 })));
    for answered in [Answer::Exchanged, Answer::Waited, Answer::Failed] {
        let late = answer(end, answered, &[]);
        assert_eq!((place(late), turns(late), finish(late, &[], &mut [])), (2, 0, Outcome::Refused(Refusal::WrongAnswer)));
    }
    // an answer of another length or kind is that entry's visit: 26, and nothing is asked for behind it
    let short = answer(start, Answer::Exchanged, &[0; 5]);
    let unread = Outcome::Scrubbed(Report::Unread { address: 0x1F0, why: Refusal::WrongAnswer });
    assert_eq!((place(short), turns(short), finish(short, &[], &mut [])), (2, 0, unread));
    let waited = answer(start, Answer::Waited, &[]);
    assert_eq!((place(waited), turns(waited), finish(waited, &[], &mut [])), (2, 0, unread));
    // what goes out; the scrubber stays between two exchanges
    let (mut call, mut tx) = (scrub(Scrubber { place: 4 }, &DIFFERS, true), [0; 6]);
    for (sent, want) in [(&[0xB0, 0x04, 4][..], 6), (&[0x20, 0x04, 0x0E, 0x0F, 0x3E, 0x00], 0), (&[0xB0, 0x04, 4], 6)] {
        assert_eq!((place(call), next(call, &[], &mut tx)), (4, Next::Transfer { n: sent.len(), want }));
        assert_eq!(&tx[..sent.len()], sent);
        let mut rx = vec![0; want];
        line.chip.transfer(sent, &mut rx).unwrap();
        call = answer(call, Answer::Exchanged, &rx);
    }
    assert_eq!((place(call), turns(call)), (1, 0));
    for list in [&[][..], &[FILTER[0], Watch { address: 0x04C, ..FILTER[0] }]] {
        let refused = scrub(Scrubber { place: 9 }, list, false);
        assert_eq!((place(refused), turns(refused), place(answer(refused, Answer::Exchanged, &[]))), (9, 0, 9));
    }
    assert_eq!((place(reset()), place(get(2, 64)), place(push(1, HEADER, 5, &BYTES))), (0, 0, 0));
}

/// What a call that is done leaves in the lent buffer; an empty FIFO.
#[test]
fn lent_bytes() {
    let mut m = prepared();
    let received = |time| Ok(Some(Received { header: HEADER, dlc: 5, filter: 0, time, len: 5 }));
    for (fifo, time) in [(2, Some(0xA1B2_C3D4)), (3, None)] {
        let mut buf = [0x5A; 72];
        assert_eq!(m.has_next(fifo), Ok(true));
        assert_eq!(m.peek(fifo, &mut buf), received(time));
        assert_eq!((&buf[..5], &buf[5..]), (&BYTES[..5], &[0x5A; 67][..]));
        buf = [0x5A; 72];
        assert_eq!(m.get(fifo, &mut buf[..64]), received(time));
        assert_eq!((&buf[..5], &buf[5..]), (&BYTES[..5], &[0x5A; 67][..]));
        buf = [0x5A; 72];
        assert_eq!((m.has_next(fifo), m.peek(fifo, &mut buf), m.get(fifo, &mut buf)), (Ok(false), Ok(None), Ok(None)));
        assert_eq!(buf, [0x5A; 72]);
    }
    let mut buf = [0x5A; 72];
    assert_eq!((m.write_ram(0xBF8, &BYTES), m.read_ram(0xBF8, &mut buf[..8])), (Ok(()), Ok(())));
    assert_eq!((&buf[..8], &buf[8..]), (&BYTES[..], &[0x5A; 64][..]));
    // all of the RAM; length 0 in range is an exchange
    let (whole, mut all) = (core::array::from_fn::<u8, 2048, _>(|i| (i * 7 / 3) as u8), [0; 2048]);
    m.line.exchanges = 0;
    assert_eq!((m.write_ram(0x400, &whole), m.read_ram(0x400, &mut all), m.read_ram(0xC00, &mut [])), (Ok(()), Ok(()), Ok(())));
    assert_eq!((all == whole, m.line.exchanges), (true, 3));
}

/// A call, how many bytes of `tx` and of `rx` it needs, and what it is refused by where `tx` is too short for its longest exchange.
type Scratch = (fn() -> Call, [usize; 2], u32);
const SCRATCH: [Scratch; 7] = [
    (|| push(1, HEADER, 5, &BYTES), [18, 4], 2), // the command's 2 and the object's 16
    (|| queue_push(HEADER, 5, &BYTES), [18, 4], 2),
    (|| queue_push_unchecked(HEADER, 5, &BYTES), [18, 4], 2),
    (|| get(3, 64), [6, 8], 1),
    (|| write_ram(0x400, 8), [10, 0], 2),
    (|| read_ram(0x400, 64, 3, 60), [2, 60], 1),
    (|| scrub(FIRST, &DIFFERS, true), [6, 6], 1),
];

/// Scratch of every length: a call for which it is too short is refused as if the exchange had failed, with nothing sent.
#[test]
fn short_scratch() {
    for room in 0..=80 {
        for (start, [tx, rx], failed) in SCRATCH {
            let run = |tx_room: usize, rx_room: usize| {
                let (mut m, mut buf) = (queued(), [0x5A; 64]);
                let (tx, rx) = (&mut [0; 80][..tx_room], &mut [0; 80][..rx_room]);
                let end = run(&mut m.line, start(), &BYTES, &mut buf, tx, rx);
                (end, buf == [0x5A; 64], m.line.exchanges)
            };
            let refused = |(end, kept, _)| (ended(end) == failed || ended(end) == 1) && kept;
            assert_eq!(refused(run(room, 80)), room < tx, "tx of {room}");
            assert_eq!(refused(run(80, room)), room < rx, "rx of {room}");
            assert_eq!(run(room.min(1), 80).2, 0);
        }
    }
    // what a RAM write sends is lent when it is sent: shorter than it was started with, nothing goes out
    let mut m = prepared();
    let end = run(&mut m.line, write_ram(0x400, 8), &BYTES[..7], &mut [], &mut [0; 80], &mut []);
    assert_eq!((end, m.line.exchanges), (Outcome::Refused(Refusal::SpiWrite), 0));
}

/// The modelled chip's own answers.
#[test]
fn the_chip() {
    let mut m = prepared();
    assert_eq!(m.push(1, HEADER, 5, &BYTES), Ok(()));
    let frame = slot(&m, 1, 0);
    assert_eq!((frame.header, frame.seq, frame.payload.len), (HEADER, 5, 8));
    assert_eq!(frame.dlc, 8);
    assert_eq!(frame.payload.bytes[..8], BYTES);
    assert_eq!(m.line.chip.held_at(1, 1), Ok(None));
    assert_eq!((m.line.chip.held(0), m.line.chip.held_at(32, 0)), (Err(Refusal::BadNumber), Err(Refusal::BadNumber)));
    assert_eq!(m.line.chip.send(1), Err(Unsent::Nothing)); // not requested
    // a classic DLC of 9 in the slot: taken, and no frame
    assert_eq!((m.request(1), m.write_ram(0x404, &[9, 0, 0, 0])), (Ok(()), Ok(())));
    assert_eq!(m.line.chip.held_at(1, 0), Ok(Some(Err(Undecoded::NoFrame))));
    assert_eq!((m.line.chip.send(1), m.line.chip.send(1)), (Err(Unsent::NoFrame), Err(Unsent::Nothing)));
    assert_eq!(m.line.chip.send(0), Err(Unsent::Refused(Refusal::BadNumber)));
    // 22 messages of 64 bytes do not fit: 27 on the chip's side, 12 on the driver's
    let deep = FifoConfiguration { size: 22, plsize: 7, ..sender() };
    assert_eq!((m.set_op_mode(4), m.configure_fifo(1, deep), told(m.set_op_mode(0))), (Ok(()), Ok(()), 12));
    assert_eq!((m.line.chip.no_layout, m.get_op_mode()), (1, Ok(4)));
}
