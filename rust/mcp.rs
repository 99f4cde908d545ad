//! The Rust user's side: one loop over the user's SPI, and a method for each call.
use crate::calls;
use crate::calls::{answer_lent, body_of, finish_lent, next_lent, numbers_of, Answer, Call, Next, Outcome};
use crate::{
    BitTimeConfiguration, FifoConfiguration, FilterConfiguration, Header, IoConfiguration, OscillatorConfiguration, Refusal, Report,
    Scrubber, Settings, TxQueueConfiguration, Watch,
};

/// An exchange was not carried out. What went wrong is the line's to remember.
#[derive(Clone, Copy, Debug, PartialEq, Eq)]
pub struct Failed;

/// The user's SPI, with the chip select, and a wait.
pub trait Line {
    /// One exchange under one chip select: all of `tx` goes out, then all of `rx` is clocked in. `tx` is exactly what the call sends,
    /// 2 bytes or more; `rx` is exactly what it wants, and empty where that is nothing. `Ok` says that every byte went
    /// and came, `Err` that nothing was carried out: what is promised of refused calls holds where that is so.
    fn transfer(&mut self, tx: &[u8], rx: &mut [u8]) -> Result<(), Failed>;

    /// Waits for at least so long: 500, where a mode or the PLL is polled.
    fn wait(&mut self, microseconds: u32);
}

/// What a checked read gave: [`Mcp::checked_read`].
#[derive(Clone, Copy, Debug, PartialEq, Eq)]
pub struct Checked {
    /// The register's word, from an exchange whose CRC was right.
    pub word: u32,
    /// How many exchanges of this read mismatched before that one: 0, 1 or 2. The word is good all the same; but what spoils one exchange
    /// may spoil any other, and only a checked read has a CRC to tell it by.
    pub mismatches: u8,
}

/// A message from a receive FIFO; its payload is the first `len` bytes of the buffer that was lent.
#[derive(Clone, Copy, Debug, PartialEq, Eq)]
pub struct Received {
    /// Identifier and flags.
    pub header: Header,
    /// The DLC as it was received, 0 to 15: a classic frame with 9 to 15 has 8 bytes of payload.
    pub dlc: u8,
    /// The number of the filter that took it, 0 to 31, as the chip wrote it into the object (FILHIT).
    pub filter: u8,
    /// The timestamp, where the FIFO keeps one (RXTSEN).
    pub time: Option<u32>,
    /// How many bytes of payload, 0 to 64.
    pub len: usize,
}

/// Why [`Mcp::transmit`] was refused, and whether its message is in the chip all the same. `?` makes it a [`Refusal`].
///
/// ```
/// # use masevuru::*;
/// # fn command<L: Line>(mcp: &mut Mcp<L>, header: Header, torque: &[u8]) -> Result<(), Refusal> {
/// match mcp.transmit(1, header, 5, torque) {
///     Err(refused) if refused.accepted => mcp.request(1), // the FIFO holds it: ask again, do not transmit again
///     other => Ok(other?),
/// }
/// # }
/// ```
#[derive(Clone, Copy, Debug, PartialEq, Eq)]
pub struct TransmitRefusal {
    /// What the push, or behind it the request, was refused for.
    pub refusal: Refusal,
    /// The push was done and the request refused: the FIFO holds the message, [`Mcp::request`] asks again for it to be sent, and another
    /// transmit would send it twice. Otherwise the FIFO holds what it held.
    pub accepted: bool,
}

/// The length of a wait that a call asks for.
const WAIT: u32 = 500;

/// Runs a call over a line to its end, whatever the line answers, and says how it ended. `lent` is what a RAM write sends; `buf` is what a
/// RAM read, a peek or a get fills, once it is done; `tx` and `rx` are scratch, and a call for which one of them is too short is answered
/// as if its exchange had failed, with nothing sent: 74 and 64 bytes are enough for all calls but `verify_long` (130 and 128), a RAM
/// write of n bytes (2 + n and 0) and a RAM read of n (2 and n).
pub fn run<L: Line>(line: &mut L, call: Call, lent: &[u8], buf: &mut [u8], tx: &mut [u8], rx: &mut [u8]) -> Outcome {
    let (mut call, mut own) = (numbers_of(call), body_of(call));
    let mut last = 0;
    while let Some((got, answered)) = served(line, next_lent(call, &own, lent, tx), tx, rx) {
        last = got;
        call = answer_lent(call, answered, &rx[..got], &mut own);
    }
    finish_lent(call, &own, &rx[..last], buf)
}

/// What a call asks for, done over the line: how many bytes came, and how it went. `None` where the call is over.
fn served<L: Line>(line: &mut L, next: Next, tx: &[u8], rx: &mut [u8]) -> Option<(usize, Answer)> {
    Some(match next {
        Next::Transfer { n, want } => match rx.get_mut(..want) {
            Some(rx) => (want, line.transfer(&tx[..n], rx).map_or(Answer::Failed, |()| Answer::Exchanged)),
            None => (0, Answer::Failed),
        },
        Next::Wait => {
            line.wait(WAIT);
            (0, Answer::Waited)
        }
        Next::Short => (0, Answer::Failed),
        Next::Over => return None,
    })
}

/// The driver over a line.
///
/// A method runs its call to the end: it is done, or refused for a reason of document 01's table, whose number [`crate::number`] gives.
/// A refused call has asked for no exchange after the one that it was refused at, and has changed no byte of what was lent to it. What
/// is wrong with a call's own numbers is found before its first exchange (20, 21, 22, 24, 28, 32, 33, and 3, 4, 5 of RAM calls): any
/// number may be given, of a FIFO, a filter or a register too. A failed exchange is 1, of a RAM write or the reset 2, and 11 instead in
/// `configure`, `configure_osc`, `configure_io`, `configure_bit_timing`, `configure_tx_queue`, `set_op_mode` and the two echo tests;
/// `scrub` reports it, and is not refused. 26 and 27 are no method's: the loop gives every answer as it was asked for, and 27 is the
/// modelled chip's.
///
/// Between two exchanges of a call nobody else may use the chip; nothing is kept here from one call to the next.
#[derive(Debug)]
pub struct Mcp<L: Line> {
    /// The line that every call goes over.
    pub line: L,
}

impl<L: Line> Mcp<L> {
    /// The driver over this line. It asks for no exchange.
    pub fn new(line: L) -> Mcp<L> {
        Mcp { line }
    }

    /// Every call but `verify_long` and those on RAM: the longest body is a push's object, 72 bytes, and the most wanted a payload's 64.
    fn short(&mut self, call: Call, buf: &mut [u8]) -> Outcome {
        run(&mut self.line, call, &[], buf, &mut [0; 74], &mut [0; 64])
    }

    fn done(&mut self, call: Call) -> Result<(), Refusal> {
        done(self.short(call, &mut []))
    }

    fn word(&mut self, call: Call) -> Result<u32, Refusal> {
        match self.short(call, &mut []) {
            Outcome::Word(w) | Outcome::Mode(w) => Ok(w),
            other => Err(refusal(other)),
        }
    }

    fn message(&mut self, call: Call, buf: &mut [u8]) -> Result<Option<Received>, Refusal> {
        match self.short(call, buf) {
            Outcome::Message(found) => Ok(Some(Received {
                header: found.header,
                dlc: found.dlc,
                filter: found.filter,
                time: found.stamp,
                len: found.len as usize,
            })),
            Outcome::Empty => Ok(None),
            other => Err(refusal(other)),
        }
    }

    /// Resets the chip, which is then in Configuration. Refused: 2.
    pub fn reset(&mut self) -> Result<(), Refusal> {
        self.done(calls::reset())
    }

    /// The word of a register. Refused: 24 for an address of more than 12 bits; 1.
    pub fn read_register(&mut self, address: u32) -> Result<u32, Refusal> {
        self.word(calls::read_register(address))
    }

    /// Writes the word of a register. Refused: 24 for an address of more than 12 bits; 1.
    pub fn write_register(&mut self, address: u32, word: u32) -> Result<(), Refusal> {
        self.done(calls::write_register(address, word))
    }

    /// Reads a register and writes it with the bits of `clear` at 0, then those of `set` at 1. Refused as a write is.
    pub fn modify_register(&mut self, address: u32, clear: u32, set: u32) -> Result<(), Refusal> {
        self.done(calls::modify_register(address, clear, set))
    }

    /// The word of a register, whose CRC is tested, in at most three tries, and how many of them mismatched before it. Refused: 24; 1, also
    /// behind a mismatch; 10 where the third try mismatched too. A refusal tells no count.
    ///
    /// ```
    /// # use masevuru::*;
    /// # fn look<L: Line>(mcp: &mut Mcp<L>, reads: &mut u32, mismatched: &mut u32) -> Result<u32, Refusal> {
    /// let osc = mcp.checked_read(0xE00)?;
    /// *reads += 1;
    /// *mismatched += u32::from(osc.mismatches); // for ground: it grows before a read is refused 10
    /// # Ok(osc.word)
    /// # }
    /// ```
    pub fn checked_read(&mut self, address: u32) -> Result<Checked, Refusal> {
        match self.short(calls::checked_read(address), &mut []) {
            Outcome::Checked(word, mismatches) => Ok(Checked { word, mismatches }),
            other => Err(refusal(other)),
        }
    }

    /// Fills `buf` from the chip's RAM at 0x400 to 0xBFF, all of it, or where it is refused none. It has 2,048 bytes of scratch on the
    /// stack. Refused: 3 where the part is not in RAM; 4 for a length that is no multiple of 4; 1.
    pub fn read_ram(&mut self, address: u32, buf: &mut [u8]) -> Result<(), Refusal> {
        let call = calls::read_ram(address, buf.len(), 0, buf.len());
        done(run(&mut self.line, call, &[], buf, &mut [0; 2], &mut [0; 2048]))
    }

    /// Writes bytes to the chip's RAM. It has 2,050 bytes of scratch on the stack. Refused: 3, as a read; 5 for the length; 2.
    pub fn write_ram(&mut self, address: u32, bytes: &[u8]) -> Result<(), Refusal> {
        let call = calls::write_ram(address, bytes.len());
        done(run(&mut self.line, call, bytes, &mut [], &mut [0; 2050], &mut []))
    }

    /// The short echo test, each bit by itself through the RAM's first word: 64 exchanges. Refused: 11; 13 where a word differed.
    pub fn verify(&mut self) -> Result<(), Refusal> {
        self.done(calls::verify())
    }

    /// The long echo test, 32 words through RAM at once: 2 exchanges. Refused: 11; 13 where a byte differed.
    pub fn verify_long(&mut self) -> Result<(), Refusal> {
        done(run(&mut self.line, calls::verify_long(), &[], &mut [], &mut [0; 130], &mut [0; 128]))
    }

    /// Asks for a mode and polls for it: 0 CAN FD, 1 Sleep, 2 internal loopback, 3 listen only, 4 Configuration, 5 external loopback,
    /// 6 CAN 2.0, 7 restricted. Refused: 24 above 7; 11; 12 where five polls did not show it.
    pub fn set_op_mode(&mut self, mode: u32) -> Result<(), Refusal> {
        self.done(calls::set_op_mode(mode))
    }

    /// The mode that the chip is in. Refused: 1.
    pub fn get_op_mode(&mut self) -> Result<u32, Refusal> {
        self.word(calls::get_op_mode())
    }

    /// Takes the chip to Configuration, tries the RAM (`verify`) and sets up all but FIFOs and filters; transmit queue and event FIFO are
    /// turned off: [`Mcp::configure_tx_queue`] comes behind it. Refused: 24; 11, also where five polls did not show the mode; 13; 14 where
    /// three polls did not show the PLL ready.
    pub fn configure(&mut self, settings: Settings) -> Result<(), Refusal> {
        self.done(calls::configure(settings))
    }

    /// Sets the oscillator. Refused: 11; 14.
    pub fn configure_osc(&mut self, c: OscillatorConfiguration) -> Result<(), Refusal> {
        self.done(calls::configure_osc(c))
    }

    /// Sets the IO pins. Refused: 11.
    pub fn configure_io(&mut self, c: IoConfiguration) -> Result<(), Refusal> {
        self.done(calls::configure_io(c))
    }

    /// Sets both bit rates and the transmitter delay compensation. Refused: 24; 11.
    pub fn configure_bit_timing(&mut self, c: BitTimeConfiguration) -> Result<(), Refusal> {
        self.done(calls::configure_bit_timing(c))
    }

    /// Sets a FIFO up, 1 to 31. Size, payload size, direction and RXTSEN take effect only in Configuration. Refused: 20; 24; 1.
    pub fn configure_fifo(&mut self, fifo: u32, c: FifoConfiguration) -> Result<(), Refusal> {
        self.done(calls::configure_fifo(fifo, c))
    }

    /// Turns the transmit queue on and sets it up, or, with `None`, turns it off. On, it lies in RAM before FIFO 1. Whether it is on, its
    /// size and its payload size change only in Configuration: outside, the call is done all the same. Refused: 24; 11.
    ///
    /// CiCON is written back as it was read, but for TXQEN: where a mode was asked for and not granted (12), it is asked for again, and
    /// may be granted before size and payload size are written. `set_op_mode(4)` before it makes sure.
    ///
    /// ```
    /// # use masevuru::*;
    /// # fn safe<L: Line>(mcp: &mut Mcp<L>, settings: Settings, routine: Header, safing: Header) -> Result<(), Refusal> {
    /// mcp.configure(settings)?; // turns the queue off
    /// let (txpri, txat, txatie, empty, notfull) = (0, 3, false, false, false);
    /// mcp.configure_tx_queue(Some(TxQueueConfiguration { size: 8, plsize: 0, txpri, txat, txatie, empty, notfull }))?;
    /// mcp.set_op_mode(6)?;
    /// mcp.queue_push(routine, 1, &[0xB1])?;
    /// mcp.queue_push(safing, 2, &[0x5A, 0xFE])?; // with the smaller identifier it goes out first
    /// mcp.queue_request()?;
    /// # Ok(())
    /// # }
    /// ```
    pub fn configure_tx_queue(&mut self, c: Option<TxQueueConfiguration>) -> Result<(), Refusal> {
        self.done(calls::configure_tx_queue(c))
    }

    /// Sets a filter up, 0 to 31, and turns it on. Refused: 20, also for the FIFO that it gives to; 21; 1.
    pub fn configure_filter(&mut self, filter: u32, c: FilterConfiguration) -> Result<(), Refusal> {
        self.done(calls::configure_filter(filter, c))
    }

    /// Turns a filter off. Refused: 20; 1.
    pub fn disable_filter(&mut self, filter: u32) -> Result<(), Refusal> {
        self.done(calls::disable_filter(filter))
    }

    /// Puts a message into a FIFO that sends. Refused: 20, 21, 24 (SEQ has 23 bits), 22; then 6, 7, 8, 25, 3, and 1 or 2 for a failed
    /// exchange. Done says that the message is in the chip; where it is refused the FIFO holds what it held.
    pub fn push(&mut self, fifo: u32, header: Header, seq: u32, payload: &[u8]) -> Result<(), Refusal> {
        self.done(calls::push(fifo, header, seq, payload))
    }

    /// Asks for what a FIFO holds to be sent. Refused: 20; 1.
    pub fn request(&mut self, fifo: u32) -> Result<(), Refusal> {
        self.done(calls::request(fifo))
    }

    /// Push, then request. Refused as these are; the error says whether the message is in the chip all the same. Then only the request
    /// was refused, and it is what to try again.
    pub fn transmit(&mut self, fifo: u32, header: Header, seq: u32, payload: &[u8]) -> Result<(), TransmitRefusal> {
        self.push(fifo, header, seq, payload).map_err(|refusal| TransmitRefusal { refusal, accepted: false })?;
        self.request(fifo).map_err(|refusal| TransmitRefusal { refusal, accepted: true })
    }

    /// Puts a message into the transmit queue, from which the message goes out first whose identifier wins arbitration, whatever was
    /// pushed before it. Refused: 21, 24 (SEQ has 23 bits), 22; then 34, 7, 8, 25, 3, and 1 or 2 for a failed exchange. Done says that the
    /// message is in the chip; where it is refused the queue holds what it held.
    pub fn queue_push(&mut self, header: Header, seq: u32, payload: &[u8]) -> Result<(), Refusal> {
        self.done(calls::queue_push(header, seq, payload))
    }

    /// Writes a message to where the transmit queue's next one goes, in two exchanges less than [`Mcp::queue_push`], since it does not
    /// test whether the queue is on, has room, and takes the payload. Where it has no room, the message that was pushed last is
    /// overwritten; where it is off, or the payload is longer than the queue's, what other slots hold, a FIFO's too. That may have happened
    /// also where the call is refused, and where it is done the queue need not hold the message. Refused: 21, 24, 22; then 25, 3, and 1
    /// or 2.
    pub fn queue_push_unchecked(&mut self, header: Header, seq: u32, payload: &[u8]) -> Result<(), Refusal> {
        self.done(calls::queue_push_unchecked(header, seq, payload))
    }

    /// Asks for what the transmit queue holds to be sent, and what is pushed to it before it is empty. Nothing is tested: it is done also
    /// where the queue is off. Refused: 1.
    pub fn queue_request(&mut self) -> Result<(), Refusal> {
        self.done(calls::queue_request())
    }

    /// Whether a receive FIFO holds a message. Refused: 20; 9; 1.
    pub fn has_next(&mut self, fifo: u32) -> Result<bool, Refusal> {
        match self.short(calls::has_next(fifo), &mut []) {
            Outcome::Yes => Ok(true),
            Outcome::No => Ok(false),
            other => Err(refusal(other)),
        }
    }

    /// The oldest message of a receive FIFO, which stays there, or `None` where it holds none. The payload goes to the front of `buf`,
    /// which needs 64 bytes, also for shorter ones; every other byte stays. Refused: 20, 28; then 9, 25, 3 (of the header), 35 (the header
    /// says more bytes than PLSIZE, as it is read behind the header: nothing of them is read), 3 (of timestamp or payload), and 1.
    pub fn peek(&mut self, fifo: u32, buf: &mut [u8]) -> Result<Option<Received>, Refusal> {
        self.message(calls::peek(fifo, buf.len()), buf)
    }

    /// As `peek`, and the message is taken from the FIFO. Where it is refused, the FIFO still holds it.
    pub fn get(&mut self, fifo: u32, buf: &mut [u8]) -> Result<Option<Received>, Refusal> {
        self.message(calls::get(fifo, buf.len()), buf)
    }

    /// One step of a scrubber: reads the register of the entry that is due, its CRC tested in at most three tries, and reports whether
    /// the cared-for bits are the wanted ones. Where they are not and `rewrite` is true, it writes the word that it read with these bits
    /// as wanted, once, and reports what a checked read then gives: 7 exchanges at most. The write has the effects of any write to that
    /// register. A read that fails, or mismatches three times, is reported too, and is that entry's visit. Of a read that gives its word,
    /// the visit's or the read-back, the report tells how many exchanges mismatched before it, as [`Mcp::checked_read`] does.
    ///
    /// Refused: 32 for an empty list; 33 where the address of an entry, due or not, is not that of a register in the list of [`Watch`];
    /// both before any exchange. Where the step reports, the scrubber moves on to the entry behind, where it is refused it stays; so n
    /// steps over one list of n visit each entry once, whatever is called between.
    ///
    /// ```
    /// # use masevuru::*;
    /// # fn look<L: Line>(mcp: &mut Mcp<L>) -> Result<(), Refusal> {
    /// // filter 0's control byte, of filters 0 to 3; all of its mask
    /// let list = [Watch { address: 0x1D0, wanted: 0x82, care: 0xFF }, Watch { address: 0x1F4, wanted: 0x4000_0700, care: !0 }];
    /// let mut scrubber = Scrubber { place: 0 };
    /// for _ in &list {
    ///     match mcp.scrub(&mut scrubber, &list, true)? {
    ///         Report::Agree { address, mismatches } => { /* as wanted; above 0, tell the count */ }
    ///         Report::Differ { address, read, mismatches, rewrite, .. } => { /* tell it; `rewrite` is what came of the rewrite */ }
    ///         Report::Unread { address, why } => { /* not seen this time: it is due again after the others */ }
    ///     }
    /// }
    /// # Ok(())
    /// # }
    /// ```
    pub fn scrub(&mut self, scrubber: &mut Scrubber, list: &[Watch], rewrite: bool) -> Result<Report, Refusal> {
        // by value, as the scrubber comes out of a whole call; a write sends 6 bytes, a checked read receives 6
        let (mut call, mut tx, mut rx) = (calls::scrub(*scrubber, list, rewrite), [0; 6], [0; 6]);
        while let Some((got, answered)) = served(&mut self.line, calls::next(call, &[], &mut tx), &tx, &mut rx) {
            call = calls::answer(call, answered, &rx[..got]);
        }
        *scrubber = calls::scrubber(call);
        match calls::finish(call, &[], &mut []) {
            Outcome::Scrubbed(report) => Ok(report),
            other => Err(refusal(other)),
        }
    }
}

fn done(outcome: Outcome) -> Result<(), Refusal> {
    match outcome {
        Outcome::Done => Ok(()),
        other => Err(refusal(other)),
    }
}

/// A call ends in its own kind of outcome or is refused: another kind would be a wrong answer.
fn refusal(outcome: Outcome) -> Refusal {
    match outcome {
        Outcome::Refused(r) => r,
        _ => Refusal::WrongAnswer,
    }
}

/// The number, the name and what it carries: `refused 3: InvalidRamAddress(3072)`.
impl core::fmt::Display for Refusal {
    fn fmt(&self, f: &mut core::fmt::Formatter<'_>) -> core::fmt::Result {
        write!(f, "refused {}: {:?}", crate::number(*self), self)
    }
}

impl core::error::Error for Refusal {}

/// The refusal, and behind it where the message is.
impl core::fmt::Display for TransmitRefusal {
    fn fmt(&self, f: &mut core::fmt::Formatter<'_>) -> core::fmt::Result {
        write!(f, "{}; the message was {}", self.refusal, if self.accepted { "accepted" } else { "not accepted" })
    }
}

impl core::error::Error for TransmitRefusal {}

impl From<TransmitRefusal> for Refusal {
    fn from(refused: TransmitRefusal) -> Refusal {
        refused.refusal
    }
}
