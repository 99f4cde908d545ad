//! Masevuru: a proved driver for Microchip's CAN FD controller MCP2518FD.
//!
//! [`Mcp`] is the side to use: give it your SPI as a [`Line`], and call its methods. Behind it is the proved text: a call is a value
//! that says what it asks for, is given the answer and becomes the next, until it is over; [`calls`] has it, for a loop of your own.
//! `src/proved` is that text line by line as it was proved, with the contracts as comments (`//@`). *Document 01* is the project's
//! specification, docs/01-scope.md.
//!
//! # A line over embedded-hal 1.0
//!
//! The package depends on nothing: this is `examples/hal.rs`, to be copied.
//!
//! ```ignore
#![cfg_attr(doc, doc = include_str!("../examples/hal.rs"))]
//! ```
#![no_std]
#![forbid(unsafe_code)]
#![warn(missing_docs)]

#[cfg(target_pointer_width = "16")]
compile_error!("a usize of 16 bits is too small for the modelled chip's sums, and was never tried");

mod mcp;
#[allow(dead_code, unused_imports, unused_variables, missing_docs, clippy::all)]
mod proved;

pub use mcp::run;
pub use mcp::Checked;
pub use mcp::Failed;
pub use mcp::Line;
pub use mcp::Mcp;
pub use mcp::Received;
pub use mcp::TransmitRefusal;
/// What a FIFO is set up with: `size` messages (1 to 32; above 32 is 32) of up to 8, 12, 16, 20, 24, 32, 48 or 64 bytes (`plsize` 0 to 7).
pub use proved::driver::FifoConfiguration;
/// Whether a FIFO sends or receives.
pub use proved::driver::FifoMode;
/// What a filter is set up with: frames that match `object` where `mask` has ones go to `fifo`.
pub use proved::driver::FilterConfiguration;
/// Which frames a filter takes.
pub use proved::driver::FilterMode;
/// A standard identifier, 0 to 0x7FF, or an extended one, 0 to 0x1FFF_FFFF.
pub use proved::driver::Identifier;
/// Of a FIFO that receives: timestamps (RXTSEN), and its interrupt enables.
pub use proved::driver::RxFifo;
/// Of a FIFO that sends: priority 0 to 31, TXAT (0 no retransmission, 1 three attempts, 2 and 3 unlimited), RTREN, interrupt enables.
pub use proved::driver::TxFifo;
/// What the transmit queue is set up with: `size` and `plsize` as a FIFO's, priority and TXAT as those of one that sends, and its interrupt
/// enables.
pub use proved::driver::TxQueueConfiguration;
/// Both bit rates.
pub use proved::driver::BitTimeConfiguration;
/// Fields of CiDBTCFG as the register has them, one less than what they count, and TDCO, -64 to 63.
pub use proved::driver::DataBitTime;
/// Fields of IOCON.
pub use proved::driver::IoConfiguration;
/// Fields of CiNBTCFG as the register has them, one less than what they count.
pub use proved::driver::NominalBitTime;
/// The PLL, and whether the system clock is halved.
pub use proved::driver::OscillatorConfiguration;
/// What [`Mcp::configure`] sets up. `counter` turns the time base counter on; `dncnt` is DNCNT, 0 to leave it; `canerrors`, `spierror`
/// and `eccerror` enable interrupts beside those of transmit and receive.
pub use proved::driver::Settings;
/// A message's identifier and flags. A payload has 0 to 8 bytes, with `fdf` also 12, 16, 20, 24, 32, 48 or 64.
pub use proved::driver::Header;
/// An entry of a list that [`Mcp::scrub`] goes through: the address of a register, the word that it is to have, and a 1 for each bit that
/// is cared for. The registers are CiCON (0x000), CiNBTCFG (0x004), CiDBTCFG (0x008), CiTDC (0x00C), CiTSCON (0x014), CiINT (0x01C), of the
/// transmit queue, FIFOs and filters all (every fourth address from 0x050 to 0x2EC), OSC (0xE00) and IOCON (0xE04).
pub use proved::driver::Watch;
/// How far a scrubber is: the place in the list of the entry that it visits next. It begins with `Scrubber { place: 0 }`; any place may be
/// given, and one beyond the list's end is the first.
pub use proved::driver::Scrubber;
/// What [`Mcp::scrub`] saw of the entry that it visited. `Agree`: the cared-for bits are the wanted ones. `Differ`: they are not, with the
/// word read, the wanted one, and what came of the rewrite. `Unread`: the checked read was refused: 1, or 10. `mismatches`: how many
/// exchanges of the read mismatched before its word, 0, 1 or 2; of a read that was refused none is told.
pub use proved::driver::Report;
/// What came of a rewrite. `None`: none was told. `Back`: it was written, and this word was read back, as wanted or not; behind it how many
/// exchanges of the read-back mismatched before it, 0, 1 or 2. `Unread`: the write failed (1) and nothing was read back, or the read-back
/// was refused (1, 10).
pub use proved::driver::Rewrite;
/// The number of a refusal in documents 01 and 02.
pub use proved::driver::number;
/// Why a call was refused, by document 01's table; 30 to 35 are document 02's. 3 carries the address, 4 and 5 the length.
///
/// | number | | given exactly when |
/// |---|---|---|
/// | 1 | `SpiRead` | a read, or a register write, failed |
/// | 2 | `SpiWrite` | a RAM write or the reset failed |
/// | 3 | `InvalidRamAddress` | an access does not lie in 0x400 to 0xBFF |
/// | 4, 5 | `InvalidReadLength`, `InvalidWriteLength` | in range, but no multiple of 4 |
/// | 6 | `FifoNotTx` | push on a FIFO that receives |
/// | 7 | `FifoTooSmall` | the payload is longer than the FIFO's, or the transmit queue's |
/// | 8 | `FifoFull` | push on a full FIFO, or to a full queue |
/// | 9 | `FifoNotRx` | has-next, peek or get on a FIFO that sends |
/// | 10 | `CrcMismatch` | three checked reads in a row mismatched |
/// | 11 | `ConfigurationModeTimeout` | `configure`: five polls without the mode; a failed exchange in a call that [`Mcp`] names for it |
/// | 12 | `ChangeOpModeTimeout` | `set_op_mode`: five polls without the mode |
/// | 13 | `SpiFailedRamEcho` | an echo differed |
/// | 14 | `PllNotReady` | three polls without PLLRDY |
/// | 20 | `BadNumber` | FIFO not 1 to 31, filter not 0 to 31 |
/// | 21 | `BadIdentifier` | standard above 0x7FF, extended above 0x1FFF_FFFF |
/// | 22 | `BadPayload` | a length that no message has; of a frame that arrives: not what its DLC means, or a DLC above 15 |
/// | 23 | | given no more: a classic frame with a DLC above 8 is received, with 8 bytes |
/// | 24 | `BadSetting` | size 0 of a FIFO or of the queue, or a number wider than its field |
/// | 25 | `BadUserAddress` | the chip's user address is above 0xFBFF |
/// | 26 | `WrongAnswer` | an answer of another length or kind than asked for, at the end of a RAM read too: only in a loop of your own |
/// | 27 | `NoLayout` | the modelled chip did not leave Configuration: never of a call |
/// | 28 | `BufferTooSmall` | the buffer for a payload has fewer than 64 bytes, or a RAM read is not for a part inside its buffer |
/// | 30 | `NoMatch` | no filter of the modelled chip takes a frame that it was to sort: never of a call |
/// | 31 | `DeviceNet` | DNCNT of the modelled chip is above 0 where it was to sort a frame: never of a call |
/// | 32 | `EmptyList` | scrub: the list has no entry |
/// | 33 | `NotCarried` | scrub: an entry's address is no register's that [`Watch`] names |
/// | 34 | `TxQueueDisabled` | queue_push: the transmit queue is off |
/// | 35 | `LengthBeyondSlot` | peek or get: the header says more bytes than a slot of the FIFO has |
pub use proved::driver::Refusal;

/// The calls themselves, for a loop of your own, with interrupts or DMA perhaps. No function here has a precondition.
///
/// A call is a value. The function of its name starts it, from any numbers: what is wrong with them is refused before any exchange, and
/// the call is then over. [`next`](calls::next) says what it asks for and puts the bytes to send together, [`answer`](calls::answer) takes
/// how that went and gives the next value, until it is over; [`finish`](calls::finish) says how it ended and fills the lent buffer. One
/// loop serves every call; `transfer`, which is true where every byte went and came, and `wait_500_microseconds` are yours:
///
/// ```
/// use masevuru::calls::{answer, finish, next, push, Answer, Next, Outcome};
/// # fn transfer(_: &[u8], rx: &mut [u8]) -> bool { rx.is_empty() }
/// # fn wait_500_microseconds() {}
/// # let header = masevuru::Header { extended: false, id: 0x123, rtr: false, brs: false, fdf: false, esi: false };
/// # let (lent, mut buf) = ([0u8; 0], [0u8; 0]);
/// let (mut tx, mut rx, mut got) = ([0; 130], [0; 128], 0);
/// let mut call = push(1, header, 5, &[0x00, 0xC8, 0xFF, 0x38]);
/// let outcome = loop {
///     let answered = match next(call, &lent, &mut tx) {
///         Next::Transfer { n, want } => {
///             got = want;
///             if transfer(&tx[..n], &mut rx[..got]) { Answer::Exchanged } else { Answer::Failed }
///         }
///         Next::Wait => {
///             got = 0;
///             wait_500_microseconds();
///             Answer::Waited
///         }
///         Next::Short => {
///             got = 0; // tx or lent is too short: nothing may be sent
///             Answer::Failed
///         }
///         Next::Over => break finish(call, &rx[..got], &mut buf),
///     };
///     call = answer(call, answered, &rx[..got]);
/// };
/// # assert_eq!(outcome, Outcome::Refused(masevuru::Refusal::SpiRead));
/// ```
///
/// `lent` is what a RAM write sends, `buf` what a RAM read, a peek or a get fills. `tx` needs 74 bytes, 130 for `verify_long`, 2 + n for a
/// RAM write of n; `rx` needs 64, 128 for `verify_long`, n for a RAM read of n. The loop ends, whatever is answered:
/// [`turns`](calls::turns) falls at every answer. Between two exchanges of a call nobody else may use the chip.
///
/// Each answer copies a [`Call`](calls::Call), some 140 bytes. Where that is too dear, [`numbers_of`](calls::numbers_of) and
/// [`body_of`](calls::body_of) take a call apart, and the functions named `_lent` do the same with the numbers by value and the body lent;
/// so does [`run`].
pub mod calls {
    /// What a call asks for now, its bytes put at the front of `tx`. `lent` is what a RAM write was started with, otherwise not looked at.
    pub use crate::proved::driver::next;
    /// Where an answer takes a call. `rx` is what the exchange received: as many bytes as [`next`] wanted, and none beside a wait; any
    /// other number is 26. Of a failed exchange they are not looked at. A call is given one answer for each `next`, the answer to its own.
    pub use crate::proved::driver::answer;
    /// How a call ended, once [`next`] says that it is over; what it received is put into `buf`. `rx` is what the last exchange received.
    /// 28 where `buf` is too small for what was received, 26 where a RAM read is given another number of bytes than it received: then no
    /// byte of `buf` is changed, and the call may be finished again.
    pub use crate::proved::driver::finish;
    /// The most exchanges and waits that are left: it falls at every answer, and is 0 exactly where the call is over.
    pub use crate::proved::driver::turns;
    /// Whether the message of a push, to the transmit queue too, or of a transmit is in the chip: also where the transmit's request was
    /// refused. Of an unchecked push: whether that is done, which does not say so.
    pub use crate::proved::driver::accepted;
    /// The scrubber of a scrub: moved on where that reported, as it was where it was refused or is not over. Of another call: at the first
    /// entry. [`run`](crate::run) does not give it: a step is [`Mcp::scrub`](crate::Mcp::scrub) or a loop of your own.
    pub use crate::proved::driver::scrubber;

    /// A call without its bytes.
    pub use crate::proved::driver::numbers_of;
    /// A call's own bytes, to lie in memory of the caller's: nobody else changes them until the call is over.
    pub use crate::proved::driver::body_of;
    /// As [`next`], [`answer`] or [`finish`], of a call's numbers and its body.
    pub use crate::proved::driver::{answer_lent, finish_lent, next_lent};

    /// As the method of [`Mcp`](crate::Mcp) of this name, to the part of a buffer of `room` bytes that begins at `place` and has `count`:
    /// that buffer is lent to [`finish`]. Refused also: 28 where the part does not lie inside it.
    pub use crate::proved::driver::read_ram;
    /// As the method of [`Mcp`](crate::Mcp) of this name. `count` is how many bytes will be lent to [`next`].
    pub use crate::proved::driver::write_ram;
    /// As the method of [`Mcp`](crate::Mcp) of this name. `room` is the length of the buffer that will be lent to [`finish`].
    pub use crate::proved::driver::{get, peek};
    /// As the method of [`Mcp`](crate::Mcp) of this name. The list is looked at here, and not later; [`scrubber`] gives the scrubber back.
    pub use crate::proved::driver::scrub;
    /// As the method of [`Mcp`](crate::Mcp) of this name.
    pub use crate::proved::driver::{
        checked_read, configure, configure_bit_timing, configure_fifo, configure_filter, configure_io, configure_osc, configure_tx_queue,
        disable_filter, get_op_mode, has_next, modify_register, push, queue_push, queue_push_unchecked, queue_request, read_register,
        request, reset, set_op_mode, transmit, verify, verify_long, write_register,
    };

    /// How an exchange or a wait went: `Failed` says that nothing was carried out.
    pub use crate::proved::driver::Answer;
    /// A call where it stands, from its start to its end.
    pub use crate::proved::driver::Call;
    /// A message that was found, with its DLC as it was received; its payload of `len` bytes is at the front of the lent buffer.
    pub use crate::proved::driver::Found;
    /// What the loop does now: `Transfer` sends the first `n` bytes of `tx` and receives `want`; `Wait` is 500 microseconds; `Over` is the
    /// end; where it is `Short`, `tx` or `lent` is too short and no byte was put: that is answered `Failed`.
    pub use crate::proved::driver::Next;
    /// A call without its bytes.
    pub use crate::proved::driver::Numbers;
    /// How a call ended; `Running` where it has not. `Checked`: the word of a checked read, and how many exchanges mismatched before it.
    pub use crate::proved::driver::Outcome;
}

#[cfg(feature = "chip")]
pub mod chip;
