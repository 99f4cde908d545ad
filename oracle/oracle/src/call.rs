//! A transcript's `call` line, done by the driver.

use std::cell::{Cell, RefCell};
use std::panic::{catch_unwind, set_hook, take_hook, AssertUnwindSafe};
use std::str::{FromStr, Split};

use arbitrary_int::UInt;
use mcp2518fd::id::{ExtendedId, Id, StandardId};
use mcp2518fd::memory::controller::configuration::{DataBits, OperationMode};
use mcp2518fd::memory::controller::fifo::{
    FifoControlRegister, FifoNumber, FifoStatusRegister, PayloadSize, RetransmissionAttempts,
    UserAddressKind, UserAddressRegister,
};
use mcp2518fd::memory::controller::filter::{
    FilterControlNumber, FilterControlRegister, FilterNumber, FilterObjectRegister, MaskRegister,
};
use mcp2518fd::memory::{Register, RepeatedRegister, SFRAddress};
use mcp2518fd::message::rx::RxMessage;
use mcp2518fd::message::tx::TxMessage;
use mcp2518fd::settings::*;
use mcp2518fd::{ConfigError, Error, MCP2518FD};

use crate::wire::{hex, unhex, Answers, Talk, Wire};

/// Does the call against the answers and gives the whole transcript of it, or `None` if no call of
/// the driver can be made of the line (a number that its types don't hold, a message that its
/// constructors don't make).
pub fn transcript(call: &str, answers: &mut dyn Answers) -> Option<String> {
    let talk = RefCell::new(Talk { answers, log: format!("call {call}\n") });
    let result = perform(call, &talk)?;
    Some(format!("{}= {result}\n", talk.into_inner().log))
}

fn perform(call: &str, talk: &RefCell<Talk>) -> Option<String> {
    let mut can = MCP2518FD::new(Wire(talk));
    let mut delay = Wire(talk);
    let mut args = Args(call.split(' '));
    let (name, a) = (args.word()?, &mut args);

    // each of them gives `None` for a name that isn't its own
    let result = chip_call(name, a, &mut can, &mut delay)
        .or_else(|| fifo_call(name, a, &mut can))
        .or_else(|| queue_call(name, a, &mut can))
        .or_else(|| memory_call(name, a, &mut can))?;
    args.word().is_none().then_some(result)
}

type Can<'a, 'b> = MCP2518FD<Wire<'a, 'b>>;

fn chip_call(name: &str, a: &mut Args, can: &mut Can, delay: &mut Wire) -> Option<String> {
    Some(match name {
        "reset" => result(|| can.reset()),
        "get_op_mode" => result(|| can.get_op_mode()),
        "set_op_mode" => {
            let mode = a.small()?;
            result(|| can.set_op_mode(mode, delay))
        }
        "configure_osc" => {
            let oscillator = a.oscillator()?;
            result(|| can.configure_osc(oscillator, delay))
        }
        "configure_io" => {
            let io = a.io()?;
            result(|| can.configure_io(io))
        }
        "configure_bit_timing" => {
            let timing = a.bit_timing()?;
            result(|| can.configure_bit_timing(timing))
        }
        "configure" => {
            let settings = a.settings()?;
            result(|| can.configure(settings, delay))
        }
        "configure_filter" => {
            let (number, config) = (a.small()?, a.filter()?);
            result(|| can.configure_filter(number, config))
        }
        "verify" => result(|| can.verify_spi_communications()),
        "verify_long" => result(|| can.verify_spi_communications_long()),
        _ => return None,
    })
}

fn fifo_call(name: &str, a: &mut Args, can: &mut Can) -> Option<String> {
    Some(match name {
        "configure_fifo" => {
            let (number, config) = (a.small()?, a.fifo()?);
            result(|| can.configure_fifo(number, config))
        }
        "push" => {
            let (number, message) = (a.small()?, a.message()?);
            result(|| can.tx_fifo_push_message(number, &message))
        }
        "transmit" => {
            let (number, message) = (a.small()?, a.message()?);
            result(|| can.tx_fifo_transmit_message(number, &message))
        }
        "request" => {
            let number = a.small()?;
            result(|| can.tx_fifo_request_transmission(number))
        }
        "has_next" => {
            let number = a.small()?;
            result(|| can.rx_fifo_has_next(number))
        }
        "peek" => {
            let number = a.small()?;
            result(|| can.rx_fifo_peek_next(number))
        }
        "get" => {
            let number = a.small()?;
            result(|| can.rx_fifo_get_next(number))
        }
        _ => return None,
    })
}

fn queue_call(name: &str, a: &mut Args, can: &mut Can) -> Option<String> {
    Some(match name {
        "configure_tx_queue" => {
            let config = a.queue()?;
            result(|| can.configure_tx_queue(config))
        }
        "queue_push" => {
            let message = a.message()?;
            result(|| can.tx_queue_push_message(&message))
        }
        "queue_push_unchecked" => {
            let message = a.message()?;
            result(|| can.tx_queue_push_message_unchecked(&message))
        }
        "queue_request" => result(|| can.tx_queue_request_transmission()),
        _ => return None,
    })
}

fn memory_call(name: &str, a: &mut Args, can: &mut Can) -> Option<String> {
    Some(match name {
        "read_ram" => {
            let (address, length) = (a.hex()?, a.number()?);
            let mut buffer = vec![0; length];
            result(|| can.read_ram(address, &mut buffer).map(|()| buffer))
        }
        "write_ram" => {
            let (address, bytes) = (a.hex()?, a.bytes()?);
            result(|| can.write_ram(address, &bytes))
        }
        "read_register" => {
            a.place()?;
            result(|| can.read_register::<AnyRegister>())
        }
        "write_register" => {
            let word = (a.place()?, a.hex()?).1;
            result(|| can.write_register(AnyRegister(word)))
        }
        "modify_register" => {
            let (_, clear, set): (_, u32, u32) = (a.place()?, a.hex()?, a.hex()?);
            result(|| can.modify_register(|r: AnyRegister| AnyRegister(r.0 & !clear | set)))
        }
        "checked_read" => {
            a.place()?;
            result(|| can.read_register_crc::<AnyRegister>())
        }
        _ => return None,
    })
}

/* Results */

fn result<T: Answer, E: Refusal>(call: impl FnOnce() -> Result<T, E>) -> String {
    let hook = take_hook();
    set_hook(Box::new(|_| {})); // a panic of the driver is a result
    let outcome = catch_unwind(AssertUnwindSafe(call));
    set_hook(hook);
    match outcome {
        Ok(Ok(answer)) => answer.text(),
        Ok(Err(refusal)) => format!("refused {}", refusal.text()),
        Err(_) => "panic".into(),
    }
}

trait Answer {
    fn text(self) -> String;
}

impl Answer for () {
    fn text(self) -> String {
        "ok".into()
    }
}

impl Answer for bool {
    fn text(self) -> String {
        if self { "yes" } else { "no" }.into()
    }
}

impl Answer for Vec<u8> {
    fn text(self) -> String {
        format!("bytes {}", hex(&self))
    }
}

impl Answer for OperationMode {
    fn text(self) -> String {
        format!("mode {}", u8::from(self))
    }
}

impl Answer for AnyRegister {
    fn text(self) -> String {
        format!("word {:08x}", self.0)
    }
}

impl Answer for Option<RxMessage> {
    fn text(self) -> String {
        let Some(message) = self else {
            return "none".into();
        };
        let id = match message.id() {
            Id::Standard(id) => format!("std {:x}", id.as_raw()),
            Id::Extended(id) => format!("ext {:x}", id.as_raw()),
        };
        let flags = flags(&message);
        let timestamp = message.timestamp().map_or("-".into(), |t| format!("{t:08x}"));
        format!("message {id} {flags} {timestamp} {}", hex(message.data()))
    }
}

fn flags(message: &RxMessage) -> String {
    let h = message.header();
    let letters = [(h.fdf(), 'f'), (h.brs(), 'b'), (h.esi(), 'e'), (h.rtr(), 'r')];
    let flags: String = letters.iter().filter(|letter| letter.0).map(|letter| letter.1).collect();
    if flags.is_empty() {
        "-".into()
    } else {
        flags
    }
}

trait Refusal {
    fn text(self) -> String;
}

impl Refusal for Error {
    fn text(self) -> String {
        match self {
            Error::SPIRead => "1".into(),
            Error::SPIWrite => "2".into(),
            Error::InvalidRamAddress(address) => format!("3 {address:x}"),
            Error::InvalidReadLength(length) => format!("4 {length}"),
            Error::InvalidWriteLength(length) => format!("5 {length}"),
            Error::FifoNotTx => "6".into(),
            Error::FifoTooSmall => "7".into(),
            Error::FifoFull => "8".into(),
            Error::FifoNotRx => "9".into(),
            Error::CrcMismatch => "10".into(),
            Error::TxQueueDisabled => "34".into(),
            Error::Other => unreachable!("no call made here gives it"),
        }
    }
}

impl Refusal for ConfigError {
    fn text(self) -> String {
        match self {
            ConfigError::ConfigurationModeTimeout => "11".into(),
            ConfigError::ChangeOpModeTimeout => "12".into(),
            ConfigError::SPIFailedRAMEcho => "13".into(),
            ConfigError::PLLNotReady => "14".into(),
            ConfigError::Other(error) => error.text(),
        }
    }
}

/* Arguments */

struct Args<'a>(Split<'a, char>);

impl<'a> Args<'a> {
    fn word(&mut self) -> Option<&'a str> {
        self.0.next()
    }

    fn number<T: FromStr>(&mut self) -> Option<T> {
        self.word()?.parse().ok()
    }

    fn hex<T: TryFrom<u32>>(&mut self) -> Option<T> {
        T::try_from(u32::from_str_radix(self.word()?, 16).ok()?).ok()
    }

    fn flag(&mut self) -> Option<bool> {
        Some(self.number::<u8>().filter(|n| *n < 2)? == 1)
    }

    /// One of the driver's enums over `u8`.
    fn small<T: TryFrom<u8>>(&mut self) -> Option<T> {
        T::try_from(self.number()?).ok()
    }

    fn bits<const N: usize>(&mut self) -> Option<UInt<u8, N>> {
        self.number().filter(|n| *n <= UInt::<u8, N>::MAX.value()).map(UInt::<u8, N>::new)
    }

    fn bytes(&mut self) -> Option<Vec<u8>> {
        unhex(self.word()?)
    }

    fn id(&mut self) -> Option<Id> {
        let (kind, digits) = self.word()?.split_at_checked(1)?;
        let raw = u32::from_str_radix(digits, 16).ok()?;
        match kind {
            "s" => StandardId::new(raw.try_into().ok()?).map(Id::from),
            "x" => ExtendedId::new(raw).map(Id::from),
            _ => None,
        }
    }

    /// Points `AnyRegister` at the address. The transmit queue's are taken too.
    fn place(&mut self) -> Option<()> {
        use SFRAddress::*;
        let address: u16 = self.hex()?;
        let mut all = addresses().into_iter().chain([C1TXQCON, C1TXQSTA, C1TXQUA]);
        PLACE.set(Some(all.find(|a| *a as u16 == address)?));
        Some(())
    }

    fn oscillator(&mut self) -> Option<OscillatorConfiguration> {
        let pll = if self.flag()? { Pll::On } else { Pll::Off };
        let halved = self.flag()?;
        let divider = if halved { SysClkDivider::DivByTwo } else { SysClkDivider::DivByOne };
        Some(OscillatorConfiguration { pll, divider })
    }

    fn io(&mut self) -> Option<IoConfiguration> {
        Some(IoConfiguration {
            enable_tx_standby_pin: self.flag()?,
            tx_can_open_drain: self.flag()?,
            start_of_frame_on_clko: self.flag()?,
            interrupt_pin_open_drain: self.flag()?,
        })
    }

    fn bit_timing(&mut self) -> Option<BitTimeConfiguration> {
        let nominal = NominalBitTimeConfiguration {
            baud_rate_prescaler: self.number()?,
            time_segment_1: self.number()?,
            time_segment_2: self.bits()?,
            synchronization_jump_width: self.bits()?,
        };
        let data = DataBitTimeConfiguration {
            baud_rate_prescaler: self.number()?,
            time_segment_1: self.bits()?,
            time_segment_2: self.bits()?,
            synchronization_jump_width: self.bits()?,
            transmitter_delay_compensation_offset: self.bits()?,
        };
        Some(BitTimeConfiguration { nominal, data })
    }

    fn settings(&mut self) -> Option<Settings> {
        Some(Settings {
            oscillator: self.oscillator()?,
            io_configuration: self.io()?,
            bit_time_configuration: self.bit_timing()?,
            tx_event_fifo: None,
            tx_queue: None,
            enable_time_based_counter: self.flag()?,
            data_bits_to_match: match self.number::<u8>()? {
                0 => None,
                count => Some(DataBits::try_from(count).ok()?),
            },
            enable_can_error_interrupts: self.flag()?,
            enable_spi_error_interrupt: self.flag()?,
            enable_ecc_error_interrupt: self.flag()?,
        })
    }

    fn fifo(&mut self) -> Option<FifoConfiguration> {
        let (fifo_size, payload_size): (_, PayloadSize) = (self.number()?, self.small()?);
        let mode = match self.word()? {
            "tx" => FifoMode::Transmit(self.tx_fifo()?),
            "rx" => FifoMode::Receive(self.rx_fifo()?),
            _ => return None,
        };
        Some(FifoConfiguration { fifo_size, payload_size, mode })
    }

    fn tx_fifo(&mut self) -> Option<TxFifoConfiguration> {
        Some(TxFifoConfiguration {
            priority: self.number()?,
            retransmission_attempts: self.attempts()?,
            enable_auto_rtr: self.flag()?,
            enable_transmit_attempts_exhausted_interrupt: self.flag()?,
            enable_fifo_empty_interrupt: self.flag()?,
            enable_fifo_half_empty_interrupt: self.flag()?,
            enable_fifo_not_full_interrupt: self.flag()?,
        })
    }

    fn attempts(&mut self) -> Option<RetransmissionAttempts> {
        Some(match self.number()? {
            0 => RetransmissionAttempts::Disabled,
            1 => RetransmissionAttempts::ThreeRetries,
            2 => RetransmissionAttempts::UnlimitedRetries,
            _ => return None,
        })
    }

    fn rx_fifo(&mut self) -> Option<RxFifoConfiguration> {
        Some(RxFifoConfiguration {
            enable_message_timestamps: self.flag()?,
            enable_fifo_overflow_interrupt: self.flag()?,
            enable_fifo_full_interrupt: self.flag()?,
            enable_fifo_half_full_interrupt: self.flag()?,
            enable_fifo_not_empty_interrupt: self.flag()?,
        })
    }

    /// The inner `None` switches the queue off.
    fn queue(&mut self) -> Option<Option<TxQueueConfiguration>> {
        let size = self.word()?;
        if size == "off" {
            return Some(None);
        }
        Some(Some(TxQueueConfiguration {
            fifo_size: size.parse().ok()?,
            payload_size: self.small()?,
            message_priority: self.number()?,
            retransmission_attempts: self.attempts()?,
            enable_transmit_attempts_exhausted_interrupt: self.flag()?,
            enable_queue_empty_interrupt: self.flag()?,
            enable_queue_not_full_interrupt: self.flag()?,
        }))
    }

    /// The inner `None` switches the filter off.
    fn filter(&mut self) -> Option<Option<FilterConfiguration>> {
        let target = self.word()?;
        if target == "off" {
            return Some(None);
        }
        Some(Some(FilterConfiguration {
            buffer_pointer: FifoNumber::try_from(target.parse::<u8>().ok()?).ok()?,
            mode: match self.word()? {
                "std" => FilterMatchMode::StandardOnly,
                "ext" => FilterMatchMode::ExtendedOnly,
                "both" => FilterMatchMode::Both,
                _ => return None,
            },
            filter_bits: self.id()?,
            mask_bits: self.id()?,
        }))
    }

    fn message(&mut self) -> Option<TxMessage> {
        let (id, flags, seq, payload) = (self.id()?, self.word()?, self.number()?, self.bytes()?);
        let has = |letter| flags.contains(letter);
        let message = match (has('f'), has('r')) {
            (true, false) => TxMessage::new_fd(id, &payload)?,
            (false, false) => TxMessage::new_2_0(id, &payload)?,
            // the driver's remote frames are classic and carry zeros
            (false, true) if payload.iter().all(|byte| *byte == 0) => {
                TxMessage::new_remote(id, payload.len().try_into().ok()?)?
            }
            _ => return None,
        };
        let message =
            message.with_bit_rate_switched(has('b')).with_error_status_indicator(has('e'));
        Some(message.with_sequence_number(seq))
    }
}

/* Registers by address */

/// A register at any of the driver's addresses, for its generic reads and writes.
struct AnyRegister(u32);

thread_local!(static PLACE: Cell<Option<SFRAddress>> = const { Cell::new(None) });

impl Register for AnyRegister {
    fn get_address() -> SFRAddress {
        PLACE.get().unwrap()
    }
}

impl From<u32> for AnyRegister {
    fn from(word: u32) -> Self {
        Self(word)
    }
}

impl From<AnyRegister> for u32 {
    fn from(register: AnyRegister) -> u32 {
        register.0
    }
}

/// The addresses of the registers that the driver has types for and document 01 carries, and DEVID.
pub fn addresses() -> Vec<SFRAddress> {
    use SFRAddress::*;
    let mut all = vec![C1CON, C1NBTCFG, C1DBTCFG, C1TDC, C1TSCON, C1INT, OSC, IOCON, DEVID];
    for fifo in (1..=31).map(|n| FifoNumber::try_from(n).unwrap()) {
        all.push(FifoControlRegister::get_address_for(fifo));
        all.push(FifoStatusRegister::get_address_for(fifo));
        all.push(UserAddressRegister::get_address_for(UserAddressKind::Fifo(fifo)));
    }
    for control in (0..=7).map(|n| FilterControlNumber::try_from(n).unwrap_or_else(|_| panic!())) {
        all.push(FilterControlRegister::get_address_for(control));
    }
    for filter in (0..=31).map(|n| FilterNumber::try_from(n).unwrap()) {
        all.push(FilterObjectRegister::get_address_for(filter));
        all.push(MaskRegister::get_address_for(filter));
    }
    all
}
