//! A push by the published Rust driver, unchanged.
#![no_std]

use embedded_can::{ExtendedId, Id, StandardId};
use embedded_hal::spi::{Error as SpiError, ErrorKind, ErrorType, Operation, SpiDevice};
use mcp2518fd::memory::controller::fifo::FifoNumber;
use mcp2518fd::message::tx::TxMessage;
use mcp2518fd::{Error, MCP2518FD};

#[repr(C)]
pub struct CHeader {
    id: u32,
    extended: bool,
    rtr: bool,
    brs: bool,
    fdf: bool,
    esi: bool,
}

extern "C" {
    fn exchange(tx: *const u8, n: usize, more: *const u8, m: usize, rx: *mut u8, want: usize) -> i32;
}

#[derive(Debug)]
struct Failed;

impl SpiError for Failed {
    fn kind(&self) -> ErrorKind {
        ErrorKind::Other
    }
}

struct Bench;

impl ErrorType for Bench {
    type Error = Failed;
}

impl SpiDevice<u8> for Bench {
    #[inline]
    fn transaction(&mut self, operations: &mut [Operation<'_, u8>]) -> Result<(), Failed> {
        // SAFETY: each pointer goes with its slice's length.
        let answer = unsafe {
            match operations {
                [Operation::Write(a), Operation::Read(r)] => exchange(a.as_ptr(), a.len(), core::ptr::null(), 0, r.as_mut_ptr(), r.len()),
                [Operation::Write(a), Operation::Write(b)] => exchange(a.as_ptr(), a.len(), b.as_ptr(), b.len(), core::ptr::null_mut(), 0),
                [Operation::Write(a)] => exchange(a.as_ptr(), a.len(), core::ptr::null(), 0, core::ptr::null_mut(), 0),
                _ => 1,
            }
        };
        match answer {
            0 => Ok(()),
            _ => Err(Failed),
        }
    }
}

fn message(h: &CHeader, seq: u32, payload: &[u8]) -> Result<TxMessage, i32> {
    let id: Id = if h.extended {
        ExtendedId::new(h.id).ok_or(21)?.into()
    } else {
        StandardId::new(u16::try_from(h.id).map_err(|_| 21)?).ok_or(21)?.into()
    };
    let m = if h.fdf { TxMessage::new_fd(id, payload) } else { TxMessage::new_2_0(id, payload) };
    Ok(m.ok_or(22)?.with_bit_rate_switched(h.brs).with_error_status_indicator(h.esi).with_sequence_number(seq))
}

/// # Safety
/// `payload` has `n` bytes.
#[no_mangle]
pub unsafe extern "C" fn side(_kind: u32, fifo: u8, h: &CHeader, seq: u32, payload: *const u8, n: usize) -> i32 {
    let Ok(fifo) = FifoNumber::try_from(fifo) else { return 20 };
    // SAFETY: as the caller says.
    let m = match message(h, seq, unsafe { core::slice::from_raw_parts(payload, n) }) {
        Ok(m) => m,
        Err(number) => return number,
    };
    match MCP2518FD::new(Bench).tx_fifo_push_message(fifo, &m) {
        Ok(()) => 0,
        Err(Error::SPIRead) => 1,
        Err(Error::SPIWrite) => 2,
        Err(Error::InvalidRamAddress(_)) => 3,
        Err(Error::FifoNotTx) => 6,
        Err(Error::FifoTooSmall) => 7,
        Err(Error::FifoFull) => 8,
        Err(_) => 99,
    }
}

#[panic_handler]
fn panic(_: &core::panic::PanicInfo) -> ! {
    loop {}
}
