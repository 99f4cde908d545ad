//! The modelled chip from C: memory of the caller's that `mcp_chip_new` makes a chip of.
use crate::{bytes, layout, lent, there, CHeader, NULL};
use core::ffi::{c_int, c_void};
use core::mem::{align_of, offset_of, size_of};
use masevuru::chip::{Chip, Frame, Undecoded, Undelivered, Unsent};
use masevuru::{number, Line, Refusal};

#[repr(C)]
pub struct CChip {
    words: [u32; 704],
}

const _: () = assert!(size_of::<Chip>() <= size_of::<CChip>() && align_of::<Chip>() <= align_of::<CChip>());

/// All zeros but for `kind` where there is no frame.
#[repr(C)]
pub struct CFrame {
    header: CHeader,
    seq: u32,
    time: u32,
    kind: u8,
    stamped: u8,
    len: u8,
    dlc: u8,
    filter: u8,
    payload: [u8; 64],
}

#[repr(C)]
pub struct CSorted {
    turned_down: u32,
    fifo: u32,
    filter: u32,
}

layout! {
    CChip 2816, words 0;
    CFrame 92, header 0, seq 12, time 16, kind 20, stamped 21, len 22, dlc 23, filter 24, payload 25;
    CSorted 12, turned_down 0, fifo 4, filter 8;
}

/// What `kind` says: MCP_NOTHING, MCP_FRAME and MCP_NO_FRAME.
const NOTHING: u8 = 0;
const FRAME: u8 = 1;
const NO_FRAME: u8 = 2;

impl CFrame {
    fn none(kind: u8) -> CFrame {
        CFrame { header: CHeader::default(), seq: 0, time: 0, kind, stamped: 0, len: 0, dlc: 0, filter: 0, payload: [0; 64] }
    }

    fn of(frame: Frame) -> CFrame {
        CFrame {
            header: CHeader::of(frame.header),
            seq: frame.seq,
            time: frame.stamp.unwrap_or(0),
            kind: FRAME,
            stamped: frame.stamp.is_some().into(),
            len: frame.payload.len as u8,
            dlc: frame.dlc,
            filter: frame.filter,
            payload: frame.payload.bytes,
        }
    }

    fn held(held: Option<Result<Frame, Undecoded>>) -> CFrame {
        match held {
            Some(Ok(frame)) => CFrame::of(frame),
            Some(Err(_)) => CFrame::none(NO_FRAME),
            None => CFrame::none(NOTHING),
        }
    }
}

unsafe fn chip<'a>(p: *mut CChip) -> Option<&'a mut Chip> {
    p.cast::<Chip>().as_mut()
}

unsafe fn looked_at<'a>(p: *const CChip) -> Option<&'a Chip> {
    p.cast::<Chip>().as_ref()
}

/// The number of an answer; what is told goes to `out`.
unsafe fn told<T>(answer: Result<T, Refusal>, out: *mut T) -> c_int {
    match answer {
        Ok(t) => {
            out.write(t);
            0
        }
        Err(r) => number(r) as c_int,
    }
}

#[no_mangle]
pub unsafe extern "C" fn mcp_chip_new(p: *mut CChip) -> c_int {
    if there(p).is_none() {
        return NULL;
    }
    p.cast::<Chip>().write(Chip::new());
    0
}

/// `rx` may be uninitialised: it is zeros before it is a slice.
unsafe fn zeros<'a>(rx: *mut u8, len: usize) -> Option<&'a mut [u8]> {
    lent(rx, len)?;
    if len == 0 {
        return Some(&mut []);
    }
    rx.write_bytes(0, len);
    Some(core::slice::from_raw_parts_mut(rx, len))
}

#[no_mangle]
pub unsafe extern "C" fn mcp_chip_transfer(p: *mut c_void, tx: *const u8, tx_len: usize, rx: *mut u8, rx_len: usize) -> c_int {
    (|| {
        let (chip, tx) = (chip(p.cast())?, bytes(tx, tx_len)?);
        Some(chip.transfer(tx, zeros(rx, rx_len)?).map_or(1, |()| 0))
    })()
    .unwrap_or(NULL)
}

#[no_mangle]
pub unsafe extern "C" fn mcp_chip_wait(_: *mut c_void, _: u32) {}

/// A frame, MCP_NO_FRAME or MCP_NOTHING, or a refusal.
fn sent(sent: Result<Frame, Unsent>) -> Result<CFrame, Refusal> {
    match sent {
        Ok(frame) => Ok(CFrame::of(frame)),
        Err(Unsent::NoFrame) => Ok(CFrame::none(NO_FRAME)),
        Err(Unsent::Nothing) => Ok(CFrame::none(NOTHING)),
        Err(Unsent::Refused(r)) => Err(r),
    }
}

#[no_mangle]
pub unsafe extern "C" fn mcp_chip_send(p: *mut CChip, fifo: u32, frame: *mut CFrame) -> c_int {
    (|| {
        there(frame)?;
        Some(told(sent(chip(p)?.send(fifo)), frame))
    })()
    .unwrap_or(NULL)
}

#[no_mangle]
pub unsafe extern "C" fn mcp_chip_send_queue(p: *mut CChip, frame: *mut CFrame) -> c_int {
    (|| {
        there(frame)?;
        Some(told(sent(chip(p)?.send_queue()), frame))
    })()
    .unwrap_or(NULL)
}

/// MCP_DELIVERED and the causes, or a refusal.
fn why(delivery: Result<(), Undelivered>) -> Result<u32, Refusal> {
    match delivery {
        Ok(()) => Ok(0),
        Err(Undelivered::Configuration) => Ok(1),
        Err(Undelivered::NotReceiving) => Ok(2),
        Err(Undelivered::TooLong) => Ok(3),
        Err(Undelivered::Full) => Ok(4),
        Err(Undelivered::Refused(r)) => Err(r),
    }
}

#[no_mangle]
pub unsafe extern "C" fn mcp_chip_deliver(
    p: *mut CChip,
    fifo: u32,
    header: *const CHeader,
    dlc: u32,
    time: u32,
    payload: *const u8,
    len: usize,
    turned_down: *mut u32,
) -> c_int {
    (|| {
        there(turned_down)?;
        let (header, payload) = (header.as_ref()?.header(), bytes(payload, len)?);
        Some(told(why(chip(p)?.deliver(fifo, header, dlc, time, payload)), turned_down))
    })()
    .unwrap_or(NULL)
}

#[no_mangle]
pub unsafe extern "C" fn mcp_chip_sort(
    p: *mut CChip,
    header: *const CHeader,
    dlc: u32,
    time: u32,
    payload: *const u8,
    len: usize,
    sorted: *mut CSorted,
) -> c_int {
    (|| {
        there(sorted)?;
        let (header, payload) = (header.as_ref()?.header(), bytes(payload, len)?);
        let s = chip(p)?.sort(header, dlc, time, payload);
        Some(told(why(s.delivery).map(|turned_down| CSorted { turned_down, fifo: s.fifo, filter: s.filter }), sorted))
    })()
    .unwrap_or(NULL)
}

#[no_mangle]
pub unsafe extern "C" fn mcp_chip_held(p: *const CChip, fifo: u32, count: *mut u32) -> c_int {
    (|| {
        there(count)?;
        Some(told(looked_at(p)?.held(fifo).map(u32::from), count))
    })()
    .unwrap_or(NULL)
}

/// No FIFO holds more than 32: a place wider than Rust's is one where none is held.
#[no_mangle]
pub unsafe extern "C" fn mcp_chip_held_at(p: *const CChip, fifo: u32, k: u32, frame: *mut CFrame) -> c_int {
    (|| {
        there(frame)?;
        let k = u8::try_from(k).unwrap_or(u8::MAX);
        Some(told(looked_at(p)?.held_at(fifo, k).map(CFrame::held), frame))
    })()
    .unwrap_or(NULL)
}

#[no_mangle]
pub unsafe extern "C" fn mcp_chip_held_queue(p: *const CChip, count: *mut u32) -> c_int {
    (|| {
        there(count)?;
        Some(told(Ok(looked_at(p)?.held_queue().into()), count))
    })()
    .unwrap_or(NULL)
}

/// A slot wider than Rust's is one that there is not.
#[no_mangle]
pub unsafe extern "C" fn mcp_chip_held_queue_at(p: *const CChip, slot: u32, frame: *mut CFrame) -> c_int {
    (|| {
        there(frame)?;
        let slot = u8::try_from(slot).unwrap_or(u8::MAX);
        Some(told(Ok(CFrame::held(looked_at(p)?.held_queue_at(slot))), frame))
    })()
    .unwrap_or(NULL)
}

#[no_mangle]
pub unsafe extern "C" fn mcp_chip_no_layout(p: *const CChip, count: *mut u32) -> c_int {
    (|| {
        there(count)?;
        Some(told(Ok(looked_at(p)?.no_layout), count))
    })()
    .unwrap_or(NULL)
}
