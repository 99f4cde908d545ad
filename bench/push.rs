//! A push by the driver as users link it: `Mcp::push`. With `--cfg only_push` the compiler sees no other call; without, the call is chosen
//! by a number that is read at run time, and all of them go through the package's one loop.
#![no_std]

use masevuru::{number, Failed, Header, Line, Mcp, Refusal};

#[repr(C)]
pub struct CHeader {
    id: u32,
    extended: bool,
    rtr: bool,
    brs: bool,
    fdf: bool,
    esi: bool,
}

extern "C" {
    fn exchange(tx: *const u8, n: usize, more: *const u8, m: usize, rx: *mut u8, want: usize) -> i32;
}

struct Bench;

impl Line for Bench {
    fn transfer(&mut self, tx: &[u8], rx: &mut [u8]) -> Result<(), Failed> {
        // SAFETY: each pointer goes with its slice's length.
        match unsafe { exchange(tx.as_ptr(), tx.len(), core::ptr::null(), 0, rx.as_mut_ptr(), rx.len()) } {
            0 => Ok(()),
            _ => Err(Failed),
        }
    }

    fn wait(&mut self, _microseconds: u32) {}
}

#[cfg(only_push)]
fn called(mcp: &mut Mcp<Bench>, _kind: u32, fifo: u8, header: Header, seq: u32, payload: &[u8]) -> Result<(), Refusal> {
    mcp.push(fifo as u32, header, seq, payload)
}

/// A call of every family, whatever its arguments mean: what matters is that any of them may come.
#[cfg(not(only_push))]
fn called(mcp: &mut Mcp<Bench>, kind: u32, fifo: u8, header: Header, seq: u32, payload: &[u8]) -> Result<(), Refusal> {
    let (fifo, address) = (fifo as u32, seq);
    let mut buf = [0; 64];
    match kind {
        0 => mcp.push(fifo, header, seq, payload),
        1 => mcp.get(fifo, &mut buf).map(drop),
        2 => mcp.peek(fifo, &mut buf).map(drop),
        3 => mcp.has_next(fifo).map(drop),
        4 => mcp.transmit(fifo, header, seq, payload).map_err(Refusal::from),
        5 => mcp.request(fifo),
        6 => mcp.reset(),
        7 => mcp.read_register(address).map(drop),
        8 => mcp.write_register(address, seq),
        9 => mcp.modify_register(address, seq, header.id),
        10 => mcp.checked_read(address).map(drop),
        11 => mcp.read_ram(seq, &mut buf),
        12 => mcp.write_ram(seq, payload),
        13 => mcp.verify(),
        14 => mcp.verify_long(),
        15 => mcp.set_op_mode(seq),
        16 => mcp.get_op_mode().map(drop),
        _ => mcp.disable_filter(fifo),
    }
}

/// # Safety
/// `payload` has `n` bytes.
#[no_mangle]
pub unsafe extern "C" fn side(kind: u32, fifo: u8, h: &CHeader, seq: u32, payload: *const u8, n: usize) -> i32 {
    let header = Header { extended: h.extended, id: h.id, rtr: h.rtr, brs: h.brs, fdf: h.fdf, esi: h.esi };
    // SAFETY: as the caller says.
    let payload = unsafe { core::slice::from_raw_parts(payload, n) };
    match called(&mut Mcp::new(Bench), kind, fifo, header, seq, payload) {
        Ok(()) => 0,
        Err(refusal) => number(refusal) as i32,
    }
}

#[panic_handler]
fn panic(_: &core::panic::PanicInfo) -> ! {
    loop {}
}
