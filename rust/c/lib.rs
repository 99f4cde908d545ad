//! The C user's side: `include/masevuru.h` as Rust. All `unsafe` of the package is in this file and, for the modelled chip, in
//! chip.rs: pointers become references and slices here, and nowhere else. What a caller of C has to keep to is in the header; each
//! function here assumes of its pointers what that says, and nothing else.
#![no_std]
#![allow(clippy::missing_safety_doc)]

use core::ffi::{c_int, c_void};
use core::mem::{align_of, offset_of, size_of};
use masevuru::*;

#[cfg(feature = "chip")]
mod chip;

/// No call panics; should one, the program ends.
#[cfg(not(test))]
#[panic_handler]
fn panic(_: &core::panic::PanicInfo) -> ! {
    extern "C" {
        fn abort() -> !;
    }
    unsafe { abort() }
}

pub const NULL: c_int = -1;

#[repr(C)]
#[derive(Clone, Copy)]
pub struct CLine {
    transfer: Option<unsafe extern "C" fn(*mut c_void, *const u8, usize, *mut u8, usize) -> c_int>,
    wait: Option<unsafe extern "C" fn(*mut c_void, u32)>,
    context: *mut c_void,
    value: *mut u32,
}

impl Line for CLine {
    fn transfer(&mut self, tx: &[u8], rx: &mut [u8]) -> Result<(), Failed> {
        let Some(transfer) = self.transfer else { return Err(Failed) };
        match unsafe { transfer(self.context, tx.as_ptr(), tx.len(), rx.as_mut_ptr(), rx.len()) } {
            0 => Ok(()),
            _ => Err(Failed),
        }
    }

    fn wait(&mut self, microseconds: u32) {
        if let Some(wait) = self.wait {
            unsafe { wait(self.context, microseconds) }
        }
    }
}

#[repr(C)]
#[derive(Clone, Copy, Default)]
pub struct CHeader {
    id: u32,
    extended: u8,
    rtr: u8,
    brs: u8,
    fdf: u8,
    esi: u8,
}

impl CHeader {
    fn header(self) -> Header {
        let [extended, rtr, brs, fdf, esi] = [self.extended, self.rtr, self.brs, self.fdf, self.esi].map(|flag| flag != 0);
        Header { extended, id: self.id, rtr, brs, fdf, esi }
    }

    fn of(h: Header) -> CHeader {
        CHeader { id: h.id, extended: h.extended as u8, rtr: h.rtr as u8, brs: h.brs as u8, fdf: h.fdf as u8, esi: h.esi as u8 }
    }
}

/// All zeros where no message was found.
#[repr(C)]
#[derive(Default)]
pub struct CMessage {
    header: CHeader,
    time: u32,
    found: u8,
    stamped: u8,
    len: u8,
    dlc: u8,
    filter: u8,
}

impl CMessage {
    fn of(r: Option<Received>) -> CMessage {
        r.map_or(CMessage::default(), |r| CMessage {
            header: CHeader::of(r.header),
            time: r.time.unwrap_or(0),
            found: 1,
            stamped: r.time.is_some() as u8,
            len: r.len as u8,
            dlc: r.dlc,
            filter: r.filter,
        })
    }
}

#[repr(C)]
#[derive(Clone, Copy)]
pub struct COscillator {
    pll: u8,
    divide: u8,
}

#[repr(C)]
#[derive(Clone, Copy)]
pub struct CIo {
    xstbyen: u8,
    txcanod: u8,
    sof: u8,
    intod: u8,
}

#[repr(C)]
#[derive(Clone, Copy)]
pub struct CNominal {
    brp: u32,
    tseg1: u32,
    tseg2: u32,
    sjw: u32,
}

#[repr(C)]
#[derive(Clone, Copy)]
pub struct CData {
    brp: u32,
    tseg1: u32,
    tseg2: u32,
    sjw: u32,
    tdco: i32,
}

#[repr(C)]
#[derive(Clone, Copy)]
pub struct CBittime {
    nominal: CNominal,
    data: CData,
}

#[repr(C)]
#[derive(Clone, Copy)]
pub struct CSettings {
    oscillator: COscillator,
    io: CIo,
    bittime: CBittime,
    dncnt: u32,
    counter: u8,
    canerrors: u8,
    spierror: u8,
    eccerror: u8,
}

#[repr(C)]
#[derive(Clone, Copy)]
pub struct CFifo {
    size: u32,
    plsize: u32,
    txpri: u32,
    txat: u32,
    transmit: u8,
    rtren: u8,
    txatie: u8,
    tx_empty: u8,
    tx_half: u8,
    tx_notfull: u8,
    rxtsen: u8,
    rxovie: u8,
    rx_full: u8,
    rx_half: u8,
    rx_notempty: u8,
}

#[repr(C)]
#[derive(Clone, Copy)]
pub struct CTxQueue {
    size: u32,
    plsize: u32,
    txpri: u32,
    txat: u32,
    txatie: u8,
    empty: u8,
    notfull: u8,
}

#[repr(C)]
#[derive(Clone, Copy)]
pub struct CIdentifier {
    id: u32,
    extended: u8,
}

#[repr(C)]
#[derive(Clone, Copy)]
pub struct CFilter {
    fifo: u32,
    mode: u32,
    object: CIdentifier,
    mask: CIdentifier,
}

#[repr(C)]
#[derive(Clone, Copy)]
pub struct CWatch {
    address: u32,
    wanted: u32,
    care: u32,
}

#[repr(C)]
#[derive(Clone, Copy)]
pub struct CScrubber {
    place: usize,
}

/// What is not told is 0.
#[repr(C)]
#[derive(Clone, Copy, Default)]
pub struct CReport {
    seen: u32,
    address: u32,
    read: u32,
    wanted: u32,
    rewrite: u32,
    back: u32,
    number: u32,
    mismatches: u32,
    back_mismatches: u32,
}

impl CReport {
    /// `seen` is MCP_AGREE, MCP_DIFFER or MCP_UNREAD.
    fn of(report: Report) -> CReport {
        match report {
            Report::Agree { address, mismatches } => {
                CReport { address: address.into(), mismatches: mismatches.into(), ..CReport::default() }
            }
            Report::Differ { address, read, wanted, mismatches, rewrite } => {
                let mismatches = mismatches.into();
                CReport { seen: 1, address: address.into(), read, wanted, mismatches, ..CReport::default() }.after(rewrite)
            }
            Report::Unread { address, why } => CReport { seen: 2, address: address.into(), number: number(why), ..CReport::default() },
        }
    }

    /// `rewrite` is MCP_NO_REWRITE, MCP_READ_BACK or MCP_NOT_READ_BACK.
    fn after(self, rewrite: Rewrite) -> CReport {
        match rewrite {
            Rewrite::None => self,
            Rewrite::Back(back, mismatches) => CReport { rewrite: 1, back, back_mismatches: mismatches.into(), ..self },
            Rewrite::Unread(why) => CReport { rewrite: 2, number: number(why), ..self },
        }
    }
}

/// The size of each structure and the place of each field, with the numbers of the header's MCP_LAYOUT.
macro_rules! layout {
    ($($type:ident $size:expr, $($field:ident $at:expr),*;)*) => { $(
        const _: () = assert!(size_of::<$type>() == $size $(&& offset_of!($type, $field) == $at)*);
    )* };
}
#[cfg(feature = "chip")]
pub(crate) use layout;

layout! {
    CLine 4 * size_of::<usize>(), transfer 0, wait size_of::<usize>(), context 2 * size_of::<usize>(), value 3 * size_of::<usize>();
    CHeader 12, id 0, extended 4, rtr 5, brs 6, fdf 7, esi 8;
    CMessage 24, header 0, time 12, found 16, stamped 17, len 18, dlc 19, filter 20;
    COscillator 2, pll 0, divide 1;
    CIo 4, xstbyen 0, txcanod 1, sof 2, intod 3;
    CNominal 16, brp 0, tseg1 4, tseg2 8, sjw 12;
    CData 20, brp 0, tseg1 4, tseg2 8, sjw 12, tdco 16;
    CBittime 36, nominal 0, data 16;
    CSettings 52, oscillator 0, io 2, bittime 8, dncnt 44, counter 48, canerrors 49, spierror 50, eccerror 51;
    CFifo 28, size 0, plsize 4, txpri 8, txat 12, transmit 16, rtren 17, txatie 18, tx_empty 19, tx_half 20, tx_notfull 21, rxtsen 22,
        rxovie 23, rx_full 24, rx_half 25, rx_notempty 26;
    CTxQueue 20, size 0, plsize 4, txpri 8, txat 12, txatie 16, empty 17, notfull 18;
    CIdentifier 8, id 0, extended 4;
    CFilter 24, fifo 0, mode 4, object 8, mask 16;
    CWatch 12, address 0, wanted 4, care 8;
    CScrubber size_of::<*const ()>(), place 0;
    CReport 36, seen 0, address 4, read 8, wanted 12, rewrite 16, back 20, number 24, mismatches 28, back_mismatches 32;
    Watch 12, address 0, wanted 4, care 8; // as CWatch, so that a list of C is one of Rust: no other memory is there to copy it to
}
const _: () = assert!(align_of::<Watch>() == align_of::<CWatch>());

impl COscillator {
    fn settings(self) -> OscillatorConfiguration {
        OscillatorConfiguration { pll: self.pll != 0, divide: self.divide != 0 }
    }
}

impl CIo {
    fn settings(self) -> IoConfiguration {
        IoConfiguration { xstbyen: self.xstbyen != 0, txcanod: self.txcanod != 0, sof: self.sof != 0, intod: self.intod != 0 }
    }
}

impl CBittime {
    fn settings(self) -> BitTimeConfiguration {
        let (n, d) = (self.nominal, self.data);
        BitTimeConfiguration {
            nominal: NominalBitTime { brp: n.brp, tseg1: n.tseg1, tseg2: n.tseg2, sjw: n.sjw },
            data: DataBitTime { brp: d.brp, tseg1: d.tseg1, tseg2: d.tseg2, sjw: d.sjw, tdco: d.tdco },
        }
    }
}

impl CSettings {
    fn settings(self) -> Settings {
        Settings {
            oscillator: self.oscillator.settings(),
            io: self.io.settings(),
            bittime: self.bittime.settings(),
            counter: self.counter != 0,
            dncnt: self.dncnt,
            canerrors: self.canerrors != 0,
            spierror: self.spierror != 0,
            eccerror: self.eccerror != 0,
        }
    }
}

impl CFifo {
    fn settings(self) -> FifoConfiguration {
        let mode = if self.transmit != 0 {
            FifoMode::Transmit(TxFifo {
                txpri: self.txpri,
                txat: self.txat,
                rtren: self.rtren != 0,
                txatie: self.txatie != 0,
                empty: self.tx_empty != 0,
                half: self.tx_half != 0,
                notfull: self.tx_notfull != 0,
            })
        } else {
            FifoMode::Receive(RxFifo {
                rxtsen: self.rxtsen != 0,
                rxovie: self.rxovie != 0,
                full: self.rx_full != 0,
                half: self.rx_half != 0,
                notempty: self.rx_notempty != 0,
            })
        };
        FifoConfiguration { size: self.size, plsize: self.plsize, mode }
    }
}

impl CTxQueue {
    fn settings(self) -> TxQueueConfiguration {
        TxQueueConfiguration {
            size: self.size,
            plsize: self.plsize,
            txpri: self.txpri,
            txat: self.txat,
            txatie: self.txatie != 0,
            empty: self.empty != 0,
            notfull: self.notfull != 0,
        }
    }
}

impl CIdentifier {
    fn identifier(self) -> Identifier {
        Identifier { extended: self.extended != 0, id: self.id }
    }
}

impl CFilter {
    fn settings(self, mode: FilterMode) -> FilterConfiguration {
        FilterConfiguration { fifo: self.fifo, mode, object: self.object.identifier(), mask: self.mask.identifier() }
    }

    /// A mode that there is not is 24, behind what else is wrong with the call (20, 21).
    fn configure(self, m: &mut Mcp<CLine>, filter: u32) -> Result<(), Refusal> {
        match self.mode {
            0 => m.configure_filter(filter, self.settings(FilterMode::Standard)),
            1 => m.configure_filter(filter, self.settings(FilterMode::Extended)),
            2 => m.configure_filter(filter, self.settings(FilterMode::Both)),
            _ => match calls::finish(calls::configure_filter(filter, self.settings(FilterMode::Both)), &[], &mut []) {
                calls::Outcome::Refused(r) => Err(r),
                _ => Err(Refusal::BadSetting),
            },
        }
    }
}

/// Whether a pointer and a length are a buffer: not where it is NULL and the length isn't 0, nor where no object is so long.
fn lent(p: *const u8, len: usize) -> Option<()> {
    ((len == 0 || !p.is_null()) && len <= isize::MAX as usize).then_some(())
}

/// The bytes that C lends to be read.
unsafe fn bytes<'a>(p: *const u8, len: usize) -> Option<&'a [u8]> {
    lent(p, len)?;
    Some(if len == 0 { &[] } else { core::slice::from_raw_parts(p, len) })
}

/// The list that C lends.
unsafe fn watches<'a>(p: *const CWatch, n: usize) -> Option<&'a [Watch]> {
    lent(p.cast(), n.checked_mul(size_of::<CWatch>())?)?;
    Some(if n == 0 { &[] } else { core::slice::from_raw_parts(p.cast(), n) })
}

/// The driver over a copy of the line: what is at the pointer is not looked at again.
unsafe fn mcp(line: *const CLine) -> Option<Mcp<CLine>> {
    let line = *line.as_ref()?;
    line.transfer?;
    line.wait?;
    Some(Mcp::new(line))
}

/// A pointer to what a call writes. It may be uninitialised, so it is never made a reference or a slice, only written through.
fn there<T>(p: *mut T) -> Option<()> {
    (!p.is_null()).then_some(())
}

/// A RAM read as `Mcp::read_ram` makes it, but with nothing lent to be filled: it ends in 28 where its bytes were received, as no RAM read
/// of the length of its buffer does before, and they go from the scratch to `buf`.
unsafe fn read_ram(m: &mut Mcp<CLine>, address: u32, buf: *mut u8, len: usize) -> Result<(), Refusal> {
    let mut rx = [0; 2048];
    match (run(&mut m.line, calls::read_ram(address, len, 0, len), &[], &mut [], &mut [0; 2], &mut rx), rx.get(..len)) {
        (calls::Outcome::Done, _) => Ok(()), // of length 0: `buf` may be NULL
        (calls::Outcome::Refused(Refusal::BufferTooSmall), Some(received)) => {
            buf.copy_from_nonoverlapping(received.as_ptr(), len);
            Ok(())
        }
        (calls::Outcome::Refused(r), _) => Err(r),
        _ => Err(Refusal::WrongAnswer),
    }
}

/// A peek or a get, with the payload going from a buffer of its own to `buf`, which has 64 bytes where there is one.
unsafe fn fetch(
    buf: *mut u8,
    room: usize,
    message: *mut CMessage,
    call: impl FnOnce(&mut [u8]) -> Result<Option<Received>, Refusal>,
) -> Option<Result<(), Refusal>> {
    lent(buf, room)?;
    there(message)?;
    let mut own = [0; 64];
    Some(call(&mut own[..room.min(64)]).map(|found| {
        if let Some(r) = found {
            buf.copy_from_nonoverlapping(own.as_ptr(), r.len.min(64));
        }
        message.write(CMessage::of(found));
    }))
}

/// The number of a call's answer; what a refusal carries goes to the line's `value`.
unsafe fn told(line: &CLine, answer: Result<(), Refusal>) -> c_int {
    let Err(r) = answer else { return 0 };
    let carried = match r {
        Refusal::InvalidRamAddress(address) => Some(address),
        Refusal::InvalidReadLength(n) | Refusal::InvalidWriteLength(n) => Some(n as u32), // in range, so 2,048 at most
        _ => None,
    };
    if let (Some(value), false) = (carried, line.value.is_null()) {
        line.value.write(value);
    }
    number(r) as c_int
}

/// `$name($m, values) = body`: an exported function. `$m` is the driver over the line; the body ends in the call's answer, or before it
/// makes the call in None (`?`), where a pointer is NULL that must not be.
macro_rules! exported {
    ($($name:ident($m:ident $(, $value:ident: $type:ty)*) = $body:expr;)*) => { $(
        #[no_mangle]
        pub unsafe extern "C" fn $name(line: *const CLine $(, $value: $type)*) -> c_int {
            (|| {
                let mut $m = mcp(line)?;
                let answer: Result<(), Refusal> = $body;
                Some(told(&$m.line, answer))
            })()
            .unwrap_or(NULL)
        }
    )* };
}

exported! {
    mcp_reset(m) = m.reset();
    mcp_read_register(m, address: u32, word: *mut u32) = {
        there(word)?;
        m.read_register(address).map(|w| word.write(w))
    };
    mcp_write_register(m, address: u32, word: u32) = m.write_register(address, word);
    mcp_modify_register(m, address: u32, clear: u32, set: u32) = m.modify_register(address, clear, set);
    mcp_checked_read(m, address: u32, word: *mut u32, mismatches: *mut u32) = {
        there(word)?;
        there(mismatches)?;
        m.checked_read(address).map(|read| {
            word.write(read.word);
            mismatches.write(read.mismatches.into());
        })
    };
    mcp_read_ram(m, address: u32, buf: *mut u8, len: usize) = {
        lent(buf, len)?;
        read_ram(&mut m, address, buf, len)
    };
    mcp_write_ram(m, address: u32, from: *const u8, len: usize) = m.write_ram(address, bytes(from, len)?);
    mcp_verify(m) = m.verify();
    mcp_verify_long(m) = m.verify_long();
    mcp_set_op_mode(m, mode: u32) = m.set_op_mode(mode);
    mcp_get_op_mode(m, mode: *mut u32) = {
        there(mode)?;
        m.get_op_mode().map(|w| mode.write(w))
    };
    mcp_configure(m, settings: *const CSettings) = m.configure(settings.as_ref()?.settings());
    mcp_configure_osc(m, oscillator: *const COscillator) = m.configure_osc(oscillator.as_ref()?.settings());
    mcp_configure_io(m, io: *const CIo) = m.configure_io(io.as_ref()?.settings());
    mcp_configure_bit_timing(m, bittime: *const CBittime) = m.configure_bit_timing(bittime.as_ref()?.settings());
    mcp_configure_fifo(m, fifo: u32, settings: *const CFifo) = m.configure_fifo(fifo, settings.as_ref()?.settings());
    mcp_configure_tx_queue(m, settings: *const CTxQueue) = m.configure_tx_queue(Some(settings.as_ref()?.settings()));
    mcp_disable_tx_queue(m) = m.configure_tx_queue(None);
    mcp_configure_filter(m, filter: u32, settings: *const CFilter) = settings.as_ref()?.configure(&mut m, filter);
    mcp_disable_filter(m, filter: u32) = m.disable_filter(filter);
    mcp_push(m, fifo: u32, header: *const CHeader, seq: u32, payload: *const u8, len: usize) = {
        m.push(fifo, header.as_ref()?.header(), seq, bytes(payload, len)?)
    };
    mcp_request(m, fifo: u32) = m.request(fifo);
    mcp_transmit(m, fifo: u32, header: *const CHeader, seq: u32, payload: *const u8, len: usize, accepted: *mut u8) = {
        let answer = m.transmit(fifo, header.as_ref()?.header(), seq, bytes(payload, len)?);
        if !accepted.is_null() {
            accepted.write(answer.map_or_else(|refused| refused.accepted, |()| true) as u8);
        }
        answer.map_err(Refusal::from)
    };
    mcp_queue_push(m, header: *const CHeader, seq: u32, payload: *const u8, len: usize) = {
        m.queue_push(header.as_ref()?.header(), seq, bytes(payload, len)?)
    };
    mcp_queue_push_unchecked(m, header: *const CHeader, seq: u32, payload: *const u8, len: usize) = {
        m.queue_push_unchecked(header.as_ref()?.header(), seq, bytes(payload, len)?)
    };
    mcp_queue_request(m) = m.queue_request();
    mcp_has_next(m, fifo: u32, next: *mut u8) = {
        there(next)?;
        m.has_next(fifo).map(|n| next.write(n as u8))
    };
    mcp_peek(m, fifo: u32, buf: *mut u8, room: usize, message: *mut CMessage) = {
        fetch(buf, room, message, |own| m.peek(fifo, own))?
    };
    mcp_get(m, fifo: u32, buf: *mut u8, room: usize, message: *mut CMessage) = {
        fetch(buf, room, message, |own| m.get(fifo, own))?
    };
    mcp_scrub(m, scrubber: *mut CScrubber, list: *const CWatch, n: usize, rewrite: c_int, report: *mut CReport) = {
        there(report)?;
        let mut at = Scrubber { place: scrubber.as_ref()?.place };
        m.scrub(&mut at, watches(list, n)?, rewrite != 0).map(|seen| {
            scrubber.write(CScrubber { place: at.place });
            report.write(CReport::of(seen));
        })
    };
}
