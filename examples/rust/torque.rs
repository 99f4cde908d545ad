//! The wheel engineer's question, asked of the modelled chip: when push says Ok, is my torque command in the chip, and will exactly
//! that go out? What is held and sent is written as `drive examples/torque.script` of the project writes it.
use masevuru::chip::{Chip, Frame, Unsent};
use masevuru::*;

/// A line on which one exchange can be made to fail.
struct Bench {
    chip: Chip,
    exchanges: u32,
    fail_at: u32,
}

impl Line for Bench {
    fn transfer(&mut self, tx: &[u8], rx: &mut [u8]) -> Result<(), Failed> {
        self.exchanges += 1;
        if self.exchanges == self.fail_at {
            return Err(Failed);
        }
        self.chip.transfer(tx, rx)
    }

    fn wait(&mut self, microseconds: u32) {
        self.chip.wait(microseconds);
    }
}

/// 500 kbit/s and 2 Mbit/s at 40 MHz.
fn settings() -> Settings {
    Settings {
        oscillator: OscillatorConfiguration { pll: false, divide: false },
        io: IoConfiguration { xstbyen: false, txcanod: false, sof: false, intod: false },
        bittime: BitTimeConfiguration {
            nominal: NominalBitTime { brp: 0, tseg1: 62, tseg2: 15, sjw: 15 },
            data: DataBitTime { brp: 0, tseg1: 14, tseg2: 3, sjw: 3, tdco: 16 },
        },
        counter: false,
        dncnt: 0,
        canerrors: false,
        spierror: false,
        eccerror: false,
    }
}

/// Four messages of up to 8 bytes.
fn sender() -> FifoConfiguration {
    let tx = TxFifo { txpri: 0, txat: 0, rtren: false, txatie: false, empty: false, half: false, notfull: false };
    FifoConfiguration { size: 4, plsize: 0, mode: FifoMode::Transmit(tx) }
}

fn main() -> Result<(), Refusal> {
    let torque = Header { extended: false, id: 0x123, rtr: false, brs: false, fdf: false, esi: false };
    let mut mcp = Mcp::new(Bench { chip: Chip::new(), exchanges: 0, fail_at: 0 });
    mcp.reset()?;
    mcp.configure(settings())?;
    mcp.configure_fifo(1, sender())?;
    mcp.set_op_mode(6)?; // CAN 2.0

    // A torque command, SEQ 5.
    tell("push", mcp.push(1, torque, 5, &[0x00, 0xC8, 0xFF, 0x38]));
    held(&mcp.line.chip)?;
    tell("request", mcp.request(1));
    send(&mut mcp.line.chip);
    send(&mut mcp.line.chip);

    // Another, SEQ 6, with the RAM write failing: the fourth exchange of a push.
    mcp.line.fail_at = mcp.line.exchanges + 4;
    tell("push", mcp.push(1, torque, 6, &[0x00, 0xC8, 0xFF, 0x39]));
    held(&mcp.line.chip)?;
    tell("request", mcp.request(1));
    send(&mut mcp.line.chip);
    Ok(())
}

fn tell(call: &str, answer: Result<(), Refusal>) {
    match answer {
        Ok(()) => println!("{call}: ok"),
        Err(r) => println!("{call}: refused {}", number(r)),
    }
}

/// What FIFO 1 holds, decoded from the chip's RAM.
fn held(chip: &Chip) -> Result<(), Refusal> {
    println!("held 1 {}", chip.held(1)?);
    let mut k = 0;
    while let Some(slot) = chip.held_at(1, k)? {
        match slot {
            Ok(frame) => println!("+ {}", told(frame)),
            Err(_) => println!("+ no frame"),
        }
        k += 1;
    }
    Ok(())
}

/// The chip's turn on the bus.
fn send(chip: &mut Chip) {
    match chip.send(1) {
        Ok(frame) => println!("bus send 1 = {}", told(frame)),
        Err(Unsent::NoFrame) => println!("bus send 1 = no frame"),
        Err(Unsent::Nothing) => println!("bus send 1 = nothing sent"),
        Err(Unsent::Refused(r)) => println!("bus send 1 = refused {}", number(r)),
    }
}

fn told(frame: Frame) -> String {
    let (h, payload) = (frame.header, &frame.payload.bytes[..frame.payload.len]);
    let letters = [(h.fdf, 'f'), (h.brs, 'b'), (h.esi, 'e'), (h.rtr, 'r')];
    let flags = letters.iter().filter(|(is, _)| *is).map(|(_, letter)| letter).collect();
    let bytes = payload.iter().map(|b| format!("{b:02x}")).collect();
    let kind = if h.extended { "ext" } else { "std" };
    format!("frame {kind} {:03x} {} {} {}", h.id, or_none(flags), frame.seq, or_none(bytes))
}

fn or_none(text: String) -> String {
    if text.is_empty() { "-".into() } else { text }
}
