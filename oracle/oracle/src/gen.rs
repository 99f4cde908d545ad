//! Random calls, and a chip that gives them mostly plausible answers.

use std::collections::BTreeMap;

use crate::call::{addresses, transcript};
use crate::rng::Rng;
use crate::wire::{hex, Answers};

/// A call's name and the number of exchanges that the longest of its kind makes.
pub type Kind = (&'static str, u64);

pub const KINDS: [Kind; 27] = [
    ("reset", 1),
    ("get_op_mode", 1),
    ("set_op_mode", 7),
    ("configure_osc", 5),
    ("configure_io", 2),
    ("configure_bit_timing", 6),
    ("configure", 96),
    ("configure_fifo", 2),
    ("configure_filter", 8),
    ("push", 5),
    ("request", 2),
    ("transmit", 7),
    ("has_next", 2),
    ("peek", 7),
    ("get", 9),
    ("read_ram", 1),
    ("write_ram", 1),
    ("verify", 64),
    ("verify_long", 2),
    ("read_register", 1),
    ("write_register", 1),
    ("modify_register", 2),
    ("checked_read", 3),
    ("configure_tx_queue", 4),
    ("queue_push", 6),
    ("queue_push_unchecked", 4),
    ("queue_request", 2),
];

/// One random case of the kind, as a transcript.
pub fn case(rng: &mut Rng, kind: Kind) -> String {
    let call = call(rng, kind.0);
    let payload = call.rsplit(' ').next().map_or(0, |bytes| bytes.len() / 2);
    let mut chip = Chip::new(rng, kind, payload);
    transcript(&call, &mut chip).unwrap_or_else(|| panic!("no call of the driver: {call}"))
}

/* Calls. About one in 32 settings is one that the driver's types hold but document 01 refuses. */

fn call(rng: &mut Rng, kind: &str) -> String {
    let args = match kind {
        "set_op_mode" => if rng.one_in(32) { 255 } else { rng.below(8) }.to_string(),
        "configure_osc" => rng.flags(2),
        "configure_io" => rng.flags(4),
        "configure_bit_timing" => bit_timing(rng),
        "configure" => {
            let (start, timing) = (rng.flags(6), bit_timing(rng));
            let (counter, dncnt, enables) =
                (rng.below(2), rng.pick(&[0, 0, 1, 9, 18]), rng.flags(3));
            format!("{start} {timing} {counter} {dncnt} {enables}")
        }
        "configure_fifo" => configure_fifo(rng),
        "configure_filter" => configure_filter(rng),
        "configure_tx_queue" => configure_tx_queue(rng),
        "push" | "transmit" => format!("{} {}", fifo(rng), message(rng)),
        "queue_push" | "queue_push_unchecked" => message(rng),
        "request" | "has_next" | "peek" | "get" => fifo(rng).to_string(),
        "read_ram" => {
            let (address, length) = ram_part(rng);
            format!("{address:x} {length}")
        }
        "write_ram" => {
            let (address, length) = ram_part(rng);
            format!("{address:x} {}", hex(&rng.bytes(length)))
        }
        "read_register" | "checked_read" => format!("{:x}", address(rng)),
        "write_register" => format!("{:x} {:08x}", address(rng), rng.word()),
        "modify_register" => format!("{:x} {:08x} {:08x}", address(rng), rng.word(), rng.word()),
        _ => return kind.into(),
    };
    format!("{kind} {args}")
}

fn fifo(rng: &mut Rng) -> u64 {
    rng.within(1, 31)
}

fn address(rng: &mut Rng) -> u16 {
    rng.pick(&addresses()) as u16
}

/// TDCO is mostly one of those that the driver's six bits hold.
fn bit_timing(rng: &mut Rng) -> String {
    let widths = [8, 8, 7, 7, 8, 5, 4, 4, if rng.one_in(8) { 7 } else { 6 }];
    let fields = widths.map(|width| {
        let most = (1 << width) - 1;
        let value = rng.below(most + 1);
        rng.pick(&[value, value, value, 0, most]).to_string()
    });
    fields.join(" ")
}

fn size(rng: &mut Rng) -> u64 {
    let usual = rng.within(1, 32);
    let large = rng.within(33, 255);
    if rng.one_in(32) {
        0
    } else {
        rng.pick(&[usual, usual, 1, 32, 33, 255, large])
    }
}

fn priority(rng: &mut Rng) -> u64 {
    if rng.one_in(32) {
        rng.within(32, 255)
    } else {
        rng.below(32)
    }
}

fn configure_fifo(rng: &mut Rng) -> String {
    let size = size(rng);
    let start = format!("{} {size} {}", fifo(rng), rng.below(8));
    if rng.one_in(2) {
        return format!("{start} rx {}", rng.flags(5));
    }
    format!("{start} tx {} {} {}", priority(rng), rng.below(3), rng.flags(5))
}

fn configure_tx_queue(rng: &mut Rng) -> String {
    if rng.one_in(8) {
        return "off".into();
    }
    let start = format!("{} {}", size(rng), rng.below(8));
    format!("{start} {} {} {}", priority(rng), rng.below(3), rng.flags(3))
}

fn configure_filter(rng: &mut Rng) -> String {
    let filter = rng.below(32);
    if rng.one_in(8) {
        return format!("{filter} off");
    }
    let (target, mode) = (fifo(rng), rng.pick(&["std", "ext", "both"]));
    format!("{filter} {target} {mode} {} {}", id(rng), id(rng))
}

fn id(rng: &mut Rng) -> String {
    let (standard, extended) = (rng.below(0x800), rng.below(0x2000_0000));
    if rng.one_in(2) {
        format!("s{:x}", rng.pick(&[standard, standard, standard, 0, 0x7ff]))
    } else {
        let edges = [extended, extended, extended, 0, 0x1fff_ffff, 0x3_ffff, 0x4_0000, 0x18da_00f1];
        format!("x{:x}", rng.pick(&edges))
    }
}

fn message(rng: &mut Rng) -> String {
    let id = id(rng);
    let fd = rng.one_in(2);
    let remote = !fd && rng.one_in(4);
    let length = match rng.below(9) {
        short if !fd || rng.one_in(4) => short,
        _ => rng.pick(&[8, 12, 16, 20, 24, 32, 48, 64]),
    } as usize;
    let payload = if remote { vec![0; length] } else { rng.bytes(length) };

    let letters = [(fd, "f"), (rng.one_in(2), "b"), (rng.one_in(2), "e"), (remote, "r")];
    let flags: String = letters.iter().filter(|l| l.0).map(|l| l.1).collect();
    let flags = if flags.is_empty() { "-" } else { &flags };

    let usual = rng.below(1 << 23);
    let seq = match rng.below(32) {
        0 => rng.pick(&[1 << 23, u32::MAX.into()]),
        1..=4 => rng.pick(&[0, 1, (1 << 23) - 1]),
        _ => usual,
    };
    format!("{id} {flags} {seq} {}", hex(&payload))
}

/// A RAM address and a length, most of them in range and many at the limits.
fn ram_part(rng: &mut Rng) -> (u64, usize) {
    let length = match rng.below(16) {
        0 => rng.below(81),
        1 => rng.pick(&[2044, 2048, 2052]),
        2 => 0,
        _ => 4 * rng.below(20),
    };
    let last = 0xc00u64.saturating_sub(length);
    let address = match rng.below(16) {
        0 => rng.below(0x1_0000),
        1 => rng.below(0x400),
        2 => rng.within(0x3fc, 0x404),
        3 | 4 => rng.within(last.saturating_sub(8), last + 8),
        5 => rng.within(0xbf8, 0xc04),
        6 => rng.within(0x400, last.max(0x400)),
        _ => rng.within(0x400, last.max(0x400)) & !3,
    };
    (address, length as usize)
}

/* Answers */

const CRC: crc::Crc<u16> = crc::Crc::<u16>::new(&crc::CRC_16_CMS);
const CON: u16 = 0x000;
const TDC: u16 = 0x00c;
const OSC: u16 = 0xe00;
const SIZES: [usize; 8] = [8, 12, 16, 20, 24, 32, 48, 64];

/// Whether nothing is left to wait for.
fn count_down(left: &mut u64) -> bool {
    let ready = *left == 0;
    *left -= u64::from(!ready);
    ready
}

struct Chip<'a> {
    rng: &'a mut Rng,
    /// Words read or written so far.
    registers: BTreeMap<u16, u32>,
    /// The last bytes written to RAM.
    written: Vec<u8>,
    exchanges: u64,
    header_due: bool,
    /// The length of the payload, in a push or transmit.
    payload: usize,

    // What goes wrong in this case, drawn before its first exchange.
    fails_at: Option<u64>,
    echo_wrong_at: Option<u64>,
    mode_polls_to_wait: u64,
    pll_polls_to_wait: u64,
    mismatches: u64,
    sends: bool,
}

impl<'a> Chip<'a> {
    fn new(rng: &'a mut Rng, kind: Kind, payload: usize) -> Self {
        Chip {
            registers: BTreeMap::new(),
            written: Vec::new(),
            exchanges: 0,
            header_due: matches!(kind.0, "peek" | "get"),
            payload,
            fails_at: rng.one_in(4).then(|| rng.below(kind.1)),
            echo_wrong_at: rng.one_in(4).then(|| rng.below(kind.1)),
            mode_polls_to_wait: if rng.one_in(2) { 0 } else { rng.below(6) },
            pll_polls_to_wait: if rng.one_in(2) { 0 } else { rng.below(4) },
            mismatches: if rng.one_in(2) { 0 } else { rng.below(4) },
            sends: ["push", "transmit", "queue_push", "queue_push_unchecked"].contains(&kind.0)
                != rng.one_in(12),
            rng,
        }
    }

    /// The word that a read of the register gives.
    fn register(&mut self, address: u16) -> u32 {
        let word = match self.registers.get(&address) {
            Some(word) if address == CON => {
                let ready = count_down(&mut self.mode_polls_to_wait);
                let other = if ready { 0 } else { self.rng.within(1, 7) as u32 };
                word & !(7 << 21) | ((word >> 24 & 7) ^ other) << 21 // OPMOD follows REQOP
            }
            Some(word) if address == OSC => {
                let ready = count_down(&mut self.pll_polls_to_wait);
                word & !(1 << 8) | u32::from(ready) << 8 // PLLRDY
            }
            Some(word) if !self.rng.one_in(16) => *word,
            _ => self.fresh(address),
        };
        self.registers.insert(address, word);
        word
    }

    fn fresh(&mut self, address: u16) -> u32 {
        // the queue's three words are those of a FIFO 0
        if (0x050..0x1d0).contains(&address) {
            return match (address - 0x050) % 12 {
                0 => self.fifo_control(),
                4 => self.rng.word() & !1 | u32::from(!self.rng.one_in(10)),
                _ => self.user_address(),
            };
        }
        let word = self.rng.word();
        let reset = match address {
            CON => 0x0498_0760,
            0x004 => 0x003e_0f0f,
            0x008 => 0x000e_0303,
            TDC => 0x0002_1000,
            OSC => 0x0000_0460,
            0xe04 => 0x0300_0000,
            _ => 0,
        };
        let word = self.rng.pick(&[reset, reset ^ word & 0x00ff_00ff, word, word, u32::MAX]);
        let keeps_tdco_sign = address != TDC || self.rng.one_in(8);
        if keeps_tdco_sign {
            word
        } else {
            word & !(1 << 14)
        }
    }

    /// Mostly of the direction that the call asks for, with UINC and FRESET 0, and with a PLSIZE that
    /// just holds the payload or just doesn't.
    fn fifo_control(&mut self) -> u32 {
        let word = self.rng.word() & !(1 << 7) | u32::from(self.sends) << 7;
        let word = if self.rng.one_in(8) { word } else { word & !(1 << 8 | 1 << 10) };
        let fits = SIZES.iter().position(|size| self.payload <= *size).unwrap_or(7) as u32;
        let plsize = self.rng.pick(&[fits, fits, fits.saturating_sub(1), 7, word >> 29]);
        word & !(7 << 29) | plsize << 29
    }

    fn user_address(&mut self) -> u32 {
        let aligned = 4 * self.rng.below(0x200) as u32;
        let near_the_end = 0x800 - 4 * self.rng.below(24) as u32;
        let word = self.rng.word();
        match self.rng.below(20) {
            0..=2 => near_the_end,
            3 => word % 0x801,
            4 => 0x800 + word % (0xfc00 - 0x800),
            5 => self.rng.pick(&[0x7b8, 0x7bc, 0x7f4, 0x7f8, 0x7fc, 0x7ff, 0x800, 0xfbff]),
            6 => {
                self.rng.pick(&[0xfc00, 0xffff, 0x1_0000, 0x1_07b8, 0xffff_fbff, 0xffff_fc00, word])
            }
            _ => aligned,
        }
    }

    /// A received message's first two words. A classic DLC above 8 is rare.
    fn header(&mut self) -> Vec<u8> {
        let mut bytes = self.rng.bytes(8);
        if bytes[4] & 0x80 == 0 && bytes[4] & 0x0f > 8 && !self.rng.one_in(8) {
            bytes[4] &= !0x08;
        }
        bytes
    }

    fn checked(&mut self, sent: &[u8], address: u16) -> Vec<u8> {
        let data = self.register(address).to_le_bytes();
        let crc = CRC.checksum(&[sent, &data].concat()).to_be_bytes();
        let mut answer = [&data[..], &crc].concat();
        if self.mismatches > 0 {
            self.mismatches -= 1;
            let command_only = CRC.checksum(&[&sent[..2], &data].concat());
            let data_only = CRC.checksum(&data);
            match self.rng.below(8) {
                0 => answer[4..].reverse(),
                1 => answer[4..].copy_from_slice(&command_only.to_be_bytes()),
                2 => answer[4..].copy_from_slice(&data_only.to_be_bytes()),
                3 => answer[..4].reverse(),
                _ => answer[self.rng.below(6) as usize] ^= 1 << self.rng.below(8),
            }
        }
        answer
    }
}

impl Answers for Chip<'_> {
    fn answer(&mut self, sent: &[u8], want: usize) -> Option<Vec<u8>> {
        let now = self.exchanges;
        self.exchanges += 1;
        if self.fails_at == Some(now) {
            return None;
        }
        let command = u16::from_be_bytes([sent[0], sent[1]]);
        let address = command & 0xfff;
        let ram = (0x400..0xc00).contains(&address);
        Some(match command >> 12 {
            3 if !ram => self.register(address).to_le_bytes().to_vec(),
            3 if self.header_due => {
                self.header_due = false;
                self.header()
            }
            3 if want > 0 && self.written.len() == want => {
                let mut echo = self.written.clone();
                if self.echo_wrong_at.is_some_and(|at| now / 2 == at / 2) {
                    echo[self.rng.below(want as u64) as usize] ^= 1 << self.rng.below(8);
                }
                echo
            }
            3 => self.rng.bytes(want),
            11 => self.checked(sent, address),
            _ => {
                if ram {
                    self.written = sent[2..].to_vec();
                } else if let Ok(word) = sent[2..].try_into() {
                    self.registers.insert(address, u32::from_le_bytes(word));
                }
                Vec::new()
            }
        })
    }
}
