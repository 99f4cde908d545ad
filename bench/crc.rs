// Three forms of the CRC: the driver's, four bits at a time from a table of 16 words; the one that it had before, bit by bit; and the
// first with a `match` for its table. Rattle and rustc both read this file; it is no .rt, since ./check wants each of these in a crate. What
// is proved of the last two is that they end: bench/crc compares what they give.

#[unsafe(no_mangle)]
pub extern "C" fn driver(s: &[u8]) -> u16 {
    crc::checksum(s)
}

fn shift(c: u16) -> u16 {
    if c < 0x8000 {
        c << 1
    } else {
        (c << 1) ^ 0x8005
    }
}

fn byte_by_bits(c: u16, b: u8) -> u16 {
    let mut x = c ^ (b as u16) << 8;
    let mut i: u8 = 0;
    while i < 8 {
        x = shift(x);
        i += 1;
    }
    x
}

#[unsafe(no_mangle)]
pub extern "C" fn before(s: &[u8]) -> u16 {
    let mut x = crc::START;
    let mut i = 0;
    while i < s.len() {
        x = byte_by_bits(x, s[i]);
        i += 1;
    }
    x
}

fn word(n: u16) -> u16 {
    match n {
        0 => 0x0000,
        1 => 0x8005,
        2 => 0x800F,
        3 => 0x000A,
        4 => 0x801B,
        5 => 0x001E,
        6 => 0x0014,
        7 => 0x8011,
        8 => 0x8033,
        9 => 0x0036,
        10 => 0x003C,
        11 => 0x8039,
        12 => 0x0028,
        13 => 0x802D,
        14 => 0x8027,
        _ => 0x0022,
    }
}

fn nibble(c: u16, n: u16) -> u16 {
    (c << 4) ^ word((c >> 12) ^ n)
}

fn byte_by_match(c: u16, b: u8) -> u16 {
    let high = (b >> 4) as u16;
    let low = (b % 16) as u16;
    nibble(nibble(c, high), low)
}

#[unsafe(no_mangle)]
pub extern "C" fn matched(s: &[u8]) -> u16 {
    let mut x = crc::START;
    let mut i = 0;
    while i < s.len() {
        x = byte_by_match(x, s[i]);
        i += 1;
    }
    x
}
