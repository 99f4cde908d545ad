// Stands for the Rattle kit's crate `io`: what the programs use of it.

pub fn buffer() -> [u8; 4096] {
    [0; 4096]
}

pub fn large_buffer() -> [u8; 65536] {
    [0; 65536]
}

fn digits(n: u64, base: u64, least: usize, out: &mut [u8]) -> usize {
    let (mut k, mut rest) = (1, n / base);
    while rest > 0 {
        rest /= base;
        k += 1;
    }
    let k = k.max(least);
    rest = n;
    for place in out[..k].iter_mut().rev() {
        *place = b"0123456789abcdef"[(rest % base) as usize];
        rest /= base;
    }
    k
}

/// The decimal digits of a number, at the front of `out`, and how many they are.
pub fn decimal(n: u64, out: &mut [u8; 20]) -> usize {
    digits(n, 10, 1, out)
}

/// The same in hexadecimal, with zeros in front up to `width` digits, from 1 to 16.
pub fn hex(n: u64, width: usize, out: &mut [u8; 16]) -> usize {
    digits(n, 16, width.clamp(1, 16), out)
}
