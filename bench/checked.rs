//! A checked read by the driver as users link it: `Mcp::checked_read`, over a line that gives the bytes of `answer`.
#![no_std]

use masevuru::{Failed, Line, Mcp};

extern "C" {
    static answer: [u8; 6];
}

struct Bench;

impl Line for Bench {
    fn transfer(&mut self, _tx: &[u8], rx: &mut [u8]) -> Result<(), Failed> {
        // SAFETY: checked.c has the bytes, and writes them before it calls.
        rx.copy_from_slice(unsafe { &answer });
        Ok(())
    }

    fn wait(&mut self, _microseconds: u32) {}
}

#[no_mangle]
pub extern "C" fn checked(address: u32) -> u32 {
    Mcp::new(Bench).checked_read(address).map_or(0, |read| read.word)
}

#[panic_handler]
fn panic(_: &core::panic::PanicInfo) -> ! {
    loop {}
}
