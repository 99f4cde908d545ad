//! The driver over embedded-hal 1.0: a `Line` of any `SpiDevice` and `DelayNs`. `Mcp::new(Hal { spi, delay })` is then the driver.
use embedded_hal::delay::DelayNs;
use embedded_hal::spi::{Operation, SpiDevice};
use masevuru::{Failed, Line};

pub struct Hal<S, D> {
    pub spi: S,
    pub delay: D,
}

impl<S: SpiDevice, D: DelayNs> Line for Hal<S, D> {
    /// A `SpiDevice` selects the chip once for a transaction. Nothing is read where nothing is wanted: not every HAL takes an empty read.
    fn transfer(&mut self, tx: &[u8], rx: &mut [u8]) -> Result<(), Failed> {
        let done = match rx {
            [] => self.spi.write(tx),
            _ => self.spi.transaction(&mut [Operation::Write(tx), Operation::Read(rx)]),
        };
        done.map_err(|_| Failed)
    }

    fn wait(&mut self, microseconds: u32) {
        self.delay.delay_us(microseconds);
    }
}
