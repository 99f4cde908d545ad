//! The driver's SPI and delay: every exchange is answered by an `Answers` and written down.

use std::cell::RefCell;
use std::fmt::Write;

use embedded_hal::delay::DelayNs;
use embedded_hal::spi::{Error, ErrorKind, ErrorType, Operation, SpiDevice};

pub trait Answers {
    /// The bytes received, `want` of them, or `None` if the exchange fails.
    fn answer(&mut self, sent: &[u8], want: usize) -> Option<Vec<u8>>;
}

pub struct Talk<'a> {
    pub answers: &'a mut dyn Answers,
    /// The transcript's lines so far.
    pub log: String,
}

pub struct Wire<'a, 'b>(pub &'a RefCell<Talk<'b>>);

#[derive(Debug)]
pub struct Failed;

impl Error for Failed {
    fn kind(&self) -> ErrorKind {
        ErrorKind::Other
    }
}

impl ErrorType for Wire<'_, '_> {
    type Error = Failed;
}

impl SpiDevice for Wire<'_, '_> {
    fn transaction(&mut self, operations: &mut [Operation<'_, u8>]) -> Result<(), Failed> {
        let (mut sent, mut want) = (Vec::new(), 0);
        for operation in operations.iter() {
            match operation {
                Operation::Write(bytes) => sent.extend_from_slice(bytes),
                Operation::Read(buffer) => want += buffer.len(),
                other => panic!("the driver never does {other:?}"),
            }
        }
        let talk = &mut *self.0.borrow_mut();
        let answer = talk.answers.answer(&sent, want);
        let received = answer.as_deref().map_or("!".into(), |bytes| format!("< {}", hex(bytes)));
        writeln!(talk.log, "> {} {want}\n{received}", hex(&sent)).unwrap();

        let answer = answer.ok_or(Failed)?;
        let mut rest = &answer[..];
        for operation in operations {
            if let Operation::Read(buffer) = operation {
                let (part, after) = rest.split_at(buffer.len());
                buffer.copy_from_slice(part);
                rest = after;
            }
        }
        Ok(())
    }
}

impl DelayNs for Wire<'_, '_> {
    fn delay_ns(&mut self, ns: u32) {
        writeln!(self.0.borrow_mut().log, "wait {}", ns / 1000).unwrap();
    }
}

/// Bytes as a transcript writes them.
pub fn hex(bytes: &[u8]) -> String {
    if bytes.is_empty() {
        return "-".into();
    }
    bytes.iter().map(|byte| format!("{byte:02x}")).collect()
}

pub fn unhex(text: &str) -> Option<Vec<u8>> {
    if text == "-" {
        return Some(Vec::new());
    }
    let pairs = text.as_bytes().chunks(2).map(|pair| std::str::from_utf8(pair).ok());
    pairs.map(|pair| u8::from_str_radix(pair.filter(|p| p.len() == 2)?, 16).ok()).collect()
}
