// Stands for Rattle's runtime, over Rust's standard library: what the programs use of it.
use std::io::{Read, Result, Write};

#[derive(Clone, Copy, Debug, PartialEq, Eq)]
pub struct HostRuntime;

#[derive(Clone, Copy, Debug, PartialEq, Eq)]
pub struct Stdin;

#[derive(Clone, Copy, Debug, PartialEq, Eq)]
pub struct Stdout;

#[derive(Clone, Copy, Debug, PartialEq, Eq)]
pub struct Stderr;

impl HostRuntime {
    pub fn stdin(self) -> Stdin {
        Stdin
    }

    pub fn stdout(self) -> Stdout {
        Stdout
    }

    pub fn stderr(self) -> Stderr {
        Stderr
    }
}

impl Read for Stdin {
    fn read(&mut self, buf: &mut [u8]) -> Result<usize> {
        std::io::stdin().lock().read(buf)
    }
}

fn written(mut out: impl Write, buf: &[u8]) -> Result<()> {
    out.write_all(buf).and_then(|()| out.flush())
}

impl Stdout {
    pub fn write_all(self, buf: &[u8]) -> Result<()> {
        written(std::io::stdout().lock(), buf)
    }
}

impl Stderr {
    pub fn write_all(self, buf: &[u8]) -> Result<()> {
        written(std::io::stderr().lock(), buf)
    }
}
