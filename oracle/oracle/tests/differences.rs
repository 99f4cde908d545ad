//! The cases that docs/DIFFERENCES.md shows: the Rust still does what is written there.

use std::fs::File;
use std::process::Command;

#[test]
fn differences() {
    let cases = concat!(env!("CARGO_MANIFEST_DIR"), "/tests/differences.txt");
    let oracle = Command::new(env!("CARGO_BIN_EXE_oracle"))
        .arg("replay")
        .stdin(File::open(cases).unwrap())
        .output()
        .unwrap();
    let wrote = String::from_utf8(oracle.stdout).unwrap();
    assert_eq!(wrote, "43 agree, 0 differ, 0 are no call of the Rust driver\n");
}
