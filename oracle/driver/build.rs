//! Copies the driver's files under `copied/` (git-ignored), byte for byte. Where the checkout lacks
//! one of the two files that were reconstructed, the reconstructed one takes its place.
//!
//! `ORACLE_SRC` names a checkout of the driver's repository (the directory that holds `src/`).

use std::path::Path;
use std::{env, fs, io};

const RECONSTRUCTED: [(&str, &str); 2] = [
    ("reconstructed/macros.rs", "src/macros.rs"),
    ("reconstructed/controller_mod.rs", "src/memory/controller/mod.rs"),
];

/// Copies one file, unless the copy is there already. The copy is given the file's time, so that a
/// second build sees nothing new; a copy that was changed by hand is made again.
fn copy(from: &Path, to: &Path) -> io::Result<()> {
    let to = Path::new("copied").join(to);
    println!("cargo:rerun-if-changed={}", from.display());
    println!("cargo:rerun-if-changed={}", to.display());
    let bytes = fs::read(from)?;
    if fs::read(&to).ok().as_ref() != Some(&bytes) {
        fs::create_dir_all(to.parent().expect("it stands below copied/"))?;
        fs::write(&to, bytes)?;
    }
    let time = fs::metadata(from)?.modified()?;
    fs::File::options().write(true).open(&to)?.set_modified(time)
}

fn copy_tree(root: &Path, below: &Path) -> io::Result<()> {
    for entry in fs::read_dir(root.join(below))? {
        let entry = entry?;
        let path = below.join(entry.file_name());
        if entry.file_type()?.is_dir() {
            copy_tree(root, &path)?;
        } else if path.extension().is_some_and(|e| e == "rs") {
            copy(&entry.path(), &path)?;
        }
    }
    Ok(())
}

fn copy_all(root: &Path) -> io::Result<()> {
    copy_tree(root, Path::new("src"))?;
    for (ours, place) in RECONSTRUCTED {
        if !root.join(place).exists() {
            copy(Path::new(ours), Path::new(place))?;
        }
    }
    Ok(())
}

fn main() {
    println!("cargo:rerun-if-env-changed=ORACLE_SRC");
    println!("cargo:rerun-if-changed=build.rs");
    let Some(root) = env::var_os("ORACLE_SRC").filter(|root| !root.is_empty()) else {
        println!("cargo::error=set ORACLE_SRC to a checkout of the Rust driver adom-inc/mcp2518fd (the directory that holds src/)");
        return;
    };
    let root = Path::new(&root);
    if !root.is_absolute() || !root.join("src/lib.rs").is_file() {
        println!("cargo::error=ORACLE_SRC is {}: it must be an absolute path, and src/lib.rs must be there", root.display());
        return;
    }
    if let Err(error) = copy_all(root) {
        println!("cargo::error=copying the Rust driver from {}: {error}", root.display());
    }
}
