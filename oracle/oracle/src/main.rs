//! The differential oracle: the published MCP2518FD driver, run against a scripted or generated SPI.
//! README.md says what the transcripts look like.

mod call;
mod fields;
mod gen;
mod replay;
mod rng;
mod wire;

use std::process::ExitCode;

use rng::Rng;

const USAGE: &str = "\
usage: oracle gen SEED COUNT [KIND]     random cases as transcripts
       oracle kinds                     the kinds of call
       oracle run < FILE                the file's calls and answers, with what the Rust makes of them
       oracle replay < FILE             the same, compared with the file
       oracle fields [SEED [COUNT]]     bit fields read and set, COUNT times each (4)
       oracle crc [SEED [COUNT]]        checksums of COUNT random byte strings (100)";

fn main() -> ExitCode {
    let args: Vec<String> = std::env::args().skip(1).collect();
    let args: Vec<&str> = args.iter().map(String::as_str).collect();
    run(&args).unwrap_or_else(|| {
        eprintln!("{USAGE}");
        ExitCode::from(2)
    })
}

fn run(args: &[&str]) -> Option<ExitCode> {
    match args {
        ["gen", seed, count] => generate(seed, count, &gen::KINDS)?,
        ["gen", seed, count, name] => {
            let kind = gen::KINDS.iter().find(|kind| kind.0 == *name)?;
            generate(seed, count, &[*kind])?;
        }
        ["kinds"] => gen::KINDS.iter().for_each(|kind| println!("{}", kind.0)),
        ["run"] => replay::run(),
        ["replay"] => return Some(replay::replay()),
        ["fields", rest @ ..] => {
            let (mut rng, count) = seed_and_count(rest, 4)?;
            (0..count).for_each(|_| fields::show(&mut rng));
            (0..count).for_each(|_| fields::show_queue(&mut rng));
        }
        ["crc", rest @ ..] => {
            let (mut rng, count) = seed_and_count(rest, 100)?;
            show_crc(b"123456789");
            for _ in 0..count {
                let length = rng.below(72) as usize;
                show_crc(&rng.bytes(length));
            }
        }
        _ => return None,
    }
    Some(ExitCode::SUCCESS)
}

fn generate(seed: &str, count: &str, kinds: &[gen::Kind]) -> Option<()> {
    let mut rng = Rng(seed.parse().ok()?);
    for i in 0..count.parse::<u64>().ok()? {
        let kind = rng.pick(kinds);
        let blank = if i > 0 { "\n" } else { "" };
        print!("{blank}{}", gen::case(&mut rng, kind));
    }
    Some(())
}

fn seed_and_count(args: &[&str], usual: u64) -> Option<(Rng, u64)> {
    let number = |at: usize, usual| args.get(at).map_or(Some(usual), |arg| arg.parse().ok());
    Some((Rng(number(0, 1)?), number(1, usual)?)).filter(|_| args.len() <= 2)
}

fn show_crc(bytes: &[u8]) {
    let crc = crc::Crc::<u16>::new(&crc::CRC_16_CMS).checksum(bytes);
    println!("crc {} -> {crc:04x}", wire::hex(bytes));
}
