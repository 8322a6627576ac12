//! The command stream in plain Rust, for comparison: the rules and the output of `pairboard`.

mod board;
mod command;
mod load_set;
mod random;
mod streams;
mod trace;
mod transcript;

use std::env;
use std::error::Error;
use std::io::{self, Read, Write};

const USAGE: &str = "usage: plain [--trace | --name-departed] < stream
       plain --make random | hub | full-book | six-loads";

fn main() -> Result<(), Box<dyn Error>> {
    let arguments: Vec<String> = env::args().skip(1).collect();
    let arguments: Vec<&str> = arguments.iter().map(String::as_str).collect();
    let output = match arguments[..] {
        [] => transcript::transcript(&input()?),
        ["--trace"] => trace::trace(&input()?).into_bytes(),
        ["--name-departed"] => trace::name_departed(&input()?),
        ["--make", name] => streams::make(name).ok_or(USAGE)?,
        _ => return Err(USAGE.into()),
    };
    io::stdout().write_all(&output)?;
    Ok(())
}

fn input() -> io::Result<Vec<u8>> {
    let mut input = Vec::new();
    io::stdin()
        .take(command::LONGEST_STREAM as u64)
        .read_to_end(&mut input)?;
    if input.len() == command::LONGEST_STREAM {
        eprintln!(
            "nothing past the first {} bytes was read",
            command::LONGEST_STREAM
        );
    }
    Ok(input)
}
