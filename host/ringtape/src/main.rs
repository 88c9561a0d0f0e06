//! Inputs of the program ringrun as text, both ways, what ringrun must print for one, and inputs drawn from a seed.
//!
//! ```text
//! ringtape make   < TEXT > INPUT    the bytes of a readable text
//! ringtape show   < INPUT > TEXT    the reverse; an input that ringrun refuses comes as comments
//! ringtape expect < INPUT           what ringrun must print, by plain Rust
//! ringtape load N HOME SEED COUNT > INPUT
//!                                   a load: COUNT events drawn from SEED
//! ringtape load --tape N HOME SEED COUNT > TAPE
//!                                   its tape alone, which may be longer than ringrun takes
//! ```
//!
//! A text has a first line `N HOME`, then events parted by blanks or line feeds: `process.code`, and
//! `process.0(message)`; there may be none. From a `#` to the line's end is a comment. Whatever `show` writes of
//! an input that ringrun accepts, `make` turns into the same bytes, with a 0 for the home where that was missing.
//!
//! A text that isn't understood gets one line on standard error, with its line number, and exit
//! status 1; so does a load that is refused, with its number, and a failed read or write. A load of too
//! few or too many words, or with one that is no decimal number of 64 bits, gets a line and exit status 2,
//! another use the usage and 2.

mod load;
mod make;
mod show;

use std::io::{self, Read, Write};
use std::process::ExitCode;

const USAGE: &str = "\
usage: ringtape make   < TEXT > INPUT    the bytes of a readable text
       ringtape show   < INPUT > TEXT    the reverse; an input that ringrun refuses comes as comments
       ringtape expect < INPUT           what ringrun must print, by plain Rust
       ringtape load N HOME SEED COUNT > INPUT
                                         a load: COUNT events, 0 to 4032, drawn from SEED, 1 to 2147483646
       ringtape load --tape N HOME SEED COUNT > TAPE
                                         its tape alone, without N and HOME; COUNT may be up to 4128768
";

/// Why a command isn't done.
pub enum Fault {
    /// There is no such command: the usage, and exit status 2.
    Usage,
    /// An argument isn't what it should be: a line, and exit status 2.
    Argument(String),
    /// What is asked for can't be had: a line, and exit status 1.
    Failed(String),
}

fn main() -> ExitCode {
    let Err(fault) = performed() else { return ExitCode::SUCCESS };
    match &fault {
        Fault::Usage => eprint!("{USAGE}"),
        Fault::Argument(what) | Fault::Failed(what) => eprintln!("ringtape: {what}"),
    }
    ExitCode::from(if matches!(fault, Fault::Failed(_)) { 1 } else { 2 })
}

/// Performs the command that the arguments name, and writes what it makes.
fn performed() -> Result<(), Fault> {
    let words: Vec<String> = std::env::args_os().skip(1).map(|word| word.to_string_lossy().into_owned()).collect();
    let words: Vec<&str> = words.iter().map(String::as_str).collect();
    let output = match &words[..] {
        ["make"] => make::make(&input()?).map_err(Fault::Failed)?,
        ["show"] => show::show(&input()?).into_bytes(),
        ["expect"] => plain::report(&input()?),
        ["load", words @ ..] => load::load(words)?,
        _ => return Err(Fault::Usage),
    };
    let mut out = io::stdout().lock();
    let written = out.write_all(&output).and_then(|()| out.flush());
    written.map_err(|error| Fault::Failed(format!("standard output: {error}")))
}

/// All of standard input.
fn input() -> Result<Vec<u8>, Fault> {
    let mut input = Vec::new();
    match io::stdin().read_to_end(&mut input) {
        Ok(_) => Ok(input),
        Err(error) => Err(Fault::Failed(format!("standard input: {error}"))),
    }
}
