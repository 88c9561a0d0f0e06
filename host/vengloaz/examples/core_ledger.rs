//! A core's ledger held against the reference's: a whole comparison, as a suite makes it for each of its jobs.
//!
//! ```text
//! core_ledger INPUT LEDGER
//! ```
//!
//! INPUT is what ringrun reads: N and home, a byte each, 0 where it is missing, then the tape that the core got, which
//! may be longer than ringrun takes. LEDGER is what the core made of it. Exit status 0: the two ledgers are the same.
//! 1: they differ, and the first difference is printed. 2: there is nothing to compare, since a file can't be read or
//! the reference refuses the input.

use std::error::Error;
use std::process::ExitCode;
use std::{env, fs};

use vengloaz::{first_difference, fresh, run, stopped};

fn main() -> ExitCode {
    let arguments: Vec<String> = env::args().skip(1).collect();
    let [input, ledger] = &arguments[..] else {
        eprintln!("usage: core_ledger INPUT LEDGER");
        return ExitCode::from(2);
    };
    match compared(input, ledger) {
        Ok(true) => ExitCode::SUCCESS,
        Ok(false) => ExitCode::from(1),
        Err(trouble) => {
            eprintln!("core_ledger: {trouble}");
            ExitCode::from(2)
        }
    }
}

/// Whether the core's ledger is the reference's; a line of standard output says more.
fn compared(input: &str, ledger: &str) -> Result<bool, Box<dyn Error>> {
    let input = contents(input)?;
    let core = contents(ledger)?;
    let reference = reference(&input)?;
    let difference = first_difference(&reference, &core);
    match &difference {
        None => println!("the same, {} records", reference.len() / 12),
        Some(difference) => println!("{difference}"),
    }
    Ok(difference.is_none())
}

/// The reference's ledger of an input.
fn reference(input: &[u8]) -> Result<Vec<u8>, Box<dyn Error>> {
    let number = |at: usize| input.get(at).copied().unwrap_or(0).into();
    let tape = input.get(2..).unwrap_or_default();
    let mut image = fresh(number(0), number(1))?;
    let mut ledger = vec![0; tape.len() / 512 * 756];
    let counts = run(&mut image, tape, &mut ledger)?.counts;
    ledger.truncate(counts.ledger_bytes());
    println!("{counts}, {}", if stopped(&image)? { "stopped" } else { "moving" });
    Ok(ledger)
}

/// A file's bytes; what goes wrong is told with its name.
fn contents(file: &str) -> Result<Vec<u8>, String> {
    fs::read(file).map_err(|error| format!("{file}: {error}"))
}
