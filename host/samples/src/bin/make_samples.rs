//! Writes the samples of ringrun into a folder: `make_samples DIR`.
//!
//! Each is NAME.in, as the package makes it, with NAME.out, the text that plain Rust gives for
//! it. Files of the same names are written over, other files are left alone.

use std::fs;
use std::io;
use std::path::Path;
use std::process::ExitCode;

fn main() -> ExitCode {
    let mut arguments = std::env::args_os().skip(1);
    let (Some(folder), None) = (arguments.next(), arguments.next()) else {
        eprintln!("usage: make_samples DIR");
        return ExitCode::from(2);
    };
    match write(Path::new(&folder)) {
        Ok(count) => println!("{count} samples written"),
        Err(error) => {
            eprintln!("make_samples: {}: {error}", folder.to_string_lossy());
            return ExitCode::from(1);
        }
    }
    ExitCode::SUCCESS
}

/// Writes every sample and gives their number.
fn write(folder: &Path) -> io::Result<usize> {
    let samples = samples::all();
    for sample in &samples {
        fs::write(folder.join(format!("{}.in", sample.name)), &sample.input)?;
        fs::write(folder.join(format!("{}.out", sample.name)), plain::report(&sample.input))?;
    }
    Ok(samples.len())
}
