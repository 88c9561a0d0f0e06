//! Tells when loads die: `deaths` prints the tables that stand in the repository's README, `deaths N SEED` what becomes
//! of the longest load for N from that seed, performed on the fresh ring with home 0.

use guide::deaths::{compared_row, end, row, COMPARED, COMPARED_HEAD, HEAD, SIZES};
use std::process::ExitCode;

fn main() -> ExitCode {
    let numbers: Option<Vec<u64>> = std::env::args().skip(1).map(|word| word.parse().ok()).collect();
    match numbers.as_deref() {
        Some([]) => {
            print!("{HEAD}");
            SIZES.into_iter().for_each(|n| print!("{}", row(n)));
            print!("\n{COMPARED_HEAD}");
            COMPARED.into_iter().for_each(|n| print!("{}", compared_row(n)));
        }
        Some([n @ 2..=64, seed @ 1..=2_147_483_646]) => println!("{}", end(*n, *seed)),
        _ => {
            eprintln!("usage: deaths [N SEED], with N 2 to 64 and SEED 1 to 2147483646");
            return ExitCode::from(2);
        }
    }
    ExitCode::SUCCESS
}
