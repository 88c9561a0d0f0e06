//! The benchmark: the proved library (Rattle) and the plain Rust of `plain`, in one process, by turns.
//!
//! `cargo bench --offline -p compare` prints every line; with `-- --quick run 64` it takes a fast look at
//! the lines whose name contains "run 64". Each line is the median of several rounds, in
//! which the two sides take turns at the same calls on the same bytes. Before a line is timed both
//! sides are made to give the same numbers, images, ledgers and results.

mod calls;
mod loads;
mod runs;
mod same;
mod table;
mod tapes;
mod timing;

use table::Table;
use timing::Effort;

fn main() {
    // cargo itself adds `--bench`.
    let (options, words): (Vec<String>, Vec<String>) =
        std::env::args().skip(1).partition(|argument| argument.starts_with("--"));
    let effort = if options.iter().any(|option| option == "--quick") { Effort::QUICK } else { Effort::WHOLE };
    let mut table = Table::new(words.join(" "));
    table.start();
    runs::measure(&mut table, effort);
    calls::measure(&mut table, effort);
    tapes::measure(&mut table, effort);
    loads::measure(&mut table, effort);
    table.end();
}
