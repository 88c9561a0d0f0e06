//! A load, drawn from a seed: as an input of ringrun, or its tape alone.

use crate::Fault;

/// The most events that ringrun takes, and the most of a tape.
const MOST_OF_RINGRUN: u64 = 64 * 63;
const MOST_EVENTS: u64 = 65_536 * 63;

/// The greatest seed.
const MOST_SEED: u64 = 2_147_483_646;

/// What the words behind `load` ask for: N, HOME, SEED and COUNT, and `--tape` before or behind them for the bare tape.
/// Refused are N, then HOME, with or without `--tape`, then SEED, then COUNT.
pub fn load(words: &[&str]) -> Result<Vec<u8>, Fault> {
    let (numbers, bare) = match words {
        ["--tape", numbers @ ..] | [numbers @ .., "--tape"] => (numbers, true),
        numbers => (numbers, false),
    };
    let [n, home, seed, count] = numbers else {
        let given = words.join(" ");
        return Err(Fault::Argument(format!(
            "load takes N HOME SEED COUNT, and --tape before or behind them: {given}"
        )));
    };
    let [n, home] = [number("N", n)?, number("HOME", home)?];
    let [seed, count] = [number("SEED", seed)?, number("COUNT", count)?];

    let refused = |refusal: u64| {
        let what = match refusal {
            1 => format!("N is not 2 to 64: {n}"),
            2 => format!("HOME is not below N = {n}: {home}"),
            6 if bare => format!("COUNT is not 0 to {MOST_EVENTS}: {count}"),
            6 => format!("COUNT is not 0 to {MOST_OF_RINGRUN}, or with --tape to {MOST_EVENTS}: {count}"),
            11 => format!("SEED is not 1 to {MOST_SEED}: {seed}"),
            _ => format!("{n} {home} {seed} {count}"),
        };
        Fault::Failed(format!("refused {refusal} at 0: {what}"))
    };
    let done = |refusal: u64| if refusal == 0 { Ok(()) } else { Err(refused(refusal)) };

    done(plain::ring_fresh::<0>(n, home, &mut [0; 16 + 8 * 64], &mut [0; 80]))?;
    // A count beyond a tape's is refused, whatever the output.
    let blocks = if count <= MOST_EVENTS { count.div_ceil(63) as usize } else { 0 };
    let mut tape = vec![0; 512 * blocks];
    done(plain::ring_load::<0>(n, seed, count, &mut tape, &mut [0; 80]))?;
    if bare {
        return Ok(tape);
    }
    if count > MOST_OF_RINGRUN {
        return Err(refused(6));
    }
    Ok([&[n as u8, home as u8], &tape[..]].concat())
}

/// A decimal number of 64 bits.
fn number(name: &str, digits: &str) -> Result<u64, Fault> {
    if digits.is_empty() || !digits.bytes().all(|byte| byte.is_ascii_digit()) {
        return Err(Fault::Argument(format!("{name} is not a decimal number: {digits}")));
    }
    digits.parse().map_err(|_| Fault::Argument(format!("{name} does not fit 64 bits: {digits}")))
}
