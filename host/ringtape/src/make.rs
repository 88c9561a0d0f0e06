//! From a readable text to an input of ringrun.

use vengloaz::{Event, ParseEventError};

/// The most events that ringrun takes: 64 blocks of 63.
const MOST_EVENTS: usize = 64 * 63;

/// The bytes of a text, or what is wrong with it and in which line.
pub fn make(text: &[u8]) -> Result<Vec<u8>, String> {
    let text = readable(text)?;
    let mut lines = lines(text);
    let Some((first, words)) = lines.next() else {
        return Err(at(text.lines().count().max(1), "there is no line `N HOME`"));
    };
    let [n, home] = sizes(&words).map_err(|what| at(first, what))?;
    let mut list = Vec::new();
    for (line, words) in lines {
        for word in words {
            if list.len() == 8 * MOST_EVENTS {
                return Err(at(line, format!("{word} is one event more than {MOST_EVENTS}")));
            }
            list.extend(event(word, n).map_err(|what| at(line, what))?.to_bytes());
        }
    }
    Ok([&[n, home], &guide::tape(n.into(), &list)[..]].concat())
}

/// A fault with its line.
fn at(line: usize, what: impl std::fmt::Display) -> String {
    format!("line {line}: {what}")
}

fn readable(text: &[u8]) -> Result<&str, String> {
    std::str::from_utf8(text).map_err(|error| {
        let before = &text[..error.valid_up_to()];
        let feeds = before.iter().filter(|byte| **byte == b'\n').count();
        at(feeds + 1, "this is no text: a byte that isn't UTF-8")
    })
}

/// The words of each line that has any, comments left out, with the line's number from 1.
fn lines(text: &str) -> impl Iterator<Item = (usize, Vec<&str>)> {
    text.lines().enumerate().filter_map(|(number, line)| {
        let said = line.split('#').next()?;
        let words: Vec<&str> = said.split_whitespace().collect();
        (!words.is_empty()).then_some((number + 1, words))
    })
}

/// N and home, from the first line's words.
fn sizes(words: &[&str]) -> Result<[u8; 2], String> {
    let [n, home] = words else {
        return Err(format!("the first line is `N HOME`, two numbers: {}", words.join(" ")));
    };
    let size = number(n).ok_or(format!("N is not a number: {n}"))?;
    if !(2..=64).contains(&size) {
        return Err(format!("N is not 2 to 64: {n}"));
    }
    let place = number(home).ok_or(format!("HOME is not a number: {home}"))?;
    if place >= size {
        return Err(format!("HOME is not below N = {size}: {home}"));
    }
    Ok([size as u8, place as u8])
}

/// One event of a ring of N, from its word.
fn event(word: &str, n: u8) -> Result<Event, String> {
    let event: Event = word.parse().map_err(|error: ParseEventError| error.to_string())?;
    if event.process >= n {
        return Err(format!("the process of {word} is not below N = {n}"));
    }
    if event.code > 7 {
        return Err(format!("the code of {word} is above 7"));
    }
    Ok(event)
}

/// A decimal number; one beyond 64 bits counts as the greatest.
fn number(digits: &str) -> Option<u64> {
    let decimal = !digits.is_empty() && digits.bytes().all(|byte| byte.is_ascii_digit());
    decimal.then(|| digits.parse().unwrap_or(u64::MAX))
}
