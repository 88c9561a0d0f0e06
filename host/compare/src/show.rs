//! How bytes and lists of events are shown.

use vengloaz::Event;

/// Bytes as hexadecimal digits, eight bytes a group, with long stretches of one group counted.
pub fn hex(bytes: &[u8]) -> String {
    let group = |bytes: &[u8]| bytes.iter().map(|b| format!("{b:02x}")).collect::<String>();
    let groups: Vec<String> = bytes.chunks(8).map(group).collect();
    if groups.is_empty() {
        return "none".to_string();
    }
    counted(&groups)
}

/// An event's bytes as its text, or as they are where that would leave some of them out.
pub fn dotted(event: &[u8]) -> String {
    match event.try_into().ok().and_then(Event::from_bytes) {
        Some(event) => event.to_string(),
        None => format!("[{}]", hex(event)),
    }
}

/// A list of events.
pub fn listed(events: &[[u8; 8]]) -> String {
    let events: Vec<String> = events.iter().map(|event| dotted(event)).collect();
    counted(&events)
}

/// Words parted by spaces, four or more of the same in a row given once with their number; the first of very many.
fn counted(words: &[String]) -> String {
    const MOST: usize = 1_000;
    let mut parts = Vec::new();
    for run in words.chunk_by(|a, b| a == b) {
        if run.len() < 4 {
            parts.extend_from_slice(run);
        } else {
            parts.push(format!("({} times {})", run.len(), run[0]));
        }
    }
    let further = parts.len().saturating_sub(MOST);
    if further > 0 {
        parts.truncate(MOST);
        parts.push(format!(".. and {further} more"));
    }
    parts.join(" ")
}
