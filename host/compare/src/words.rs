//! An image in words.

/// The flags of a process, byte 1 of its record, from bit 0 on.
const FLAGS: [&str; 3] = ["have", "arriving", "news"];

/// Byte 2 from bit 0 on: asked by its right, asked itself, marked, and what lies on the link from its right.
const REQUESTS: [&str; 8] = [
    "right asked full",
    "right asked empty",
    "asked full",
    "asked empty",
    "marked full",
    "marked empty",
    "link full",
    "link empty",
];

/// The header of an image of N processes, then each record in which something is set.
pub fn in_words(image: &[u8], n: usize) -> Vec<String> {
    let status = ["empty", "full"].get(usize::from(image[1])).unwrap_or(&"?");
    let [markers, full, empty] = [image[2], image[3], image[4]];
    let message = number(&image[8..12]);
    let header = format!("N {n}, {status}, markers {markers}, counts {full} {empty}, message {message}");
    let records = image[16..].chunks_exact(8).take(n).enumerate();
    let set = records.filter(|(_, record)| **record != [0; 8]);
    let lines = set.map(|(process, record)| format!("{process}: {}", record_in_words(record)));
    [header].into_iter().chain(lines).collect()
}

/// A process record.
fn record_in_words(record: &[u8]) -> String {
    let mut words = vec![format!("stage {}", record[0])];
    words.extend(set_bits(record[1], &FLAGS));
    words.extend(set_bits(record[2], &REQUESTS));
    if record[4..8] != [0; 4] {
        words.push(format!("note {}", number(&record[4..8])));
    }
    words.join(", ")
}

/// The names of the bits that are set.
fn set_bits(byte: u8, names: &[&str]) -> Vec<String> {
    let named = names.iter().enumerate();
    let set = named.filter(|(bit, _)| byte & (1 << bit) != 0);
    set.map(|(_, name)| name.to_string()).collect()
}

/// Four bytes as a number.
fn number(bytes: &[u8]) -> u32 {
    u32::from_le_bytes([bytes[0], bytes[1], bytes[2], bytes[3]])
}
