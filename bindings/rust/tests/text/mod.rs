//! Bytes and times as text.

pub fn hexadecimal(bytes: &[u8]) -> String {
    bytes.iter().map(|byte| format!("{byte:02x}")).collect()
}

/// The bytes of hexadecimal digits; `-` is none.
pub fn bytes_of(word: &str) -> Vec<u8> {
    let word = if word == "-" { "" } else { word };
    (0..word.len()).step_by(2).map(|place| u8::from_str_radix(&word[place..place + 2], 16).unwrap()).collect()
}

pub fn printed_time(time: &[u32]) -> String {
    let fields: Vec<String> = time.iter().map(u32::to_string).collect();
    format!("[{}]", fields.join(","))
}
