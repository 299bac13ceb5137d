//! Circuit files as text, so that a difference can be kept and shown again: a line of eight
//! digits for each word, and a shorter last line for one to three bytes left over, in file order.

use std::fmt::Write;

pub fn text_of(file: &[u8]) -> String {
    let (words, left_over) = file.as_chunks();
    let mut text = String::with_capacity(9 * words.len() + 7);
    for word in words {
        writeln!(text, "{:08X}", u32::from_le_bytes(*word)).expect("a string takes all");
    }
    for byte in left_over {
        write!(text, "{byte:02X}").expect("a string takes all");
    }
    if !left_over.is_empty() {
        text.push('\n');
    }
    text
}

pub fn file_of(text: &str) -> Result<Vec<u8>, String> {
    let mut file = Vec::new();
    for line in text.lines() {
        let mut bytes = bytes_of(line)?;
        if bytes.len() == 4 {
            bytes.reverse();
        }
        file.extend(bytes);
    }
    Ok(file)
}

/// Bytes from hexadecimal, none from `-`.
pub fn bytes_of(digits: &str) -> Result<Vec<u8>, String> {
    if digits == "-" {
        return Ok(Vec::new());
    }
    let (pairs, odd) = digits.as_bytes().as_chunks::<2>();
    let byte = |pair: &[u8; 2]| {
        let text = std::str::from_utf8(pair).ok()?;
        u8::from_str_radix(text, 16).ok()
    };
    let bytes: Option<Vec<u8>> = pairs.iter().map(byte).collect();
    match bytes {
        Some(bytes) if odd.is_empty() => Ok(bytes),
        _ => Err(format!("not hexadecimal bytes: {digits}")),
    }
}
