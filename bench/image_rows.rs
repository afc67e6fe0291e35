// Rows of bytes, answered as `ggdesk images` answers them. bench/image.sh makes it a module of the plain program.
use crate::{image, text};
use std::io::BufRead;

fn bytes_of(digits: &str) -> Vec<u8> {
    let places = 0..digits.len() / 2;
    places.map(|place| u8::from_str_radix(&digits[2 * place..2 * place + 2], 16).expect("two digits")).collect()
}

/// A text in one line.
fn folded(byte: u8) -> u8 {
    match byte {
        b'\t' => b'~',
        b'\n' => b'|',
        other => other,
    }
}

/// Each row of the input with the text whose image its bytes are.
pub fn answers() -> Vec<u8> {
    let mut told = Vec::new();
    for row in std::io::stdin().lock().lines() {
        let row = row.expect("a row");
        let digits = row.strip_prefix("bytes ").expect("a row of bytes");
        told.extend_from_slice(row.as_bytes());
        told.extend_from_slice(b" -> ");
        match image::decode(&bytes_of(digits)) {
            Some(code) => told.extend(text::write_code(&code).into_iter().map(folded)),
            None => told.extend_from_slice(b"no image"),
        }
        told.push(b'\n');
    }
    told
}
