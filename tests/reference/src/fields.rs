//! What the stream form, the reads form, the confirmations form, the two forms of
//! rates and the two of line endings share: a line of answer for each line, bytes
//! and numbers as fields of a line, and the lent buffers.

use crate::frames::{lines, write_hexadecimal};

/// Every lent buffer is filled with this byte before the call, so that what
/// stays can be told from what is written.
pub const FILLING: u8 = 0xA5;

/// Bytes in hexadecimal capitals, `-` for no bytes; none for another field.
pub fn bytes_of_field(field: &str) -> Option<Vec<u8>> {
    if field == "-" {
        return Some(Vec::new());
    }
    let good_digits = field
        .bytes()
        .all(|character| matches!(character, b'0'..=b'9' | b'A'..=b'F'));
    if field.is_empty() || field.len() % 2 != 0 || !good_digits {
        return None;
    }
    (0..field.len())
        .step_by(2)
        .map(|place| u8::from_str_radix(&field[place..place + 2], 16).ok())
        .collect()
}

/// A number in decimal digits; none for another field.
pub fn decimal(field: &str) -> Option<usize> {
    let good_digits = field.bytes().all(|character| character.is_ascii_digit());
    if !good_digits {
        return None;
    }
    field.parse().ok()
}

/// The field that `bytes_of_field` reads.
pub fn write_field(bytes: &[u8], output: &mut Vec<u8>) {
    if bytes.is_empty() {
        output.push(b'-');
    } else {
        write_hexadecimal(bytes, output);
    }
}

/// Bytes as a field of their own.
pub fn field_of(bytes: &[u8]) -> Vec<u8> {
    let mut field = Vec::new();
    write_field(bytes, &mut field);
    field
}

/// A line of two numbers of 32 bits, one space between them; none for another.
pub fn two_numbers(line: &[u8]) -> Option<[u32; 2]> {
    let fields: Vec<&str> = std::str::from_utf8(line).ok()?.split(' ').collect();
    let [first, second] = fields[..] else {
        return None;
    };
    let number = |field: &str| u32::try_from(decimal(field)?).ok();
    Some([number(first)?, number(second)?])
}

/// One line of answer for each line. A malformed line, which has none, ends the
/// program; the answers of the lines before it stay in the output.
pub fn answer_lines(
    input: &[u8],
    output: &mut Vec<u8>,
    mut answer: impl FnMut(&[u8]) -> Option<Vec<u8>>,
) -> Result<(), String> {
    for line in lines(input) {
        let answered = answer(line)
            .ok_or_else(|| format!("malformed line: {:?}", String::from_utf8_lossy(line)))?;
        output.extend(answered);
        output.push(b'\n');
    }
    Ok(())
}
