//! Reads into lent buffers of any length and place, on one channel. The frame
//! program only ever lends 36 bytes at place 0.

use crate::card::{Card, Refusal};
use crate::fields::{answer_lines, bytes_of_field, decimal, write_field, FILLING};

/// The one channel of this form. "A call on one channel alters no other
/// channel, nor the pick's place. Answers depend only on that channel", so
/// that any channel of a card stands for a channel alone.
pub const CHANNEL: u8 = 0;

/// One line of this form.
#[derive(Clone, Debug, PartialEq, Eq)]
pub enum Call {
    /// `A KK BB`: "One arrival"
    Arrival { kind: u8, byte: u8 },
    /// `S HEX`: "Settings, 15 bytes"
    Settings(Vec<u8>),
    /// `R N LENGTH PLACE`: "Read n characters [...] into the lent buffer from
    /// a given place on."
    Read {
        n: usize,
        length: usize,
        place: usize,
    },
}

/// One line of answer for each line. A malformed line ends the program; the
/// answers of the lines before it stay in the output.
pub fn program(input: &[u8], output: &mut Vec<u8>) -> Result<(), String> {
    let mut card = Card::fresh();
    answer_lines(input, output, |line| {
        Some(Call::of_line(line)?.answer(&mut card))
    })
}

impl Call {
    /// The call of a line without its newline; none for a malformed line.
    pub fn of_line(line: &[u8]) -> Option<Call> {
        let text = std::str::from_utf8(line).ok()?;
        let fields: Vec<&str> = text.split(' ').collect();
        match fields[..] {
            ["A", kind, byte] => Some(Call::Arrival {
                kind: two_digits(kind)?,
                byte: two_digits(byte)?,
            }),
            ["S", settings] => Some(Call::Settings(bytes_of_field(settings)?)),
            ["R", n, length, place] => Some(Call::Read {
                n: decimal(n)?,
                length: decimal(length)?,
                place: decimal(place)?,
            }),
            _ => None,
        }
    }

    /// The line that `of_line` reads.
    pub fn line(&self) -> Vec<u8> {
        match self {
            Call::Arrival { kind, byte } => format!("A {kind:02X} {byte:02X}").into_bytes(),
            Call::Settings(settings) => {
                let mut line = b"S ".to_vec();
                write_field(settings, &mut line);
                line
            }
            Call::Read { n, length, place } => format!("R {n} {length} {place}").into_bytes(),
        }
    }

    /// Makes the call; its answer, without the newline.
    pub fn answer(&self, card: &mut Card) -> Vec<u8> {
        match self {
            Call::Arrival { kind, byte } => match card.arrival(CHANNEL, *kind, *byte) {
                Ok(fate) => format!("00 {}", fate.number()).into_bytes(),
                Err(refusal) => refused(refusal),
            },
            Call::Settings(settings) => match card.settings(CHANNEL, settings) {
                Ok(()) => b"00".to_vec(),
                Err(refusal) => refused(refusal),
            },
            Call::Read { n, length, place } => answer_read(card, *n, *length, *place),
        }
    }
}

/// `00 C F B HEX` or `NN HEX`. The whole buffer is shown either way:
/// "Everything before the place and after the last written byte stays", and
/// "A refusal changes nothing".
fn answer_read(card: &mut Card, n: usize, length: usize, place: usize) -> Vec<u8> {
    let mut buffer = vec![FILLING; length];
    let mut answer = match card.read(CHANNEL, n, &mut buffer, place) {
        Ok(read) => format!("00 {} {} {}", read.characters, read.flagged, read.bytes).into_bytes(),
        Err(refusal) => refused(refusal),
    };
    answer.push(b' ');
    write_field(&buffer, &mut answer);
    answer
}

/// "the refusal number (5 is followed by its field)"
fn refused(refusal: Refusal) -> Vec<u8> {
    match refusal {
        Refusal::Settings { field } => format!("05 {field:02X}").into_bytes(),
        refusal => format!("{:02X}", refusal.number()).into_bytes(),
    }
}

/// The standard library would take a sign before the digits, so they are
/// looked at first.
fn two_digits(field: &str) -> Option<u8> {
    let good_digits = field.bytes().all(|character| character.is_ascii_hexdigit());
    if field.len() != 2 || !good_digits {
        return None;
    }
    u8::from_str_radix(field, 16).ok()
}
