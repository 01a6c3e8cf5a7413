//! The fitters' program over request c, "Choosing the rate": `rate CLOCK RATE...`
//! prints a line for each rate, and `rate CLOCK` alone one for each usual rate.
//!
//! The request doesn't give the program's text. Comments in quotation marks quote
//! the description of this format here. Their program over request h reads its
//! words in the same way.

use crate::fields::{answer_lines, bytes_of_field, field_of, write_field};
use crate::rate::{choose, Chosen, RateRefusal};

/// What `rate CLOCK` alone prints.
pub const USUAL_RATES: [u32; 20] = [
    50, 75, 110, 150, 300, 600, 1200, 1800, 2400, 3600, 4800, 7200, 9600, 14_400, 19_200, 28_800,
    38_400, 57_600, 115_200, 230_400,
];

/// The words behind the program's name: bytes of any value but 00, which may be
/// none at all.
#[derive(Clone, Debug, PartialEq, Eq)]
pub struct CommandLine {
    pub clock: Vec<u8>,
    pub rates: Vec<Vec<u8>>,
}

impl CommandLine {
    /// All that the program prints.
    pub fn printed(&self) -> Vec<u8> {
        let rates = match self.rates[..] {
            [] => USUAL_RATES.map(|rate| rate.to_string().into_bytes()).into(),
            _ => self.rates.clone(),
        };
        let lines = rates.iter().map(|rate| printed_line(&self.clock, rate));
        lines.flatten().collect()
    }
}

/// `RATE DIVISOR PERIOD DEVIATION`, or `RATE refused NUMBER`. "Each line begins
/// with the rate's word as it came."
fn printed_line(clock: &[u8], rate: &[u8]) -> Vec<u8> {
    let mut line = rate.to_vec();
    line.extend(match chosen(clock, rate) {
        Ok(Chosen {
            divisor,
            period,
            deviation,
        }) => format!(" {divisor} {period} {}\n", signed(deviation)).into_bytes(),
        Err(refusal) => format!(" refused {}\n", refusal.number()).into_bytes(),
    });
    line
}

/// A word that is no number of 32 bits is refused as one outside its range.
fn chosen(clock: &[u8], rate: &[u8]) -> Result<Chosen, RateRefusal> {
    let clock = number(clock).ok_or(RateRefusal::OutsideItsRange)?;
    let rate = number(rate).ok_or(RateRefusal::OutsideItsRange)?;
    choose(clock, rate)
}

/// "a decimal number is one or more characters 0 to 9 and nothing else; leading
/// zeros are fine". None for another word, or a number of more than 32 bits.
pub fn number(word: &[u8]) -> Option<u32> {
    if word.is_empty() {
        return None;
    }
    let mut number: u32 = 0;
    for character in word {
        let digit = match character {
            b'0'..=b'9' => u32::from(character - b'0'),
            _ => return None,
        };
        number = number.checked_mul(10)?.checked_add(digit)?;
    }
    Some(number)
}

/// `+4693`, `-12` or `0`.
fn signed(deviation: i32) -> String {
    match deviation {
        0 => "0".to_string(),
        _ => format!("{deviation:+}"),
    }
}

// ---------------------------------------------------------------------------
// The rate-lines form
// ---------------------------------------------------------------------------

/// One line of answer for each line: all that the program prints, as one field.
/// A malformed line ends the program; the answers of the lines before it stay in
/// the output.
pub fn program(input: &[u8], output: &mut Vec<u8>) -> Result<(), String> {
    answer_lines(input, output, |line| {
        Some(field_of(&CommandLine::of_line(line)?.printed()))
    })
}

impl CommandLine {
    /// The words of a line without its newline, the clock's first, each as a
    /// field; none for a malformed line.
    pub fn of_line(line: &[u8]) -> Option<CommandLine> {
        let text = std::str::from_utf8(line).ok()?;
        let words: Option<Vec<Vec<u8>>> = text.split(' ').map(word_of_field).collect();
        let mut words = words?;
        let clock = words.remove(0);
        Some(CommandLine {
            clock,
            rates: words,
        })
    }

    /// The line that `of_line` reads.
    pub fn line(&self) -> Vec<u8> {
        let mut line = Vec::new();
        write_field(&self.clock, &mut line);
        for rate in &self.rates {
            line.push(b' ');
            write_field(rate, &mut line);
        }
        line
    }
}

/// "Words are bytes of any value but 00"
pub fn word_of_field(field: &str) -> Option<Vec<u8>> {
    bytes_of_field(field).filter(|word| !word.contains(&0x00))
}
