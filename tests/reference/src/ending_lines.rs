//! The fitters' program over request h, "Two boxes in a row": `endings FIRST
//! SECOND` prints the single setting for two boxes, and `endings` alone the table
//! of all pairs.
//!
//! The request doesn't give the program's text. Comments in quotation marks quote
//! the description of this format here.

use crate::card::Refusal;
use crate::endings::{number_and_field, one_setting, OneSetting, LINE_ENDING_SETTINGS, REFUSED};
use crate::fields::{answer_lines, field_of, write_field};
use crate::fitters::{number, word_of_field};

/// The words behind the program's name: bytes of any value but 00, which may be
/// none at all.
#[derive(Clone, Debug, PartialEq, Eq)]
pub struct CommandLine {
    pub words: Vec<Vec<u8>>,
}

impl CommandLine {
    /// All that the program prints. "One word, or more than two: nothing on
    /// standard output."
    pub fn printed(&self) -> String {
        match &self.words[..] {
            [] => table(),
            [first, second] => pair(first, second),
            _ => String::new(),
        }
    }
}

/// "it prints the single setting as a digit and a newline, or `none` and a
/// newline"; for a bad word "it prints `refused 5 4` and a newline"
fn pair(first: &[u8], second: &[u8]) -> String {
    match setting_for_words(first, second) {
        Ok(OneSetting::Does(setting)) => format!("{setting}\n"),
        Ok(OneSetting::NoneDoes { .. }) => "none\n".to_string(),
        Err(refusal) => format!("refused {}\n", number_and_field(refusal)),
    }
}

/// A word that is no decimal number is refused as a number above 7 is. A number of
/// more than 32 bits is one of these.
fn setting_for_words(first: &[u8], second: &[u8]) -> Result<&'static OneSetting, Refusal> {
    let value = |word| number(word).ok_or(REFUSED);
    one_setting(value(first)?, value(second)?)
}

/// "a head line of two spaces and the eight numbers of the second box separated by
/// single spaces", "then eight lines, one for each number of the first box"
fn table() -> String {
    let numbers: Vec<String> = LINE_ENDING_SETTINGS
        .map(|second| second.to_string())
        .collect();
    let rows: String = LINE_ENDING_SETTINGS.map(row).collect();
    format!("  {}\n{rows}", numbers.join(" "))
}

/// "that number, and behind it, each after a single space, the setting for each
/// second box from 0 to 7, `-` where there is none"
fn row(first: u8) -> String {
    let mut row = first.to_string();
    for second in LINE_ENDING_SETTINGS {
        match one_setting(first.into(), second.into()) {
            Ok(OneSetting::Does(setting)) => row += &format!(" {setting}"),
            Ok(OneSetting::NoneDoes { .. }) => row += " -",
            Err(refusal) => unreachable!("{first} and {second}: {refusal:?}"),
        }
    }
    row + "\n"
}

// ---------------------------------------------------------------------------
// The ending-lines form
// ---------------------------------------------------------------------------

/// One line of answer for each line: all that the program prints, as one field.
/// A malformed line ends the program; the answers of the lines before it stay in
/// the output.
pub fn program(input: &[u8], output: &mut Vec<u8>) -> Result<(), String> {
    answer_lines(input, output, |line| {
        Some(field_of(CommandLine::of_line(line)?.printed().as_bytes()))
    })
}

impl CommandLine {
    /// The words of a line without its newline, each as a field; an empty line has
    /// no words at all. None for a malformed line.
    pub fn of_line(line: &[u8]) -> Option<CommandLine> {
        let text = std::str::from_utf8(line).ok()?;
        let words: Option<Vec<Vec<u8>>> = match text {
            "" => Some(Vec::new()),
            _ => text.split(' ').map(word_of_field).collect(),
        };
        Some(CommandLine { words: words? })
    }

    /// The line that `of_line` reads.
    pub fn line(&self) -> Vec<u8> {
        let mut line = Vec::new();
        for (place, word) in self.words.iter().enumerate() {
            if place > 0 {
                line.push(b' ');
            }
            write_field(word, &mut line);
        }
        line
    }
}
