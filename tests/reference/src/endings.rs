//! Request h, "Two boxes in a row": "fitters ask which single line-ending setting
//! does the work of both."
//!
//! The answer is looked for and not worked out: lists of characters go through
//! real cards, and what two of them let out is held against what one lets out.

use crate::card::{Card, Refusal, Settings, FRESH_SETTINGS, RECEIVE_QUEUE_DEPTH, SETTINGS_LENGTH};
use crate::card::{CR, NL};
use crate::fields::{answer_lines, two_numbers};
use std::ops::RangeInclusive;
use std::sync::OnceLock;

/// "the eight": "4 | line endings | 0 to 7"
pub const LINE_ENDING_SETTINGS: RangeInclusive<u8> = 0..=7;

/// The field of the line endings.
const FIELD: u8 = 4;
/// Refusal 5: "the first bad field". A value that is no byte can't stand in field 4
/// at all; it is as bad as one of 8 to 255.
pub const REFUSED: Refusal = Refusal::Settings { field: FIELD };
/// Any of the four would do.
const CHANNEL: u8 = 0;
/// "Kinds: 0 good"
const GOOD: u8 = 0;

/// CR and NL, both with the highest bit too; XON, XOFF and the literal-next
/// character of fresh settings; and some others.
const SOME_CHARACTERS: [u8; 10] = [0x00, NL, CR, 0x11, 0x13, 0x16, 0x41, 0x8A, 0x8D, 0xFF];

/// What is to be said of an ordered pair: "either that one setting acts on every
/// list of characters as the first followed by the second, or that none does".
#[derive(Clone, Debug, PartialEq, Eq)]
pub enum OneSetting {
    /// The least of those that do.
    Does(u8),
    /// Each of the eight lets something else out of this list than the two boxes
    /// do. Of the lists looked at no shorter one has that, and of those as short
    /// none that is smaller in the order of the bytes.
    NoneDoes { shown_by: Vec<u8> },
}

// ---------------------------------------------------------------------------
// Boxes
// ---------------------------------------------------------------------------

/// Fresh settings but for field 4: no other field then alters a good character.
fn settings_with(setting: u8) -> [u8; SETTINGS_LENGTH] {
    let mut settings = FRESH_SETTINGS;
    settings[usize::from(FIELD) - 1] = setting;
    settings
}

/// What a box with this line-ending setting lets out of a list: each character
/// arrives, and the host reads.
pub fn lets_out(setting: u8, list: &[u8]) -> Vec<u8> {
    let mut card = Card::fresh();
    card.settings(CHANNEL, &settings_with(setting))
        .expect("a setting from 0 to 7");
    let mut out = Vec::new();
    // The host reads before a character could be lost.
    for part in list.chunks(RECEIVE_QUEUE_DEPTH) {
        for character in part {
            card.arrival(CHANNEL, GOOD, *character)
                .expect("a good arrival on channel 0");
        }
        let mut lent = [0; 3 * RECEIVE_QUEUE_DEPTH];
        let read = card
            .read(CHANNEL, RECEIVE_QUEUE_DEPTH, &mut lent, 0)
            .expect("a read of 12 into 36 bytes");
        out.extend(&lent[..read.bytes]);
    }
    out
}

/// "the first followed by the second"
pub fn both_let_out(first: u8, second: u8, list: &[u8]) -> Vec<u8> {
    lets_out(second, &lets_out(first, list))
}

/// "every list of characters" is too many. These are looked at: the empty list,
/// every single character, and every list of two and three out of some characters.
/// A box with these settings does with a character what it does with that character
/// alone, so that the others show nothing more.
///
/// The shortest stand first, and those of the same length in the order of the
/// bytes.
fn lists_looked_at() -> Vec<Vec<u8>> {
    let every_character: Vec<u8> = (0..=255).collect();
    [
        lists_of(&[], 0),
        lists_of(&every_character, 1),
        lists_of(&SOME_CHARACTERS, 2),
        lists_of(&SOME_CHARACTERS, 3),
    ]
    .concat()
}

/// Every list of this length out of these characters.
fn lists_of(characters: &[u8], length: usize) -> Vec<Vec<u8>> {
    if length == 0 {
        return vec![Vec::new()];
    }
    let mut lists = Vec::new();
    for shorter in lists_of(characters, length - 1) {
        let longer = |last: &u8| [&shorter[..], &[*last]].concat();
        lists.extend(characters.iter().map(longer));
    }
    lists
}

// ---------------------------------------------------------------------------
// One setting for both
// ---------------------------------------------------------------------------

/// "which single line-ending setting does the work of both". A value above 7 is
/// refused as settings are: 5, with field 4.
pub fn one_setting(first: u32, second: u32) -> Result<&'static OneSetting, Refusal> {
    static ALL: OnceLock<Vec<Vec<OneSetting>>> = OnceLock::new();
    let first = setting_of(first)?;
    let second = setting_of(second)?;
    // Each pair is looked for once.
    let all = ALL.get_or_init(|| {
        let row = |first| LINE_ENDING_SETTINGS.map(move |second| search(first, second));
        LINE_ENDING_SETTINGS
            .map(|first| row(first).collect())
            .collect()
    });
    Ok(&all[usize::from(first)][usize::from(second)])
}

/// The card itself says which bytes are settings.
fn setting_of(value: u32) -> Result<u8, Refusal> {
    let setting = u8::try_from(value).map_err(|_| REFUSED)?;
    Settings::from_bytes(&settings_with(setting))?;
    Ok(setting)
}

fn search(first: u8, second: u8) -> OneSetting {
    let lists = lists_looked_at();
    let outs = lists.iter().map(|list| both_let_out(first, second, list));
    let of_both: Vec<(&Vec<u8>, Vec<u8>)> = lists.iter().zip(outs).collect();
    let does = |setting: &u8| {
        let mut lists = of_both.iter();
        lists.all(|(list, out)| lets_out(*setting, list) == *out)
    };
    if let Some(least) = LINE_ENDING_SETTINGS.into_iter().find(does) {
        return OneSetting::Does(least);
    }
    let none_does = |(list, out): &&(&Vec<u8>, Vec<u8>)| {
        let mut settings = LINE_ENDING_SETTINGS;
        settings.all(|setting| lets_out(setting, list) != *out)
    };
    let (list, _) = of_both
        .iter()
        .find(none_does)
        .expect("one list is enough to show it");
    OneSetting::NoneDoes {
        shown_by: list.to_vec(),
    }
}

/// "which of the eight change nothing more when used twice": the second of two
/// boxes with this setting lets out just what came out of the first.
pub fn change_nothing_more() -> Vec<u8> {
    let lists = lists_looked_at();
    let changes_nothing_more = |setting: &u8| {
        let mut once = lists.iter().map(|list| lets_out(*setting, list));
        once.all(|once| lets_out(*setting, &once) == once)
    };
    LINE_ENDING_SETTINGS.filter(changes_nothing_more).collect()
}

// ---------------------------------------------------------------------------
// The one-ending form
// ---------------------------------------------------------------------------

/// One line of this form: `FIRST SECOND`.
#[derive(Clone, Copy, Debug, PartialEq, Eq)]
pub struct Case {
    pub first: u32,
    pub second: u32,
}

/// One line of answer for each line. A malformed line ends the program; the
/// answers of the lines before it stay in the output.
pub fn program(input: &[u8], output: &mut Vec<u8>) -> Result<(), String> {
    answer_lines(input, output, |line| {
        Some(Case::of_line(line)?.answer().into_bytes())
    })
}

impl Case {
    /// The case of a line without its newline; none for a malformed line.
    pub fn of_line(line: &[u8]) -> Option<Case> {
        let [first, second] = two_numbers(line)?;
        Some(Case { first, second })
    }

    /// The line that `of_line` reads.
    pub fn line(&self) -> String {
        format!("{} {}", self.first, self.second)
    }

    /// `NUMBER FIELD DOES SETTING`: 0 or the refusal number, and its field; 1 where
    /// one setting does the work of both, and that setting. All others are 0.
    pub fn answer(&self) -> String {
        match one_setting(self.first, self.second) {
            Ok(OneSetting::Does(setting)) => format!("0 0 1 {setting}"),
            Ok(OneSetting::NoneDoes { .. }) => "0 0 0 0".to_string(),
            Err(refusal) => format!("{} 0 0", number_and_field(refusal)),
        }
    }
}

/// "the refusal number (5 is followed by its field)"
pub fn number_and_field(refusal: Refusal) -> String {
    match refusal {
        Refusal::Settings { field } => format!("{} {field}", refusal.number()),
        other => unreachable!("a line-ending setting is refused by {other:?}"),
    }
}
