//! Request n, "Confirmations": "Over the reader, for the filling line alone".
//!
//! All characters of the stream are read first, then the runs are found among
//! them, and then one run after the other is judged.

use crate::fields::{answer_lines, bytes_of_field, decimal, write_field, FILLING};
use crate::stream::all_items;
use crate::stream::StreamItem::{self, Damaged, Good};
use std::ops::RangeInclusive;

/// "STX (02)"
pub const STX: u8 = 0x02;
/// "ETX (03)"
pub const ETX: u8 = 0x03;
/// "a space"
const SPACE: u8 = 0x20;
/// "a four-digit number"
const DIGITS_OF_THE_NUMBER: RangeInclusive<usize> = 4..=4;
/// "one to six digits of litres"
const DIGITS_OF_LITRES: RangeInclusive<usize> = 1..=6;

/// The first two are "the accepted ones".
#[derive(Clone, Copy, Debug, PartialEq, Eq)]
pub enum Judgement {
    /// "accepted without a gap"
    Accepted,
    /// "accepted and reported as a gap"
    Gap,
    /// "reported as repeated and adds no litres"
    Repeated,
    /// "listed as set aside, never counted as litres"
    SetAside,
}

impl Judgement {
    pub fn number(&self) -> u8 {
        match self {
            Judgement::Accepted => 0,
            Judgement::Gap => 1,
            Judgement::Repeated => 2,
            Judgement::SetAside => 3,
        }
    }

    fn is_accepted(&self) -> bool {
        matches!(self, Judgement::Accepted | Judgement::Gap)
    }
}

/// "List each one found with the place of its STX among the characters, from
/// 0." One that is set aside has the number 0 and the litres 0.
#[derive(Clone, Copy, Debug, PartialEq, Eq)]
pub struct Entry {
    pub place: usize,
    pub number: u16,
    pub litres: u32,
    pub judgement: Judgement,
}

/// The answer of a served call: how many entries there are, and "The sum of
/// litres".
#[derive(Clone, Copy, Debug, PartialEq, Eq)]
pub struct Served {
    pub entries: usize,
    pub litres: u64,
}

/// The refusals of the call.
#[derive(Clone, Copy, Debug, PartialEq, Eq)]
pub enum ConfirmationsRefusal {
    /// 8: "broken stream; the place of the offending FF", in bytes.
    Broken { place: usize },
    /// 16: "if the input has more entries than the lent list has places"
    ListTooShort,
}

// ---------------------------------------------------------------------------
// Runs
// ---------------------------------------------------------------------------

/// A finished one: where its STX stands among the characters, and what it holds
/// between its STX and its ETX.
struct Run<'characters> {
    place: usize,
    held: &'characters [StreamItem],
}

fn runs(characters: &[StreamItem]) -> Vec<Run<'_>> {
    (0..characters.len())
        .filter_map(|place| run_at(characters, place))
        .collect()
}

/// "Each runs from a good STX to the next good ETX; a new good STX abandons an
/// unfinished one." None where no good STX stands, or its run is abandoned, or
/// never finished.
fn run_at(characters: &[StreamItem], place: usize) -> Option<Run<'_>> {
    if characters[place] != Good(STX) {
        return None;
    }
    let behind = &characters[place + 1..];
    let end = behind
        .iter()
        .position(|character| [Good(STX), Good(ETX)].contains(character))?;
    let finished = behind[end] == Good(ETX);
    finished.then_some(Run {
        place,
        held: &behind[..end],
    })
}

// ---------------------------------------------------------------------------
// Judgements
// ---------------------------------------------------------------------------

/// The entries of a list of characters, in their order.
fn entries(characters: &[StreamItem]) -> Vec<Entry> {
    let mut entries = Vec::new();
    let mut last_accepted = None;
    for run in runs(characters) {
        let Some(entry) = entry_of(&run, last_accepted) else {
            continue;
        };
        if entry.judgement.is_accepted() {
            last_accepted = Some(entry.number);
        }
        entries.push(entry);
    }
    entries
}

/// "One that holds a damaged character is listed as set aside, never counted as
/// litres; an undamaged one of another form isn't listed."
fn entry_of(run: &Run, last_accepted: Option<u16>) -> Option<Entry> {
    let place = run.place;
    let Some(bytes) = good_bytes(run.held) else {
        return Some(Entry {
            place,
            number: 0,
            litres: 0,
            judgement: Judgement::SetAside,
        });
    };
    let (number, litres) = number_and_litres(&bytes)?;
    Some(Entry {
        place,
        number,
        litres,
        judgement: judgement(number, last_accepted),
    })
}

/// The bytes of the characters; none if there is a damaged one among them.
fn good_bytes(characters: &[StreamItem]) -> Option<Vec<u8>> {
    characters
        .iter()
        .map(|character| match character {
            Good(byte) => Some(*byte),
            Damaged(_) => None,
        })
        .collect()
}

/// "a confirmation is STX (02), a four-digit number, a space, one to six digits
/// of litres, ETX (03)"; none for what is of another form.
fn number_and_litres(bytes: &[u8]) -> Option<(u16, u32)> {
    let space = bytes.iter().position(|byte| *byte == SPACE)?;
    let number = value(&bytes[..space], DIGITS_OF_THE_NUMBER)?;
    let litres = value(&bytes[space + 1..], DIGITS_OF_LITRES)?;
    Some((number as u16, litres))
}

/// What the digits stand for; none for other characters than digits, or another
/// count of them.
fn value(digits: &[u8], counts: RangeInclusive<usize>) -> Option<u32> {
    let all_digits = digits.iter().all(|byte| byte.is_ascii_digit());
    if !all_digits || !counts.contains(&digits.len()) {
        return None;
    }
    let value = digits
        .iter()
        .fold(0, |value, digit| 10 * value + u32::from(digit - b'0'));
    Some(value)
}

/// "The first is accepted without a gap. A number equal to the one last accepted
/// is reported as repeated and adds no litres; any other than the next one (0000
/// follows 9999) is accepted and reported as a gap."
fn judgement(number: u16, last_accepted: Option<u16>) -> Judgement {
    match last_accepted {
        None => Judgement::Accepted,
        Some(last) if number == last => Judgement::Repeated,
        Some(last) if number == next(last) => Judgement::Accepted,
        Some(_) => Judgement::Gap,
    }
}

/// "the next one (0000 follows 9999)"
fn next(number: u16) -> u16 {
    match number {
        9999 => 0,
        _ => number + 1,
    }
}

/// "The sum of litres equals the sum over the accepted ones."
fn sum_of_litres(entries: &[Entry]) -> u64 {
    entries
        .iter()
        .filter(|entry| entry.judgement.is_accepted())
        .map(|entry| u64::from(entry.litres))
        .sum()
}

// ---------------------------------------------------------------------------
// The call
// ---------------------------------------------------------------------------

/// The entries go into the fronts of the four lent slices, and their rest
/// stays. The lent list has as many places as the shortest slice has.
///
/// "Lower numbers first": 8 before 16. "A refusal changes nothing".
pub fn confirmations(
    stream: &[u8],
    places: &mut [usize],
    numbers: &mut [u16],
    litres: &mut [u32],
    judgements: &mut [u8],
) -> Result<Served, ConfirmationsRefusal> {
    let characters = all_items(stream).map_err(|place| ConfirmationsRefusal::Broken { place })?;
    let entries = entries(&characters);
    let lengths = [places.len(), numbers.len(), litres.len(), judgements.len()];
    if lengths.iter().any(|length| *length < entries.len()) {
        return Err(ConfirmationsRefusal::ListTooShort);
    }
    for (index, entry) in entries.iter().enumerate() {
        places[index] = entry.place;
        numbers[index] = entry.number;
        litres[index] = entry.litres;
        judgements[index] = entry.judgement.number();
    }
    Ok(Served {
        entries: entries.len(),
        litres: sum_of_litres(&entries),
    })
}

// ---------------------------------------------------------------------------
// The program's listing
// ---------------------------------------------------------------------------

/// The entries of what stands before the first offending FF, and the place of
/// that one in bytes; of the whole stream, and none, where it is not broken.
pub fn entries_before_the_broken_mark(stream: &[u8]) -> (Vec<Entry>, Option<usize>) {
    match all_items(stream) {
        Ok(characters) => (entries(&characters), None),
        Err(place) => {
            let characters = all_items(&stream[..place]).expect("the first offending FF is named");
            (entries(&characters), Some(place))
        }
    }
}

/// A line for each entry, and last the sum of litres. For a broken stream what
/// stands before the broken mark is listed, and the refusal is the last line.
pub fn listing(stream: &[u8]) -> String {
    let (entries, broken) = entries_before_the_broken_mark(stream);
    let mut text: String = entries.iter().map(listed).collect();
    text += &match broken {
        None => format!("litres {}\n", sum_of_litres(&entries)),
        Some(place) => format!("refused 8 {place}\n"),
    };
    text
}

fn listed(entry: &Entry) -> String {
    let Entry {
        place,
        number,
        litres,
        judgement,
    } = entry;
    match judgement {
        Judgement::Accepted => format!("{place} accepted {number:04} {litres}\n"),
        Judgement::Gap => format!("{place} gap {number:04} {litres}\n"),
        Judgement::Repeated => format!("{place} repeated {number:04} {litres}\n"),
        Judgement::SetAside => format!("{place} aside\n"),
    }
}

// ---------------------------------------------------------------------------
// The confirmations form
// ---------------------------------------------------------------------------

/// The longest slice that a case lends.
pub const LONGEST_SLICE: usize = 512;

/// Every lent slice is filled before the call, so that what stays can be told
/// from what is written; the judgements with the one byte.
const FILLING_OF_PLACES: usize = 0xA5A5_A5A5;
const FILLING_OF_NUMBERS: u16 = 0xA5A5;
const FILLING_OF_LITRES: u32 = 0xA5A5_A5A5;

/// One line of this form: `PLACES NUMBERS LITRES JUDGEMENTS STREAM`, the lengths
/// of the four lent slices and the stream.
#[derive(Clone, Debug, PartialEq, Eq)]
pub struct Case {
    pub lengths: [usize; 4],
    pub stream: Vec<u8>,
}

/// One line of answer for each line. A malformed line ends the program; the
/// answers of the lines before it stay in the output.
pub fn program(input: &[u8], output: &mut Vec<u8>) -> Result<(), String> {
    answer_lines(input, output, |line| {
        Some(Case::of_line(line)?.answer().into_bytes())
    })
}

impl Case {
    /// The case of a line without its newline; none for a malformed line.
    pub fn of_line(line: &[u8]) -> Option<Case> {
        let text = std::str::from_utf8(line).ok()?;
        let fields: Vec<&str> = text.split(' ').collect();
        let [places, numbers, litres, judgements, stream] = fields[..] else {
            return None;
        };
        Some(Case {
            lengths: [
                length(places)?,
                length(numbers)?,
                length(litres)?,
                length(judgements)?,
            ],
            stream: bytes_of_field(stream)?,
        })
    }

    /// The line that `of_line` reads.
    pub fn line(&self) -> Vec<u8> {
        let [places, numbers, litres, judgements] = self.lengths;
        let mut line = format!("{places} {numbers} {litres} {judgements} ").into_bytes();
        write_field(&self.stream, &mut line);
        line
    }

    /// Makes the call. `00:COUNT:SUM`, `08:PLACE` or `16`, and then the four
    /// slices as they are afterwards, with what stays in them.
    pub fn answer(&self) -> String {
        let mut places = vec![FILLING_OF_PLACES; self.lengths[0]];
        let mut numbers = vec![FILLING_OF_NUMBERS; self.lengths[1]];
        let mut litres = vec![FILLING_OF_LITRES; self.lengths[2]];
        let mut judgements = vec![FILLING; self.lengths[3]];
        let answer = match confirmations(
            &self.stream,
            &mut places,
            &mut numbers,
            &mut litres,
            &mut judgements,
        ) {
            Ok(Served { entries, litres }) => format!("00:{entries}:{litres}"),
            Err(ConfirmationsRefusal::Broken { place }) => format!("08:{place}"),
            Err(ConfirmationsRefusal::ListTooShort) => "16".to_string(),
        };
        let slices = [
            field(&places),
            field(&numbers),
            field(&litres),
            field(&judgements),
        ];
        format!("{answer} {}", slices.join(" "))
    }
}

/// The length of a slice; none for another field, or one that is too long.
fn length(field: &str) -> Option<usize> {
    decimal(field).filter(|length| *length <= LONGEST_SLICE)
}

/// The numbers of a slice in decimal with commas between, `-` for no numbers.
fn field<Value: ToString>(numbers: &[Value]) -> String {
    if numbers.is_empty() {
        return "-".to_string();
    }
    let numbers: Vec<String> = numbers.iter().map(Value::to_string).collect();
    numbers.join(",")
}
