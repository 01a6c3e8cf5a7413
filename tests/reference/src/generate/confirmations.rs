//! Random and hostile cases for request n, "Confirmations", and long streams of
//! the same pieces for its listing.

use crate::confirmations::{entries_before_the_broken_mark, Case, ETX, STX};
use crate::random::Random;
use crate::stream::StreamItem::{self, Damaged, Good};

/// A piece that would make the stream of a case longer than this ends it.
const LONGEST_STREAM: usize = 400;

/// "a four-digit number": there are so many of them.
const NUMBERS: usize = 10_000;

/// So many digits more come back to the same count in one byte, and in two.
const BYTE_ROUND: usize = 256;
const TWO_BYTES_ROUND: usize = 65_536;

/// Good characters that are neither a digit nor STX nor ETX; both neighbours of
/// the digits come more often than the others.
const STRANGE: [u8; 24] = [
    0x2F, 0x3A, 0x2F, 0x3A, 0x2F, 0x3A, 0x20, 0x20, 0x00, 0x01, 0x04, 0x0A, 0x0D, 0x2B, 0x2D, 0x2E,
    0x41, 0x7F, 0x82, 0x83, 0xB0, 0xB9, 0xFF, 0xFF,
];

/// Good characters that are no space.
const NO_SPACES: [u8; 8] = [0x00, 0x09, 0x1F, 0x21, 0x2F, 0x5F, 0xA0, 0xFF];

/// What a damaged character would be: above all what ends or begins a run.
const DAMAGED: [u8; 12] = [
    STX, STX, ETX, ETX, 0x20, 0x30, 0x31, 0x39, 0x00, 0xFF, 0x0A, 0x82,
];

/// So many lines of the confirmations form. The same seed gives the same lines.
pub fn cases(seed: u64, lines: usize) -> Vec<u8> {
    let mut filling_line = FillingLine::new(seed.wrapping_mul(16).wrapping_add(12));
    let mut output = Vec::new();
    for _ in 0..lines {
        output.extend(filling_line.case().line());
        output.push(0x0A);
    }
    output
}

/// One stream of so many bytes or some more. It is whole, but with every fifth
/// seed it is broken in its last quarter.
pub fn long_stream(seed: u64, bytes: usize) -> Vec<u8> {
    let mut filling_line = FillingLine::new(seed.wrapping_mul(16).wrapping_add(11));
    let mut stream = Vec::new();
    if bytes > 4 * TWO_BYTES_ROUND {
        filling_line.extend(&mut stream, bytes / 8);
        let text = filling_line.many_digits(TWO_BYTES_ROUND);
        stream.extend(images(&bounded(&text)));
    }
    if seed % 5 == 0 {
        let behind = filling_line.random.between(0, bytes / 5);
        filling_line.extend(&mut stream, bytes - behind);
        filling_line.extend_broken(&mut stream, bytes);
    }
    filling_line.extend(&mut stream, bytes);
    stream
}

/// What the filling line sends, in pieces: each is some whole characters.
struct FillingLine {
    random: Random,
    /// The number last accepted and the one accepted before it, as far as the
    /// whole confirmations tell: other pieces may be accepted by chance.
    last: usize,
    earlier: usize,
}

impl FillingLine {
    fn new(seed: u64) -> FillingLine {
        let mut filling_line = FillingLine {
            random: Random::new(seed),
            last: 0,
            earlier: 0,
        };
        filling_line.begin();
        filling_line
    }

    /// Every other stream begins where "0000 follows 9999" is near.
    fn begin(&mut self) {
        self.last = match self.random.below(2) {
            0 => (NUMBERS - 4 + self.random.below(8)) % NUMBERS,
            _ => self.random.below(NUMBERS),
        };
        self.earlier = self.last;
    }

    // -----------------------------------------------------------------------
    // Cases
    // -----------------------------------------------------------------------

    fn case(&mut self) -> Case {
        let mut stream = self.short_stream();
        if self.random.chance(1, 8) {
            self.break_stream(&mut stream);
        }
        let (entries, _) = entries_before_the_broken_mark(&stream);
        Case {
            lengths: self.lengths(entries.len()),
            stream,
        }
    }

    /// Mostly the lent list has places enough. For a broken stream too there
    /// may be too few: "Lower numbers first".
    fn lengths(&mut self, entries: usize) -> [usize; 4] {
        let mut lengths = [entries; 4];
        let one = self.random.below(4);
        let one_fewer = entries.saturating_sub(1);
        match self.random.weighted(&[50, 10, 22, 6, 3, 2, 2, 5]) {
            0 => lengths = lengths.map(|length| length + self.random.between(0, 5)),
            1 => lengths[one] += self.random.between(1, 5),
            2 => {}
            3 => lengths[one] = one_fewer,
            4 => lengths = [one_fewer; 4],
            5 => lengths[one] = 0,
            6 => lengths = [0; 4],
            _ => lengths = lengths.map(|length| self.random.between(0, length + 3)),
        }
        lengths
    }

    /// A stream that is not broken. Some end with an unfinished confirmation.
    fn short_stream(&mut self) -> Vec<u8> {
        self.begin();
        let longest = match self.random.below(6) {
            0 => self.random.between(0, 40),
            1 => self.random.between(0, 120),
            _ => self.random.between(60, LONGEST_STREAM),
        };
        let mut stream = Vec::new();
        loop {
            let piece = images(&self.piece());
            if stream.len() + piece.len() > longest {
                break;
            }
            stream.extend(piece);
        }
        if self.random.chance(1, 8) {
            stream.extend(images(&self.unfinished()));
        }
        stream
    }

    /// "FF before any other byte, or cut off at the end, is broken". Now and
    /// then the stream stays whole, and only has other characters.
    fn break_stream(&mut self, stream: &mut Vec<u8>) {
        let place = self.random.between(0, stream.len());
        match self.random.below(6) {
            0 => stream.push(0xFF),
            1 => stream.extend([0xFF, 0x00]),
            2 | 3 => stream.insert(place, 0xFF),
            4 => stream.truncate(place),
            _ => self.break_before_a_confirmation(stream),
        }
    }

    fn break_before_a_confirmation(&mut self, stream: &mut Vec<u8>) {
        let places = 0..stream.len();
        let beginnings: Vec<usize> = places.filter(|place| stream[*place] == STX).collect();
        let place = match beginnings.len() {
            0 => stream.len(),
            number => beginnings[self.random.below(number)],
        };
        stream.insert(place, 0xFF);
    }

    // -----------------------------------------------------------------------
    // Long streams
    // -----------------------------------------------------------------------

    /// Pieces until there are so many bytes.
    fn extend(&mut self, stream: &mut Vec<u8>, bytes: usize) {
        while stream.len() < bytes {
            let piece = self.piece();
            stream.extend(images(&piece));
        }
    }

    /// An FF that offends: inside a confirmation, right before one, or cut off
    /// behind so many bytes.
    fn extend_broken(&mut self, stream: &mut Vec<u8>, bytes: usize) {
        let kind = self.random.below(4);
        match kind {
            0 => stream.extend(images(&self.unfinished())),
            1 => {}
            _ => self.extend(stream, bytes),
        }
        stream.push(0xFF);
        match kind {
            0 => stream.push(self.random.one_of(&[0x01, STX, ETX, 0x20, 0x31, 0xFE])),
            1 => stream.extend(images(&self.whole())),
            2 => stream.push(0x00),
            _ => {}
        }
    }

    // -----------------------------------------------------------------------
    // Pieces
    // -----------------------------------------------------------------------

    fn piece(&mut self) -> Vec<StreamItem> {
        match self.random.weighted(&[46, 17, 13, 13, 11]) {
            0 => self.whole(),
            1 => bounded(&self.text_of_another_form()),
            2 => self.damaged(),
            3 => self.badly_bounded(),
            _ => self.noise(),
        }
    }

    fn whole(&mut self) -> Vec<StreamItem> {
        let number = self.some_number();
        if number != self.last {
            self.earlier = self.last;
            self.last = number;
        }
        let litres = self.some_litres();
        bounded(format!("{number:04} {litres}").as_bytes())
    }

    /// The beginning of a confirmation, its STX at least.
    fn unfinished(&mut self) -> Vec<StreamItem> {
        let mut characters = bounded(&self.some_text());
        let kept = self.random.between(1, characters.len() - 1);
        characters.truncate(kept);
        characters
    }

    /// "One that holds a damaged character", or two of them.
    fn damaged(&mut self) -> Vec<StreamItem> {
        let text = match self.random.below(4) {
            0 => self.text_of_another_form(),
            _ => self.some_text(),
        };
        let mut characters = bounded(&text);
        self.damage(&mut characters);
        if self.random.chance(1, 4) {
            self.damage(&mut characters);
        }
        characters
    }

    /// Damages a character between STX and ETX, or puts a damaged one there.
    fn damage(&mut self, characters: &mut Vec<StreamItem>) {
        let place = self.random.between(1, characters.len() - 1);
        let byte = self.random.one_of(&DAMAGED);
        match characters[place] {
            Good(ETX) => characters.insert(place, Damaged(byte)),
            Good(same) if self.random.chance(1, 2) => characters[place] = Damaged(same),
            _ if self.random.chance(1, 2) => characters[place] = Damaged(byte),
            _ => characters.insert(place, Damaged(byte)),
        }
    }

    /// "a new good STX abandons an unfinished one": STX or ETX is lost, doubled,
    /// damaged, another character, or stands elsewhere too.
    fn badly_bounded(&mut self) -> Vec<StreamItem> {
        let mut characters = bounded(&self.some_text());
        let last = characters.len() - 1;
        let inside = self.random.between(1, last);
        match self.random.below(13) {
            0 => {
                characters.remove(0);
            }
            1 => characters.truncate(last),
            2 => characters.insert(0, Good(STX)),
            3 => characters.push(Good(ETX)),
            4 => characters[0] = Damaged(STX),
            5 => characters[last] = Damaged(ETX),
            6 => characters[0] = Good(STX + 0x80),
            7 => characters[last] = Good(ETX + 0x80),
            8 => characters.insert(inside, Good(STX)),
            9 => characters.insert(inside, Good(ETX)),
            10 => characters.truncate(inside),
            11 => {
                // What was damaged is abandoned with the rest.
                self.damage(&mut characters);
                characters.pop();
            }
            _ => characters = vec![Good(self.random.one_of(&[STX, ETX]))],
        }
        characters
    }

    fn noise(&mut self) -> Vec<StreamItem> {
        let length = self.random.between(1, 6);
        let mut characters = Vec::new();
        for _ in 0..length {
            characters.push(match self.random.below(8) {
                0 => Damaged(self.random.one_of(&DAMAGED)),
                1 => Damaged(self.random.byte()),
                2 => Good(0xFF),
                3 => Good(ETX),
                4 => Good(self.random.byte()),
                5 => Good(self.random.one_of(b"0123456789 ")),
                _ => Good(self.random.one_of(&STRANGE)),
            });
        }
        characters
    }

    // -----------------------------------------------------------------------
    // Texts: what stands between STX and ETX
    // -----------------------------------------------------------------------

    /// "a four-digit number, a space, one to six digits of litres"
    fn some_text(&mut self) -> Vec<u8> {
        let number = self.some_number();
        let litres = self.some_litres();
        format!("{number:04} {litres}").into_bytes()
    }

    /// The next one, the same one, and such as make a gap.
    fn some_number(&mut self) -> usize {
        let number = match self.random.below(16) {
            0..=5 => self.last + 1,
            6..=8 => self.last,
            9 => self.last + 2,
            10 => self.last + NUMBERS - 1,
            11 => self.last + self.random.between(3, 12),
            12 => self.earlier,
            13 => self.earlier + 1,
            14 => NUMBERS - 2 + self.random.below(4),
            _ => self.random.below(NUMBERS),
        };
        number % NUMBERS
    }

    fn some_litres(&mut self) -> String {
        let count = self.random.between(1, 6);
        match self.random.below(10) {
            0 => "0".repeat(count),
            1 | 2 => "999999".to_string(),
            3 => format!("0{}", self.digits(count - 1)),
            4..=6 => self.digits(6),
            _ => self.digits(count),
        }
    }

    fn digits(&mut self, count: usize) -> String {
        let digits = (0..count).map(|_| char::from(self.random.one_of(b"0123456789")));
        digits.collect()
    }

    /// A few of these have the right form by chance.
    fn text_of_another_form(&mut self) -> Vec<u8> {
        match self.random.weighted(&[10, 7, 8, 2, 1]) {
            0 => self.other_count_of_digits(),
            1 => self.other_spaces(),
            2 => self.strange_character(),
            3 => self.little_text(),
            _ => self.many_digits(BYTE_ROUND),
        }
    }

    fn other_count_of_digits(&mut self) -> Vec<u8> {
        let number = self.some_number();
        let litres = self.some_litres();
        let text = match self.random.below(11) {
            0 | 1 => format!("{:03} {litres}", number % 1000),
            2 => format!("{:03} {litres}", number / 10),
            3 | 4 => format!("{number:05} {litres}"),
            5 => format!("{number:04}{} {litres}", self.digits(1)),
            6 => format!("{number:04} "),
            7 => format!("{number:04} {litres:0>7}"),
            8 => format!("{number:04} {litres:0>8}"),
            9 => format!("{number:04} {}", self.digits(7)),
            _ => {
                let first = self.random.between(0, 8);
                let second = self.random.between(0, 8);
                format!("{} {}", self.digits(first), self.digits(second))
            }
        };
        text.into_bytes()
    }

    /// No space, two of them, another character for it, or one elsewhere.
    fn other_spaces(&mut self) -> Vec<u8> {
        let mut text = self.some_text();
        match self.random.below(7) {
            0 => {
                text.remove(4);
            }
            1 => text.insert(4, b' '),
            2 => text[4] = self.random.one_of(&NO_SPACES),
            3 => text.insert(0, b' '),
            4 => text.push(b' '),
            5 => text.swap(3, 4),
            _ => text.swap(4, 5),
        }
        text
    }

    /// In place of one that should be there, or put in.
    fn strange_character(&mut self) -> Vec<u8> {
        let mut text = self.some_text();
        let place = self.random.below(text.len());
        let strange = self.random.one_of(&STRANGE);
        match self.random.below(4) {
            0 => text[place] += 0x80,
            1 => text.insert(place, strange),
            _ => text[place] = strange,
        }
        text
    }

    fn little_text(&mut self) -> Vec<u8> {
        let length = self.random.between(0, 5);
        let text = self.some_text();
        match self.random.below(4) {
            0 => Vec::new(),
            1 => b" ".to_vec(),
            2 => text[4..].to_vec(),
            _ => text[..length].to_vec(),
        }
    }

    /// A number or litres with so many digits too many.
    fn many_digits(&mut self, more: usize) -> Vec<u8> {
        let number = self.some_number();
        let litres = self.some_litres();
        let digits = self.digits(more);
        let text = match self.random.below(2) {
            0 => format!("{digits}{number:04} {litres}"),
            _ => format!("{number:04} {digits}{litres}"),
        };
        text.into_bytes()
    }
}

/// The text from a good STX to a good ETX.
fn bounded(text: &[u8]) -> Vec<StreamItem> {
    let mut characters = vec![Good(STX)];
    characters.extend(text.iter().map(|byte| Good(*byte)));
    characters.push(Good(ETX));
    characters
}

/// "FF FF is good FF; FF 00 x is damaged x; any other byte but FF is a good
/// byte."
fn images(characters: &[StreamItem]) -> Vec<u8> {
    let mut stream = Vec::new();
    for character in characters {
        match character {
            Good(0xFF) => stream.extend([0xFF, 0xFF]),
            Good(byte) => stream.push(*byte),
            Damaged(byte) => stream.extend([0xFF, 0x00, *byte]),
        }
    }
    stream
}
