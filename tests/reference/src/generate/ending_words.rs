//! Random and hostile command lines for the fitters' program over request h, "Two
//! boxes in a row": the fixed ones first.

use crate::ending_lines::CommandLine;
use crate::endings::LINE_ENDING_SETTINGS;
use crate::random::Random;

/// The most words of a command line.
const MOST_WORDS: usize = 60;

/// The length of a long word, and of the longest.
const LONG: usize = 300;
const LONGEST: usize = 5000;

/// A setting that has a single one with each of the eight on either side: a word
/// that is mistaken for one of them is seen.
const OTHER_WORD: &[u8] = b"2";

/// "leading zeros are fine": these are settings.
pub const WORDS_WITH_ZEROS: [&[u8]; 9] = [
    b"00",
    b"01",
    b"05",
    b"07",
    b"000",
    b"004",
    b"0000000003",
    b"00000000000000000006",
    b"0000000000000000000000000000000000000007",
];

/// Decimal numbers above 7. Some are 0 to 7 by their first digit or by their last,
/// or without the bits above the lowest 8, 16, 32, 64 or 128; the others stand
/// beside these.
pub const NUMBERS_ABOVE_7: [&[u8]; 48] = [
    b"8",
    b"9",
    b"08",
    b"009",
    b"10",
    b"010",
    b"11",
    b"13",
    b"17",
    b"22",
    b"30",
    b"48",
    b"55",
    b"70",
    b"77",
    b"99",
    b"127",
    b"128",
    b"130",
    b"255",
    b"256",
    b"257",
    b"258",
    b"263",
    b"0260",
    b"264",
    b"514",
    b"32768",
    b"65535",
    b"65536",
    b"65538",
    b"65543",
    b"65544",
    b"2147483647",
    b"2147483648",
    b"2147483650",
    b"4294967295",
    b"4294967296",
    b"4294967298",
    b"4294967303",
    b"9223372036854775808",
    b"9223372036854775810",
    b"18446744073709551615",
    b"18446744073709551616",
    b"18446744073709551618",
    b"18446744073709551623",
    b"340282366920938463463374607431768211456",
    b"340282366920938463463374607431768211458",
];

/// Words that are no decimal numbers.
pub const NO_NUMBERS: [&[u8]; 75] = [
    b"",
    b"+",
    b"-",
    b"--",
    b"+2",
    b"-2",
    b"-0",
    b"+0",
    b"--2",
    b"2-",
    b"2+",
    b"-254",
    b" ",
    b"  ",
    b" 2",
    b"2 ",
    b"2 2",
    b"\t2",
    b"2\t",
    b"\n",
    b"\n2",
    b"2\n",
    b"2\r",
    b"2\r\n",
    b"2\n2",
    b"\x0B2",
    b"2\x0C",
    b"2.",
    b".2",
    b"2.0",
    b"2,0",
    b"2;2",
    b"0_2",
    b"2_",
    b"'2'",
    b"\"2\"",
    b"2e0",
    b"0e0",
    b"0x2",
    b"0X2",
    b"0b10",
    b"0o2",
    b"2h",
    b"2u8",
    b"a",
    b"f",
    b"A",
    b"F",
    b"FF",
    b"0a0b02",
    b"F2",
    b"2F",
    b"O",
    b"l",
    b"two",
    b"none",
    b"refused",
    b"refused 5 4",
    b"endings",
    b"-h",
    b"--help",
    b"/",
    b":",
    b"2/",
    b":2",
    b"\x01",
    // A setting as a byte, and with the highest bit of its character.
    b"\x02",
    b"\xB2",
    b"2\x7F",
    b"2\xFF",
    b"\xC2\xA02",
    // Two in other digits: raised, wide and of another script; and with a mark that
    // says nothing.
    "\u{B2}".as_bytes(),
    "\u{FF12}".as_bytes(),
    "\u{0662}".as_bytes(),
    "\u{FEFF}2".as_bytes(),
];

/// Characters that are no digits, the neighbours of the digits first.
const NO_DIGITS: [u8; 18] = [
    b'/', b':', b'/', b':', b' ', b' ', b'+', b'-', b'.', b',', b'A', b'f', b'\n', b'\t', 0x01,
    0x7F, 0x80, 0xFF,
];

/// How many words, in `number_of_words`, and how often each of the sorts in `word`
/// comes.
const WEIGHTS_OF_NUMBERS: [usize; 6] = [2, 8, 78, 6, 4, 2];
const WEIGHTS_OF_SORTS: [usize; 8] = [100, 15, 15, 20, 15, 15, 10, 5];

/// The fixed lines of the ending-lines form, and so many more that there are as
/// many as asked for at least. The same seed gives the same lines.
pub fn command_lines(seed: u64, lines: usize) -> Vec<u8> {
    let mut fitter = Fitter {
        // The other generators count up from 0, those of request h down.
        random: Random::new((!seed).wrapping_mul(16).wrapping_add(1)),
    };
    let mut all = fixed();
    while all.len() < lines {
        all.push(fitter.command_line());
    }
    let mut output = Vec::new();
    for command_line in all {
        output.extend(command_line.line());
        output.push(0x0A);
    }
    output
}

fn command_line(words: &[&[u8]]) -> CommandLine {
    CommandLine {
        words: words.iter().map(|word| word.to_vec()).collect(),
    }
}

// ---------------------------------------------------------------------------
// The fixed ones
// ---------------------------------------------------------------------------

fn fixed() -> Vec<CommandLine> {
    let mut all = vec![command_line(&[])];
    all.extend(every_pair());
    all.extend(numbers_of_words());
    let words = [&WORDS_WITH_ZEROS[..], &NUMBERS_ABOVE_7[..], &NO_NUMBERS[..]];
    for word in words.concat() {
        all.extend(in_every_place(word));
    }
    for word in long_words() {
        all.push(command_line(&[&word, OTHER_WORD]));
        all.push(command_line(&[OTHER_WORD, &word]));
    }
    all
}

fn every_pair() -> Vec<CommandLine> {
    let mut all = Vec::new();
    for first in LINE_ENDING_SETTINGS {
        all.extend(LINE_ENDING_SETTINGS.map(|second| {
            let words = [first, second].map(|setting| setting.to_string().into_bytes());
            CommandLine {
                words: words.into(),
            }
        }));
    }
    all
}

/// "One word, or more than two", all of them settings, or all of them empty.
fn numbers_of_words() -> Vec<CommandLine> {
    let mut all = Vec::new();
    for number in [1, 3, 4, 5, 8, 9, 64, 66, 256, 258] {
        all.extend([OTHER_WORD, b""].map(|word| command_line(&vec![word; number])));
    }
    let words: [&[u8]; 8] = [b"0", b"1", b"2", b"3", b"4", b"5", b"6", b"7"];
    all.extend(words.map(|word| command_line(&[word])));
    all.extend([3, 4, 8].map(|number| command_line(&words[..number])));
    all
}

/// Alone, on either side of a setting, twice, and behind two settings or between
/// them.
fn in_every_place(word: &[u8]) -> [CommandLine; 6] {
    [
        command_line(&[word]),
        command_line(&[word, OTHER_WORD]),
        command_line(&[OTHER_WORD, word]),
        command_line(&[word, word]),
        command_line(&[OTHER_WORD, OTHER_WORD, word]),
        command_line(&[OTHER_WORD, word, OTHER_WORD]),
    ]
}

/// Of some hundreds of characters, and a few of some thousands.
fn long_words() -> Vec<Vec<u8>> {
    let hundreds = [100, 255, 256, 257, LONG].map(words_of_length);
    let thousands = [1024, 4096, LONGEST].map(|length| {
        let [zeros_and_two, _, two_and_zeros, .., letters] = words_of_length(length);
        [zeros_and_two, two_and_zeros, letters]
    });
    [hundreds.concat(), thousands.concat()].concat()
}

/// The first one is a setting. Others are one by their last character, or by their
/// first.
fn words_of_length(length: usize) -> [Vec<u8>; 8] {
    let more = |character| vec![character; length - 1];
    [
        [&more(b'0')[..], b"2"].concat(),
        [&more(b'0')[..], b"8"].concat(),
        [b"2", &more(b'0')[..]].concat(),
        [&more(b'0')[..], b"/"].concat(),
        [b"2", &more(b' ')[..]].concat(),
        vec![b'2'; length],
        vec![0xFF; length],
        vec![b'x'; length],
    ]
}

// ---------------------------------------------------------------------------
// The random ones
// ---------------------------------------------------------------------------

struct Fitter {
    random: Random,
}

impl Fitter {
    /// Every third line has plain words only.
    fn command_line(&mut self) -> CommandLine {
        let plain = self.random.chance(1, 3);
        let number = self.number_of_words();
        let mut words = Vec::new();
        while words.len() < number {
            words.push(match plain {
                true => self.setting().to_string().into_bytes(),
                false => self.word(),
            });
        }
        CommandLine { words }
    }

    fn number_of_words(&mut self) -> usize {
        match self.random.weighted(&WEIGHTS_OF_NUMBERS) {
            0 => 0,
            1 => 1,
            2 => 2,
            3 => 3,
            4 => self.random.between(4, 12),
            _ => self.random.between(4, MOST_WORDS),
        }
    }

    fn setting(&mut self) -> usize {
        self.random.below(8)
    }

    fn word(&mut self) -> Vec<u8> {
        match self.random.weighted(&WEIGHTS_OF_SORTS) {
            0 => self.setting().to_string().into_bytes(),
            1 => self.with_zeros(),
            2 => self.one_of(&NUMBERS_ABOVE_7),
            3 => self.one_of(&NO_NUMBERS),
            4 => self.setting_without_its_highest_bits(),
            5 => self.with_a_strange_character(),
            6 => self.of_any_characters(),
            _ => self.long_word(),
        }
    }

    fn one_of(&mut self, words: &[&[u8]]) -> Vec<u8> {
        words[self.random.below(words.len())].to_vec()
    }

    fn with_zeros(&mut self) -> Vec<u8> {
        let zeros = self.random.between(1, 40);
        format!("{}{}", "0".repeat(zeros), self.setting()).into_bytes()
    }

    /// Of more than 8, 16, 32 or 64 bits. At times there are zeros before it.
    fn setting_without_its_highest_bits(&mut self) -> Vec<u8> {
        let bits = self.random.one_of(&[8, 16, 32, 64]);
        let times = match self.random.below(3) {
            0 => 1,
            _ => self.random.between(1, 1 << 20),
        };
        let number = ((times as u128) << bits) + self.setting() as u128;
        let zeros = match self.random.below(4) {
            0 => self.random.between(1, 40),
            _ => 0,
        };
        format!("{}{number}", "0".repeat(zeros)).into_bytes()
    }

    /// In place of a digit, or put in, or a digit with its highest bit.
    fn with_a_strange_character(&mut self) -> Vec<u8> {
        let mut word = match self.random.below(2) {
            0 => self.setting().to_string().into_bytes(),
            _ => self.with_zeros(),
        };
        let place = self.random.below(word.len());
        let strange = self.random.one_of(&NO_DIGITS);
        match self.random.below(5) {
            0 => word[place] += 0x80,
            1 => word.insert(place, strange),
            2 => word.push(strange),
            3 => word.insert(0, strange),
            _ => word[place] = strange,
        }
        word
    }

    /// Of any bytes but 00, of letters, of hexadecimal digits, or of decimal ones.
    fn of_any_characters(&mut self) -> Vec<u8> {
        let length = self.random.between(0, 12);
        let sort = self.random.below(4);
        (0..length)
            .map(|_| match sort {
                0 => self.random.between(1, 255) as u8,
                1 => self.random.one_of(b"abcdefhnorstuxyzABCDEFNOXZ"),
                2 => self.random.one_of(b"0123456789abcdefABCDEF"),
                _ => self.random.one_of(b"0123456789"),
            })
            .collect()
    }

    /// A few are as long as the longest. Zeros and a setting, digits, or any bytes
    /// but 00; at times with a strange character somewhere.
    fn long_word(&mut self) -> Vec<u8> {
        let length = match self.random.below(20) {
            0 => self.random.between(LONG, LONGEST),
            _ => self.random.between(LONG / 3, 2 * LONG),
        };
        let sort = self.random.below(4);
        let mut word: Vec<u8> = (1..length)
            .map(|_| match sort {
                0 | 1 => b'0',
                2 => self.random.one_of(b"0123456789"),
                _ => self.random.between(1, 255) as u8,
            })
            .collect();
        word.extend(self.setting().to_string().bytes());
        if self.random.chance(1, 4) {
            let place = self.random.below(length);
            word[place] = self.random.one_of(&NO_DIGITS);
        }
        word
    }
}
