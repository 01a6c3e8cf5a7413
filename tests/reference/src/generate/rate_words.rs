//! Random and hostile command lines for the fitters' program over request c,
//! "Choosing the rate".

use super::rate_edges::{CLOCKS_AT_THE_ENDS, USUAL_CLOCKS};
use super::rates::RatesGenerator;
use crate::fitters::{CommandLine, USUAL_RATES};
use crate::random::Random;

/// The most rates of a command line.
const MOST_RATES: usize = 40;

/// The length of the longest words, and the most zeros before a number.
const MANY_DIGITS: usize = 300;

/// Words that the program may mistake, as a clock or as a rate. Most are no
/// decimal numbers. Of the others some have more than 32 bits: 2^32 and 2^64, and
/// these with a little or 9600 more.
pub const HOSTILE_WORDS: [&[u8]; 50] = [
    b"",
    b"0",
    b"00",
    b"+",
    b"-",
    b"+0",
    b"-0",
    b"-1",
    b"+9600",
    b"-9600",
    b" ",
    b"\n",
    b" 9600",
    b"9600 ",
    b"\t9600",
    b"9600\n",
    b"9600\r",
    b"\n9600",
    b"9600 1200",
    b"9600\n1200 8 1 0",
    b"0x10",
    b"0X2580",
    b"0b11",
    b"0o17",
    b"1e6",
    b"9600.0",
    b"9,600",
    b"9_600",
    b"9'600",
    b"/",
    b":",
    b"96/0",
    b":9600",
    b"9600:",
    b"4294967295",
    b"4294967296",
    b"4294967297",
    b"4294967298",
    b"4294967299",
    b"42949672960",
    b"4294976896",
    b"18446744073709551615",
    b"18446744073709551616",
    b"18446744073709561216",
    b"refused",
    b"--help",
    b"96OO",
    b"\xFF",
    b"\xB9\xB6\xB0\xB0",
    // The same number in the wide digits of other scripts.
    "\u{FF19}\u{FF16}\u{FF10}\u{FF10}".as_bytes(),
];

/// Characters that are no digits, the neighbours of the digits first.
const NO_DIGITS: [u8; 14] = [
    b'/', b':', b'/', b':', b' ', b'+', b'-', b'.', b'A', b'e', b'\n', 0x01, 0x80, 0xFF,
];

/// So many lines of the rate-lines form. The same seed gives the same lines.
pub fn command_lines(seed: u64, lines: usize) -> Vec<u8> {
    let mut fitter = Fitter {
        rates: RatesGenerator {
            // The other generators have other numbers.
            random: Random::new(seed.wrapping_mul(16).wrapping_add(9)),
        },
    };
    let mut output = Vec::new();
    for _ in 0..lines {
        output.extend(fitter.command_line().line());
        output.push(0x0A);
    }
    output
}

struct Fitter {
    rates: RatesGenerator,
}

impl Fitter {
    fn random(&mut self) -> &mut Random {
        &mut self.rates.random
    }

    /// Mostly a sensible clock; every other line has sensible rates only.
    fn command_line(&mut self) -> CommandLine {
        let case = self.rates.case();
        let clock = match self.random().below(12) {
            0..=2 => case.clock,
            3..=5 => self.rates.any_in_range().clock,
            6 => CLOCKS_AT_THE_ENDS[self.random().below(CLOCKS_AT_THE_ENDS.len())],
            _ => USUAL_CLOCKS[self.random().below(USUAL_CLOCKS.len())],
        };
        let hostile_clock = self.random().chance(1, 10);
        let hostile_in_ten = usize::from(self.random().one_of(&[0, 0, 3, 8]));
        let number = self.number_of_rates();
        let mut rates = Vec::new();
        while rates.len() < number {
            let rate = self.some_rate(case.wanted);
            let hostile = self.random().chance(hostile_in_ten, 10);
            rates.push(self.some_word(rate, hostile));
        }
        CommandLine {
            clock: self.some_word(clock, hostile_clock),
            rates,
        }
    }

    /// None in every tenth line: the usual rates are printed then.
    fn number_of_rates(&mut self) -> usize {
        match self.random().below(10) {
            0 => 0,
            1..=5 => self.random().between(1, 4),
            _ => self.random().between(1, MOST_RATES),
        }
    }

    /// Now and then the one that belongs to the clock.
    fn some_rate(&mut self, wanted: u32) -> u32 {
        match self.random().below(6) {
            0 => wanted,
            1 => self.rates.any_clock_and_rate_of_any_length().wanted,
            2 => self.rates.case().wanted,
            _ => USUAL_RATES[self.random().below(USUAL_RATES.len())],
        }
    }

    // -----------------------------------------------------------------------
    // Words
    // -----------------------------------------------------------------------

    fn some_word(&mut self, number: u32, hostile: bool) -> Vec<u8> {
        match (hostile, self.random().below(2)) {
            (false, _) => self.plain_word(number),
            (true, 0) => HOSTILE_WORDS[self.random().below(HOSTILE_WORDS.len())].to_vec(),
            (true, _) => self.hostile_word(number),
        }
    }

    /// "leading zeros are fine"
    fn plain_word(&mut self, number: u32) -> Vec<u8> {
        let zeros = match self.random().below(30) {
            0 => self.random().between(1, 12),
            1 => self.random().between(100, MANY_DIGITS),
            _ => 0,
        };
        format!("{}{number}", "0".repeat(zeros)).into_bytes()
    }

    /// A word that is like the number's.
    fn hostile_word(&mut self, number: u32) -> Vec<u8> {
        match self.random().below(6) {
            0 => self.signed_or_spaced(number),
            1 => self.of_more_than_32_bits(number),
            2 => self.of_many_digits(number),
            3 => self.with_a_strange_character(number),
            4 => self.bytes(b"abcdefxyzABCDEFOl"),
            _ => {
                let length = self.random().between(0, 12);
                (0..length)
                    .map(|_| self.random().between(1, 255) as u8)
                    .collect()
            }
        }
    }

    fn signed_or_spaced(&mut self, number: u32) -> Vec<u8> {
        let text = match self.random().below(8) {
            0 => format!("+{number}"),
            1 => format!("-{number}"),
            2 => format!(" {number}"),
            3 => format!("{number} "),
            4 => format!("{number}\n"),
            5 => format!("{number}\r\n"),
            6 => format!("0x{number:X}"),
            _ => format!("{number}e0"),
        };
        text.into_bytes()
    }

    /// Without its highest bits this is the number again. At times there are zeros
    /// before it.
    fn of_more_than_32_bits(&mut self, number: u32) -> Vec<u8> {
        let number = u128::from(number);
        let text = match self.random().below(4) {
            0 => format!("{}", (1 << 32) + number),
            1 => format!("{}", (1 << 33) + number),
            2 => format!("{}", (1 << 64) + number),
            // 2^128 ends with these last ten digits.
            _ => format!("34028236692093846346337460743{}", 1_768_211_456 + number),
        };
        let zeros = match self.random().below(4) {
            0 => self.random().between(1, 40),
            _ => 0,
        };
        format!("{}{text}", "0".repeat(zeros)).into_bytes()
    }

    /// So many digits that the number's own are the last of them.
    fn of_many_digits(&mut self, number: u32) -> Vec<u8> {
        let own = number.to_string();
        let more = MANY_DIGITS - own.len();
        let mut word = vec![self.random().one_of(b"123456789")];
        while word.len() < more {
            word.push(self.random().one_of(b"0123456789"));
        }
        word.extend(own.bytes());
        word
    }

    /// In place of a digit, or put in, or a digit with its highest bit.
    fn with_a_strange_character(&mut self, number: u32) -> Vec<u8> {
        let mut word = number.to_string().into_bytes();
        let place = self.random().below(word.len());
        let strange = self.random().one_of(&NO_DIGITS);
        match self.random().below(4) {
            0 => word[place] += 0x80,
            1 => word.insert(place, strange),
            2 => word.push(strange),
            _ => word[place] = strange,
        }
        word
    }

    fn bytes(&mut self, choices: &[u8]) -> Vec<u8> {
        let length = self.random().between(1, 10);
        (0..length).map(|_| self.random().one_of(choices)).collect()
    }
}
