//! Cases for request h, "Two boxes in a row": every ordered pair and the fixed
//! edges first, then random ones, most of them of small values.

use crate::endings::{Case, LINE_ENDING_SETTINGS};
use crate::random::Random;

/// Values of 32 bits that are above 7, which a box may mistake for a setting.
pub const VALUES_ABOVE_7: [u32; 60] = [
    // Beside 7, with few bits, and the ends of a byte.
    8,
    9,
    15,
    16,
    17,
    31,
    32,
    64,
    70,
    77,
    127,
    128,
    129,
    135,
    248,
    254,
    255,
    // NL, CR, and digits as characters.
    0x0A,
    0x0D,
    0x30,
    0x31,
    0x34,
    0x37,
    0x38,
    // 0 to 7 in their lowest byte, and beside these.
    256,
    257,
    258,
    259,
    260,
    261,
    262,
    263,
    264,
    511,
    512,
    0x0307,
    65_280,
    // The ends of two bytes, and 0 to 7 in these.
    32_767,
    32_768,
    65_535,
    65_536,
    65_537,
    65_543,
    65_544,
    65_792,
    // The ends of four bytes, and 0 to 7 in some of these.
    0x0100_0003,
    0x4000_0000,
    0x7FFF_FF05,
    0x7FFF_FFFF,
    0x8000_0000,
    0x8000_0001,
    0x8000_0007,
    0x8000_0008,
    0x8000_0100,
    0xFF00_0000,
    0xFFFF_0000,
    0xFFFF_FF00,
    0xFFFF_FF07,
    0xFFFF_FFF8,
    0xFFFF_FFFF,
];

/// How often each of the sorts in `value` comes.
const WEIGHTS_OF_SORTS: [usize; 6] = [70, 10, 5, 5, 5, 5];

/// The fixed cases, and so many more that there are as many lines as asked for at
/// least. The same seed gives the same lines.
pub fn cases(seed: u64, lines: usize) -> Vec<u8> {
    let mut generator = PairsGenerator {
        // The other generators count up from 0, those of request h down.
        random: Random::new((!seed).wrapping_mul(16)),
    };
    let mut cases = fixed();
    while cases.len() < lines {
        cases.push(generator.case());
    }
    let mut output = Vec::new();
    for case in cases {
        output.extend(case.line().bytes());
        output.push(0x0A);
    }
    output
}

// ---------------------------------------------------------------------------
// The fixed ones
// ---------------------------------------------------------------------------

fn fixed() -> Vec<Case> {
    [every_pair(), one_above_7(), both_above_7()].concat()
}

/// "For every ordered pair"
fn every_pair() -> Vec<Case> {
    let mut cases = Vec::new();
    for first in settings() {
        cases.extend(settings().map(|second| Case { first, second }));
    }
    cases
}

fn settings() -> impl Iterator<Item = u32> {
    LINE_ENDING_SETTINGS.map(u32::from)
}

/// On either side, with each setting on the other.
fn one_above_7() -> Vec<Case> {
    let mut cases = Vec::new();
    for above in VALUES_ABOVE_7 {
        for setting in settings() {
            cases.extend(on_either_side(above, setting));
        }
    }
    cases
}

fn both_above_7() -> Vec<Case> {
    let mut cases = Vec::new();
    for above in VALUES_ABOVE_7 {
        cases.push(Case {
            first: above,
            second: above,
        });
        cases.extend(on_either_side(above, 8));
        cases.extend(on_either_side(above, u32::MAX));
    }
    cases
}

fn on_either_side(one: u32, other: u32) -> [Case; 2] {
    [(one, other), (other, one)].map(|(first, second)| Case { first, second })
}

// ---------------------------------------------------------------------------
// The random ones
// ---------------------------------------------------------------------------

struct PairsGenerator {
    random: Random,
}

impl PairsGenerator {
    fn case(&mut self) -> Case {
        Case {
            first: self.value(),
            second: self.value(),
        }
    }

    fn value(&mut self) -> u32 {
        match self.random.weighted(&WEIGHTS_OF_SORTS) {
            0 => self.setting(),
            1 => self.random.below(16) as u32,
            2 => self.random.byte().into(),
            3 => VALUES_ABOVE_7[self.random.below(VALUES_ABOVE_7.len())],
            // A setting in its lowest byte.
            4 => ((self.random.draw() as u32) << 8) + self.setting(),
            _ => self.random.draw() as u32,
        }
    }

    fn setting(&mut self) -> u32 {
        self.random.below(8) as u32
    }
}
