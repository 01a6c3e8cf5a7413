//! Request c, "Choosing the rate": "Our fitters set speeds by a copied table. Add
//! the choice itself".
//!
//! Each of the 1275 pairs of a divisor and a period is looked at. A rate that is
//! no whole number is kept as a fraction, and only whole numbers are reckoned
//! with.

use crate::fields::{answer_lines, two_numbers};
use std::cmp::Ordering;
use std::ops::RangeInclusive;

/// "a clock (1,000,000 to 60,000,000 Hz)"
pub const CLOCKS: RangeInclusive<u32> = 1_000_000..=60_000_000;
/// "a wanted rate (1 to 230,400)"
pub const WANTED_RATES: RangeInclusive<u32> = 1..=230_400;
/// "a divisor of 8, 32, 128, 512 or 2048"
pub const DIVISORS: [u32; 5] = [8, 32, 128, 512, 2048];
/// "a period from 1 to 255"
pub const PERIODS: RangeInclusive<u32> = 1..=255;

/// "in millionths of the wanted rate"
const MILLION: i128 = 1_000_000;
/// "more than 25,000 millionths away"
const FARTHEST: i128 = 25_000;

/// "pick a divisor [...] and a period", and "the signed deviation in millionths
/// of the wanted rate, cut toward zero".
#[derive(Clone, Copy, Debug, PartialEq, Eq)]
pub struct Chosen {
    pub divisor: u32,
    pub period: u32,
    pub deviation: i32,
}

/// The refusals of the choice.
#[derive(Clone, Copy, Debug, PartialEq, Eq)]
pub enum RateRefusal {
    /// 12: "clock or rate outside its range"
    OutsideItsRange,
    /// 13: "exactly if every pair is more than 25,000 millionths away, before
    /// cutting"
    EveryPairTooFar,
}

impl RateRefusal {
    pub fn number(&self) -> u8 {
        match self {
            RateRefusal::OutsideItsRange => 12,
            RateRefusal::EveryPairTooFar => 13,
        }
    }
}

// ---------------------------------------------------------------------------
// Pairs
// ---------------------------------------------------------------------------

/// A pair, and how its real rate differs from the wanted one. "The real rate is
/// the clock over divisor times period": real rate less wanted rate is
/// difference / divider.
struct Pair {
    divisor: u32,
    period: u32,
    /// Divisor times period.
    divider: i128,
    /// "the exact difference between clock and rate times divider": above 0 where
    /// the real rate is above the wanted one.
    difference: i128,
}

/// Every pair.
fn pairs(clock: u32, wanted: u32) -> impl Iterator<Item = Pair> {
    DIVISORS.into_iter().flat_map(move |divisor| {
        PERIODS.map(move |period| Pair::new(divisor, period, clock, wanted))
    })
}

impl Pair {
    fn new(divisor: u32, period: u32, clock: u32, wanted: u32) -> Pair {
        let divider = i128::from(divisor) * i128::from(period);
        Pair {
            divisor,
            period,
            divider,
            difference: i128::from(clock) - i128::from(wanted) * divider,
        }
    }

    /// "the least distance from the wanted rate, compared as exact fractions;
    /// ties go to the smaller divisor, then the smaller period": what is to be
    /// chosen of two pairs is less.
    fn compare(&self, other: &Pair) -> Ordering {
        self.compare_distances(other)
            .then(self.divisor.cmp(&other.divisor))
            .then(self.period.cmp(&other.period))
    }

    /// a / b against c / d is a * d against c * b, for b and d are above 0.
    fn compare_distances(&self, other: &Pair) -> Ordering {
        let distance = self.difference.abs() * other.divider;
        distance.cmp(&(other.difference.abs() * self.divider))
    }

    /// "more than 25,000 millionths away, before cutting": the distance over the
    /// wanted rate is |difference| / (wanted * divider).
    fn is_too_far(&self, wanted: u32) -> bool {
        self.difference.abs() * MILLION > FARTHEST * i128::from(wanted) * self.divider
    }

    /// "A signed quotient cut toward zero", as the division of whole numbers is
    /// here.
    fn deviation(&self, wanted: u32) -> i128 {
        self.difference * MILLION / (i128::from(wanted) * self.divider)
    }
}

// ---------------------------------------------------------------------------
// The choice
// ---------------------------------------------------------------------------

/// "Lower numbers first": 12 before 13.
pub fn choose(clock: u32, wanted: u32) -> Result<Chosen, RateRefusal> {
    if !CLOCKS.contains(&clock) || !WANTED_RATES.contains(&wanted) {
        return Err(RateRefusal::OutsideItsRange);
    }
    if pairs(clock, wanted).all(|pair| pair.is_too_far(wanted)) {
        return Err(RateRefusal::EveryPairTooFar);
    }
    let chosen = pairs(clock, wanted)
        .min_by(Pair::compare)
        .expect("there are pairs");
    let deviation = chosen.deviation(wanted);
    Ok(Chosen {
        divisor: chosen.divisor,
        period: chosen.period,
        deviation: i32::try_from(deviation).expect("25,000 at most"),
    })
}

// ---------------------------------------------------------------------------
// The rates form
// ---------------------------------------------------------------------------

/// One line of this form: `CLOCK WANTED`.
#[derive(Clone, Copy, Debug, PartialEq, Eq)]
pub struct Case {
    pub clock: u32,
    pub wanted: u32,
}

/// One line of answer for each line. A malformed line ends the program; the
/// answers of the lines before it stay in the output.
pub fn program(input: &[u8], output: &mut Vec<u8>) -> Result<(), String> {
    answer_lines(input, output, |line| {
        Some(Case::of_line(line)?.answer().into_bytes())
    })
}

impl Case {
    /// The case of a line without its newline; none for a malformed line.
    pub fn of_line(line: &[u8]) -> Option<Case> {
        let [clock, wanted] = two_numbers(line)?;
        Some(Case { clock, wanted })
    }

    /// The line that `of_line` reads.
    pub fn line(&self) -> String {
        format!("{} {}", self.clock, self.wanted)
    }

    /// `NUMBER DIVISOR PERIOD SIZE NEGATIVE`: 0 or the refusal number, the pair,
    /// the deviation's size, and 1 where the deviation, as it was cut, is below
    /// 0. Behind a refusal number all four are 0.
    pub fn answer(&self) -> String {
        match choose(self.clock, self.wanted) {
            Ok(Chosen {
                divisor,
                period,
                deviation,
            }) => {
                let size = deviation.unsigned_abs();
                let negative = u8::from(deviation < 0);
                format!("0 {divisor} {period} {size} {negative}")
            }
            Err(refusal) => format!("{} 0 0 0 0", refusal.number()),
        }
    }
}
