//! Cases for request c, "Choosing the rate": the fixed edges first, then random
//! ones, most of them near an edge.

use super::rate_edges::*;
use crate::fitters::USUAL_RATES;
use crate::random::Random;
use crate::rate::{Case, DIVISORS};

/// A divider that has pairs of two divisors has one with such a period: it is the
/// smaller divisor's with four times the period.
const LONGEST_SHARED_PERIOD: usize = 63;
const LONGEST_PERIOD: usize = 255;

/// How many differences are looked at for one that is nearly a whole millionth.
const DIFFERENCES_LOOKED_AT: usize = 500;

/// How often each of the sorts in `case` comes.
const WEIGHTS_OF_SORTS: [usize; 13] = [10, 9, 8, 6, 3, 11, 8, 8, 10, 5, 11, 6, 5];

/// So many lines of the rates form. The same seed gives the same lines.
pub fn cases(seed: u64, lines: usize) -> Vec<u8> {
    let mut generator = RatesGenerator {
        // The other generators have other numbers.
        random: Random::new(seed.wrapping_mul(16).wrapping_add(10)),
    };
    let mut cases = fixed();
    while cases.len() < lines {
        cases.push(generator.case());
    }
    let mut output = Vec::new();
    for case in &cases[..lines] {
        output.extend(case.line().bytes());
        output.push(0x0A);
    }
    output
}

pub(super) struct RatesGenerator {
    pub random: Random,
}

impl RatesGenerator {
    pub fn case(&mut self) -> Case {
        match self.random.weighted(&WEIGHTS_OF_SORTS) {
            0 => self.any_in_range(),
            1 => self.any_clock_and_rate_of_any_length(),
            2 => self.usual(),
            3 => self.at_the_ends(),
            4 => self.any(),
            5 => self.near_a_pair(),
            6 => self.hit_or_nearly(),
            7 => self.several_divisors(),
            8 => self.midway(),
            9 => self.nearly_midway(),
            10 => self.at_the_limit(),
            11 => self.whole_millionth(),
            _ => self.nearly_whole_millionth(),
        }
    }

    // -----------------------------------------------------------------------
    // Any, usual, and at the ends
    // -----------------------------------------------------------------------

    fn any_clock(&mut self) -> usize {
        self.random.between(LEAST_CLOCK, GREATEST_CLOCK)
    }

    fn any_rate(&mut self) -> usize {
        self.random.between(1, GREATEST_RATE)
    }

    pub fn any_in_range(&mut self) -> Case {
        case(self.any_clock(), self.any_rate())
    }

    /// As many small rates as large ones, so that each divisor is chosen.
    pub fn any_clock_and_rate_of_any_length(&mut self) -> Case {
        let most = 1 << self.random.between(1, 18);
        let wanted = self.random.between(1, GREATEST_RATE.min(most));
        case(self.any_clock(), wanted)
    }

    /// Mostly both are usual.
    fn usual(&mut self) -> Case {
        let any = self.any_in_range();
        let clock = USUAL_CLOCKS[self.random.below(USUAL_CLOCKS.len())];
        let wanted = USUAL_RATES[self.random.below(USUAL_RATES.len())];
        match self.random.below(5) {
            0 => Case { clock, ..any },
            1 => Case { wanted, ..any },
            _ => Case { clock, wanted },
        }
    }

    /// "12 clock or rate outside its range", and just inside.
    fn at_the_ends(&mut self) -> Case {
        let other = self.usual();
        let clock = CLOCKS_AT_THE_ENDS[self.random.below(CLOCKS_AT_THE_ENDS.len())];
        let wanted = RATES_AT_THE_ENDS[self.random.below(RATES_AT_THE_ENDS.len())];
        match self.random.below(3) {
            0 => Case { clock, ..other },
            1 => Case { wanted, ..other },
            _ => Case { clock, wanted },
        }
    }

    /// Of 32 bits: nearly always one of them at least is outside its range.
    fn any(&mut self) -> Case {
        let any = self.any_in_range();
        let clock = self.random.draw() as u32;
        let wanted = self.random.draw() as u32;
        match self.random.below(3) {
            0 => Case { clock, ..any },
            1 => Case { wanted, ..any },
            _ => Case { clock, wanted },
        }
    }

    // -----------------------------------------------------------------------
    // Near a pair
    // -----------------------------------------------------------------------

    /// Divisor and period, of a pair that is chosen where it is the nearest: a
    /// period below 64 is the smaller divisor's with four times the period.
    fn pair_that_is_chosen(&mut self) -> (usize, usize) {
        let divisor = DIVISORS[self.random.below(DIVISORS.len())] as usize;
        let shortest = match divisor {
            LEAST_DIVIDER => 1,
            _ => LONGEST_SHARED_PERIOD + 1,
        };
        (divisor, self.random.between(shortest, LONGEST_PERIOD))
    }

    fn rate_hit(&mut self, divider: usize) -> usize {
        let rates = rates_hit(divider);
        self.random.between(*rates.start(), *rates.end())
    }

    /// More Hz than the hit has, or as many fewer.
    fn on_some_side(&mut self, hit: Case, hertz: usize) -> Case {
        let hertz = hertz as i32;
        match self.random.below(2) {
            0 => moved(hit, hertz),
            _ => moved(hit, -hertz),
        }
    }

    /// So near that no other pair is nearer, and not too far.
    fn near_a_pair(&mut self) -> Case {
        let (divisor, period) = self.pair_that_is_chosen();
        let wanted = self.rate_hit(divisor * period);
        let hit = hit(divisor * period, wanted);
        let most = hit.clock as usize / (2 * period + 2).max(40);
        let hertz = self.random.between(0, most);
        self.on_some_side(hit, hertz)
    }

    /// Any pair's rate, or so near that the deviation is cut to 0, or is about one
    /// millionth.
    fn hit_or_nearly(&mut self) -> Case {
        let divisor = DIVISORS[self.random.below(DIVISORS.len())] as usize;
        let divider = divisor * self.random.between(1, LONGEST_PERIOD);
        let wanted = self.rate_hit(divider);
        let hit = hit(divider, wanted);
        let millionth = hit.clock as usize / MILLION;
        match self.random.below(5) {
            0 | 1 => hit,
            2 => self.on_some_side(hit, millionth),
            3 => self.on_some_side(hit, millionth + 1),
            _ => {
                let hertz = self.random.between(1, millionth);
                self.on_some_side(hit, hertz)
            }
        }
    }

    /// "ties go to the smaller divisor": with the same divider.
    fn several_divisors(&mut self) -> Case {
        let larger = &DIVISORS[1..];
        let divisor = larger[self.random.below(larger.len())] as usize;
        let period = self.random.between(1, LONGEST_SHARED_PERIOD);
        let wanted = self.rate_hit(divisor * period);
        let hit = hit(divisor * period, wanted);
        let hertz = match self.random.below(3) {
            0 => 0,
            _ => self.random.between(1, hit.clock as usize / 1000),
        };
        self.on_some_side(hit, hertz)
    }

    // -----------------------------------------------------------------------
    // Ties and limits
    // -----------------------------------------------------------------------

    /// "ties go to the smaller divisor, then the smaller period": one above the
    /// wanted rate and one below it.
    fn midway(&mut self) -> Case {
        let (divisor, period) = match self.random.below(8) {
            0 => (8, self.random.between(1, 24)),
            1 => (8, self.random.between(17, 22)),
            // The next divider is 256 times the divisor: the next divisor's 64.
            2 | 3 => (self.random.one_of(&[8, 32, 128]).into(), LONGEST_PERIOD),
            _ => self.pair_that_is_chosen(),
        };
        let times = times_midway(divisor, period);
        if times.is_empty() {
            return self.midway();
        }
        let times = self.random.between(*times.start(), *times.end());
        let tie = midway(divisor, period, times);
        self.exactly_or_beside(tie)
    }

    /// "compared as exact fractions": two distances that are nearly the same.
    fn nearly_midway(&mut self) -> Case {
        let (divisor, period) = self.pair_that_is_chosen();
        let side = self.some_side();
        let first = self.rate_hit(divisor * period);
        // So many rates in a row have one with such a clock.
        let mut wanted = first..=GREATEST_RATE.min(first + 2 * period);
        match wanted.find_map(|wanted| nearly_midway(divisor, period, wanted, side)) {
            Some(case) => case,
            None => self.nearly_midway(),
        }
    }

    fn some_side(&mut self) -> Side {
        match self.random.below(2) {
            0 => Side::Above,
            _ => Side::Below,
        }
    }

    /// "13 exactly if every pair is more than 25,000 millionths away"
    fn at_the_limit(&mut self) -> Case {
        let side = self.some_side();
        let (divider, side) = match self.random.below(7) {
            0 => (LEAST_DIVIDER, Side::Above),
            1 => (LEAST_DIVIDER, Side::Below),
            2 => (GREATEST_DIVIDER, Side::Above),
            3 => (8 * self.random.between(17, 23), side),
            4 => {
                // Another pair is nearly always nearer.
                let (divisor, period) = self.pair_that_is_chosen();
                (divisor * period, side)
            }
            _ => (8 * self.random.between(2, 20), side),
        };
        // Every fifth rate at least has such a clock; it may be outside its range.
        let wanted = self.rate_hit(divider);
        match (wanted..wanted + 5).find_map(|wanted| at_the_limit(divider, wanted, side)) {
            Some(case) => self.exactly_or_beside(case),
            None => self.at_the_limit(),
        }
    }

    /// Every third one exactly, the others with a few Hz more or fewer, or with
    /// another rate.
    fn exactly_or_beside(&mut self, case: Case) -> Case {
        match self.random.below(9) {
            0..=2 => case,
            3 | 4 => moved(case, 1),
            5 | 6 => moved(case, -1),
            7 => {
                let hertz = self.random.between(2, 40);
                self.on_some_side(case, hertz)
            }
            _ => Case {
                wanted: case.wanted - 1 + 2 * self.random.below(2) as u32,
                ..case
            },
        }
    }

    // -----------------------------------------------------------------------
    // Whole millionths
    // -----------------------------------------------------------------------

    /// "cut toward zero": the deviation is a whole number of millionths, or one Hz
    /// beside it. A wanted rate and a period with fives among their factors have
    /// many of these.
    fn whole_millionth(&mut self) -> Case {
        let (divisor, period) = self.pair_that_is_chosen();
        let period = match self.random.below(2) {
            0 => period,
            _ => period.next_multiple_of(25).min(250),
        };
        let wanted = self.rate_hit(divisor * period).next_multiple_of(125);
        let clock = divisor * period * wanted;
        // So many Hz are the least whole number of millionths.
        let step = clock / common_factor(clock, MILLION);
        let steps = clock / (2 * period + 2).max(40) / step;
        if clock > GREATEST_CLOCK || wanted > GREATEST_RATE || steps == 0 {
            return self.whole_millionth();
        }
        let hertz = step * self.random.between(1, steps);
        let whole = self.on_some_side(case(clock, wanted), hertz);
        match self.random.below(3) {
            0 => moved(whole, -1),
            1 => moved(whole, 1),
            _ => whole,
        }
    }

    /// The fraction of a millionth that is cut off is nearly none, or nearly a
    /// whole one.
    fn nearly_whole_millionth(&mut self) -> Case {
        let (divisor, period) = self.pair_that_is_chosen();
        let wanted = self.rate_hit(divisor * period);
        let hit = hit(divisor * period, wanted);
        let clock = hit.clock as usize;
        let most = clock / (2 * period + 2).max(40);
        let first = self.random.between(1, most);
        let rest = |hertz: &usize| hertz * MILLION % clock;
        let looked_at = (first..=most).take(DIFFERENCES_LOOKED_AT);
        let hertz = match self.random.below(2) {
            0 => looked_at.filter(|hertz| rest(hertz) > 0).min_by_key(rest),
            _ => looked_at.max_by_key(rest),
        };
        self.on_some_side(hit, hertz.unwrap_or(first))
    }
}

/// The greatest common factor.
fn common_factor(first: usize, second: usize) -> usize {
    match second {
        0 => first,
        _ => common_factor(second, first % second),
    }
}
