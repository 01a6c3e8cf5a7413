//! The edges of request c, "Choosing the rate": how a case of each sort is made,
//! and the fixed ones that every seed begins with.

use crate::fitters::USUAL_RATES;
use crate::rate::{Case, CLOCKS, DIVISORS, WANTED_RATES};
use std::ops::RangeInclusive;

pub const LEAST_CLOCK: usize = *CLOCKS.start() as usize;
pub const GREATEST_CLOCK: usize = *CLOCKS.end() as usize;
pub const GREATEST_RATE: usize = *WANTED_RATES.end() as usize;
pub const MILLION: usize = 1_000_000;

/// Divisor times period, at the least and at the most: 8 * 1 and 2048 * 255. No
/// pair gives a higher rate than the first, or a lower one than the second.
pub const LEAST_DIVIDER: usize = 8;
pub const GREATEST_DIVIDER: usize = 522_240;

/// The least and the greatest, their neighbours on both sides, and the ends of 32
/// bits.
pub const CLOCKS_AT_THE_ENDS: [u32; 9] = [
    0,
    1,
    999_999,
    1_000_000,
    1_000_001,
    59_999_999,
    60_000_000,
    60_000_001,
    u32::MAX,
];
pub const RATES_AT_THE_ENDS: [u32; 7] = [0, 1, 2, 230_399, 230_400, 230_401, u32::MAX];

pub const USUAL_CLOCKS: [u32; 12] = [
    1_000_000, 1_843_200, 3_686_400, 4_000_000, 7_372_800, 8_000_000, 11_059_200, 14_745_600,
    16_000_000, 25_000_000, 48_000_000, 60_000_000,
];

/// The side of the wanted rate on which a real rate lies.
#[derive(Clone, Copy, Debug, PartialEq, Eq)]
pub enum Side {
    Above,
    Below,
}

// ---------------------------------------------------------------------------
// How they are made
// ---------------------------------------------------------------------------

pub fn case(clock: usize, wanted: usize) -> Case {
    let clock = u32::try_from(clock).expect("a clock of 32 bits");
    let wanted = u32::try_from(wanted).expect("a rate of 32 bits");
    Case { clock, wanted }
}

/// The same with so many Hz more or fewer.
pub fn moved(case: Case, hertz: i32) -> Case {
    Case {
        clock: case.clock.saturating_add_signed(hertz),
        wanted: case.wanted,
    }
}

/// One below, the case itself, and one above.
fn with_neighbours(case: Case) -> [Case; 3] {
    [-1, 0, 1].map(|hertz| moved(case, hertz))
}

/// The divider gives the wanted rate exactly.
pub fn hit(divider: usize, wanted: usize) -> Case {
    case(divider * wanted, wanted)
}

/// The wanted rates for which `hit` has a clock in its range.
pub fn rates_hit(divider: usize) -> RangeInclusive<usize> {
    let least = LEAST_CLOCK.div_ceil(divider);
    let greatest = GREATEST_RATE.min(GREATEST_CLOCK / divider);
    least..=greatest
}

/// All wanted rates that the divider gives within 25,000 millionths, and more.
fn rates_near(divider: usize) -> RangeInclusive<usize> {
    let hit = rates_hit(divider);
    hit.start() / 2..=GREATEST_RATE.min(2 * hit.end())
}

/// The wanted rate is midway between those of this period and the next one: with
/// this clock they are 2 * (period + 1) * times and 2 * period * times.
pub fn midway(divisor: usize, period: usize, times: usize) -> Case {
    let clock = 2 * divisor * period * (period + 1) * times;
    case(clock, (2 * period + 1) * times)
}

/// The times for which `midway` has both numbers in their ranges; there may be
/// none.
pub fn times_midway(divisor: usize, period: usize) -> RangeInclusive<usize> {
    let clock = 2 * divisor * period * (period + 1);
    let wanted = 2 * period + 1;
    let least = LEAST_CLOCK.div_ceil(clock);
    let greatest = (GREATEST_CLOCK / clock).min(GREATEST_RATE / wanted);
    least..=greatest
}

/// Not quite midway: clock times (2 * period + 1) is one more, or one less, than it
/// would be midway. Then the next period's rate, or this one's, is nearer by 1 /
/// (divisor * period * (period + 1)), as little as can be; none where no clock in
/// its range gives that.
pub fn nearly_midway(divisor: usize, period: usize, wanted: usize, side: Side) -> Option<Case> {
    let parts = 2 * period + 1;
    let clock_midway_in_parts = 2 * divisor * period * (period + 1) * wanted;
    let clock_in_parts = match side {
        Side::Above => clock_midway_in_parts + 1,
        Side::Below => clock_midway_in_parts - 1,
    };
    part_of(clock_in_parts, parts).map(|clock| case(clock, wanted))
}

/// The divider's rate is exactly 25,000 millionths, a fortieth, above or below the
/// wanted one; none where no clock in its range gives that.
pub fn at_the_limit(divider: usize, wanted: usize, side: Side) -> Option<Case> {
    let fortieths = match side {
        Side::Above => 41,
        Side::Below => 39,
    };
    part_of(fortieths * wanted * divider, 40).map(|clock| case(clock, wanted))
}

/// One of so many equal parts; none where it is no whole number, or no clock in
/// its range.
fn part_of(clock_in_parts: usize, parts: usize) -> Option<usize> {
    let clock = clock_in_parts / parts;
    let whole = clock * parts == clock_in_parts;
    let in_range = (LEAST_CLOCK..=GREATEST_CLOCK).contains(&clock);
    (whole && in_range).then_some(clock)
}

// ---------------------------------------------------------------------------
// The fixed ones
// ---------------------------------------------------------------------------

pub fn fixed() -> Vec<Case> {
    let parts = [
        ends_of_the_ranges(),
        usual_rates(),
        hits_and_neighbours(),
        midways(),
        nearly_midways(),
        limits(),
        whole_millionths(),
        nearly_whole_millionths(),
    ];
    parts.concat()
}

fn ends_of_the_ranges() -> Vec<Case> {
    let rates = [&RATES_AT_THE_ENDS[..], &[110, 9600]].concat();
    let mut cases = Vec::new();
    for clock in CLOCKS_AT_THE_ENDS {
        cases.extend(rates.iter().map(|wanted| Case {
            clock,
            wanted: *wanted,
        }));
    }
    cases
}

fn usual_rates() -> Vec<Case> {
    let mut cases = Vec::new();
    for clock in USUAL_CLOCKS {
        cases.extend(USUAL_RATES.map(|wanted| Case { clock, wanted }));
    }
    cases
}

/// "ties go to the smaller divisor": most of these dividers have several pairs.
/// With one Hz more or fewer most deviations are cut to 0.
fn hits_and_neighbours() -> Vec<Case> {
    let mut cases = Vec::new();
    for divisor in DIVISORS {
        for period in [1, 2, 4, 63, 64, 65, 254, 255] {
            let divider = divisor as usize * period;
            let rates = rates_hit(divider);
            cases.push(hit(divider, *rates.start()));
            cases.extend(with_neighbours(hit(divider, *rates.end())));
        }
    }
    cases
}

/// "then the smaller period". Up to 19 both are too far; behind 255 the next
/// divisor's 64 follows; and below 64 only 8 has periods without another
/// divisor's between them.
fn midways() -> Vec<Case> {
    let mut cases = Vec::new();
    for divisor in DIVISORS {
        for period in [1, 18, 19, 20, 21, 63, 64, 65, 128, 254, 255] {
            let times = times_midway(divisor as usize, period);
            if !times.is_empty() && (divisor == 8 || period >= 64) {
                let made = |times| midway(divisor as usize, period, times);
                cases.extend(with_neighbours(made(*times.start())));
                cases.push(made(*times.end()));
            }
        }
    }
    cases
}

/// "compared as exact fractions": the least and the greatest rate for each.
fn nearly_midways() -> Vec<Case> {
    let mut cases = Vec::new();
    for (divisor, period) in [
        (8, 20),
        (8, 254),
        (8, 255),
        (32, 128),
        (32, 255),
        (128, 160),
        (512, 130),
        (2048, 80),
        (2048, 120),
    ] {
        for side in [Side::Above, Side::Below] {
            let wanted = rates_near(divisor * period);
            let mut all = wanted.filter_map(|wanted| nearly_midway(divisor, period, wanted, side));
            cases.extend(all.next());
            cases.extend(all.next_back());
        }
    }
    cases
}

/// "more than 25,000 millionths away": the least and the greatest rate for each.
/// At 8 * 20 above and 8 * 21 below, another pair is nearer.
fn limits() -> Vec<Case> {
    let dividers = [1, 2, 3, 18, 19, 20, 21].map(|period| 8 * period);
    let mut limits = vec![(GREATEST_DIVIDER, Side::Above)];
    limits.extend(dividers.map(|divider| (divider, Side::Above)));
    limits.extend(dividers.map(|divider| (divider, Side::Below)));
    let mut cases = Vec::new();
    for (divider, side) in limits {
        let wanted = rates_near(divider);
        let mut all = wanted.filter_map(|wanted| at_the_limit(divider, wanted, side));
        let least = all.next().expect("a least one");
        let greatest = all.next_back().expect("a greatest one");
        cases.extend(with_neighbours(least));
        cases.extend(with_neighbours(greatest));
    }
    cases
}

/// A wanted rate, a divider that hits it from a whole number of MHz, and two sizes
/// of deviations in millionths: none is so large that another pair is nearer.
const WHOLE_MILLIONTHS: [(usize, usize, [usize; 2]); 7] = [
    (125, 32 * 250, [1, 1990]),
    (125, 128 * 125, [1, 3900]),
    (125, 512 * 125, [2, 3900]),
    (125, 2048 * 125, [1, 3900]),
    (62_500, 8 * 20, [2, 24_000]),
    (125_000, 8 * 8, [1, 24_999]),
    (25_000, 8 * 250, [1, 1990]),
];

/// "cut toward zero": at a whole millionth, and beside it.
fn whole_millionths() -> Vec<Case> {
    let mut cases = Vec::new();
    for (wanted, divider, sizes) in WHOLE_MILLIONTHS {
        let hit = hit(divider, wanted);
        for size in sizes {
            let hertz = (size * divider * wanted / MILLION) as i32;
            cases.extend(with_neighbours(moved(hit, hertz)));
            cases.extend(with_neighbours(moved(hit, -hertz)));
        }
    }
    cases
}

/// So many Hz are just short of a millionth, or just beyond it: these rates are
/// hit from 1,000,008, 1,999,984 and 49,999,992 Hz.
fn nearly_whole_millionths() -> Vec<Case> {
    let mut cases = Vec::new();
    for (wanted, divider, hertz) in [
        (13_889, 8 * 9, 1),
        (17_857, 8 * 14, 2),
        (34_153, 8 * 183, 50),
    ] {
        let hit = hit(divider, wanted);
        cases.extend(with_neighbours(moved(hit, hertz)));
        cases.extend(with_neighbours(moved(hit, -hertz)));
    }
    cases
}
