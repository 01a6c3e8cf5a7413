//! Request c, "Choosing the rate", by another way than the reference's: the
//! dividers (divisor times period) stand in a row, and only the two beside clock
//! over wanted rate are looked at. A file may leave parts of this unused.
#![allow(dead_code)]

use reference::rate::Case;
use std::cmp::Ordering;
use std::sync::OnceLock;

/// Each divider once, from 8 * 1 to 2048 * 255.
pub fn dividers() -> &'static [u64] {
    static DIVIDERS: OnceLock<Vec<u64>> = OnceLock::new();
    DIVIDERS.get_or_init(|| {
        let all = (8..=2048 * 255).step_by(8);
        all.filter(|divider| !pairs_of(*divider).is_empty())
            .collect()
    })
}

/// Divisor and period, the smaller divisor first.
pub fn pairs_of(divider: u64) -> Vec<(u64, u64)> {
    let pairs = [8, 32, 128, 512, 2048].map(|divisor| (divisor, divider / divisor));
    let fits = |pair: &(u64, u64)| pair.0 * pair.1 == divider && (1..=255).contains(&pair.1);
    pairs.into_iter().filter(fits).collect()
}

/// Clock and wanted rate, both in their ranges.
#[derive(Clone, Copy, Debug)]
pub struct Wish {
    pub clock: u64,
    pub wanted: u64,
}

impl Wish {
    pub fn of(case: &Case) -> Option<Wish> {
        let clock = u64::from(case.clock);
        let wanted = u64::from(case.wanted);
        let clock_fits = (1_000_000..=60_000_000).contains(&clock);
        let wanted_fits = (1..=230_400).contains(&wanted);
        (clock_fits && wanted_fits).then_some(Wish { clock, wanted })
    }

    /// Wanted rate times divider: the clock that would give the wanted rate.
    pub fn exact_clock(&self, divider: u64) -> u64 {
        self.wanted * divider
    }

    /// How many Hz the clock lies beside that one.
    pub fn hertz(&self, divider: u64) -> u64 {
        self.clock.abs_diff(self.exact_clock(divider))
    }

    /// The last divider whose rate is not below the wanted one, and the first one
    /// whose rate is below it; at the ends of the row there is only one of them.
    pub fn beside(&self) -> &'static [u64] {
        let row = dividers();
        let behind = row.partition_point(|divider| self.exact_clock(*divider) <= self.clock);
        &row[behind.saturating_sub(1)..row.len().min(behind + 1)]
    }

    /// The nearest divider, or in a tie both, the smaller one first.
    pub fn nearest(&self) -> Vec<u64> {
        let [first, second] = *self.beside() else {
            return self.beside().to_vec();
        };
        let first_distance = self.hertz(first) * second;
        let second_distance = self.hertz(second) * first;
        match first_distance.cmp(&second_distance) {
            Ordering::Less => vec![first],
            Ordering::Greater => vec![second],
            Ordering::Equal => vec![first, second],
        }
    }

    /// 25,000 millionths are a fortieth.
    pub fn is_too_far(&self, divider: u64) -> bool {
        40 * self.hertz(divider) > self.exact_clock(divider)
    }

    /// The deviation's size, cut to a whole number.
    pub fn size(&self, divider: u64) -> u64 {
        1_000_000 * self.hertz(divider) / self.exact_clock(divider)
    }
}

/// The line of the rates form that answers the case.
pub fn answer(case: &Case) -> String {
    let Some(wish) = Wish::of(case) else {
        return "12 0 0 0 0".to_string();
    };
    let nearest = wish.nearest();
    if wish.is_too_far(nearest[0]) {
        return "13 0 0 0 0".to_string();
    }
    let pairs = nearest.iter().flat_map(|divider| pairs_of(*divider));
    let (divisor, period) = pairs.min().expect("each divider has a pair");
    let divider = divisor * period;
    let size = wish.size(divider);
    let negative = u8::from(size > 0 && wish.clock < wish.exact_clock(divider));
    format!("0 {divisor} {period} {size} {negative}")
}
