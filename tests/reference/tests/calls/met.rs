//! What random calls come to, so that no check passes by being empty.

use super::{Call, Outcome, Served};
use crate::shared::{finds, FINDS};
use reference::card::{Card, Fate, ReadAnswer};
use std::collections::BTreeMap;
use std::fmt::Debug;

/// The numbers of a card's refusals; 8 and 9 are the stream's, 11 the
/// program's.
const NUMBERS: [(u8, &str); 9] = [
    (0, "served"),
    (1, "refusal 1"),
    (2, "refusal 2"),
    (3, "refusal 3"),
    (4, "refusal 4"),
    (5, "refusal 5"),
    (6, "refusal 6"),
    (7, "refusal 7"),
    (10, "refusal 10"),
];

/// What a served call can do.
const DEEDS: [&str; 4] = ["a loss", "characters read", "a byte sent", "bytes taken"];

pub fn all_names() -> Vec<&'static str> {
    let numbers = NUMBERS.map(|(_, name)| name);
    [&numbers[..], &DEEDS, &FINDS].concat()
}

fn deed(outcome: &Outcome) -> Option<&'static str> {
    match outcome.answer {
        Ok(Served::Fate(Fate::Lost)) => Some(DEEDS[0]),
        Ok(Served::Read(ReadAnswer {
            characters: 1.., ..
        })) => Some(DEEDS[1]),
        Ok(Served::Sent(Some(_))) => Some(DEEDS[2]),
        Ok(Served::Taken(1..)) => Some(DEEDS[3]),
        _ => None,
    }
}

/// All that a call met on the card before it.
pub fn met(card: &Card, call: &Call, outcome: &Outcome) -> Vec<&'static str> {
    let number = NUMBERS
        .iter()
        .find(|(number, _)| *number == outcome.number());
    let (_, name) = number.expect("a refusal of the card");
    let mut met = vec![*name];
    met.extend(deed(outcome));
    met.extend(finds(card, call.channel));
    met
}

/// How often each was met.
pub struct Counts<Name>(BTreeMap<Name, usize>);

impl<Name: Ord + Debug> Counts<Name> {
    pub fn new() -> Counts<Name> {
        Counts(BTreeMap::new())
    }

    pub fn count(&mut self, name: Name) {
        *self.0.entry(name).or_insert(0) += 1;
    }

    pub fn assert_at_least(&self, floor: usize, name: Name) {
        let often = self.0.get(&name).copied().unwrap_or(0);
        assert!(often >= floor, "{name:?}: {often}");
    }
}
