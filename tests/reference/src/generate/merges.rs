//! Request l: "Our logger merges four ports' calls and may swap neighbours."
//! Two merges of the same lists of frames, a list for each port. In both, each
//! port's frames keep their order, and the same closing lines follow.

use super::*;
use std::array;

/// The four channels, and so many numbers above 3: "refusals included".
const NUMBERS_ABOVE_3: usize = 3;
const PORTS: usize = CHANNELS + NUMBERS_ABOVE_3;

/// How often each port's turn comes in the first merge.
const WEIGHTS_OF_PORTS: [usize; PORTS] = [12, 12, 12, 12, 1, 1, 1];

/// Which of the two merges is written.
#[derive(Clone, Copy, Debug, PartialEq, Eq)]
pub enum Merge {
    First,
    Second,
}

impl Merge {
    pub fn named(name: &str) -> Option<Merge> {
        match name {
            "1" => Some(Merge::First),
            "2" => Some(Merge::Second),
            _ => None,
        }
    }
}

/// A trace of so many merged lines, and the closing lines behind them.
///
/// Each merged line is a frame that names a channel: no pick, and no line that
/// 11 refuses. The seed and the number of lines give the ports' lists, both
/// merges and the closing lines; the last word says only which merge is written.
pub fn trace(seed: u64, lines: usize, which: Merge) -> Vec<u8> {
    // The profiles, the reads and the stream cases have other numbers.
    let mut random = Random::new(seed.wrapping_mul(16).wrapping_add(13));
    let first = first_merge(lines, &mut random);
    let lists = lists_of_ports(&first, &mut random);
    let second = second_merge(&lists, &mut random);
    let closing_lines = closing::lines(card_after(&merged(&lists, &first)), &mut random);
    let mut trace = match which {
        Merge::First => merged(&lists, &first),
        Merge::Second => merged(&lists, &second),
    };
    trace.extend(closing_lines);
    let mut output = Vec::new();
    for line in trace {
        output.extend(line);
        output.push(0x0A);
    }
    output
}

/// The port of each line. The ports take turns, as they would at a card.
fn first_merge(lines: usize, random: &mut Random) -> Vec<usize> {
    let mut merge = Vec::new();
    while merge.len() < lines {
        let port = random.weighted(&WEIGHTS_OF_PORTS);
        let run = random.between(1, 4).min(lines - merge.len());
        merge.extend(vec![port; run]);
    }
    merge
}

/// The port of each line, for the same lists. In runs of any length, at times
/// list behind list, so that most lines stand far from where they stood: one
/// port's before the other ports', another's behind them.
fn second_merge(lists: &[Vec<Vec<u8>>; PORTS], random: &mut Random) -> Vec<usize> {
    let mut left = lists.each_ref().map(Vec::len);
    let lines: usize = left.iter().sum();
    let longest_run = match random.below(4) {
        0 => lines,
        1 => lines / 4,
        2 => lines / 16,
        _ => 8,
    };
    let mut merge = Vec::new();
    while merge.len() < lines {
        let port = random.below(PORTS);
        let run = random.between(1, longest_run.max(1)).min(left[port]);
        left[port] -= run;
        merge.extend(vec![port; run]);
    }
    merge
}

/// The lists in the order of the merge: each port's lines keep theirs.
fn merged(lists: &[Vec<Vec<u8>>; PORTS], merge: &[usize]) -> Vec<Vec<u8>> {
    let mut rest = lists.each_ref().map(|list| list.iter().cloned());
    let lines = merge.iter().map(|port| rest[*port].next());
    lines
        .map(|line| line.expect("a line of this port"))
        .collect()
}

fn card_after(lines: &[Vec<u8>]) -> Card {
    let mut card = Card::fresh();
    for line in lines {
        frames::answer_line(&mut card, line);
    }
    card
}

// ---------------------------------------------------------------------------
// The ports' lists
// ---------------------------------------------------------------------------

/// As many lines for each port as the merge has of it.
fn lists_of_ports(merge: &[usize], random: &mut Random) -> [Vec<Vec<u8>>; PORTS] {
    let numbers = numbers_of_ports(random);
    array::from_fn(|port| {
        let lines = merge.iter().filter(|other| **other == port).count();
        list_of_port(numbers[port], lines, random)
    })
}

/// The four channels; then numbers above 3. A card that looked at two bits alone
/// would take the first of them for a channel, one that looked at seven bits
/// the second.
fn numbers_of_ports(random: &mut Random) -> [u8; PORTS] {
    let low = random.between(4, 7) as u8;
    let high = random.between(0x80, 0x83) as u8;
    let any = loop {
        let number = random.between(8, 255) as u8;
        if number != high {
            break number;
        }
    };
    [0, 1, 2, 3, low, high, any]
}

/// What a trace of some profile asks of one channel: as "Answers depend only on
/// that channel", it comes to the same full queues, losses and flags in every
/// merge. A port above 3 is asked the like, and the card refuses it.
fn list_of_port(number: u8, lines: usize, random: &mut Random) -> Vec<Vec<u8>> {
    let (_, profile) = PROFILES[random.below(PROFILES.len())];
    let mut generator = Generator::new(profile, random.draw());
    let channel = number % CHANNELS as u8;
    // Another channel's losses would leave few lines for this one.
    generator.flooded = generator.flooded.map(|_| channel);
    let mut list = Vec::new();
    while list.len() < lines {
        let mut frame = generator.served_or_refused_frame();
        if let [_, named, ..] = &mut frame[..] {
            if *named == channel {
                *named = number;
                list.push(generator.text(&frame));
            }
        }
    }
    list
}

impl Generator {
    /// The next frame, which the idea of the traffic gets. More of them are
    /// refused than in the profiles.
    fn served_or_refused_frame(&mut self) -> Vec<u8> {
        let frame = if self.random.chance(1, 15) {
            self.refused_call()
        } else {
            self.frame()
        };
        let line = self.text(&frame);
        frames::answer_line(&mut self.card, &line);
        frame
    }
}
