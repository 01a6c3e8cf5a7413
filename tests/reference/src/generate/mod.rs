//! Seeded random traces for the frame program and the reads form, merges of
//! the ports' frames, cases for the stream form, the confirmations form, the
//! rates form and the one-ending form, long streams of confirmations, and command
//! lines for the fitters' two programs.
//!
//! The generator keeps its idea of the traffic in a reference card that gets
//! every line it writes.

mod closing;
pub mod confirmations;
pub mod ending_pairs;
pub mod ending_words;
mod lines;
pub mod merges;
mod plans;
mod rate_edges;
pub mod rate_words;
pub mod rates;
pub mod reads;
mod settings;
mod single;
pub mod streams;

use crate::card::{Card, Channel, CHANNELS, MOST_ITEMS, RECEIVE_QUEUE_DEPTH, TRANSMIT_QUEUE_DEPTH};
use crate::frames;
use crate::random::Random;
use std::collections::VecDeque;

#[derive(Clone, Copy, Debug, PartialEq, Eq)]
pub enum Profile {
    Mixed,
    Full,
    Marks,
    Flow,
    Turns,
    Settings,
    Refused,
    Lines,
    Picks,
}

pub const PROFILES: [(&str, Profile); 9] = [
    ("mixed", Profile::Mixed),
    ("full", Profile::Full),
    ("marks", Profile::Marks),
    ("flow", Profile::Flow),
    ("turns", Profile::Turns),
    ("settings", Profile::Settings),
    ("refused", Profile::Refused),
    ("lines", Profile::Lines),
    ("picks", Profile::Picks),
];

impl Profile {
    pub fn named(name: &str) -> Option<Profile> {
        PROFILES
            .iter()
            .find(|(known, _)| *known == name)
            .map(|(_, profile)| *profile)
    }
}

/// A trace of so many lines. The same profile and seed give the same trace.
pub fn trace(profile: Profile, seed: u64, lines: usize) -> Vec<u8> {
    let mut generator = Generator::new(profile, seed);
    let without_last_newline = profile == Profile::Lines && generator.random.chance(1, 2);
    let mut output = Vec::new();
    for number in 1..=lines {
        let line = generator.line();
        output.extend(&line);
        // An empty last line without its newline would be no line at all.
        let without_newline = without_last_newline && number == lines && !line.is_empty();
        if !without_newline {
            output.push(0x0A);
        }
    }
    output
}

struct Generator {
    random: Random,
    profile: Profile,
    /// The idea of the traffic: it gets every line that is written.
    card: Card,
    /// The channel of the frame before.
    channel: u8,
    /// The frames of a plan that are still to be written.
    planned: VecDeque<Vec<u8>>,
    lower_case: bool,
    /// The channel that loses characters until its loss count is large.
    flooded: Option<u8>,
}

impl Generator {
    fn new(profile: Profile, seed: u64) -> Generator {
        // Each profile has its own numbers for the same seed.
        let mut random = Random::new(seed.wrapping_mul(16).wrapping_add(profile as u64));
        let channel = random.below(4) as u8;
        let flooded = (profile == Profile::Full && seed % 3 == 0).then_some(channel);
        let mut generator = Generator {
            random,
            profile,
            card: Card::fresh(),
            channel,
            planned: VecDeque::new(),
            lower_case: seed % 2 != 0,
            flooded,
        };
        generator.plan_first_settings();
        generator
    }

    /// Most channels begin with settings of the profile, some stay fresh.
    fn plan_first_settings(&mut self) {
        for channel in 0..4 {
            if self.random.chance(3, 4) {
                let settings = self.good_settings();
                self.planned.push_back(settings_frame(channel, &settings));
            }
        }
    }

    /// The next line, without its newline.
    fn line(&mut self) -> Vec<u8> {
        let line = match self.profile {
            Profile::Refused => self.refused_line(),
            Profile::Lines => self.strange_line(),
            Profile::Mixed if self.random.chance(1, 100) => self.refused_line(),
            _ => {
                let frame = self.frame();
                self.text(&frame)
            }
        };
        frames::answer_line(&mut self.card, &line);
        line
    }

    /// The next frame: of the plan under way, of a new plan, or a single one.
    fn frame(&mut self) -> Vec<u8> {
        if self.planned.is_empty() && self.random.chance(self.plans_in_hundred(), 100) {
            self.plan();
        }
        // Now and then another frame comes between the frames of a plan.
        let between = self.random.chance(1, 3);
        let frame = match self.planned.pop_front() {
            Some(frame) if !between => frame,
            Some(frame) => {
                self.planned.push_front(frame);
                self.single_or_refused()
            }
            None => self.single_or_refused(),
        };
        if let [_, channel @ 0..=3, ..] = frame[..] {
            self.channel = channel;
        }
        frame
    }

    fn plans_in_hundred(&self) -> usize {
        match self.profile {
            Profile::Settings => 50,
            // Few reads, so that the loss count reaches 65,535 in 100,000 lines.
            Profile::Full if self.flooded.is_some() => 1,
            Profile::Full => 6,
            _ => 12,
        }
    }

    /// Nearly all frames are served; a few are refused by the card.
    fn single_or_refused(&mut self) -> Vec<u8> {
        if self.random.chance(1, 50) {
            self.refused_call()
        } else {
            self.single()
        }
    }

    /// About every fourth frame stays on the channel of the frame before.
    fn some_channel(&mut self) -> u8 {
        if let Some(flooded) = self.flooded {
            if self.random.chance(9, 10) {
                return flooded;
            }
        }
        if self.random.chance(1, 4) {
            self.channel
        } else {
            self.random.below(4) as u8
        }
    }

    /// What the idea of the traffic knows of a channel.
    fn known(&self, channel: u8) -> &Channel {
        &self.card.channels[usize::from(channel)]
    }

    /// The frame as a line of hexadecimal; in some traces now and then with
    /// lower case letters, all of them or some.
    fn text(&mut self, frame: &[u8]) -> Vec<u8> {
        let mut text = Vec::new();
        frames::write_hexadecimal(frame, &mut text);
        if self.lower_case && self.random.chance(1, 6) {
            let all = self.random.chance(1, 2);
            for character in &mut text {
                if all || self.random.chance(1, 2) {
                    character.make_ascii_lowercase();
                }
            }
        }
        text
    }
}

fn arrival_frame(channel: u8, kind: u8, byte: u8) -> Vec<u8> {
    vec![0x01, channel, kind, byte]
}

fn good_arrival_frame(channel: u8, byte: u8) -> Vec<u8> {
    arrival_frame(channel, 0, byte)
}

fn read_frame(channel: u8, n: u8) -> Vec<u8> {
    vec![0x02, channel, n]
}

/// A read of all that may be asked: with thirteen there it leaves one.
fn longest_read_frame(channel: u8) -> Vec<u8> {
    read_frame(channel, RECEIVE_QUEUE_DEPTH as u8)
}

fn load_frame(channel: u8, bytes: &[u8]) -> Vec<u8> {
    [&[0x03, channel], bytes].concat()
}

fn turn_frame(channel: u8) -> Vec<u8> {
    vec![0x04, channel]
}

fn cts_frame(channel: u8, cts: u8) -> Vec<u8> {
    vec![0x05, channel, cts]
}

fn special_frame(channel: u8, special: u8) -> Vec<u8> {
    vec![0x06, channel, special]
}

fn settings_frame(channel: u8, settings: &[u8]) -> Vec<u8> {
    [&[0x07, channel], settings].concat()
}

fn pick_frame() -> Vec<u8> {
    vec![0x08]
}

fn reset_frame(channel: u8) -> Vec<u8> {
    vec![0x09, channel]
}

fn state_frame(channel: u8) -> Vec<u8> {
    vec![0x0A, channel]
}
