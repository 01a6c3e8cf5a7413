//! Calls that name a channel, as values, for the checks of request l: each
//! with its own buffer, made on a card, and drawn from the generators' traces.

pub mod met;

use crate::shared::frame_of;
use reference::card::{Card, Fate, ReadAnswer, Refusal, StateAnswer};
use reference::fields::FILLING;
use reference::frames::{answer_line, lines};
use reference::generate::{trace, PROFILES};
use reference::random::Random;

/// So many sorts of calls name a channel. The pick names none.
pub const SORTS: usize = 9;

/// What a call asks of the channel that it names.
#[derive(Clone, Debug, PartialEq, Eq)]
pub enum Asked {
    Arrival {
        kind: u8,
        byte: u8,
    },
    /// The buffer is lent to this read alone: its length, and the place.
    Read {
        n: usize,
        length: usize,
        place: usize,
    },
    Load(Vec<u8>),
    Turn,
    Cts(u8),
    Special(u8),
    Settings(Vec<u8>),
    Reset,
    State,
}

impl Asked {
    fn sort(&self) -> usize {
        match self {
            Asked::Arrival { .. } => 0,
            Asked::Read { .. } => 1,
            Asked::Load(_) => 2,
            Asked::Turn => 3,
            Asked::Cts(_) => 4,
            Asked::Special(_) => 5,
            Asked::Settings(_) => 6,
            Asked::Reset => 7,
            Asked::State => 8,
        }
    }
}

/// A call names a channel by the number it is given, whether or not the card
/// has such a channel: "refusals included", and refusal 1 is "channel above 3".
#[derive(Clone, Debug, PartialEq, Eq)]
pub struct Call {
    pub channel: u8,
    pub asked: Asked,
}

/// What a served call answers.
#[derive(Clone, Copy, Debug, PartialEq, Eq)]
pub enum Served {
    Fate(Fate),
    Read(ReadAnswer),
    Taken(usize),
    Sent(Option<u8>),
    State(StateAnswer),
    /// "Served frames 05, 06, 07 and 09 answer 00 alone."
    Alone,
}

/// "its complete answer and the final contents of all it was lent, refusals
/// included". The bytes that a load or settings are lent stay by their type.
#[derive(Clone, Debug, PartialEq, Eq)]
pub struct Outcome {
    pub answer: Result<Served, Refusal>,
    pub buffer: Vec<u8>,
}

impl Outcome {
    /// "00 or the refusal number"
    pub fn number(&self) -> u8 {
        match self.answer {
            Ok(_) => 0,
            Err(refusal) => refusal.number(),
        }
    }
}

impl Call {
    pub fn make(&self, card: &mut Card) -> Outcome {
        let channel = self.channel;
        let alone = |()| Served::Alone;
        let mut buffer = Vec::new();
        let answer = match &self.asked {
            Asked::Arrival { kind, byte } => card.arrival(channel, *kind, *byte).map(Served::Fate),
            Asked::Read { n, length, place } => {
                buffer = vec![FILLING; *length];
                card.read(channel, *n, &mut buffer, *place)
                    .map(Served::Read)
            }
            Asked::Load(bytes) => card.load(channel, bytes).map(Served::Taken),
            Asked::Turn => card.turn(channel).map(Served::Sent),
            Asked::Cts(cts) => card.cts(channel, *cts).map(alone),
            Asked::Special(special) => card.special(channel, *special).map(alone),
            Asked::Settings(bytes) => card.settings(channel, bytes).map(alone),
            Asked::Reset => card.reset(channel).map(alone),
            Asked::State => card.state(channel).map(Served::State),
        };
        Outcome { answer, buffer }
    }
}

/// One of the logger's entries.
#[derive(Clone, Debug, PartialEq, Eq)]
pub enum Logged {
    Pick,
    Call(Call),
}

/// The entry of a frame; none for what is no frame: "A line that 11 refuses
/// makes no call".
fn logged(frame: &[u8], random: &mut Random) -> Option<Logged> {
    let (sort, channel, rest) = match frame {
        [0x08] => return Some(Logged::Pick),
        [sort, channel, rest @ ..] => (sort, *channel, rest),
        _ => return None,
    };
    let asked = match (sort, rest) {
        (0x01, &[kind, byte]) => Asked::Arrival { kind, byte },
        (0x02, &[n]) => some_read(usize::from(n), random),
        (0x03, bytes) => Asked::Load(bytes.to_vec()),
        (0x04, []) => Asked::Turn,
        (0x05, &[cts]) => Asked::Cts(cts),
        (0x06, &[special]) => Asked::Special(special),
        (0x07, bytes) => Asked::Settings(bytes.to_vec()),
        (0x09, []) => Asked::Reset,
        (0x0A, []) => Asked::State,
        _ => return None,
    };
    Some(Logged::Call(Call { channel, asked }))
}

/// A frame is always lent 36 bytes at place 0, and never refused with 4. Here a
/// read has mostly room, from any place on; else it has too little of it, or
/// its place is beyond the end, or it asks for more than 12.
fn some_read(n: usize, random: &mut Random) -> Asked {
    let place = random.below(8);
    let enough = place + 3 * n;
    let (n, length, place) = match random.below(9) {
        0 => (n, random.between(place, enough), place),
        1 => (n, place, place + random.between(1, 4)),
        2 => (random.between(13, 300), enough, place),
        3 | 4 => (n, enough, place),
        _ => (n, enough + random.below(9), place),
    };
    Asked::Read { n, length, place }
}

/// The entries of a trace of some profile, in their order.
pub fn some_log(number_of_lines: usize, random: &mut Random) -> Vec<Logged> {
    let (_, profile) = PROFILES[random.below(PROFILES.len())];
    lines(&trace(profile, random.draw(), number_of_lines))
        .iter()
        .filter_map(|line| logged(&frame_of(line), random))
        .collect()
}

/// The same without the picks.
pub fn some_calls(number_of_lines: usize, random: &mut Random) -> Vec<Call> {
    let mut calls = Vec::new();
    for entry in some_log(number_of_lines, random) {
        if let Logged::Call(call) = entry {
            calls.push(call);
        }
    }
    calls
}

/// What calls ask, by their sorts; for each sort first what a fresh channel
/// serves, then what it refuses. That list is empty for some sorts.
pub struct AskedBySort([[Vec<Asked>; 2]; SORTS]);

impl AskedBySort {
    pub fn new(random: &mut Random) -> AskedBySort {
        let mut lists = [const { [Vec::new(), Vec::new()] }; SORTS];
        for _ in 0..40 {
            for Call { asked, .. } in some_calls(500, random) {
                let call = Call { channel: 0, asked };
                let refused = call.make(&mut Card::fresh()).answer.is_err();
                lists[call.asked.sort()][usize::from(refused)].push(call.asked);
            }
        }
        AskedBySort(lists)
    }

    /// Few calls of the traces are refused. Here, where the sort has any, one
    /// in three is.
    pub fn some(&self, sort: usize, random: &mut Random) -> Asked {
        let [served, refused] = &self.0[sort];
        let list = if random.chance(1, 3) && !refused.is_empty() {
            refused
        } else {
            served
        };
        list[random.below(list.len())].clone()
    }
}

/// "A card or record here means one that a fresh start and these calls can
/// give": picks are among the calls that give it.
pub fn some_card(random: &mut Random) -> Card {
    let (_, profile) = PROFILES[random.below(PROFILES.len())];
    let number_of_lines = random.below(200);
    let mut card = Card::fresh();
    for line in lines(&trace(profile, random.draw(), number_of_lines)) {
        answer_line(&mut card, line);
    }
    for channel in 0..4 {
        crowd(&mut card, channel, random);
    }
    card
}

/// Further calls, for what the traces seldom leave: about half of the channels
/// are full of items, or of bytes to be sent, or have a special waiting.
fn crowd(card: &mut Card, channel: u8, random: &mut Random) {
    let mut make = |asked| Call { channel, asked }.make(card);
    if random.chance(1, 4) {
        for _ in 0..20 {
            let kind = random.one_of(&[0, 0, 0, 1]);
            let byte = random.one_of(&[0x41, 0x42, 0x43, 0xFF]);
            make(Asked::Arrival { kind, byte });
        }
    }
    if random.chance(1, 8) {
        let bytes = (0..14).map(|_| random.one_of(&[0x0A, 0x41]));
        make(Asked::Load(bytes.collect()));
        make(Asked::Turn);
        make(Asked::Load(vec![0x42]));
    }
    if random.chance(1, 4) {
        make(Asked::Special(random.between(1, 4) as u8));
    }
}

/// A number above 3. In some, a card that looked at two or three bits alone
/// would see a channel that it has.
pub fn some_number_above_3(random: &mut Random) -> u8 {
    match random.below(3) {
        0 => random.between(4, 7) as u8,
        1 => random.one_of(&[8, 16, 128, 252, 254, 255]),
        _ => random.between(4, 255) as u8,
    }
}
