//! What several test files share. A file may leave parts of it unused.
#![allow(dead_code)]

use reference::card::{
    Card, Fate, Item, StateAnswer, WaitingItem, FRESH_SETTINGS, MOST_ITEMS, SETTINGS_LENGTH,
    TRANSMIT_QUEUE_DEPTH,
};
use reference::fields::bytes_of_field;
use reference::frames::program;
use std::collections::BTreeMap;

/// "Kinds: 0 good, 1 parity error, 2 framing error, 3 break"
pub const GOOD: u8 = 0;
pub const PARITY: u8 = 1;
pub const FRAMING: u8 = 2;
pub const BREAK: u8 = 3;

/// The fresh settings but for the fields named.
pub fn settings_with(fields: &[(usize, u8)]) -> [u8; SETTINGS_LENGTH] {
    let mut settings = FRESH_SETTINGS;
    for (field, value) in fields {
        settings[field - 1] = *value;
    }
    settings
}

pub fn card_with(fields: &[(usize, u8)]) -> Card {
    let mut card = Card::fresh();
    card.settings(0, &settings_with(fields))
        .expect("good settings");
    card
}

/// Request a: "A loss now happens at thirteen".
pub fn fill(card: &mut Card) {
    for byte in 0..13 {
        assert_eq!(card.arrival(0, 0, 0x60 + byte), Ok(Fate::Stored));
    }
}

/// All the bytes that wait on channel 0.
pub fn read_all(card: &mut Card) -> Vec<u8> {
    let mut buffer = [0xA5; 36];
    let answer = card.read(0, 12, &mut buffer, 0).expect("a served read");
    assert!(buffer[answer.bytes..].iter().all(|byte| *byte == 0xA5));
    buffer[..answer.bytes].to_vec()
}

pub fn state(card: &mut Card) -> StateAnswer {
    card.state(0).expect("a served state")
}

/// The frame of fresh settings but for the fields named, for channel 0.
pub fn settings_frame(fields: &[(usize, u8)]) -> String {
    let digits: String = settings_with(fields)
        .iter()
        .map(|byte| format!("{byte:02X}"))
        .collect();
    format!("0700{digits}")
}

/// Good arrivals on channel 0, a frame for each byte.
pub fn arrivals(bytes: &[u8]) -> Vec<String> {
    bytes
        .iter()
        .map(|byte| format!("010000{byte:02X}"))
        .collect()
}

/// a to l.
pub fn twelve() -> Vec<String> {
    arrivals(b"abcdefghijkl")
}

/// a to m, the last one behind the twelve.
pub fn thirteen() -> Vec<String> {
    arrivals(b"abcdefghijklm")
}

/// The answers to these frames, one string each.
pub fn answers(frames: &[String]) -> Vec<String> {
    let output = program(frames.join("\n").as_bytes());
    let text = String::from_utf8(output).expect("answers are hexadecimal");
    text.lines().map(String::from).collect()
}

/// The answers to the later frames only.
pub fn answers_after(first: &[String], later: &[&str]) -> Vec<String> {
    let later: Vec<String> = later.iter().map(|frame| frame.to_string()).collect();
    let answers = answers(&[first, &later].concat());
    answers[first.len()..].to_vec()
}

/// The bytes of a line, none for a line that is no hexadecimal.
pub fn frame_of(line: &[u8]) -> Vec<u8> {
    let digits = String::from_utf8_lossy(line).to_ascii_uppercase();
    bytes_of_field(&digits).unwrap_or_default()
}

/// How often each thing was met.
pub type Tally = BTreeMap<String, usize>;

/// What a call can find on its channel.
pub const FINDS: [&str; 11] = [
    "thirteen items",
    "a doubled item",
    "a damaged item",
    "an overrun flag",
    "a loss count",
    "a literal mark",
    "a full transmit queue",
    "a stopped transmitter",
    "a transmitter held by CTS",
    "a waiting special",
    "an owed NL",
];

/// What a call finds on this channel; nothing where the card has no such one.
pub fn finds(card: &Card, channel: u8) -> Vec<&'static str> {
    let Some(channel) = card.channels.get(usize::from(channel)) else {
        return Vec::new();
    };
    let any_item = |wanted: fn(&WaitingItem) -> bool| channel.items().any(wanted);
    let found = [
        channel.items().count() == MOST_ITEMS,
        any_item(|waiting| waiting.item == Item::Doubled),
        any_item(|waiting| matches!(waiting.item, Item::Damaged(_))),
        any_item(|waiting| waiting.overrun),
        channel.loss_count > 0,
        channel.literal_mark,
        channel.transmit_queue.len() == TRANSMIT_QUEUE_DEPTH,
        channel.stopped,
        channel.settings.cts_holds_the_transmitter && channel.cts == 0,
        channel.waiting_special.is_some(),
        channel.owed_nl,
    ];
    let rows = FINDS.into_iter().zip(found).filter(|(_, found)| *found);
    rows.map(|(name, _)| name).collect()
}
