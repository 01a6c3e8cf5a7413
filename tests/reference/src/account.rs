//! The account of a trace: the fresh card, and then for each line its answer
//! and the card after it, one line of JSON each. What a trace meets can be
//! told from it, without a word in the card's own steps.

use crate::card::{Card, Channel, Item, Settings, WaitingItem};
use crate::frames::{answer_line, lines};

pub fn program(input: &[u8]) -> String {
    let mut card = Card::fresh();
    let mut output = told(&[], &card);
    for line in lines(input) {
        let answer = answer_line(&mut card, line);
        output += &told(&answer, &card);
    }
    output
}

/// The fresh card stands behind no answer: its list is empty.
fn told(answer: &[u8], card: &Card) -> String {
    let card = object(&[
        ("answer", list(answer)),
        ("last_named", or_null(card.last_named)),
        ("channels", list(card.channels.iter().map(channel))),
    ]);
    card + "\n"
}

fn channel(channel: &Channel) -> String {
    // Twelve at most, and behind them the one that request a holds.
    let receive_queue = channel.items().map(item);
    object(&[
        ("settings", list(settings(&channel.settings))),
        ("receive_queue", list(receive_queue)),
        ("transmit_queue", list(&channel.transmit_queue)),
        ("literal_mark", channel.literal_mark.to_string()),
        ("stopped", channel.stopped.to_string()),
        ("owed_nl", channel.owed_nl.to_string()),
        ("waiting_special", or_null(channel.waiting_special)),
        ("cts", channel.cts.to_string()),
        ("loss_count", channel.loss_count.to_string()),
    ])
}

/// The settings' bytes, in the order of the paper's table.
fn settings(settings: &Settings) -> Vec<u8> {
    let mut bytes = vec![
        // "1 pass, 2 discard, 3 null, 4 mark"
        settings.damaged_characters as u8 + 1,
        u8::from(settings.keep_break),
        u8::from(settings.strip),
        settings.line_endings as u8,
        settings.flow_characters as u8,
        u8::from(settings.implied_xon),
        u8::from(settings.literal_next),
        settings.service_threshold as u8,
        u8::from(settings.cts_holds_the_transmitter),
        u8::from(settings.nl_sent_as_cr_nl),
    ];
    bytes.extend(settings.special_characters);
    bytes.push(settings.literal_next_character);
    bytes
}

/// The kind, the byte, and whether the item has the overrun flag.
fn item(waiting: &WaitingItem) -> String {
    let (kind, byte) = match waiting.item {
        Item::Plain(byte) => ("plain", byte),
        Item::Doubled => ("doubled", 0xFF),
        Item::Damaged(byte) => ("damaged", byte),
    };
    format!("[\"{kind}\",{byte},{}]", waiting.overrun)
}

fn object(parts: &[(&str, String)]) -> String {
    let parts: Vec<String> = parts
        .iter()
        .map(|(name, value)| format!("\"{name}\":{value}"))
        .collect();
    format!("{{{}}}", parts.join(","))
}

fn list<Value: ToString>(values: impl IntoIterator<Item = Value>) -> String {
    let values: Vec<String> = values.into_iter().map(|value| value.to_string()).collect();
    format!("[{}]", values.join(","))
}

fn or_null<Value: ToString>(value: Option<Value>) -> String {
    value.map_or("null".to_string(), |value| value.to_string())
}
