//! The two merges of request l's generator: the same lists of frames in other
//! orders, what they come to, and the closing lines behind them.

mod shared;

use reference::card::{Card, Channel};
use reference::frames::{answer_line, lines, program};
use reference::generate::merges::{trace, Merge};
use shared::{finds, frame_of, Tally, FINDS};
use std::collections::BTreeMap;
use std::process::Command;

const SEEDS: u64 = 12;
const LINES: usize = 1000;

/// The lines of both merges, each without its closing lines; then those.
struct Merges {
    first: Vec<Vec<u8>>,
    second: Vec<Vec<u8>>,
    closing: Vec<Vec<u8>>,
}

fn merges_of(seed: u64) -> Merges {
    let [[first, closing], [second, same_closing]] = [Merge::First, Merge::Second].map(|which| {
        let trace = trace(seed, LINES, which);
        let lines: Vec<Vec<u8>> = lines(&trace).into_iter().map(Vec::from).collect();
        let (merged, closing) = lines.split_at(LINES);
        [merged.to_vec(), closing.to_vec()]
    });
    assert_eq!(closing, same_closing);
    Merges {
        first,
        second,
        closing,
    }
}

/// The values of the lines that name each channel, in their order.
fn by_channel<Value>(
    merged: &[Vec<u8>],
    values: impl IntoIterator<Item = Value>,
) -> BTreeMap<u8, Vec<Value>> {
    let mut lists = BTreeMap::new();
    for (line, value) in merged.iter().zip(values) {
        let list: &mut Vec<Value> = lists.entry(frame_of(line)[1]).or_default();
        list.push(value);
    }
    lists
}

/// The card behind the lines, and their answers.
fn answered(mut card: Card, lines: &[Vec<u8>]) -> (Card, Vec<Vec<u8>>) {
    let answers = lines.iter().map(|line| answer_line(&mut card, line));
    let answers = answers.collect();
    (card, answers)
}

#[test]
fn merges_have_the_lines_asked_for() {
    for number in [0, 1, 2, 17, 300] {
        for seed in 0..SEEDS {
            let first = trace(seed, number, Merge::First);
            let second = trace(seed, number, Merge::Second);
            assert_eq!(first, trace(seed, number, Merge::First));
            assert_eq!(lines(&program(&first)).len(), lines(&first).len());
            assert_eq!(lines(&first).len(), lines(&second).len());
            assert_eq!(lines(&first)[number..], lines(&second)[number..]);
        }
    }
    assert_ne!(trace(1, 300, Merge::First), trace(2, 300, Merge::First));
}

#[test]
fn each_channel_has_the_same_lines_in_both() {
    for seed in 0..SEEDS {
        let Merges { first, second, .. } = merges_of(seed);
        assert_eq!(by_channel(&first, &first), by_channel(&second, &second));
    }
}

/// Nearly all lines stand elsewhere, and on the whole far from where they stood.
#[test]
fn lines_stand_elsewhere() {
    let mut distances = 0;
    for seed in 0..SEEDS {
        let Merges { first, second, .. } = merges_of(seed);
        let second_places = by_channel(&second, 0..);
        let mut elsewhere = 0;
        for (channel, places) in by_channel(&first, 0_usize..) {
            for (place, second_place) in places.iter().zip(&second_places[&channel]) {
                elsewhere += usize::from(place != second_place);
                distances += place.abs_diff(*second_place);
            }
        }
        assert!(elsewhere > LINES * 9 / 10, "seed {seed}: {elsewhere}");
    }
    let mean_distance = distances / (LINES * SEEDS as usize);
    assert!(mean_distance > LINES / 20, "{mean_distance}");
}

/// Request l, over frames: each channel's answers are the same, in its order,
/// and so are the card and the answers of the closing lines.
#[test]
fn both_merges_answer_the_same() {
    for seed in 0..SEEDS {
        let merges = merges_of(seed);
        let (card, answers) = answered(Card::fresh(), &merges.first);
        let (second_card, second_answers) = answered(Card::fresh(), &merges.second);
        assert_eq!(
            by_channel(&merges.first, answers),
            by_channel(&merges.second, second_answers)
        );
        assert_eq!(card, second_card);
        let closing_answers = answered(card, &merges.closing).1;
        assert_eq!(answered(second_card, &merges.closing).1, closing_answers);
    }
}

/// What a line met. Its frame names a channel, and 11 doesn't refuse it.
fn met(before: &Card, line: &[u8], answer: &[u8]) -> Vec<String> {
    let frame = frame_of(line);
    let (call, channel) = (frame[0], frame[1]);
    assert!(matches!(call, 0x01..=0x07 | 0x09 | 0x0A), "{frame:?}");
    assert_ne!(answer, [11], "{frame:?}");
    let mut met = vec![match (call, answer) {
        (0x01, [0, fate]) => format!("fate {fate}"),
        (_, [0, ..]) => format!("frame {call:02X} served"),
        _ => format!("refusal {}", answer[0]),
    }];
    met.extend(finds(before, channel).into_iter().map(String::from));
    if channel > 3 {
        assert_eq!(answer, [1]);
        met.push(format!("frame {call:02X} above 3"));
    }
    met
}

/// Each thing that a frame can meet but refusal 4: "02 channel n (lent 36
/// bytes, place 0)". No pick and no line that 11 refuses is among them.
#[test]
fn merges_come_to_everything() {
    let mut tally = Tally::new();
    for seed in 0..SEEDS {
        let mut card = Card::fresh();
        for line in merges_of(seed).second {
            let before = card.clone();
            let answer = answer_line(&mut card, &line);
            for name in met(&before, &line, &answer) {
                *tally.entry(name).or_default() += 1;
            }
        }
    }
    let mut names: Vec<String> = FINDS.map(String::from).to_vec();
    names.extend((0..=5).map(|fate| format!("fate {fate}")));
    names.extend([1, 2, 3, 5, 6, 7, 10].map(|number| format!("refusal {number}")));
    let calls = ["02", "03", "04", "05", "06", "07", "09", "0A"];
    names.extend(calls.map(|call| format!("frame {call} served")));
    names.extend(calls.map(|call| format!("frame {call} above 3")));
    for name in names {
        let often = tally.get(&name).copied().unwrap_or(0);
        assert!(often >= 4, "{name}: {often}");
    }
    assert_eq!(tally.get("refusal 4"), None);
}

// ---------------------------------------------------------------------------
// The closing lines
// ---------------------------------------------------------------------------

/// Gives one part of a channel the other channel's value.
type Part = (&'static str, fn(&mut Channel, &Channel));

macro_rules! part {
    ($name:literal, $($place:tt)+) => {
        ($name, |channel, other| channel.$($place)+ = other.$($place)+.clone())
    };
}

/// The parts that a channel's closing lines always tell.
const ALWAYS_TOLD: [Part; 14] = [
    ("receive queue", |channel, other| {
        channel.receive_queue = other.receive_queue.clone();
        channel.held_item = other.held_item.clone();
    }),
    part!("transmit queue", transmit_queue),
    part!("stopped", stopped),
    part!("owed NL", owed_nl),
    part!("waiting special", waiting_special),
    part!("loss count", loss_count),
    part!("field 1", settings.damaged_characters),
    part!("field 2", settings.keep_break),
    part!("field 3", settings.strip),
    part!("field 8", settings.service_threshold),
    part!("field 11", settings.special_characters[0]),
    part!("field 12", settings.special_characters[1]),
    part!("field 13", settings.special_characters[2]),
    part!("field 14", settings.special_characters[3]),
];

/// Other parts can be told on some cards only. No call tells the literal-next
/// character with field 7 off, or implied XON with field 5 off.
const OFTEN_TOLD: [Part; 9] = [
    // Few cards have the mark at the end. It is set with field 7 on only.
    ("literal mark", |channel, _| {
        channel.literal_mark ^= channel.settings.literal_next
    }),
    part!("CTS", cts),
    part!("field 4", settings.line_endings),
    part!("field 5", settings.flow_characters),
    part!("field 6", settings.implied_xon),
    part!("field 7", settings.literal_next),
    part!("field 9", settings.cts_holds_the_transmitter),
    part!("field 10", settings.nl_sent_as_cr_nl),
    part!("field 15", settings.literal_next_character),
];

/// Of so many cards that differ in one part, so many are told apart by the
/// answers of the closing lines.
fn told_apart(parts: &[Part]) -> BTreeMap<&'static str, (usize, usize)> {
    let cases = [0, 1, 2, 3, 4, 5, 6, 7].map(|seed| {
        let Merges { first, closing, .. } = merges_of(seed);
        (answered(Card::fresh(), &first).0, closing)
    });
    let mut tally = BTreeMap::new();
    for (number, (card, closing)) in cases.iter().enumerate() {
        let answers = answered(card.clone(), closing).1;
        let (other, _) = &cases[(number + 1) % cases.len()];
        for (name, give) in parts {
            for channel in 0..4 {
                let mut altered = card.clone();
                give(&mut altered.channels[channel], &other.channels[channel]);
                let differs = altered != *card;
                let told = answered(altered, closing).1 != answers;
                let (told_of, of) = tally.entry(*name).or_insert((0, 0));
                *told_of += usize::from(told);
                *of += usize::from(differs);
            }
        }
    }
    tally
}

#[test]
fn closing_lines_tell_cards_apart() {
    for (name, (told, of)) in told_apart(&ALWAYS_TOLD) {
        assert!(told == of && of > 3, "{name}: {told} of {of}");
    }
    for (name, (told, of)) in told_apart(&OFTEN_TOLD) {
        assert!(told > of / 2 && of > 6, "{name}: {told} of {of}");
    }
}

/// The pick's place moves in no merge, and the first pick of the closing lines
/// tells where it is. After a pick that named 3 the next one looks at 0 first,
/// as "a fresh card looks at 0 first".
#[test]
fn closing_lines_tell_the_place_of_the_pick() {
    for seed in 0..SEEDS {
        let Merges { first, closing, .. } = merges_of(seed);
        let (mut card, _) = answered(Card::fresh(), &first);
        assert_eq!(card.last_named, None);
        let pick = closing.iter().position(|line| line == b"08");
        let pick = pick.expect("a pick among the closing lines");
        for (place, named) in [(None, 0), (Some(0), 1), (Some(1), 2), (Some(2), 3)] {
            card.last_named = place;
            let answers = answered(card.clone(), &closing).1;
            assert_eq!(answers[pick], [0, named], "seed {seed}, {place:?}");
        }
    }
}

#[test]
fn the_command_line() {
    let run = |arguments: &[&str]| {
        let mut command = Command::new(env!("CARGO_BIN_EXE_reference"));
        let output = command.args(arguments).output();
        output.expect("the reference starts and ends")
    };
    for (word, which) in [("1", Merge::First), ("2", Merge::Second)] {
        let written = run(&["generate-merge", "5", "200", word]);
        assert_eq!(written.stdout, trace(5, 200, which));
        assert_eq!(written.status.code(), Some(0));
    }
    for words in [&["5", "200"][..], &["5", "200", "0"], &["5", "200", "3"]] {
        let refused = run(&[&["generate-merge"], words].concat());
        assert_eq!((refused.status.code(), refused.stdout), (Some(1), vec![]));
    }
}
