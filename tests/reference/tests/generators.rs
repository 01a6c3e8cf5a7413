//! The generators give the same output for the same seed, as many lines as
//! asked, and input that the programs answer line by line.

mod shared;

use reference::card::{Card, FlowCharacters, CR, NL};
use reference::frames::{answer_line, lines, program};
use reference::generate::{reads, streams, trace, Profile, PROFILES};
use reference::reads::{program as reads_program, Call, CHANNEL};
use shared::{frame_of, Tally};
use std::collections::BTreeMap;

/// Request b: "1 flow character swallowed, 3 damaged discarded, 4 break
/// ignored, 5 line ending discarded".
const REASONS: [u8; 4] = [1, 3, 4, 5];

fn newlines(bytes: &[u8]) -> usize {
    bytes.iter().filter(|byte| **byte == 0x0A).count()
}

#[test]
fn traces_have_the_lines_asked_for() {
    for (name, profile) in PROFILES {
        for seed in 0..20 {
            let input = trace(profile, seed, 300);
            assert_eq!(input, trace(profile, seed, 300), "{name}");
            let without_newline = usize::from(input.last() != Some(&0x0A));
            assert_eq!(newlines(&input) + without_newline, 300, "{name}");
            assert_eq!(newlines(&program(&input)), 300, "{name}");
        }
    }
}

fn items(card: &Card, channel: u8) -> usize {
    card.channels[usize::from(channel)].items().count()
}

/// What an arrival met: how many items were there before it, and its fate.
fn arrival_met(there: usize, fate: u8) -> String {
    format!("arrival, {there} there: fate {fate}")
}

fn arrived(tally: &Tally, there: usize, fate: u8) -> usize {
    tally.get(&arrival_met(there, fate)).copied().unwrap_or(0)
}

/// What a frame met: the call, how many items were there before it, and what
/// was asked and answered.
fn met(before: [usize; 4], frame: &[u8], answer: &[u8]) -> String {
    let [call, channel @ 0..=3, ..] = *frame else {
        return "no channel".to_string();
    };
    let there = before[usize::from(channel)];
    match (frame, answer) {
        ([0x01, _, _, _], [0, fate]) => arrival_met(there, *fate),
        ([0x02, _, n], [number, ..]) => format!("read {n}, {there} there: {number}"),
        (_, [number, ..]) => format!("frame {call:02X}, {there} there: {number}"),
        (_, []) => unreachable!("an answer has its first byte"),
    }
}

/// What was met by traces of these profiles.
fn tally(profiles: &[Profile]) -> Tally {
    let mut tally = Tally::new();
    for profile in profiles {
        let mut card = Card::fresh();
        for line in lines(&trace(*profile, 1, 20_000)) {
            let before = [0, 1, 2, 3].map(|channel| items(&card, channel));
            let answer = answer_line(&mut card, line);
            let name = met(before, &frame_of(line), &answer);
            *tally.entry(name).or_default() += 1;
        }
    }
    tally
}

/// One below full, full and beyond: "A loss now happens at thirteen" in
/// request a.
#[test]
fn traces_come_to_thirteen_items() {
    let tally = tally(&[Profile::Full, Profile::Mixed, Profile::Picks]);
    let count = |name: String| tally.get(&name).copied().unwrap_or(0);
    for there in 11..=13 {
        for (frame, often) in [("0A", 50), ("07", 20), ("09", 4)] {
            let name = format!("frame {frame}, {there} there: 0");
            assert!(count(name.clone()) > often, "{name}");
        }
        for n in [0, 1, 12] {
            let name = format!("read {n}, {there} there: 0");
            assert!(count(name.clone()) > 5, "{name}");
        }
    }
    assert!(count("read 13, 13 there: 3".to_string()) > 5);
    let arrived = |there: usize, fate: u8| arrived(&tally, there, fate);
    let fates = |there| REASONS.iter().map(move |fate| arrived(there, *fate));
    let nothing_stored = |there| fates(there).sum::<usize>();
    assert!(arrived(12, 0) > 500 && nothing_stored(12) > 20);
    assert!(arrived(13, 2) > 5000 && nothing_stored(13) > 100);
    assert_eq!((arrived(12, 2), arrived(13, 0)), (0, 0));
}

/// "0 and 2 stay": nothing is lost where there is room, nothing is stored where
/// there is none. Each of the reasons comes to an empty queue and to a full one.
fn assert_every_fate(tally: &Tally) {
    assert!(arrived(tally, 0, 0) > 500 && arrived(tally, 13, 2) > 500);
    assert_eq!((arrived(tally, 0, 2), arrived(tally, 13, 0)), (0, 0));
    for there in [0, 13] {
        for fate in REASONS {
            let often = arrived(tally, there, fate);
            assert!(often > 20, "{}: {often}", arrival_met(there, fate));
        }
    }
}

#[test]
fn traces_come_to_every_fate() {
    let profiles = PROFILES.map(|(_, profile)| profile);
    assert_every_fate(&tally(&profiles));
    // The profile that has everything comes to each of them alone, too.
    let mixed = tally(&[Profile::Mixed]);
    for fate in REASONS {
        assert!(arrived(&mixed, 0, fate) > 5 && arrived(&mixed, 13, fate) > 5);
    }
}

/// "0 stored" is one item more, and "2 lost" one loss more. With the others no
/// queue, flag or count changes: "Ignored: nothing changes" and "Discard:
/// nothing changes"; a flow character sets the transmitter "running or
/// stopped", and with implied XON a line ending sets it running.
#[test]
fn fates_tell_what_changed() {
    for (name, profile) in PROFILES {
        let mut card = Card::fresh();
        for line in lines(&trace(profile, 2, 5000)) {
            let mut expected = card.clone();
            let answer = answer_line(&mut card, line);
            let (&[0x01, channel, ..], &[0, fate]) = (&frame_of(line)[..], &answer[..]) else {
                continue;
            };
            let after = &card.channels[usize::from(channel)];
            let before = &mut expected.channels[usize::from(channel)];
            match fate {
                0 => assert_eq!(after.items().count(), before.items().count() + 1, "{name}"),
                2 => assert_eq!(after.loss_count, before.loss_count + 1, "{name}"),
                1 => before.stopped = after.stopped,
                5 => before.stopped &= !before.settings.implied_xon,
                _ => {}
            }
            if REASONS.contains(&fate) {
                assert_eq!(card, expected, "{name}, fate {fate}");
            }
        }
    }
}

/// The entry of the line-ending table that a good CR or NL looks up, its value
/// and its character; none for one that steps 4 to 6 stop before.
fn entry_looked_up(card: &Card, frame: &[u8]) -> Option<(usize, u8)> {
    let [0x01, channel @ 0..=3, 0, character @ (CR | NL)] = *frame else {
        return None;
    };
    let channel = &card.channels[usize::from(channel)];
    let settings = &channel.settings;
    let literal_next = settings.literal_next && character == settings.literal_next_character;
    let flow_character = settings.flow_characters != FlowCharacters::Off
        && [settings.xon(), settings.xoff()].contains(&character);
    let stopped_before = channel.literal_mark || literal_next || flow_character;
    (!stopped_before).then_some((settings.line_endings, character))
}

/// Request e: "Work the eight line-ending rows out from the three bits of the
/// value". The traces come to each entry of each row, and to a fate that tells
/// it: "2 lost" doesn't tell what came out.
#[test]
fn traces_come_to_every_entry_of_the_line_endings() {
    let mut tally = BTreeMap::new();
    for (_, profile) in PROFILES {
        let mut card = Card::fresh();
        for line in lines(&trace(profile, 1, 20_000)) {
            let entry = entry_looked_up(&card, &frame_of(line));
            if answer_line(&mut card, line) != [0, 2] {
                *tally.entry(entry).or_insert(0) += 1;
            }
        }
    }
    for entry in (0..=7).flat_map(|value| [(value, CR), (value, NL)]) {
        let often = tally.get(&Some(entry)).copied().unwrap_or(0);
        assert!(often > 100, "{entry:?}: {often}");
    }
}

/// "service threshold", "1 to 12": one below it, at it, and with request a's
/// thirteenth item.
#[test]
fn picks_come_to_threshold_12() {
    let mut card = Card::fresh();
    let mut picks = [0; 14];
    for line in lines(&trace(Profile::Picks, 1, 20_000)) {
        for channel in &card.channels {
            if line == b"08" && channel.settings.service_threshold == 12 {
                picks[channel.items().count()] += 1;
            }
        }
        answer_line(&mut card, line);
    }
    assert!(picks[11..].iter().all(|number| *number > 50), "{picks:?}");
}

/// Request a: "One more place is to hold an item behind the twelve; it moves
/// up when a read makes room." So nothing is held where there is room.
#[test]
fn an_item_is_held_only_behind_twelve() {
    for (name, profile) in PROFILES {
        let mut card = Card::fresh();
        for line in lines(&trace(profile, 2, 3000)) {
            answer_line(&mut card, line);
            for channel in &card.channels {
                let waiting = channel.receive_queue.len();
                let held = channel.held_item.is_some();
                assert!(waiting == 12 || waiting < 12 && !held, "{name}");
            }
        }
    }
}

#[test]
fn cases_have_the_lines_asked_for() {
    for seed in 0..20 {
        let input = streams::cases(seed, 300);
        assert_eq!(input, streams::cases(seed, 300));
        assert_eq!(newlines(&input), 300);
    }
}

/// The lines of the trace, each beside its answer.
fn answered(lines: Vec<String>) -> Vec<(String, String)> {
    let mut output = Vec::new();
    let input = lines.join("\n");
    reads_program(input.as_bytes(), &mut output).expect("well-formed lines");
    let answers = String::from_utf8(output).expect("answers are text");
    let answers: Vec<String> = answers.lines().map(String::from).collect();
    assert_eq!(answers.len(), lines.len());
    lines.into_iter().zip(answers).collect()
}

fn lines_of_reads(seed: u64, lines: usize) -> Vec<String> {
    let input = String::from_utf8(reads::trace(seed, lines)).expect("lines are text");
    input.lines().map(String::from).collect()
}

#[test]
fn traces_of_reads_have_the_lines_asked_for() {
    assert_eq!(reads::trace(1, 0), b"");
    for seed in 0..20 {
        let input = reads::trace(seed, 300);
        assert_eq!(input, reads::trace(seed, 300));
        assert_eq!(newlines(&input), 300);
        assert!(reads::trace(seed, 400).starts_with(&input));
        for line in lines_of_reads(seed, 300) {
            let call = Call::of_line(line.as_bytes()).expect("a well-formed line");
            assert_eq!(call.line(), line.as_bytes());
        }
    }
    assert_ne!(reads::trace(1, 300), reads::trace(2, 300));
}

/// "A refusal changes nothing, and a refused read asks for nothing": without
/// the refused lines, the answers of the others are the same.
#[test]
fn refused_lines_change_no_other_answer() {
    for seed in 0..20 {
        let mut all = answered(lines_of_reads(seed, 2000));
        let with_refused = all.len();
        all.retain(|(_, answer)| answer.starts_with("00"));
        assert!(all.len() < with_refused);
        let lines = all.iter().map(|(line, _)| line.clone()).collect();
        assert_eq!(answered(lines), all);
    }
}

/// Each read of the trace: n, length and place, and its answer.
fn answered_reads(seed: u64, lines: usize) -> Vec<([usize; 3], String)> {
    let mut reads = Vec::new();
    for (line, answer) in answered(lines_of_reads(seed, lines)) {
        if let Some(Call::Read { n, length, place }) = Call::of_line(line.as_bytes()) {
            reads.push(([n, length, place], answer));
        }
    }
    reads
}

#[test]
fn traces_of_reads_dwell_on_the_limits() {
    let reads = answered_reads(1, 20_000);
    let count = |wanted: &dyn Fn(usize, usize, usize, &str) -> bool| {
        reads
            .iter()
            .filter(|([n, length, place], answer)| wanted(*n, *length, *place, answer))
            .count()
    };
    for asked in 0..=14 {
        assert!(count(&|n, _, _, _| n == asked) > 50, "{asked}");
    }
    for lent in 0..=48 {
        assert!(count(&|_, length, _, _| length == lent) > 20, "{lent}");
    }
    assert_eq!(count(&|n, length, _, _| n > 300 || length > 48), 0);
    assert!(count(&|n, _, _, _| n > 255) > 10);
    assert!(count(&|n, length, place, _| n > 0 && length == place + 3 * n) > 500);
    assert!(count(&|n, length, place, _| length + 1 == place + 3 * n) > 200);
    assert!(count(&|n, length, place, _| length == place + 3 * n + 1) > 200);
    assert!(count(&|n, length, place, _| n == 0 && length == place) > 200);
    assert!(count(&|n, length, place, _| n == 0 && length < place) > 50);
    assert!(count(&|n, length, place, _| n > 12 && length < place) > 20);
    assert!(count(&|n, length, place, _| n > 12 && length >= place + 3 * n) > 20);
    assert!(count(&|_, _, _, answer| answer.starts_with("00 12 12 ")) > 5);
    assert!(count(&|_, _, _, answer| answer.starts_with("00 12 1 36 ")) > 5);
}

/// Each call with the number of items that were there, and its answer.
fn calls_of_reads(seed: u64, lines: usize) -> Vec<(Call, usize, Vec<u8>)> {
    let mut card = Card::fresh();
    let mut calls = Vec::new();
    for line in lines_of_reads(seed, lines) {
        let call = Call::of_line(line.as_bytes()).expect("a well-formed line");
        let there = items(&card, CHANNEL);
        let answer = call.answer(&mut card);
        calls.push((call, there, answer));
    }
    calls
}

#[test]
fn traces_of_reads_come_to_every_fate() {
    let mut tally = Tally::new();
    for (call, there, answer) in calls_of_reads(1, 20_000) {
        if let (Call::Arrival { .. }, [b'0', b'0', b' ', digit]) = (call, &answer[..]) {
            *tally.entry(arrival_met(there, digit - b'0')).or_default() += 1;
        }
    }
    assert_every_fate(&tally);
}

#[test]
fn traces_of_reads_come_to_thirteen_items() {
    let mut asked_of = Vec::new();
    for (call, there, answer) in calls_of_reads(1, 20_000) {
        if let Call::Read { n, .. } = call {
            asked_of.push((n, there, answer.starts_with(b"00")));
        }
    }
    let count = |wanted| asked_of.iter().filter(|read| **read == wanted).count();
    for there in [12, 13] {
        for n in [0, 1, 11, 12] {
            assert!(count((n, there, true)) > 5, "{n} of {there}");
        }
        assert!(count((12, there, true)) > 100, "12 of {there}");
        assert!(count((12, there, false)) > 50, "12 of {there}, refused");
        assert!(count((13, there, false)) > 10, "13 of {there}, refused");
        assert_eq!(count((13, there, true)), 0);
    }
}
