//! Request e, "Constants page full": what the three bits of the value say, held
//! against the answers. "No answer changes", so the card keeps the paper's
//! table, and the bits stand here.

mod shared;

use reference::card::{CR, NL};
use reference::generate::{trace, Profile};
use shared::{answers, answers_after, arrivals, settings_frame};

/// "(4 drops CR, 2 turns CR into NL, 1 turns NL into CR)"
const DROPS_CR: u8 = 4;
const TURNS_CR_INTO_NL: u8 = 2;
const TURNS_NL_INTO_CR: u8 = 1;

/// What comes out of step 7, as the bits say it. Each bit speaks of the
/// character that arrived, not of what another bit made of it: "one lookup and
/// no second one". A CR that 4 drops isn't there for 2 to turn.
fn bits_say(value: u8, character: u8) -> Option<u8> {
    let set = |bit: u8| value & bit != 0;
    match character {
        CR if set(DROPS_CR) => None,
        CR if set(TURNS_CR_INTO_NL) => Some(NL),
        NL if set(TURNS_NL_INTO_CR) => Some(CR),
        as_it_is => Some(as_it_is),
    }
}

/// Field 4, "line endings".
fn line_endings(value: u8) -> String {
    settings_frame(&[(4, value)])
}

/// The answers of a good arrival after these frames, and of a read behind it.
fn answers_to(first: &[String], character: u8) -> Vec<String> {
    answers_after(first, &[&arrivals(&[character])[0], "02000C"])
}

/// These answers, for what comes out: "0 stored" and one character read, or
/// request b's "5 line ending discarded" and none.
fn answers_for(comes_out: Option<u8>) -> [String; 2] {
    match comes_out {
        Some(stored) => ["0000".to_string(), format!("000100{stored:02X}")],
        None => ["0005".to_string(), "000000".to_string()],
    }
}

/// After these frames, CR and NL give what the bits of the value say.
fn assert_bits(first: &[String], value: u8) {
    for character in [CR, NL] {
        let expected = answers_for(bits_say(value, character));
        let given = answers_to(first, character);
        assert_eq!(given, expected, "value {value}, {character:02X}");
    }
}

/// "Work the eight line-ending rows out from the three bits of the value"
#[test]
fn an_arrival_gives_what_the_three_bits_say() {
    for value in 0..=7 {
        assert_bits(&[line_endings(value)], value);
    }
}

/// The bits speak of CR and NL alone. For each value, all the characters that
/// don't come out as they are.
#[test]
fn every_other_character_comes_out_as_it_is() {
    let rows: [(u8, &[u8]); 8] = [
        (0, &[]),
        (1, &[NL]),
        (2, &[CR]),
        (3, &[NL, CR]),
        (4, &[CR]),
        (5, &[NL, CR]),
        (6, &[CR]),
        (7, &[NL, CR]),
    ];
    for (value, altered) in rows {
        let first = [line_endings(value)];
        let as_it_is = |byte: &u8| answers_to(&first, *byte) == answers_for(Some(*byte));
        let given: Vec<u8> = (0..=255).filter(|byte| !as_it_is(byte)).collect();
        assert_eq!(given, altered, "value {value}");
    }
}

/// A settings frame's line with 4 in place of 6 and 5 in place of 7: field 4
/// stands behind the first byte, the channel and three fields. Every other line
/// as it is.
fn without_2_beside_4(line: &str) -> String {
    let mut line = line.to_string();
    if line.starts_with("07") && line.len() == line_endings(0).len() {
        match &line[10..12] {
            "06" => line.replace_range(10..12, "04"),
            "07" => line.replace_range(10..12, "05"),
            _ => {}
        }
    }
    line
}

/// "4, 6 | nothing | NL" and "5, 7 | nothing | CR": in a whole trace no answer
/// tells 6 from 4, nor 7 from 5.
#[test]
fn values_6_and_7_answer_as_4_and_5() {
    let text = String::from_utf8(trace(Profile::Mixed, 1, 20_000)).expect("lines are text");
    let lines: Vec<String> = text.lines().map(String::from).collect();
    let others: Vec<String> = lines.iter().map(|line| without_2_beside_4(line)).collect();
    let mut altered = 0;
    for (place, (given, expected)) in answers(&lines).iter().zip(answers(&others)).enumerate() {
        assert_eq!(*given, expected, "line {place}: {}", lines[place]);
        altered += usize::from(lines[place] != others[place]);
    }
    assert!(altered > 200, "{altered}");
}

/// "0 to 7", and refusal 5 with "the first bad field": no row beyond the eight
/// is ever asked for. "A refusal changes nothing", so the row before stays.
#[test]
fn a_value_above_7_is_refused() {
    for above in 8..=255 {
        let refused = line_endings(above);
        for value in 0..=7 {
            let first = [line_endings(value), refused.clone()];
            assert_eq!(answers(&first), ["00", "0504"], "{above}");
            assert_bits(&first, value);
        }
    }
}
