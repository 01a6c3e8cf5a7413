//! The paper's whole case, its table of stored images, its refusal examples,
//! and further sentences of the paper, each as a small check.

mod shared;

use reference::card::{Card, Fate, ReadAnswer, Refusal};
use reference::frames::program;
use reference::stream::{clean_front, read_stream, StreamRefusal};
use shared::{card_with, fill, read_all, settings_with, state, BREAK, FRAMING, GOOD, PARITY};

const WHOLE_CASE_INPUT: &str = "\
0700040100020200010200011113000016
010000FF
01000141
01000013
01000016
01000013
0100000D
08
03000A42
0400
01000011
0400
0400
0A00
02000C
01040041
";

const WHOLE_CASE_OUTPUT: &str = "\
00
0000
0000
0001
0000
0000
0000
0000
0002
0000
0001
00010D
00010A
000501000000
000500FFFFFF004116130A
01
";

fn answers(input: &str) -> String {
    String::from_utf8(program(input.as_bytes())).expect("answers are hexadecimal")
}

/// The answers without their newlines, one string each.
fn answer_list(input: &str) -> Vec<String> {
    answers(input).lines().map(String::from).collect()
}

#[test]
fn whole_case() {
    assert_eq!(answers(WHOLE_CASE_INPUT), WHOLE_CASE_OUTPUT);
    assert_eq!(answers(WHOLE_CASE_INPUT.trim_end()), WHOLE_CASE_OUTPUT);
    assert_eq!(answers(&WHOLE_CASE_INPUT.to_lowercase()), WHOLE_CASE_OUTPUT);
}

#[test]
fn table_of_stored_images() {
    const STORED: Fate = Fate::Stored;
    type Row = (&'static [(usize, u8)], u8, u8, Fate, &'static [u8]);
    let rows: [Row; 12] = [
        (&[], GOOD, 0x41, STORED, &[0x41]),
        (&[], BREAK, 0x41, STORED, &[0x00]),
        (&[(2, 0)], BREAK, 0x41, Fate::BreakIgnored, &[]),
        (&[(1, 4)], BREAK, 0x41, STORED, &[0xFF, 0x00, 0x00]),
        (&[(1, 4)], GOOD, 0xFF, STORED, &[0xFF, 0xFF]),
        (&[(1, 4), (3, 1)], GOOD, 0xFF, STORED, &[0x7F]),
        (&[(1, 4), (3, 1)], PARITY, 0xC1, STORED, &[0xFF, 0x00, 0xC1]),
        (&[(1, 2)], FRAMING, 0x41, Fate::DamagedDiscarded, &[]),
        (&[(1, 3)], PARITY, 0x41, STORED, &[0x00]),
        (&[(4, 3)], GOOD, 0x0A, STORED, &[0x0D]),
        (&[(4, 5)], GOOD, 0x0A, STORED, &[0x0D]),
        (&[(4, 6)], GOOD, 0x0D, Fate::LineEndingDiscarded, &[]),
    ];
    for (fields, kind, byte, fate, image) in rows {
        let mut card = card_with(fields);
        let answer = card.arrival(0, kind, byte);
        assert_eq!(answer, Ok(fate), "{fields:?} {kind} {byte:02X}");
        assert_eq!(read_all(&mut card), image, "{fields:?} {kind} {byte:02X}");
    }
}

#[test]
fn line_endings() {
    const CR: &[u8] = &[0x0D];
    const NL: &[u8] = &[0x0A];
    let rows: [(u8, &[u8], &[u8]); 8] = [
        (0, CR, NL),
        (1, CR, CR),
        (2, NL, NL),
        (3, NL, CR),
        (4, &[], NL),
        (5, &[], CR),
        (6, &[], NL),
        (7, &[], CR),
    ];
    for (value, cr_gives, nl_gives) in rows {
        let mut card = card_with(&[(4, value)]);
        card.arrival(0, 0, 0x0D).unwrap();
        assert_eq!(read_all(&mut card), cr_gives);
        card.arrival(0, 0, 0x0A).unwrap();
        assert_eq!(read_all(&mut card), nl_gives);
    }
}

#[test]
fn refusal_examples_of_reads() {
    let mut card = Card::fresh();
    fill(&mut card);
    let before = card.clone();
    let mut buffer = [0xA5; 40];
    assert_eq!(card.read(4, 13, &mut buffer[..0], 1), Err(Refusal::Channel));
    assert_eq!(card.read(0, 13, &mut buffer[..0], 1), Err(Refusal::Asked));
    assert_eq!(card.read(0, 12, &mut buffer[..35], 0), Err(Refusal::Buffer));
    assert_eq!(card.read(0, 12, &mut buffer, 5), Err(Refusal::Buffer));
    assert_eq!(card.read(0, 0, &mut buffer[..7], 8), Err(Refusal::Buffer));
    assert_eq!(card, before);
    assert_eq!(buffer, [0xA5; 40]);
    let nothing = ReadAnswer {
        characters: 0,
        flagged: 0,
        bytes: 0,
    };
    assert_eq!(card.read(0, 0, &mut buffer[..7], 7), Ok(nothing));
    assert_eq!(card.read(0, 0, &mut [], 0), Ok(nothing));
    let twelve = ReadAnswer {
        characters: 12,
        flagged: 0,
        bytes: 12,
    };
    assert_eq!(card.read(0, 12, &mut buffer, 4), Ok(twelve));
    assert_eq!(buffer[..4], [0xA5; 4]);
    assert_eq!(buffer[16..], [0xA5; 24]);
    // Request a's thirteenth is left, and then nothing is.
    let one = ReadAnswer {
        characters: 1,
        flagged: 0,
        bytes: 1,
    };
    assert_eq!(card.read(0, 12, &mut buffer[..36], 0), Ok(one));
    assert_eq!(card.read(0, 12, &mut buffer[..36], 0), Ok(nothing));
}

#[test]
fn refusals_come_in_order_and_change_nothing() {
    let mut card = card_with(&[(5, 1), (7, 1)]);
    card.special(0, 1).unwrap();
    card.arrival(0, 0, 0x13).unwrap();
    card.arrival(0, 0, 0x16).unwrap();
    let before = card.clone();
    assert_eq!(card.arrival(4, 4, 0), Err(Refusal::Channel));
    assert_eq!(card.arrival(3, 4, 0), Err(Refusal::Kind));
    assert_eq!(card.special(4, 0), Err(Refusal::Channel));
    assert_eq!(card.special(0, 0), Err(Refusal::Special));
    assert_eq!(card.special(0, 5), Err(Refusal::Special));
    assert_eq!(card.special(0, 4), Err(Refusal::SpecialWaits));
    assert_eq!(card.cts(4, 2), Err(Refusal::Channel));
    assert_eq!(card.cts(0, 2), Err(Refusal::Cts));
    assert_eq!(card.settings(4, &[]), Err(Refusal::Channel));
    assert_eq!(
        card.settings(0, &[1; 14]),
        Err(Refusal::Settings { field: 0 })
    );
    assert_eq!(card.load(255, &[1]), Err(Refusal::Channel));
    assert_eq!(card.turn(4), Err(Refusal::Channel));
    assert_eq!(card.reset(4), Err(Refusal::Channel));
    assert_eq!(card.state(4), Err(Refusal::Channel));
    assert_eq!(card, before);
}

#[test]
fn bad_fields() {
    let refused = |fields: &[(usize, u8)]| match Card::fresh().settings(0, &settings_with(fields)) {
        Err(Refusal::Settings { field }) => Some(field),
        Err(other) => panic!("{other:?}"),
        Ok(()) => None,
    };
    for (field, value) in [(1, 0), (1, 5), (2, 2), (3, 2), (4, 8), (5, 3)] {
        assert_eq!(refused(&[(field, value)]), Some(field as u8));
    }
    for (field, value) in [(6, 2), (7, 2), (8, 0), (8, 13), (9, 2), (10, 255)] {
        assert_eq!(refused(&[(field, value)]), Some(field as u8));
    }
    assert_eq!(refused(&[(9, 2), (2, 2)]), Some(2));
    assert_eq!(refused(&[(5, 1), (11, 0x13)]), Some(12));
    assert_eq!(refused(&[(5, 0), (11, 0x13)]), None);
    assert_eq!(refused(&[(5, 1), (11, 0x13), (10, 2)]), Some(10));
    assert_eq!(refused(&[(5, 2), (7, 1), (15, 0x11)]), Some(15));
    assert_eq!(refused(&[(5, 2), (7, 1), (15, 0x13)]), Some(15));
    assert_eq!(refused(&[(5, 2), (7, 0), (15, 0x13)]), None);
    assert_eq!(refused(&[(5, 0), (7, 1), (15, 0x13)]), None);
    assert_eq!(refused(&[(5, 2), (7, 1), (11, 0x13), (15, 0x13)]), Some(12));
}

#[test]
fn losses_and_flags() {
    let mut card = Card::fresh();
    fill(&mut card);
    for _ in 0..70_000 {
        assert_eq!(card.arrival(0, 0, 0x41), Ok(Fate::Lost));
    }
    assert_eq!(state(&mut card).loss_count, 65_535);
    let mut buffer = [0; 36];
    let answer = card.read(0, 12, &mut buffer, 0).unwrap();
    assert_eq!((answer.characters, answer.flagged), (12, 0));
    let answer = card.read(0, 12, &mut buffer, 0).unwrap();
    assert_eq!((answer.characters, answer.flagged), (1, 1));
    assert_eq!(buffer[0], 0x6C);
}

#[test]
fn flags_change_even_when_the_item_is_lost() {
    let mut card = card_with(&[(5, 1), (7, 1)]);
    fill(&mut card);
    assert_eq!(card.arrival(0, 0, 0x13), Ok(Fate::Lost));
    assert_eq!(state(&mut card).stopped, 1);
    assert_eq!(card.arrival(0, 0, 0x16), Ok(Fate::Lost));
    assert_eq!(card.arrival(0, 0, 0x11), Ok(Fate::Lost));
    assert_eq!(state(&mut card).stopped, 1);
    assert_eq!(card.arrival(0, 0, 0x11), Ok(Fate::Lost));
    assert_eq!(state(&mut card).stopped, 0);
    assert_eq!(state(&mut card).loss_count, 4);
}

#[test]
fn a_swallowed_character_is_not_lost() {
    let mut card = card_with(&[(5, 2)]);
    fill(&mut card);
    assert_eq!(card.arrival(0, 0, 0x13), Ok(Fate::FlowCharacterSwallowed));
    assert_eq!(state(&mut card).stopped, 1);
    assert_eq!(state(&mut card).loss_count, 0);
}

#[test]
fn implied_xon() {
    for byte in [0x41, 0x0D, 0x16, 0x11] {
        let mut card = card_with(&[(4, 4), (5, 2), (6, 1), (7, 1)]);
        card.arrival(0, 0, 0x13).unwrap();
        assert_eq!(state(&mut card).stopped, 1);
        card.arrival(0, 0, 0x13).unwrap();
        assert_eq!(state(&mut card).stopped, 1);
        card.arrival(0, 3, 0x41).unwrap();
        assert_eq!(state(&mut card).stopped, 1);
        card.arrival(0, 0, byte).unwrap();
        assert_eq!(state(&mut card).stopped, 0);
    }
}

#[test]
fn the_literal_mark() {
    for (mode, kind, stays) in [(2, 1, true), (3, 1, false), (4, 2, false), (1, 3, false)] {
        let mut card = card_with(&[(1, mode), (5, 2), (7, 1)]);
        card.arrival(0, 0, 0x16).unwrap();
        card.arrival(0, kind, 0x16).unwrap();
        card.arrival(0, 0, 0x13).unwrap();
        assert_eq!(state(&mut card).stopped == 0, stays);
    }
}

#[test]
fn turns() {
    let mut card = card_with(&[(9, 1), (10, 1)]);
    assert_eq!(card.load(0, &[0x0A; 13]), Ok(12));
    assert_eq!(card.load(0, &[]), Ok(0));
    assert_eq!(card.turn(0), Ok(None));
    card.cts(0, 1).unwrap();
    assert_eq!(card.turn(0), Ok(Some(0x0D)));
    assert_eq!(state(&mut card).transmit_waiting, 11);
    card.cts(0, 0).unwrap();
    card.special(0, 2).unwrap();
    assert_eq!(card.turn(0), Ok(Some(0x13)));
    assert_eq!(card.turn(0), Ok(None));
    card.settings(0, &settings_with(&[(10, 0)])).unwrap();
    assert_eq!(card.turn(0), Ok(Some(0x0A)));
    assert_eq!(card.turn(0), Ok(Some(0x0A)));
    assert_eq!(state(&mut card).transmit_waiting, 10);
}

#[test]
fn picks_go_round() {
    let mut card = Card::fresh();
    assert_eq!(card.pick(), None);
    for channel in [0, 2, 3] {
        card.arrival(channel, 0, 0x41).unwrap();
    }
    let named: Vec<_> = (0..5).map(|_| card.pick()).collect();
    assert_eq!(named, [Some(0), Some(2), Some(3), Some(0), Some(2)]);
    card.reset(2).unwrap();
    assert_eq!(card.pick(), Some(3));
    card.reset(0).unwrap();
    assert_eq!(card.pick(), Some(3));
    card.reset(3).unwrap();
    assert_eq!(card.pick(), None);
    card.arrival(3, 0, 0x41).unwrap();
    card.arrival(0, 0, 0x41).unwrap();
    assert_eq!(card.pick(), Some(0));
}

#[test]
fn lines_and_refusal_11() {
    assert_eq!(answers(""), "");
    assert_eq!(answers("\n"), "0B\n");
    assert_eq!(answers("\n\n"), "0B\n0B\n");
    assert_eq!(answers("08"), "00FF\n");
    assert_eq!(answers("08\n"), "00FF\n");
    assert_eq!(answers("08\n\n08"), "00FF\n0B\n00FF\n");
    for line in [
        "0", "080", "8", "0G", "08\r", " 08", "08 ", "0800", "0B", "00", "FF", "04",
    ] {
        assert_eq!(answers(line), "0B\n", "{line:?}");
    }
    for line in [
        "01040",
        "010404",
        "0105040000",
        "0200",
        "0A",
        "09",
        "0a0000",
        "05 00 00",
    ] {
        assert_eq!(answers(line), "0B\n", "{line:?}");
    }
    assert_eq!(program(&[0x00, b'\n', 0xFF, 0x0D, b'\n']), b"0B\n0B\n");
    assert_eq!(answers(&format!("0300{}", "41".repeat(32))), "000C\n");
    assert_eq!(answers(&format!("0300{}", "41".repeat(33))), "0B\n");
    assert_eq!(answers(&format!("0304{}", "41".repeat(32))), "01\n");
    assert_eq!(answers(&format!("0700{}", "01".repeat(32))), "0500\n");
    assert_eq!(answers("0700"), "0500\n");
    assert_eq!(answers("0300"), "0000\n");
}

#[test]
fn answers_of_refused_frames() {
    let input = "01000400\n02000D\n050002\n060000\n060001\n060001\n060005\n0704\n08";
    let expected = ["02", "03", "0A", "06", "00", "07", "06", "01", "00FF"];
    assert_eq!(answer_list(input), expected);
}

#[test]
fn marked_streams() {
    let stream = [0x41, 0xFF, 0xFF, 0xFF, 0x00, 0xFF, 0x00];
    let mut first = [0xA5; 8];
    let mut second = [0xA5; 7];
    assert_eq!(read_stream(&stream, &mut first, &mut second), Ok(4));
    assert_eq!(first, [0, 0, 1, 0, 0xA5, 0xA5, 0xA5, 0xA5]);
    assert_eq!(second, [0x41, 0xFF, 0xFF, 0x00, 0xA5, 0xA5, 0xA5]);
    assert_eq!(read_stream(&[], &mut [], &mut []), Ok(0));
    assert_eq!(clean_front(&stream), [0x41]);
    assert_eq!(clean_front(&[0xFF]), []);
    assert_eq!(clean_front(&[1, 2]), [1, 2]);
    assert_eq!(clean_front(&[]), []);
}

#[test]
fn refused_streams() {
    let rows: [(&[u8], usize); 6] = [
        (&[0xFF], 0),
        (&[0x41, 0xFF, 0x00], 1),
        (&[0xFF, 0xFF, 0xFF], 2),
        (&[0xFF, 0x01, 0xFF], 0),
        (&[0xFF, 0x00, 0xFF, 0xFF, 0xFE], 3),
        (&[0x00, 0xFF, 0x00, 0x41, 0xFF, 0x41], 4),
    ];
    for (stream, place) in rows {
        let mut first = [0xA5; 6];
        let mut second = [0xA5; 6];
        let answer = read_stream(stream, &mut first, &mut second);
        assert_eq!(answer, Err(StreamRefusal::Broken { place }));
        let short = stream.len() - 1;
        for (first_length, second_length) in [(short, 6), (6, short)] {
            let answer = read_stream(
                stream,
                &mut first[..first_length],
                &mut second[..second_length],
            );
            assert_eq!(answer, Err(StreamRefusal::OutputTooShort));
        }
        assert_eq!((first, second), ([0xA5; 6], [0xA5; 6]));
    }
}
