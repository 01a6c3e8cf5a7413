//! Request h, "Two boxes in a row": its sentences, each as small checks whose
//! answers are worked out by hand from the paper's table, and the fitters' program
//! over it.

mod command;
mod shared;

use command::run;
use reference::card::{Card, Fate, Refusal, CR, NL};
use reference::ending_lines::{self, CommandLine};
use reference::endings::OneSetting::{self, Does, NoneDoes};
use reference::endings::{
    both_let_out, change_nothing_more, lets_out, number_and_field, one_setting, program, Case,
};
use reference::random::Random;
use shared::{answers, answers_after, arrivals, card_with, read_all, settings_frame, GOOD};

/// The paper's table: "Value | CR gives | NL gives".
///
/// - 0, "CR | NL": the second box gets the list as it came, and its own row stands
///   here. 6 and 7 have the rows of 4 and 5, which are less.
/// - 1, "CR | CR": the second gets a CR for both, and gives for both what it gives
///   for CR. That is CR with 0 and 1, as 1 does; NL with 2 and 3, as 2 does; and
///   nothing with 4 to 7. No row has nothing for NL.
/// - 2, "NL | NL": the second gives for both what it gives for NL. That is NL with
///   0, 2, 4 and 6, as 2 does; and CR with 1, 3, 5 and 7, as 1 does.
/// - 3, "NL | CR": the second's row, turned round. 0 has NL and CR, as 3 does; 1 has
///   CR and CR; 2 has NL and NL; 3 has CR and NL, as 0 does; 4 and 6 have NL and
///   nothing, 5 and 7 have CR and nothing, as no row does.
/// - 4 and 6, "nothing | NL": nothing, and what the second gives for NL. That is NL
///   with 0, 2, 4 and 6, as 4 does; and CR with 1, 3, 5 and 7, as 5 does.
/// - 5 and 7, "nothing | CR": nothing, and what the second gives for CR. That is CR
///   with 0 and 1, as 5 does; NL with 2 and 3, as 4 does; and nothing with 4 to 7.
const TABLE: &str = "  0 1 2 3 4 5 6 7
0 0 1 2 3 4 5 4 5
1 1 1 2 2 - - - -
2 2 1 2 1 2 1 2 1
3 3 1 2 0 - - - -
4 4 5 4 5 4 5 4 5
5 5 5 4 4 - - - -
6 4 5 4 5 4 5 4 5
7 5 5 4 4 - - - -
";

/// "For every ordered pair", with what the table has for it.
fn pairs() -> Vec<(u8, u8, Option<u8>)> {
    let mut pairs = Vec::new();
    for (first, row) in (0..).zip(TABLE.lines().skip(1)) {
        for (second, setting) in (0..).zip(row.split(' ').skip(1)) {
            pairs.push((first, second, setting.parse().ok()));
        }
    }
    assert_eq!(pairs.len(), 64);
    pairs
}

fn found(first: u8, second: u8) -> &'static OneSetting {
    one_setting(first.into(), second.into()).expect("settings")
}

// ---------------------------------------------------------------------------
// The single setting
// ---------------------------------------------------------------------------

/// "prove either that one setting acts on every list of characters as the first
/// followed by the second, or that none does"
#[test]
fn every_ordered_pair() {
    for (first, second, setting) in pairs() {
        match (found(first, second), setting) {
            (Does(given), Some(expected)) => assert_eq!(*given, expected, "{first} {second}"),
            (NoneDoes { .. }, None) => {}
            (given, _) => panic!("{first} {second}: {given:?}, not {setting:?}"),
        }
    }
}

/// "ordered": the other way round there may be another setting, or none.
#[test]
fn the_order_of_the_boxes() {
    for (first, second, one_way, other_way) in [
        // The second box has the last word on the one character that is left.
        (1, 2, Some(2), Some(1)),
        // CR and NL become NL and CR, then CR and CR; or CR and CR, then NL and NL.
        (3, 1, Some(1), Some(2)),
        // NL becomes CR and is dropped; or CR is dropped and NL becomes CR.
        (1, 4, None, Some(5)),
        (3, 4, None, Some(5)),
        (5, 2, Some(4), Some(1)),
        (5, 4, None, Some(5)),
        (7, 0, Some(5), Some(5)),
    ] {
        for (boxes, expected) in [((first, second), one_way), ((second, first), other_way)] {
            let given = match found(boxes.0, boxes.1) {
                Does(setting) => Some(*setting),
                NoneDoes { .. } => None,
            };
            assert_eq!(given, expected, "{boxes:?}");
        }
    }
}

/// "4, 6 | nothing | NL" and "5, 7 | nothing | CR": 6 and 7 are never the answer,
/// for 4 and 5 are less.
#[test]
fn the_least_setting_is_given() {
    assert_eq!(found(0, 6), &Does(4));
    assert_eq!(found(6, 0), &Does(4));
    assert_eq!(found(6, 6), &Does(4));
    assert_eq!(found(0, 7), &Does(5));
    for (first, second, _) in pairs() {
        let given = found(first, second);
        assert!(!matches!(given, Does(6..)), "{first} {second}: {given:?}");
    }
}

/// "or that none does": NL alone shows it. The first box makes a CR of it, which
/// the second drops; in the table each of the eight gives something for NL. Every
/// shorter list is empty, and 00 to 09 come out as they are of any box.
#[test]
fn a_list_that_shows_that_none_does() {
    let mut without = Vec::new();
    for (first, second, _) in pairs() {
        if let NoneDoes { shown_by } = found(first, second) {
            assert_eq!(shown_by, &[NL], "{first} {second}");
            assert_eq!(both_let_out(first, second, &[NL]), []);
            without.push((first, second));
        }
    }
    let expected = [1, 3, 5, 7].map(|first| [4, 5, 6, 7].map(|second| (first, second)));
    assert_eq!(without, expected.concat());
    for setting in 0..=7 {
        assert_eq!(lets_out(setting, &[NL]).len(), 1);
        assert_eq!(lets_out(setting, &[]), []);
        for smaller in 0..NL {
            assert_eq!(lets_out(setting, &[smaller]), [smaller]);
        }
    }
}

/// Where none does, CR alone wouldn't show it: of 3 and 4 it comes out as NL, as it
/// does of 2 and 3; of 1 and 4 it doesn't come out, as it doesn't of 4 to 7.
#[test]
fn cr_alone_does_not_show_it() {
    let alike = |first, second| -> Vec<u8> {
        let both = both_let_out(first, second, &[CR]);
        let settings = 0..=7;
        let alike = settings.filter(|setting| lets_out(*setting, &[CR]) == both);
        alike.collect()
    };
    assert_eq!(alike(3, 4), [2, 3]);
    assert_eq!(alike(3, 7), [0, 1]);
    assert_eq!(alike(1, 4), [4, 5, 6, 7]);
    assert_eq!(alike(5, 5), [4, 5, 6, 7]);
}

/// Nor does every list with an NL: 3 and 4 turn NL CR into CR NL and drop the first
/// of these, 4 drops the second one of NL CR, and both let out an NL.
#[test]
fn not_every_list_with_an_nl_shows_it() {
    assert_eq!(both_let_out(3, 4, &[NL, CR]), [NL]);
    assert_eq!(lets_out(4, &[NL, CR]), [NL]);
}

/// "state which of the eight change nothing more when used twice"
///
/// 0 gives all as it came, 1 CR alone and gives that as CR, 2 NL alone and gives
/// that as NL, 4 and 6 NL alone and give that as NL. But 3 turns NL into CR and then
/// back, and 5 and 7 turn NL into CR and then drop it.
#[test]
fn settings_that_change_nothing_more() {
    assert_eq!(change_nothing_more(), [0, 1, 2, 4, 6]);
    assert_eq!(both_let_out(3, 3, &[NL]), [NL]);
    assert_eq!(both_let_out(5, 5, &[NL]), []);
    assert_eq!(both_let_out(7, 7, &[NL]), []);
    // 6 used twice does what 6 does, though 4 is given for it.
    assert_eq!(found(6, 6), &Does(4));
    assert_eq!(both_let_out(6, 6, &[CR, NL]), lets_out(6, &[CR, NL]));
    // 3 used twice has a setting, but another one.
    assert_eq!(found(3, 3), &Does(0));
}

// ---------------------------------------------------------------------------
// Real lists through real boxes
// ---------------------------------------------------------------------------

/// What a box lets out of a list, by the frame program: a read behind each arrival.
fn by_frames(setting: u8, list: &[u8]) -> Vec<u8> {
    let mut frames = vec![settings_frame(&[(4, setting)])];
    for arrival in arrivals(list) {
        frames.extend([arrival, "02000C".to_string()]);
    }
    let reads = answers(&frames).into_iter().skip(2).step_by(2);
    let bytes = reads.map(|answer| match &answer[..] {
        "000000" => None,
        _ => {
            let byte = answer.strip_prefix("000100").expect("one character");
            Some(u8::from_str_radix(byte, 16).expect("one byte"))
        }
    });
    bytes.flatten().collect()
}

/// A CR NL CR B NL, through two boxes and through the single one.
#[test]
fn a_list_through_two_boxes() {
    let list = [0x41, CR, NL, CR, 0x42, NL];
    let rows: [(u8, u8, &[u8], Option<u8>); 12] = [
        (0, 0, &[0x41, CR, NL, CR, 0x42, NL], Some(0)),
        (3, 3, &[0x41, CR, NL, CR, 0x42, NL], Some(0)),
        (1, 2, &[0x41, NL, NL, NL, 0x42, NL], Some(2)),
        (2, 1, &[0x41, CR, CR, CR, 0x42, CR], Some(1)),
        (2, 7, &[0x41, CR, CR, CR, 0x42, CR], Some(1)),
        (0, 6, &[0x41, NL, 0x42, NL], Some(4)),
        (4, 1, &[0x41, CR, 0x42, CR], Some(5)),
        (5, 2, &[0x41, NL, 0x42, NL], Some(4)),
        (1, 4, &[0x41, 0x42], None),
        (5, 5, &[0x41, 0x42], None),
        (3, 4, &[0x41, NL, NL, 0x42], None),
        (3, 5, &[0x41, CR, CR, 0x42], None),
    ];
    for (first, second, out, setting) in rows {
        let boxes = format!("{first} {second}");
        assert_eq!(by_frames(second, &by_frames(first, &list)), out, "{boxes}");
        assert_eq!(both_let_out(first, second, &list), out, "{boxes}");
        let doing = (0..=7).find(|setting| by_frames(*setting, &list) == out);
        assert_eq!(doing, setting, "{boxes}");
    }
}

/// Every list of this length at most.
fn lists_up_to(length: usize, characters: &[u8]) -> Vec<Vec<u8>> {
    let mut lists = vec![Vec::new()];
    let mut longest = lists.clone();
    for _ in 0..length {
        let longer = longest.iter().flat_map(|list: &Vec<u8>| {
            let with = |character: &u8| [&list[..], &[*character]].concat();
            characters.iter().map(with).collect::<Vec<_>>()
        });
        longest = longer.collect();
        lists.extend(longest.clone());
    }
    lists
}

/// Lists of any length, of CR and NL above all.
fn long_lists(seed: u64) -> Vec<Vec<u8>> {
    let mut random = Random::new(seed);
    let mut lists = Vec::new();
    for length in [4, 11, 12, 13, 14, 24, 25, 26, 100, 1000] {
        let list = (0..length).map(|_| match random.below(4) {
            0 => CR,
            1 => NL,
            2 => random.one_of(&[0x0B, 0x0C, 0x8A, 0x8D, 0x4A, 0x4D, 0x16, 0x11, 0x13]),
            _ => random.byte(),
        });
        lists.push(list.collect());
    }
    lists
}

/// "acts on every list of characters as the first followed by the second"
#[test]
fn the_single_setting_does_the_work_of_both() {
    let mut lists = lists_up_to(5, &[NL, CR, 0x41]);
    lists.extend(lists_up_to(3, &[0x00, NL, CR, 0x8A, 0x8D, 0xFF]));
    lists.extend(long_lists(1));
    for (first, second, setting) in pairs() {
        for list in &lists {
            let both = both_let_out(first, second, list);
            match setting {
                Some(setting) => assert_eq!(lets_out(setting, list), both, "{first} {second}"),
                // The two boxes drop every NL, and each of the eight gives something
                // for it. Where there are CRs too, one of them may take its place.
                None if list.contains(&NL) && !list.contains(&CR) => {
                    let alike = (0..=7).find(|setting| lets_out(*setting, list) == both);
                    assert_eq!(alike, None, "{first} {second}: {list:02X?}");
                }
                None => {}
            }
        }
    }
}

/// What comes out of a list is what comes out of each of its characters, one behind
/// the other. So two boxes that do the same with all single characters do the same
/// with every list.
#[test]
fn lists_come_out_as_their_characters_do() {
    let mut lists = lists_up_to(5, &[NL, CR, 0x41]);
    lists.extend(lists_up_to(3, &[0x00, NL, CR, 0x8A, 0x8D, 0xFF]));
    lists.extend((1..20).flat_map(long_lists));
    for setting in 0..=7 {
        let singles: Vec<Vec<u8>> = (0..=255).map(|byte| lets_out(setting, &[byte])).collect();
        for list in &lists {
            let each = list.iter().map(|byte| &singles[usize::from(*byte)][..]);
            let together: Vec<u8> = each.collect::<Vec<_>>().concat();
            assert_eq!(lets_out(setting, list), together, "{setting}: {list:02X?}");
        }
    }
}

/// "CR 0D, NL 0A": of every other character the two boxes let out that character.
#[test]
fn every_other_character_comes_out_as_it_is() {
    for (first, second, _) in pairs() {
        for character in (0..=255).filter(|byte| ![CR, NL].contains(byte)) {
            assert_eq!(both_let_out(first, second, &[character]), [character]);
        }
    }
}

/// The same by the frame program, which reads behind each arrival.
#[test]
fn boxes_and_the_frame_program() {
    for list in long_lists(2) {
        for setting in 0..=7 {
            assert_eq!(lets_out(setting, &list), by_frames(setting, &list));
        }
    }
}

/// What the first box's host reads is sent on by "Line turn" as it is, for "NL sent
/// as CR NL" is off.
#[test]
fn boxes_joined_by_a_line() {
    let list = [0x41, CR, NL, CR, NL, NL, 0x42, CR];
    for (first, second, _) in pairs() {
        let mut boxes = [first, second].map(|setting| card_with(&[(4, setting)]));
        arrive(&mut boxes[0], &list);
        let read = read_all(&mut boxes[0]);
        assert_eq!(boxes[0].load(0, &read), Ok(read.len()));
        let turns = read
            .iter()
            .map(|_| boxes[0].turn(0).expect("a served turn"));
        let sent: Vec<u8> = turns.map(|byte| byte.expect("a byte sent")).collect();
        arrive(&mut boxes[1], &sent);
        let out = read_all(&mut boxes[1]);
        assert_eq!(out, both_let_out(first, second, &list), "{first} {second}");
    }
}

fn arrive(card: &mut Card, list: &[u8]) {
    for character in list {
        let fate = card.arrival(0, GOOD, *character);
        assert!(matches!(fate, Ok(Fate::Stored | Fate::LineEndingDiscarded)));
    }
}

// ---------------------------------------------------------------------------
// Refusals
// ---------------------------------------------------------------------------

/// "0 to 7", and refusal 5, "the first bad field": on either side, and on both.
#[test]
fn values_above_7_are_refused() {
    let refused = Err(Refusal::Settings { field: 4 });
    let most = u32::MAX;
    let above_7 = [
        8,
        9,
        15,
        16,
        255,
        256,
        257,
        263,
        264,
        65_536,
        65_543,
        1 << 24,
    ];
    let far_above_7 = [
        (1 << 31) - 1,
        1 << 31,
        (1 << 31) + 7,
        most - 255,
        most - 7,
        most,
    ];
    for above in [&above_7[..], &far_above_7].concat() {
        for other in [0, 1, 2, 3, 4, 5, 6, 7, 8, 255, 256, most] {
            assert_eq!(one_setting(above, other), refused, "{above} {other}");
            assert_eq!(one_setting(other, above), refused, "{other} {above}");
        }
    }
}

/// Each byte, and the card's own answer to settings with it in field 4.
#[test]
fn values_are_refused_as_settings_are() {
    for value in 0..=255 {
        let taken = answers(&[settings_frame(&[(4, value)])]);
        for (first, second) in [(value, 2), (2, value)] {
            let given = match one_setting(first.into(), second.into()) {
                Ok(_) => "00".to_string(),
                Err(Refusal::Settings { field }) => format!("05{field:02X}"),
                Err(other) => panic!("{other:?}"),
            };
            assert_eq!(taken, [given], "{value}");
        }
    }
}

/// "5 is followed by its field"
#[test]
fn the_number_of_the_refusal_and_its_field() {
    let refusal = one_setting(8, 0).expect_err("8 is above 7");
    assert_eq!(refusal.number(), 5);
    assert_eq!(number_and_field(refusal), "5 4");
    let refused = answers_after(&[], &[&settings_frame(&[(4, 8)])]);
    assert_eq!(refused, ["0504"]);
}

// ---------------------------------------------------------------------------
// The one-ending form
// ---------------------------------------------------------------------------

fn answers_of(lines: &str) -> String {
    let mut output = Vec::new();
    program(lines.as_bytes(), &mut output).expect("well-formed lines");
    String::from_utf8(output).expect("answers are text")
}

#[test]
fn answers_of_cases() {
    assert_eq!(answers_of(""), "");
    assert_eq!(answers_of("4 3"), "0 0 1 5\n");
    let lines = [
        ("0 0", "0 0 1 0"),
        ("3 3", "0 0 1 0"),
        ("1 0", "0 0 1 1"),
        ("0 7", "0 0 1 5"),
        ("6 6", "0 0 1 4"),
        ("1 4", "0 0 0 0"),
        ("7 7", "0 0 0 0"),
        ("7 8", "5 4 0 0"),
        ("8 7", "5 4 0 0"),
        ("8 8", "5 4 0 0"),
        // 1 and 4, without the bits above the lowest byte.
        ("257 260", "5 4 0 0"),
        ("256 0", "5 4 0 0"),
        ("0 2147483648", "5 4 0 0"),
        ("4294967295 4294967295", "5 4 0 0"),
        ("000000000000000000000000000004 03", "0 0 1 5"),
    ];
    let (asked, answered): (Vec<&str>, Vec<&str>) = lines.into_iter().unzip();
    assert_eq!(answers_of(&asked.join("\n")), answered.join("\n") + "\n");
}

#[test]
fn answers_of_every_pair() {
    for (first, second, setting) in pairs() {
        let expected = match setting {
            Some(setting) => format!("0 0 1 {setting}"),
            None => "0 0 0 0".to_string(),
        };
        let (first, second) = (first.into(), second.into());
        assert_eq!(Case { first, second }.answer(), expected);
    }
}

const MALFORMED: [&str; 19] = [
    "",
    " ",
    "4",
    "4 ",
    " 3",
    "4 3 ",
    " 4 3",
    "4  3",
    "4 3 2",
    "4\t3",
    "4,3",
    "4 3\r",
    "4 +3",
    "-1 3",
    "4e0 3",
    "0x4 3",
    "O 3",
    "4 4294967296",
    "18446744073709551620 3",
];

#[test]
fn malformed_lines() {
    for line in MALFORMED {
        assert_eq!(Case::of_line(line.as_bytes()), None, "{line:?}");
        let mut output = Vec::new();
        let input = format!("4 3\n{line}\n4 3\n");
        assert!(program(input.as_bytes(), &mut output).is_err(), "{line:?}");
        assert_eq!(output, b"0 0 1 5\n", "{line:?}");
    }
    assert!(program(b"4 \xFF3\n", &mut Vec::new()).is_err());
}

// ---------------------------------------------------------------------------
// The fitters' program
// ---------------------------------------------------------------------------

/// What `endings` prints.
fn printed(words: &[&[u8]]) -> String {
    let words = words.iter().map(|word| word.to_vec()).collect();
    CommandLine { words }.printed()
}

/// "With no words it prints the table of 64"
#[test]
fn no_words() {
    assert_eq!(printed(&[]), TABLE);
    let lines: Vec<&str> = TABLE.lines().collect();
    assert_eq!((lines.len(), lines[0]), (9, "  0 1 2 3 4 5 6 7"));
    assert!(lines.iter().all(|line| line.len() == 17));
    assert!(TABLE.ends_with("4 4 - - - -\n"));
}

/// "it prints the single setting as a digit and a newline, or `none` and a newline"
#[test]
fn two_words() {
    for (first, second, setting) in pairs() {
        let expected = match setting {
            Some(setting) => format!("{setting}\n"),
            None => "none\n".to_string(),
        };
        let words = [first, second].map(|word| word.to_string().into_bytes());
        assert_eq!(printed(&[&words[0], &words[1]]), expected);
    }
}

/// "One word, or more than two: nothing on standard output"
#[test]
fn another_number_of_words() {
    for words in [
        &[&b"0"[..]][..],
        &[b""],
        &[b"8"],
        &[b"4 3"],
        &[b"x"],
        &[b"4", b"3", b"2"],
        &[b"4", b"3", b""],
        &[b"", b"4", b"3"],
        &[b"8", b"x", b"-"],
    ] {
        assert_eq!(printed(words), "", "{words:?}");
    }
    for number in [1, 3, 4, 64, 65, 256, 258] {
        let words = vec![&b"1"[..]; number];
        assert_eq!(printed(&words), "", "{number}");
    }
}

/// "one or more characters 0 to 9 and nothing else; leading zeros are fine"
#[test]
fn leading_zeros() {
    assert_eq!(printed(&[b"04", b"00003"]), "5\n");
    assert_eq!(printed(&[b"00", b"000"]), "0\n");
    let zeros = "0".repeat(5000);
    let [four, three, eight] = ["4", "3", "8"].map(|digit| format!("{zeros}{digit}"));
    assert_eq!(printed(&[four.as_bytes(), three.as_bytes()]), "5\n");
    assert_eq!(printed(&[zeros.as_bytes(), four.as_bytes()]), "4\n");
    assert_eq!(printed(&[eight.as_bytes(), b"3"]), "refused 5 4\n");
    assert_eq!(printed(&[b"008", b"3"]), "refused 5 4\n");
    // Nothing here is read with eight as its base.
    assert_eq!(printed(&[b"3", b"010"]), "refused 5 4\n");
}

/// Words that are no decimal number, or a number above 7.
const BAD_WORDS: [&[u8]; 50] = [
    b"",
    b" ",
    b"\n",
    b"+",
    b"-",
    b"+3",
    b"-0",
    b"-3",
    b" 3",
    b"3 ",
    b"3\n",
    b"3\r",
    b"\t3",
    b"3 3",
    b"0x3",
    b"3e0",
    b"3.0",
    b"0_3",
    b"/",
    b":",
    b"3/",
    b":3",
    b"a",
    b"F",
    b"O",
    b"none",
    b"\x03",
    b"\xFF",
    b"\xB3",
    // 3 in the wide digits of another script, and raised.
    b"\xEF\xBC\x93",
    b"\xC2\xB3",
    b"8",
    b"9",
    b"08",
    b"10",
    b"13",
    b"30",
    b"255",
    b"256",
    // 3 with 2^8, 2^16, 2^31, 2^32, 2^63, 2^64 and 2^128 more.
    b"259",
    b"65539",
    b"2147483651",
    b"4294967299",
    b"9223372036854775811",
    b"18446744073709551619",
    b"340282366920938463463374607431768211459",
    b"4294967295",
    b"4294967296",
    b"18446744073709551615",
    b"18446744073709551616",
];

/// "it prints `refused 5 4` and a newline"
#[test]
fn bad_words() {
    for word in BAD_WORDS {
        let name = word.escape_ascii();
        for other in [&b"0"[..], b"2", b"4", b"7", b"007", b"8", b"", word] {
            assert_eq!(printed(&[word, other]), "refused 5 4\n", "{name}");
            assert_eq!(printed(&[other, word]), "refused 5 4\n", "{name}");
        }
    }
    for long in ["3".repeat(300), format!("1{:0300}", 3), "x".repeat(5000)] {
        assert_eq!(printed(&[long.as_bytes(), b"3"]), "refused 5 4\n");
        assert_eq!(printed(&[b"3", long.as_bytes()]), "refused 5 4\n");
    }
}

// ---------------------------------------------------------------------------
// The ending-lines form
// ---------------------------------------------------------------------------

fn hexadecimal(bytes: &[u8]) -> String {
    bytes.iter().map(|byte| format!("{byte:02X}")).collect()
}

/// "`-` standing for an empty word, and an empty line for no words at all", "or `-`
/// where it writes nothing there"
#[test]
fn answers_of_command_lines() {
    // 4 and 3; 1 and 4; 3 and an empty word; the character - and 3; 4 alone; an empty
    // word alone; three words; no words; 04 and 3 without a newline behind it.
    let lines = "34 33\n31 34\n33 -\n2D 33\n34\n-\n34 33 -\n\n3034 33";
    let mut output = Vec::new();
    ending_lines::program(lines.as_bytes(), &mut output).expect("well-formed lines");
    let refused = hexadecimal(b"refused 5 4\n");
    let table = hexadecimal(TABLE.as_bytes());
    let expected = [
        "350A",
        "6E6F6E650A",
        &refused,
        &refused,
        "-",
        "-",
        "-",
        &table,
        "350A",
    ];
    let expected = expected.join("\n") + "\n";
    assert_eq!(String::from_utf8(output).expect("hexadecimal"), expected);
    for (input, lines) in [("", 0), ("\n", 1), ("\n\n", 2)] {
        let mut output = Vec::new();
        ending_lines::program(input.as_bytes(), &mut output).expect("well-formed lines");
        assert_eq!(output, format!("{table}\n").repeat(lines).as_bytes());
    }
}

const MALFORMED_COMMAND_LINES: [&str; 14] = [
    " ", "  ", "30 ", " 30", "30  30", "3", "300", "3G", "2b", "--", "30 3-", "30\t30", "00",
    "30 3900",
];

#[test]
fn malformed_command_lines() {
    for line in MALFORMED_COMMAND_LINES {
        let of_line = CommandLine::of_line(line.as_bytes());
        assert_eq!(of_line, None, "{line:?}");
        let mut output = Vec::new();
        let input = format!("34 33\n{line}\n34 33\n");
        assert!(ending_lines::program(input.as_bytes(), &mut output).is_err());
        assert_eq!(output, b"350A\n", "{line:?}");
    }
}

// ---------------------------------------------------------------------------
// The command line
// ---------------------------------------------------------------------------

#[test]
fn the_command_line() {
    let served = run(&["one-ending"], b"4 3\n1 4\n8 0");
    assert_eq!(served.stdout, b"0 0 1 5\n0 0 0 0\n5 4 0 0\n");
    assert_eq!((served.status.code(), served.stderr.len()), (Some(0), 0));
    let malformed = run(&["one-ending"], b"4 3\n1234\n4 3\n");
    assert_eq!(malformed.status.code(), Some(1));
    assert_eq!(malformed.stdout, b"0 0 1 5\n");
    assert!(String::from_utf8_lossy(&malformed.stderr).contains("1234"));

    let served = run(&["ending-lines"], b"34 33\n34\n");
    assert_eq!(served.stdout, b"350A\n-\n");
    assert_eq!((served.status.code(), served.stderr.len()), (Some(0), 0));
    let malformed = run(&["ending-lines"], b"34 33\n34 4\n34 33\n");
    assert_eq!(malformed.status.code(), Some(1));
    assert_eq!(malformed.stdout, b"350A\n");
    assert!(String::from_utf8_lossy(&malformed.stderr).contains("34 4"));

    for mode in ["one-ending", "ending-lines"] {
        assert_eq!(run(&[mode], b"").stdout, b"");
        assert_eq!(run(&[mode, "more"], b"").status.code(), Some(1));
    }
}

#[test]
fn the_command_line_of_the_generators() {
    use reference::generate::{ending_pairs, ending_words};
    for mode in ["generate-ending-pairs", "generate-ending-words"] {
        assert_eq!(run(&[mode, "1"], b"").status.code(), Some(1));
        assert_eq!(run(&[mode, "1", "x"], b"").status.code(), Some(1));
        assert_eq!(run(&[mode, "1", "2", "3"], b"").status.code(), Some(1));
    }
    let cases = run(&["generate-ending-pairs", "3", "2500"], b"").stdout;
    assert_eq!(cases, ending_pairs::cases(3, 2500));
    let lines = run(&["generate-ending-words", "3", "1500"], b"").stdout;
    assert_eq!(lines, ending_words::command_lines(3, 1500));
    let unknown = run(&["generate-endings", "1", "2"], b"");
    assert_eq!(unknown.status.code(), Some(1));
    assert!(String::from_utf8_lossy(&unknown.stderr).contains("generate-ending-words"));
}
