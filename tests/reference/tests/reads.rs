//! Reads into lent buffers of any length and place: the paper's sentences,
//! each as a small check, and the lines of the form.

mod command;

use command::run;
use reference::reads::{program, Call};

/// The fresh settings but for field 1: "4 mark".
const MARK: &str = "S 040100000000000100001113000016";
/// The same with field 3: "strip to seven bits".
const MARK_AND_STRIP: &str = "S 040101000000000100001113000016";
/// The same as the first with line endings 3: CR gives NL, NL gives CR.
const MARK_AND_ENDINGS: &str = "S 040100030000000100001113000016";

/// The answers, one string for each line.
fn answers(lines: &[&str]) -> Vec<String> {
    let mut output = Vec::new();
    program(lines.join("\n").as_bytes(), &mut output).expect("well-formed lines");
    let text = String::from_utf8(output).expect("answers are text");
    text.lines().map(String::from).collect()
}

/// The answers to the later lines only.
fn answers_after(first: &[&str], later: &[&str]) -> Vec<String> {
    let answers = answers(&[first, later].concat());
    answers[first.len()..].to_vec()
}

/// Twelve arrivals of "damaged 41", whose images take 36 bytes.
fn twelve_damaged() -> Vec<&'static str> {
    [vec![MARK], vec!["A 01 41"; 12]].concat()
}

/// Twelve arrivals of "good 41", whose images take 12 bytes.
fn twelve_plain() -> Vec<&'static str> {
    [vec![MARK], vec!["A 00 41"; 12]].concat()
}

/// One more. Request a: "A loss now happens at thirteen".
fn full_of_plain() -> Vec<&'static str> {
    [twelve_plain(), vec!["A 00 41"]].concat()
}

/// Bytes of a buffer that stayed as they were lent.
fn stayed(number: usize) -> String {
    "A5".repeat(number)
}

/// "Read 12 into 36 bytes is served, into 35 refused (4)"
#[test]
fn read_12_into_36_bytes_is_served_into_35_refused() {
    let reads = ["R 12 35 0", "R 12 36 0", "R 12 36 0"];
    assert_eq!(
        answers_after(&twelve_damaged(), &reads),
        [
            format!("04 {}", stayed(35)),
            format!("00 12 0 36 {}", "FF0041".repeat(12)),
            format!("00 0 0 0 {}", stayed(36)),
        ]
    );
    // "fewer than 3n bytes": the images that wait would fit, but don't count.
    assert_eq!(
        answers_after(&twelve_plain(), &reads[..2]),
        [
            format!("04 {}", stayed(35)),
            format!("00 12 0 12 {}{}", "41".repeat(12), stayed(24)),
        ]
    );
    assert_eq!(
        answers(&reads[..2]),
        [
            format!("04 {}", stayed(35)),
            format!("00 0 0 0 {}", stayed(36))
        ]
    );
}

/// The same from a place on: only the bytes from there to the end are room.
#[test]
fn room_is_counted_from_the_place() {
    for place in [1, 2, 11, 12] {
        let short = format!("R 12 {} {place}", place + 35);
        let enough = format!("R 12 {} {place}", place + 36);
        let more = format!("R 0 {} {place}", place + 37);
        assert_eq!(
            answers_after(&twelve_damaged(), &[&short, &enough, &more]),
            [
                format!("04 {}", stayed(place + 35)),
                format!("00 12 0 36 {}{}", stayed(place), "FF0041".repeat(12)),
                format!("00 0 0 0 {}", stayed(place + 37)),
            ]
        );
    }
    assert_eq!(
        answers_after(&["A 00 41"], &["R 1 10 8", "R 1 10 7"]),
        [
            format!("04 {}", stayed(10)),
            format!("00 1 0 1 {}41{}", stayed(7), stayed(2))
        ]
    );
}

/// "read 0 at the very end of a buffer is served"
#[test]
fn read_0_at_the_very_end_of_a_buffer_is_served() {
    assert_eq!(answers(&["R 0 0 0"]), ["00 0 0 0 -"]);
    for length in 1..=48 {
        let at_the_end = format!("R 0 {length} {length}");
        let one_at_the_end = format!("R 1 {length} {length}");
        assert_eq!(
            answers_after(&["A 00 41"], &[&at_the_end, &one_at_the_end, "R 1 3 0"]),
            [
                format!("00 0 0 0 {}", stayed(length)),
                format!("04 {}", stayed(length)),
                "00 1 0 1 41A5A5".to_string(),
            ]
        );
    }
}

/// "or the place beyond the end": a read of nothing too.
#[test]
fn a_place_beyond_the_end_is_refused() {
    let farthest = usize::MAX;
    for (length, place) in [(0, 1), (7, 8), (7, 9), (48, 49), (48, 52), (36, farthest)] {
        for n in [0, 1, 12] {
            let beyond = format!("R {n} {length} {place}");
            let buffer = if length == 0 {
                "-".to_string()
            } else {
                stayed(length)
            };
            assert_eq!(
                answers_after(&["A 00 41"], &[&beyond, "R 1 3 0"]),
                [format!("04 {buffer}"), "00 1 0 1 41A5A5".to_string()],
                "{beyond}"
            );
        }
    }
}

/// "more than 12 asked" is refusal 3, and "Lower numbers first": before 4.
#[test]
fn more_than_12_asked_comes_before_4() {
    for n in [13, 14, 16, 255, 256, 268, 300, usize::MAX] {
        for (length, place) in [(48, 0), (39, 0), (36, 0), (5, 5), (5, 6), (1, usize::MAX)] {
            let read = format!("R {n} {length} {place}");
            assert_eq!(
                answers_after(&["A 00 41"], &[&read, "R 12 36 0"]),
                [
                    format!("03 {}", stayed(length)),
                    format!("00 1 0 1 41{}", stayed(35))
                ],
                "{read}"
            );
        }
        assert_eq!(answers(&[&format!("R {n} 0 0")]), ["03 -"]);
    }
}

/// "Everything before the place and after the last written byte stays."
#[test]
fn everything_before_the_place_and_after_the_last_written_byte_stays() {
    let arrivals = [MARK, "A 00 41", "A 00 FF", "A 02 C1", "A 03 41", "A 00 A5"];
    // n, and the images of the oldest n items.
    let rows = [
        (0, ""),
        (1, "41"),
        (2, "41FFFF"),
        (3, "41FFFFFF00C1"),
        (4, "41FFFFFF00C1FF0000"),
        (5, "41FFFFFF00C1FF0000A5"),
        (12, "41FFFFFF00C1FF0000A5"),
    ];
    for (n, images) in rows {
        let bytes = images.len() / 2;
        let characters = n.min(5);
        for (place, more) in [(0, 0), (0, 1), (1, 0), (5, 2), (9, 3)] {
            let length = place + 3 * n + more;
            let after = length - place - bytes;
            let buffer = [&stayed(place), images, &stayed(after)].concat();
            let buffer = if buffer.is_empty() { "-" } else { &buffer };
            assert_eq!(
                answers_after(&arrivals, &[&format!("R {n} {length} {place}")]),
                [format!("00 {characters} 0 {bytes} {buffer}")]
            );
        }
    }
}

/// "removes the oldest min(n, waiting) items"
#[test]
fn reads_in_parts_give_the_items_in_order() {
    let arrivals = [MARK, "A 00 41", "A 00 FF", "A 02 C1", "A 03 41", "A 00 42"];
    assert_eq!(
        answers_after(&arrivals, &["R 2 7 1", "R 2 6 0", "R 2 6 0", "R 2 6 0"]),
        [
            "00 2 0 3 A541FFFFA5A5A5",
            "00 2 0 6 FF00C1FF0000",
            "00 1 0 1 42A5A5A5A5A5",
            "00 0 0 0 A5A5A5A5A5A5",
        ]
    );
}

/// "A refusal changes nothing, and a refused read asks for nothing."
#[test]
fn a_refused_read_removes_nothing() {
    let mut full = full_of_plain();
    full.push("A 00 42");
    let refused = ["R 12 35 0", "R 13 48 0", "R 0 3 4", "R 12 48 13", "R 1 2 0"];
    let first = [&full[..], &refused].concat();
    let reads = ["R 12 36 0", "R 12 36 0"];
    let served = answers_after(&first, &reads);
    assert_eq!(served, answers_after(&full, &reads));
    assert_eq!(
        served,
        [
            format!("00 12 0 12 {}{}", "41".repeat(12), stayed(24)),
            format!("00 1 1 1 41{}", stayed(35)),
        ]
    );
}

/// "how many had the overrun flag"; "the newest waiting item gets the overrun
/// flag"
#[test]
fn flags_are_counted_with_the_characters_removed() {
    let mut first = full_of_plain();
    first.extend([
        "A 00 42", "A 00 42", "R 2 6 0", "A 00 43", "A 00 44", "A 00 45",
    ]);
    let reads = ["R 10 30 0", "R 1 3 0", "R 1 3 0", "R 1 3 0", "R 1 3 0"];
    let answers = answers_after(&first, &reads);
    assert!(answers[0].starts_with("00 10 0 10 41"));
    assert_eq!(
        answers[1..],
        [
            "00 1 1 1 41A5A5",
            "00 1 0 1 43A5A5",
            "00 1 1 1 44A5A5",
            "00 0 0 0 A5A5A5",
        ]
    );
}

/// "Storing a good FF in mark mode makes a doubled item"; "damaged b,
/// unstripped"; "one lookup and no second one"; "later settings don't alter
/// it".
#[test]
fn images_of_arrivals_under_several_settings() {
    let lines = [
        MARK_AND_STRIP,
        "A 00 FF",
        "A 01 FF",
        MARK_AND_ENDINGS,
        "A 00 FF",
        "A 00 0D",
        "A 00 0A",
        "A 02 0D",
        "S 010100000000000100001113000016",
        "A 00 FF",
        "A 03 FF",
    ];
    let images = "7FFF00FFFFFF0A0DFF000DFF00";
    assert_eq!(
        answers_after(&lines, &["R 8 26 2", "R 8 26 1"]),
        [
            format!("00 8 0 13 {}{images}{}", stayed(2), stayed(11)),
            format!("00 0 0 0 {}", stayed(26)),
        ]
    );
}

#[test]
fn answers_of_arrivals_and_settings() {
    let lines = [
        "A 00 41",
        "A 04 41",
        "A FF 41",
        "A 03 00",
        "S -",
        "S 0101000000000001000011130000",
        "S 01010000000000010000111300001600",
        "S 000100000000000100001113000016",
        "S 0101000000000001000211130000FF",
        "S 010100000100000100001111000016",
        "S 010100000200010100001113000013",
        "S 020000040200000100001113000016",
        "A 00 11",
        "A 02 41",
        "A 03 00",
        "A 00 0D",
    ];
    let expected = [
        "00 0", "02", "02", "00 0", "05 00", "05 00", "05 00", "05 01", "05 0A", "05 0C", "05 0F",
        "00", "00 1", "00 3", "00 4", "00 5",
    ];
    assert_eq!(answers(&lines), expected);
    assert_eq!(answers_after(&full_of_plain(), &["A 00 41"]), ["00 2"]);
    assert_eq!(answers(&[]), [""; 0]);
}

const MALFORMED: [&str; 32] = [
    "",
    " ",
    "A",
    "A 00",
    "A 0 41",
    "A 00 4",
    "A 00 041",
    "A 00 4G",
    "A +0 41",
    "A 00 41 ",
    " A 00 41",
    "A  00 41",
    "A 00 41 00",
    "a 00 41",
    "A 00 41\r",
    "S",
    "S ",
    "S 0",
    "S 0G",
    "S 0a",
    "S 01 01",
    "S --",
    "R 1 3",
    "R 1 3 0 0",
    "R 1 3 -1",
    "R 1 3 +1",
    "R 1 3 0x0",
    "R 1 3 A",
    "R 1 3 ",
    "R 1 3 99999999999999999999999",
    "R  3 0",
    "X 1",
];

#[test]
fn malformed_lines() {
    for line in MALFORMED {
        assert_eq!(Call::of_line(line.as_bytes()), None, "{line:?}");
        let mut output = Vec::new();
        let input = format!("A 00 41\n{line}\nA 00 42\n");
        assert!(program(input.as_bytes(), &mut output).is_err(), "{line:?}");
        assert_eq!(output, b"00 0\n", "{line:?}");
    }
    assert!(program(b"A 00 \xFF1\n", &mut Vec::new()).is_err());
}

#[test]
fn the_command_line() {
    let served = run(&["reads"], b"A 00 41\nR 1 4 1");
    assert_eq!(served.stdout, b"00 0\n00 1 0 1 A541A5A5\n");
    assert_eq!((served.status.code(), served.stderr.len()), (Some(0), 0));

    let malformed = run(&["reads"], b"A 00 41\nR 1 4\nA 00 41\n");
    assert_eq!(malformed.status.code(), Some(1));
    assert_eq!(malformed.stdout, b"00 0\n");
    assert!(String::from_utf8_lossy(&malformed.stderr).contains("R 1 4"));

    assert_eq!(run(&["reads", "more"], b"").status.code(), Some(1));
    assert_eq!(run(&["generate-reads", "1"], b"").status.code(), Some(1));
    assert_eq!(run(&["reads"], b"").stdout, b"");
    let trace = run(&["generate-reads", "1", "500"], b"").stdout;
    assert_eq!(trace, reference::generate::reads::trace(1, 500));
}
