//! The generators of request n, "Confirmations": what their streams come to. The
//! runs are told apart here once more, by a form that shows them as text.

mod shared;

use reference::confirmations::{listing, Case};
use reference::generate::confirmations::{cases, long_stream};
use reference::stream::{read_stream, StreamRefusal};
use shared::Tally;
use std::collections::BTreeMap;
use std::sync::OnceLock;

const CASES: usize = 20_000;
const STX: u8 = 0x02;
const ETX: u8 = 0x03;

fn cases_of(seed: u64, lines: usize) -> Vec<Case> {
    let input = cases(seed, lines);
    let lines = input.split(|byte| *byte == 0x0A);
    lines.filter_map(Case::of_line).collect()
}

/// The cases that most of these tests look at.
fn many_cases() -> &'static [Case] {
    static MANY: OnceLock<Vec<Case>> = OnceLock::new();
    MANY.get_or_init(|| cases_of(1, CASES))
}

#[test]
fn cases_have_the_lines_asked_for() {
    assert_eq!(cases(1, 0), b"");
    for seed in 0..20 {
        let input = cases(seed, 300);
        assert_eq!(input, cases(seed, 300));
        assert!(cases(seed, 400).starts_with(&input));
        assert_eq!(input.last(), Some(&0x0A));
        // Each line is well-formed, and is the line of its case.
        let cases = cases_of(seed, 300);
        let lines: Vec<Vec<u8>> = cases.iter().map(Case::line).collect();
        assert_eq!(cases.len(), 300);
        assert_eq!([&lines.join(&0x0A)[..], b"\n"].concat(), input);
    }
    assert_ne!(cases(1, 300), cases(2, 300));
}

// ---------------------------------------------------------------------------
// Streams as text
// ---------------------------------------------------------------------------

/// The characters as text, a letter for each: digits and spaces as they are,
/// `(` and `)` for STX and ETX, `[` and `]` for damaged ones of these, `d` for
/// other damaged characters, `F` for a good FF, `/` and `:` for the neighbours
/// of the digits, `h` for others above 7F, and `x` for what is left.
fn text_of(stream: &[u8]) -> Result<String, StreamRefusal> {
    let mut sorts = vec![0; stream.len()];
    let mut bytes = vec![0; stream.len()];
    let number = read_stream(stream, &mut sorts, &mut bytes)?;
    let characters = sorts.iter().zip(&bytes).take(number);
    let letters = characters.map(|(sort, byte)| match (sort, *byte) {
        (0, STX) => '(',
        (0, ETX) => ')',
        (1, STX) => '[',
        (1, ETX) => ']',
        (1, _) => 'd',
        (_, 0xFF) => 'F',
        (_, byte @ (b'0'..=b'9' | b' ' | b'/' | b':')) => char::from(byte),
        (_, 0x80..) => 'h',
        _ => 'x',
    });
    Ok(letters.collect())
}

/// The runs, each from behind its STX up to the next ETX or STX, with the `)` or
/// `(` there, or to the end.
fn runs_of(text: &str) -> Vec<String> {
    let parts: Vec<&str> = text.split('(').skip(1).collect();
    let mut runs = Vec::new();
    for (at, part) in parts.iter().enumerate() {
        runs.push(match part.find(')') {
            Some(end) => part[..=end].to_string(),
            None if at + 1 < parts.len() => format!("{part}("),
            None => part.to_string(),
        });
    }
    runs
}

/// All runs of the whole streams among the cases.
fn runs() -> &'static [String] {
    static RUNS: OnceLock<Vec<String>> = OnceLock::new();
    RUNS.get_or_init(|| {
        let streams = many_cases().iter().map(|case| &case.stream);
        let texts = streams.filter_map(|stream| text_of(stream).ok());
        texts.flat_map(|text| runs_of(&text)).collect()
    })
}

/// The same text, but every digit is a 9.
fn shape_of(text: &str) -> String {
    text.replace(|letter: char| letter.is_ascii_digit(), "9")
}

/// How often each shape of a run comes.
fn shapes() -> Tally {
    let mut tally = Tally::new();
    for run in runs() {
        *tally.entry(shape_of(run)).or_default() += 1;
    }
    tally
}

/// Each shape, and how often it comes at least.
fn assert_shapes(tally: &Tally, least: usize, shapes: &[&str]) {
    for shape in shapes {
        let often = tally.get(*shape).copied().unwrap_or(0);
        assert!(often > least, "{shape:?}: {often}");
    }
}

/// "a four-digit number, a space, one to six digits of litres", and what is not.
#[test]
fn runs_have_every_count_of_digits() {
    let tally = shapes();
    for digits in 1..=6 {
        let shape = format!("9999 {})", "9".repeat(digits));
        assert_shapes(&tally, 1500, &[&shape]);
    }
    assert_shapes(&tally, 1000, &["9999 )", "9999 9999999)"]);
    assert_shapes(&tally, 300, &["9999 99999999)"]);
    assert_shapes(&tally, 1000, &["999 999999)", "99999 999999)"]);
    assert_shapes(
        &tally,
        50,
        &["999 9)", "999 999)", "99999 9)", "99999 999)"],
    );
    assert_shapes(&tally, 10, &[" 9)", " 999999)", "999999 999999)"]);
    let many = |run: &&String| run.len() > 256 && run.ends_with(')');
    assert!(tally.keys().filter(many).count() > 10);
}

#[test]
fn runs_have_other_spaces_and_strange_characters() {
    let tally = shapes();
    let no_space = ["99999)", "999999)", "9999999999)"];
    assert_shapes(&tally, 100, &no_space);
    let two_spaces = ["9999  9)", "9999  999999)", "9999 9 )", " 9999 9)"];
    assert_shapes(&tally, 50, &two_spaces);
    let moved = ["999 99)", "999 9999999)", "99999 99999)", " 9999 999999)"];
    assert_shapes(&tally, 50, &moved);
    assert_shapes(
        &tally,
        100,
        &["9999x999999)", "9999F999999)", "9999h999999)"],
    );
    for (strange, least) in [('/', 20), (':', 20), ('x', 20), ('h', 20), ('F', 5)] {
        for place in [0, 3, 5, 10] {
            let mut shape = "9999 999999)".to_string();
            shape.replace_range(place..=place, &strange.to_string());
            assert_shapes(&tally, least, &[&shape]);
        }
    }
    assert_shapes(&tally, 200, &[")", " )", "9999)"]);
}

fn is_damaged(run: &str) -> bool {
    run.contains(['[', ']', 'd'])
}

/// "One that holds a damaged character", finished, abandoned and unfinished.
#[test]
fn runs_hold_damaged_characters() {
    let count = |wanted: fn(&str) -> bool| runs().iter().filter(|run| wanted(run)).count();
    assert!(count(|run| is_damaged(run) && run.ends_with(')')) > 20_000);
    assert!(count(|run| is_damaged(run) && run.ends_with('(')) > 2000);
    assert!(count(|run| is_damaged(run) && !run.ends_with(['(', ')'])) > 200);
    assert!(count(|run| run.contains('[') && run.ends_with(')')) > 2000);
    assert!(count(|run| run.contains(']') && run.ends_with(')')) > 2000);
    assert!(count(|run| run.ends_with("])")) > 500);
    assert!(count(|run| run.starts_with('[')) > 200);
    assert!(count(|run| is_damaged(run) && run.contains('F')) > 200);
    // Every place of a confirmation is damaged, or has a damaged one before it.
    let tally = shapes();
    for place in 0..=11 {
        let mut shape = "9999 999999)".to_string();
        shape.insert(place, 'd');
        assert_shapes(&tally, 20, &[&shape]);
        if place < 11 {
            shape.remove(place + 1);
            assert_shapes(&tally, 50, &[&shape]);
        }
    }
}

/// "a new good STX abandons an unfinished one": STX or ETX lost or doubled.
#[test]
fn runs_are_abandoned_and_unfinished() {
    let tally = shapes();
    assert_shapes(&tally, 1000, &["(", "9999 999999("]);
    assert_shapes(&tally, 500, &["9999 999999](", "9999 999999h("]);
    assert_shapes(&tally, 200, &["9(", "9999(", "9999 (", "9999 9("]);
    assert_shapes(&tally, 100, &["", "9999", "9999 ", "9999 999999"]);
    // In the rest of a confirmation STX stands in the middle.
    assert_shapes(&tally, 20, &["9 999999)", " 999999)", "99 9)", "999999)"]);
}

/// What stands before the first STX, and behind each ETX up to the next STX.
fn outside(text: &str) -> Vec<&str> {
    let mut parts = text.split('(');
    let before = parts.next();
    let behind = parts.filter_map(|part| part.split_once(')'));
    before
        .into_iter()
        .chain(behind.map(|(_, outside)| outside))
        .collect()
}

/// What is no part of any run: noise, and confirmations without their STX.
#[test]
fn much_stands_outside_the_runs() {
    let letters = [')', '[', ']', 'd', 'F', 'h', 'x', ' ', '9'];
    let mut tally = Tally::new();
    for case in many_cases() {
        let text = text_of(&case.stream).unwrap_or_default();
        for shape in outside(&shape_of(&text)) {
            for letter in letters.iter().filter(|letter| shape.contains(**letter)) {
                *tally.entry(format!("holds {letter}")).or_default() += 1;
            }
            *tally.entry(shape.to_string()).or_default() += 1;
        }
    }
    for letter in letters {
        assert_shapes(&tally, 1000, &[&format!("holds {letter}")]);
    }
    // STX is lost, damaged, or has its highest bit.
    let lost = ["9999 999999)", "[9999 999999)", "h9999 999999)"];
    assert_shapes(&tally, 500, &lost);
}

/// Leading zeros, only zeros, the least and the most.
#[test]
fn runs_have_every_sort_of_litres() {
    let mut tally = Tally::new();
    for run in runs() {
        let Some((number, litres)) = run.split_once(' ') else {
            continue;
        };
        *tally.entry(format!("{number} ")).or_default() += 1;
        *tally.entry(litres.to_string()).or_default() += 1;
    }
    assert_shapes(&tally, 1000, &["0)", "00)", "000000)", "999999)"]);
    assert_shapes(&tally, 100, &["1)", "9)", "01)", "0999999)", "00999999)"]);
    assert_shapes(&tally, 1000, &["0000 ", "0001 ", "9998 ", "9999 "]);
    assert_shapes(&tally, 20, &["00000 ", "000 ", "999 ", "09999 "]);
}

// ---------------------------------------------------------------------------
// Answers
// ---------------------------------------------------------------------------

/// The entries of a stream, in the listing's words.
fn entries(stream: &[u8]) -> Vec<Vec<String>> {
    let listing = listing(stream);
    let mut lines: Vec<&str> = listing.lines().collect();
    lines.pop();
    let words = |line: &&str| line.split(' ').map(str::to_string).collect();
    lines.iter().map(words).collect()
}

/// Each judgement is common, behind each of the four.
#[test]
fn every_judgement_follows_every_judgement() {
    let mut tally = Tally::new();
    for case in many_cases() {
        let entries = entries(&case.stream);
        for pair in entries.windows(2) {
            let name = format!("{} {}", pair[0][1], pair[1][1]);
            *tally.entry(name).or_default() += 1;
        }
        for entry in entries {
            *tally.entry(entry[1].clone()).or_default() += 1;
        }
    }
    let judgements = ["accepted", "gap", "repeated", "aside"];
    assert_shapes(&tally, 15_000, &judgements);
    for first in judgements {
        for second in judgements {
            assert_shapes(&tally, 2000, &[&format!("{first} {second}")]);
        }
    }
}

/// "0000 follows 9999", the other way round, and a number that comes again.
#[test]
fn numbers_follow_each_other_in_every_way() {
    let mut tally = BTreeMap::new();
    for case in many_cases() {
        let mut accepted = entries(&case.stream);
        accepted.retain(|entry| ["accepted", "gap"].contains(&&entry[1][..]));
        for pair in accepted.windows(2) {
            let numbers = format!("{} {}", pair[0][2], pair[1][2]);
            *tally.entry((numbers, pair[1][1].clone())).or_insert(0) += 1;
        }
        for three in accepted
            .windows(3)
            .filter(|three| three[0][2] == three[2][2])
        {
            let name = ("again".to_string(), three[2][1].clone());
            *tally.entry(name).or_insert(0) += 1;
        }
    }
    let rows = [
        ("9998 9999", "accepted", 500),
        ("9999 0000", "accepted", 500),
        ("0000 0001", "accepted", 500),
        ("0000 9999", "gap", 200),
        ("9999 0001", "gap", 100),
        ("9998 0000", "gap", 100),
        ("0001 0000", "gap", 100),
        ("again", "gap", 1000),
    ];
    for (numbers, judgement, least) in rows {
        let often = tally.get(&(numbers.to_string(), judgement.to_string()));
        assert!(often > Some(&least), "{numbers}, {judgement}: {often:?}");
    }
}

/// What is met by a case: its answer, how many entries there are (before a broken
/// mark), and how long the slices are.
fn met(case: &Case) -> Vec<String> {
    let answer = case.answer()[..2].to_string();
    let entries = entries(&case.stream).len();
    let shortest = *case.lengths.iter().min().expect("four lengths");
    let short = case.lengths.iter().filter(|length| **length < entries);
    let all_the_same = case.lengths == [shortest; 4];
    let mut met = vec![answer.clone()];
    let mut note = |name: &str, found: bool| {
        if found {
            met.push(format!("{answer}: {name}"));
        }
    };
    note(
        "all just filled",
        entries > 0 && case.lengths == [entries; 4],
    );
    note(
        "one just filled",
        entries > 0 && !all_the_same && shortest == entries,
    );
    note("all have more", shortest > entries);
    note("nothing and no places", entries == 0 && shortest == 0);
    note(
        "all have one fewer",
        all_the_same && shortest + 1 == entries,
    );
    note("no places", all_the_same && shortest == 0);
    note("too few places", shortest < entries);
    let one_short = short.count() == 1 && shortest + 1 == entries;
    for (slice, length) in case.lengths.iter().enumerate() {
        let name = format!("slice {slice} has one fewer");
        note(&name, one_short && *length == shortest);
    }
    note(&format!("{entries} entries"), true);
    met
}

#[test]
fn lists_are_long_enough_just_filled_and_too_short() {
    let mut tally = Tally::new();
    for name in many_cases().iter().flat_map(met) {
        *tally.entry(name).or_default() += 1;
    }
    assert_shapes(&tally, 14_000, &["00"]);
    assert_shapes(&tally, 1500, &["08", "16"]);
    assert_shapes(
        &tally,
        2000,
        &["00: all just filled", "00: one just filled"],
    );
    assert_shapes(&tally, 1000, &["00: all have more"]);
    assert_shapes(&tally, 50, &["00: nothing and no places"]);
    assert_shapes(&tally, 200, &["16: all have one fewer", "16: no places"]);
    // "Lower numbers first": 8 where there would be 16 too.
    assert_shapes(&tally, 200, &["08: too few places"]);
    for slice in 0..4 {
        let name = format!("16: slice {slice} has one fewer");
        assert_shapes(&tally, 100, &[&name]);
    }
    for entries in 0..=20 {
        assert_shapes(&tally, 50, &[&format!("00: {entries} entries")]);
    }
    assert!(!tally.contains_key("00: too few places"));
}

#[test]
fn streams_are_short_and_long() {
    let lengths: Vec<usize> = many_cases().iter().map(|case| case.stream.len()).collect();
    let among = |least, most| {
        let chosen = lengths
            .iter()
            .filter(|length| (least..=most).contains(*length));
        chosen.count()
    };
    assert!(among(0, 0) > 200 && among(1, 10) > 300 && among(390, 400) > 100);
    assert_eq!(among(0, 420), CASES);
}

/// What an offending FF stands before, and whether a run was unfinished there.
#[test]
fn streams_are_broken_in_every_way() {
    let mut tally = Tally::new();
    for Case { stream, .. } in many_cases() {
        let Err(StreamRefusal::Broken { place }) = text_of(stream) else {
            continue;
        };
        let way = match stream[place + 1..] {
            [] => "cut off behind FF",
            [0x00] => "cut off behind FF 00",
            [STX, ..] => "before STX",
            [ETX, ..] => "before ETX",
            [b'0'..=b'9', ..] => "before a digit",
            _ => "before another byte",
        };
        *tally.entry(way.to_string()).or_default() += 1;
        let front = text_of(&stream[..place]).expect("the first one is named");
        if runs_of(&front)
            .last()
            .is_some_and(|run| !run.ends_with(')'))
        {
            *tally.entry("in a run".to_string()).or_default() += 1;
        }
    }
    let often = ["cut off behind FF", "cut off behind FF 00", "before STX"];
    assert_shapes(&tally, 300, &often);
    let ways = ["before ETX", "before a digit", "before another byte"];
    assert_shapes(&tally, 30, &ways);
    assert_shapes(&tally, 300, &["in a run"]);
}

// ---------------------------------------------------------------------------
// Long streams
// ---------------------------------------------------------------------------

#[test]
fn long_streams_have_the_bytes_asked_for() {
    for bytes in [0, 1, 100, 20_000] {
        for seed in 0..40 {
            let stream = long_stream(seed, bytes);
            assert_eq!(stream, long_stream(seed, bytes));
            assert!((bytes..bytes + 600).contains(&stream.len()));
            let broken = match text_of(&stream) {
                Err(StreamRefusal::Broken { place }) => Some(place),
                _ => None,
            };
            assert_eq!(broken.is_some(), seed % 5 == 0, "seed {seed}");
            // In the last quarter; some hundred bytes are too few to tell it.
            if let (Some(place), 20_000) = (broken, bytes) {
                assert!(4 * place >= 3 * stream.len(), "seed {seed}");
            }
        }
    }
    assert_ne!(long_stream(1, 1000), long_stream(2, 1000));
}

/// With more than 16 bits of places and more than 32 bits of litres, and with
/// more digits in a run than 16 bits count.
#[test]
fn long_streams_are_long() {
    for seed in 1..=4 {
        let stream = long_stream(seed, 600_000);
        let entries = entries(&stream);
        for judgement in ["accepted", "gap", "repeated", "aside"] {
            let often = entries.iter().filter(|entry| entry[1] == judgement).count();
            assert!(often > 2000, "{judgement}: {often}");
        }
        let litres = listing(&stream);
        let (_, litres) = litres.rsplit_once("litres ").expect("the last line");
        assert!(litres.trim().parse::<u64>().expect("a sum") > 1 << 32);
        let place = &entries[entries.len() - 1][0];
        assert!(place.parse::<usize>().expect("a place") > 1 << 17);
        let runs = runs_of(&text_of(&stream).expect("a whole stream"));
        assert!(runs
            .iter()
            .any(|run| run.len() > 1 << 16 && run.ends_with(')')));
    }
}
