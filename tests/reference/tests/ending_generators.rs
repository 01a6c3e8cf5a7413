//! The generators of request h, "Two boxes in a row": what their cases and command
//! lines come to, and which mistakes they would show.

mod shared;

use reference::ending_lines::CommandLine;
use reference::endings::Case;
use reference::generate::ending_pairs::{cases, VALUES_ABOVE_7};
use reference::generate::ending_words::{
    command_lines, NO_NUMBERS, NUMBERS_ABOVE_7, WORDS_WITH_ZEROS,
};
use shared::Tally;
use std::collections::BTreeSet;

const SEEDS: [u64; 4] = [1, 2, 3, 4];
const CASES: usize = 10_000;
const COMMAND_LINES: usize = 10_000;

fn cases_of(seed: u64, lines: usize) -> Vec<Case> {
    let input = cases(seed, lines);
    let lines = reference::frames::lines(&input).into_iter();
    lines
        .map(|line| Case::of_line(line).expect("a well-formed line"))
        .collect()
}

/// With no line asked for there are the fixed ones alone.
fn fixed_cases() -> Vec<Case> {
    cases_of(1, 0)
}

fn command_lines_of(seed: u64, lines: usize) -> Vec<CommandLine> {
    let input = command_lines(seed, lines);
    let lines = reference::frames::lines(&input).into_iter();
    lines
        .map(|line| CommandLine::of_line(line).expect("a well-formed line"))
        .collect()
}

fn fixed_command_lines() -> Vec<CommandLine> {
    command_lines_of(1, 0)
}

fn tally_of(names: impl Iterator<Item = String>) -> Tally {
    let mut tally = Tally::new();
    for name in names {
        *tally.entry(name).or_default() += 1;
    }
    tally
}

fn assert_met(tally: &Tally, least: usize, names: &[&str]) {
    for name in names {
        let often = tally.get(*name).copied().unwrap_or(0);
        assert!(often >= least, "{name}: {often}");
    }
}

// ---------------------------------------------------------------------------
// Pairs
// ---------------------------------------------------------------------------

/// At least: the fixed cases are never cut.
#[test]
fn cases_have_the_lines_asked_for() {
    let fixed = cases(1, 0);
    let number = fixed_cases().len();
    for seed in 0..20 {
        for fewer in [0, 1, 64, number] {
            assert_eq!(cases(seed, fewer), fixed);
        }
        let input = cases(seed, number + 500);
        assert_eq!(input, cases(seed, number + 500));
        assert!(input.starts_with(&cases(seed, number + 1)));
        assert!(input.starts_with(&fixed));
        assert_eq!(input.last(), Some(&0x0A));
        let all = cases_of(seed, number + 500);
        let lines: Vec<String> = all.iter().map(Case::line).collect();
        assert_eq!(all.len(), number + 500);
        assert_eq!((lines.join("\n") + "\n").as_bytes(), input);
        assert_ne!(input, cases(seed + 20, number + 500));
    }
}

/// "For every ordered pair": these stand first, in their order.
#[test]
fn cases_begin_with_every_pair() {
    let all = fixed_cases();
    let pairs = (0..8).flat_map(|first| (0..8).map(move |second| Case { first, second }));
    assert_eq!(all[..64], pairs.collect::<Vec<_>>());
    assert!((500..2000).contains(&all.len()), "{}", all.len());
}

/// Each on either side, with each setting and with another one.
#[test]
fn every_edge_is_among_the_cases() {
    let lines: BTreeSet<String> = fixed_cases().iter().map(Case::line).collect();
    for edge in VALUES_ABOVE_7 {
        assert!(edge > 7);
        for other in [0, 1, 2, 3, 4, 5, 6, 7, 8, u32::MAX, edge] {
            assert!(lines.contains(&format!("{edge} {other}")), "{edge} {other}");
            assert!(lines.contains(&format!("{other} {edge}")), "{other} {edge}");
        }
    }
    let edges: BTreeSet<u32> = VALUES_ABOVE_7.into();
    assert_eq!(edges.len(), VALUES_ABOVE_7.len());
    let low_byte = 256..=263;
    let asked_for = [
        8,
        255,
        65_536,
        1 << 31,
        (1 << 31) + 7,
        u32::MAX - 248,
        u32::MAX,
    ];
    for edge in low_byte.chain(asked_for) {
        assert!(edges.contains(&edge), "{edge}");
    }
}

/// "mostly small", and every sort of the others.
#[test]
fn random_cases_of_every_sort() {
    for seed in SEEDS {
        let all = cases_of(seed, CASES);
        let random = &all[fixed_cases().len()..];
        let small = random
            .iter()
            .filter(|case| case.first < 8 && case.second < 8);
        assert!(small.count() > random.len() / 2);
        for value in [|case: &Case| case.first, |case: &Case| case.second] {
            let tally = tally_of(random.iter().map(|case| sort_of_value(value(case)).into()));
            assert_met(&tally, 5000, &["0 to 7"]);
            assert_met(&tally, 200, &["8 to 15", "16 to 255"]);
            assert_met(&tally, 300, &["low byte 0 to 7", "others"]);
            let settings: BTreeSet<u32> = random.iter().map(value).filter(|v| *v < 8).collect();
            assert_eq!(settings.len(), 8);
        }
    }
}

fn sort_of_value(value: u32) -> &'static str {
    match value {
        0..=7 => "0 to 7",
        8..=15 => "8 to 15",
        16..=255 => "16 to 255",
        _ if value & 0xFF < 8 => "low byte 0 to 7",
        _ => "others",
    }
}

/// 6 and 7 are never the least.
#[test]
fn cases_come_to_every_answer() {
    let answers = [
        "0 0 1 0", "0 0 1 1", "0 0 1 2", "0 0 1 3", "0 0 1 4", "0 0 1 5", "0 0 0 0", "5 4 0 0",
    ];
    let fixed = tally_of(fixed_cases().iter().map(Case::answer));
    assert_eq!(fixed.keys().collect::<Vec<_>>().len(), answers.len());
    assert_met(&fixed, 2, &answers);
    // Sixteen of the 64 pairs have none.
    assert_eq!(fixed["0 0 0 0"], 16);
    for seed in SEEDS {
        let random = &cases_of(seed, CASES)[fixed_cases().len()..];
        let tally = tally_of(random.iter().map(Case::answer));
        assert_met(&tally, 100, &answers);
    }
}

/// A value that is read by mistake as another one.
type Mistake = fn(u32) -> u32;

/// Each is shown by some fixed cases, on either side by itself.
#[test]
fn mistakes_that_the_cases_show() {
    let mistakes: [(&str, Mistake); 8] = [
        ("one byte", |value| value & 0xFF),
        ("two bytes", |value| value & 0xFFFF),
        ("three bits", |value| value & 7),
        ("signed", |value| if value >> 31 == 1 { 0 } else { value }),
        ("cut to 7", |value| value.min(7)),
        ("8 is taken", |value| if value == 8 { 7 } else { value }),
        ("the first byte", |value| value >> 24),
        ("6 is not 4", |value| if value == 6 { 7 } else { value }),
    ];
    for (name, mistake) in mistakes {
        let shown = |read: &dyn Fn(&Case) -> Case| {
            let all = fixed_cases();
            let shown = all
                .iter()
                .filter(|case| read(case).answer() != case.answer());
            shown.count()
        };
        let first = shown(&|case| Case {
            first: mistake(case.first),
            ..*case
        });
        let second = shown(&|case| Case {
            second: mistake(case.second),
            ..*case
        });
        assert!(first >= 4 && second >= 4, "{name}: {first}, {second}");
    }
}

// ---------------------------------------------------------------------------
// Command lines
// ---------------------------------------------------------------------------

#[test]
fn command_lines_have_the_lines_asked_for() {
    let fixed = command_lines(1, 0);
    let number = fixed_command_lines().len();
    for seed in 0..20 {
        for fewer in [0, 1, 65, number] {
            assert_eq!(command_lines(seed, fewer), fixed);
        }
        let input = command_lines(seed, number + 300);
        assert_eq!(input, command_lines(seed, number + 300));
        assert!(input.starts_with(&command_lines(seed, number + 1)));
        assert!(input.starts_with(&fixed));
        assert_eq!(input.last(), Some(&0x0A));
        // Each line is the line of its words.
        let all = command_lines_of(seed, number + 300);
        let lines: Vec<Vec<u8>> = all.iter().map(CommandLine::line).collect();
        assert_eq!(all.len(), number + 300);
        assert_eq!([&lines.join(&0x0A)[..], b"\n"].concat(), input);
        assert_ne!(input, command_lines(seed + 20, number + 300));
    }
}

/// No words, and all 64 pairs, in their order.
#[test]
fn command_lines_begin_with_the_table_and_every_pair() {
    let input = command_lines(1, 0);
    assert!(input.starts_with(b"\n30 30\n30 31\n30 32\n"));
    let all = fixed_command_lines();
    let mut pairs = (0..8).flat_map(|first| (0..8).map(move |second| [first, second]));
    for line in &all[1..65] {
        let pair = pairs.next().expect("64 pairs");
        let words = pair.map(|setting: u8| vec![b'0' + setting]);
        assert_eq!(line.words, words);
    }
}

/// "A word holds no byte 00", and no other byte is missing.
#[test]
fn every_byte_but_00_comes() {
    for seed in SEEDS {
        let mut met = [0; 256];
        for line in command_lines_of(seed, COMMAND_LINES) {
            for byte in line.words.concat() {
                met[usize::from(byte)] += 1;
            }
        }
        assert_eq!(met[0], 0);
        assert!(met[1..].iter().all(|often| *often > 10), "{met:?}");
    }
}

#[test]
fn command_lines_have_every_number_of_words() {
    let fixed: BTreeSet<usize> = lengths(&fixed_command_lines()).into_iter().collect();
    assert!([0, 1, 2, 3, 4, 5, 8, 64, 258]
        .iter()
        .all(|n| fixed.contains(n)));
    for seed in SEEDS {
        let random = &command_lines_of(seed, COMMAND_LINES)[fixed_command_lines().len()..];
        let mut numbers = [0; 61];
        for number in lengths(random) {
            numbers[number] += 1;
        }
        assert!(
            numbers[0] > 80 && numbers[1] > 400 && numbers[3] > 300,
            "{numbers:?}"
        );
        assert!(numbers[2] > random.len() * 2 / 3, "{numbers:?}");
        assert!(
            numbers[4..13].iter().all(|often| *often > 20),
            "{numbers:?}"
        );
        assert!(numbers[13..].iter().sum::<usize>() > 80, "{numbers:?}");
    }
}

fn lengths(lines: &[CommandLine]) -> Vec<usize> {
    lines.iter().map(|line| line.words.len()).collect()
}

/// How often the word stands alone, first and second of two, and among more.
fn places(lines: &[CommandLine], word: &[u8]) -> [usize; 4] {
    let mut places = [0; 4];
    for CommandLine { words } in lines {
        match &words[..] {
            [] => {}
            [alone] => places[0] += usize::from(alone == word),
            [first, second] => {
                places[1] += usize::from(first == word);
                places[2] += usize::from(second == word);
            }
            more => places[3] += usize::from(more.iter().any(|one| one == word)),
        }
    }
    places
}

/// In every place of the fixed lines.
#[test]
fn every_hostile_word_comes() {
    let all = fixed_command_lines();
    let words = [&WORDS_WITH_ZEROS[..], &NUMBERS_ABOVE_7, &NO_NUMBERS];
    for word in words.concat() {
        let [alone, first, second, more] = places(&all, word);
        let name = word.escape_ascii();
        assert!(alone > 0 && first > 1 && second > 1 && more > 0, "{name}");
    }
    let different: BTreeSet<&[u8]> = words.concat().into_iter().collect();
    assert_eq!(different.len(), words.concat().len());
}

/// These are among them, as they were asked for.
#[test]
fn hostile_words_that_were_asked_for() {
    let words: [&[u8]; 20] = [
        b"",
        b"07",
        b"000",
        b"+2",
        b"-2",
        b" 2",
        b"2 ",
        b"2\n",
        b"a",
        b"F",
        b"0x2",
        b"8",
        b"256",
        b"258",
        b"65538",
        b"4294967298",
        b"18446744073709551618",
        b"\xB2",
        b"/",
        b":",
    ];
    let all = fixed_command_lines();
    for word in words {
        let [_, first, second, _] = places(&all, word);
        assert!(first > 1 && second > 1, "{}", word.escape_ascii());
    }
}

/// What a word is an example of.
fn sort_of_word(word: &[u8]) -> &'static str {
    let digits = word.iter().filter(|byte| byte.is_ascii_digit()).count();
    let zeros = word.iter().take_while(|byte| **byte == b'0').count();
    let significant = word.len() - zeros;
    match word.len() - digits {
        0 if word.is_empty() => "empty",
        _ if word.len() > 1000 => "thousands of characters",
        0 if significant > 90 => "hundreds of digits",
        0 if zeros > 90 => "hundreds of zeros",
        _ if word.len() > 90 => "hundreds of characters",
        0 if word.len() == 1 && *word <= b"7"[..] => "plain",
        0 if zeros > 0 && (significant == 0 || word[zeros..] <= b"7"[..] && significant == 1) => {
            "zeros"
        }
        0 if significant > 20 => "more than 64 bits",
        0 if significant > 10 => "more than 32 bits",
        0 if significant > 5 => "more than 16 bits",
        0 => "above 7",
        1 if word[0] == b'+' || word[0] == b'-' => "signed",
        1 if word[0] == b' ' || word.ends_with(b" ") => "spaced",
        1 if word.ends_with(b"\n") => "newline",
        1 if word.contains(&b'/') || word.contains(&b':') => "neighbour of the digits",
        1 if word.iter().any(|byte| *byte > 0x7F) => "one byte above 7F",
        1 => "one strange character",
        _ if word.iter().any(|byte| *byte > 0x7F) => "bytes above 7F",
        _ if word.iter().all(u8::is_ascii_hexdigit) => "hexadecimal digits",
        _ if word.iter().all(u8::is_ascii_alphabetic) => "letters",
        _ => "others",
    }
}

const SORTS_OF_WORDS: [&str; 20] = [
    "empty",
    "hundreds of digits",
    "hundreds of zeros",
    "hundreds of characters",
    "zeros",
    "more than 64 bits",
    "more than 32 bits",
    "more than 16 bits",
    "above 7",
    "signed",
    "spaced",
    "newline",
    "neighbour of the digits",
    "one byte above 7F",
    "one strange character",
    "bytes above 7F",
    "hexadecimal digits",
    "letters",
    "others",
    "plain",
];

/// Mostly plain words; the others are all met, in the fixed lines and in the random
/// ones, on either side. The longest are few.
#[test]
fn words_of_every_sort() {
    let number = fixed_command_lines().len();
    for seed in SEEDS {
        let all = command_lines_of(seed, COMMAND_LINES);
        for place in [0, 1] {
            let sorts = |lines: &[CommandLine]| {
                let pairs = lines.iter().filter(|line| line.words.len() == 2);
                tally_of(pairs.map(|line| sort_of_word(&line.words[place]).to_string()))
            };
            let (fixed, random) = (sorts(&all[..number]), sorts(&all[number..]));
            assert_met(&fixed, 2, &SORTS_OF_WORDS);
            assert_met(&random, 10, &SORTS_OF_WORDS);
            assert_met(&random, 3000, &["plain"]);
            assert_met(&random, 120, &["zeros", "above 7", "more than 32 bits"]);
            for tally in [fixed, random] {
                let few = tally["thousands of characters"];
                assert!((1..30).contains(&few), "{few}");
            }
        }
    }
}

/// 6 and 7 are never the least.
#[test]
fn command_lines_come_to_every_answer() {
    let printed = [
        "0\n",
        "1\n",
        "2\n",
        "3\n",
        "4\n",
        "5\n",
        "none\n",
        "refused 5 4\n",
        "",
    ];
    let number = fixed_command_lines().len();
    for seed in SEEDS {
        let all = command_lines_of(seed, COMMAND_LINES);
        let (fixed, random) = all.split_at(number);
        for (lines, least) in [(fixed, 2), (random, 100)] {
            let tally = tally_of(lines.iter().map(CommandLine::printed));
            assert_met(&tally, least, &printed);
            // These and the table.
            assert_eq!(tally.len(), printed.len() + 1);
        }
    }
}

// ---------------------------------------------------------------------------
// Mistakes
// ---------------------------------------------------------------------------

/// A word that is read by mistake as another one.
type Misreading = fn(&[u8]) -> Vec<u8>;

/// The number of a word of digits without its bits above these; every other word as
/// it is.
fn lowest_bits(word: &[u8], bits: u32) -> Vec<u8> {
    if word.is_empty() || !word.iter().all(u8::is_ascii_digit) {
        return word.to_vec();
    }
    let mask = (1_u128 << bits) - 1;
    let lowest = word.iter().fold(0_u128, |number, digit| {
        (number * 10 + u128::from(digit - b'0')) & mask
    });
    lowest.to_string().into_bytes()
}

/// Only the digits that a word begins with, behind a sign or spaces.
fn digits_in_front(word: &[u8]) -> Vec<u8> {
    let word = word.trim_ascii_start();
    let word = word.strip_prefix(b"+").unwrap_or(word);
    let digits = word.iter().take_while(|byte| byte.is_ascii_digit());
    let digits: Vec<u8> = digits.copied().collect();
    match digits[..] {
        [] => b"0".to_vec(),
        _ => digits,
    }
}

/// A number with another base, where the word begins as such a one does.
fn of_another_base(word: &[u8]) -> Vec<u8> {
    let text = String::from_utf8_lossy(word);
    let number = match text.strip_prefix("0x") {
        Some(digits) => u64::from_str_radix(digits, 16),
        None if text.starts_with('0') => u64::from_str_radix(&text, 8),
        None => return word.to_vec(),
    };
    number.map_or(word.to_vec(), |number| number.to_string().into_bytes())
}

/// Digits of every script that is known to be one of digits.
fn any_digits(word: &[u8]) -> Vec<u8> {
    let text = String::from_utf8_lossy(word);
    let wide = text.replace(['\u{B2}', '\u{FF12}', '\u{0662}'], "2");
    wide.into_bytes()
}

const MISREADINGS: [(&str, Misreading); 19] = [
    ("8 bits", |word| lowest_bits(word, 8)),
    ("16 bits", |word| lowest_bits(word, 16)),
    ("31 bits", |word| lowest_bits(word, 31)),
    ("32 bits", |word| lowest_bits(word, 32)),
    ("63 bits", |word| lowest_bits(word, 63)),
    ("64 bits", |word| lowest_bits(word, 64)),
    ("3 bits", |word| lowest_bits(word, 3)),
    ("digits in front", digits_in_front),
    ("another base", of_another_base),
    ("any digits", any_digits),
    ("trimmed", |word| word.trim_ascii().to_vec()),
    ("a sign", |word| {
        word.strip_prefix(b"+").unwrap_or(word).to_vec()
    }),
    ("no sign", |word| {
        word.strip_prefix(b"-").unwrap_or(word).to_vec()
    }),
    ("empty is 0", |word| {
        if word.is_empty() { b"0" } else { word }.to_vec()
    }),
    ("the first character", |word| {
        word.iter().take(1).copied().collect()
    }),
    ("the last character", |word| {
        word.last().copied().into_iter().collect()
    }),
    ("seven bits", |word| {
        word.iter().map(|byte| byte & 0x7F).collect()
    }),
    ("one digit only", |word| {
        if word.len() > 1 { b"8" } else { word }.to_vec()
    }),
    ("a byte less 48", |word| match word {
        [byte @ 0..=7] => vec![b'0' + byte],
        _ => word.to_vec(),
    }),
];

/// Each is shown by some of the fixed lines, on either side by itself.
#[test]
fn misreadings_that_the_command_lines_show() {
    let all = fixed_command_lines();
    let pairs = all.iter().filter(|line| line.words.len() == 2);
    let pairs: Vec<&CommandLine> = pairs.collect();
    for (name, misread) in MISREADINGS {
        for place in [0, 1] {
            let shown = pairs.iter().filter(|line| {
                let mut other = CommandLine::clone(line);
                other.words[place] = misread(&line.words[place]);
                other.printed() != line.printed()
            });
            assert!(shown.count() >= 1, "{name}, {place}");
        }
    }
}
