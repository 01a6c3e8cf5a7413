//! The generators of request c, "Choosing the rate": what their cases and command
//! lines come to. The nearest pairs are found here by another way.

mod nearest;
mod shared;

use nearest::{pairs_of, Wish};
use reference::fitters::CommandLine;
use reference::generate::rate_words::{command_lines, HOSTILE_WORDS};
use reference::generate::rates::cases;
use reference::rate::{choose, Case};
use shared::Tally;
use std::cmp::Ordering;
use std::collections::BTreeSet;
use std::sync::OnceLock;

const SEEDS: [u64; 4] = [1, 2, 3, 4];
const CASES: usize = 20_000;

fn cases_of(seed: u64, lines: usize) -> Vec<Case> {
    let input = cases(seed, lines);
    let lines = input.split(|byte| *byte == 0x0A);
    lines.filter_map(Case::of_line).collect()
}

/// The cases that every seed begins with.
fn fixed_cases() -> Vec<Case> {
    let first = cases_of(1, 2000);
    let second = cases_of(2, 2000);
    let same = first.iter().zip(&second).take_while(|(a, b)| a == b);
    same.map(|(case, _)| *case).collect()
}

fn assert_met(tally: &Tally, least: usize, names: &[&str]) {
    for name in names {
        let often = tally.get(*name).copied().unwrap_or(0);
        assert!(often >= least, "{name}: {often}");
    }
}

fn tally_of(names: impl Iterator<Item = String>) -> Tally {
    let mut tally = Tally::new();
    for name in names {
        *tally.entry(name).or_default() += 1;
    }
    tally
}

// ---------------------------------------------------------------------------
// Lines
// ---------------------------------------------------------------------------

#[test]
fn cases_have_the_lines_asked_for() {
    assert_eq!(cases(1, 0), b"");
    for seed in 0..20 {
        let input = cases(seed, 2000);
        assert_eq!(input, cases(seed, 2000));
        // With fewer lines than there are fixed cases, these are cut.
        for lines in [1, 10, 500, 1999] {
            let front = cases(seed, lines);
            assert!(input.starts_with(&front));
            assert_eq!(front.last(), Some(&0x0A));
            assert_eq!(cases_of(seed, lines).len(), lines);
        }
        let lines: Vec<String> = cases_of(seed, 2000).iter().map(Case::line).collect();
        assert_eq!((lines.join("\n") + "\n").as_bytes(), input);
    }
}

/// The fixed edges stand first, then random cases.
#[test]
fn every_seed_begins_with_the_same_cases() {
    let fixed = fixed_cases();
    assert!((300..=1000).contains(&fixed.len()), "{}", fixed.len());
    for seed in 0..20 {
        let cases = cases_of(seed, 2000);
        assert_eq!(cases[..fixed.len()], fixed);
        assert_ne!(
            cases[fixed.len()..],
            cases_of(seed + 20, 2000)[fixed.len()..]
        );
    }
}

// ---------------------------------------------------------------------------
// What is met
// ---------------------------------------------------------------------------

/// Everything that a case is an example of.
fn met(case: &Case) -> Vec<String> {
    let answer = case.answer();
    let fields: Vec<&str> = answer.split(' ').collect();
    let mut met = vec![format!("answer {}", fields[0])];
    met.push(format!("clock {}", case.clock));
    met.push(format!("rate {}", case.wanted));
    if let Some(wish) = Wish::of(case) {
        met.push(format!("divisor {}", fields[1]));
        met.extend(ties_met(&wish));
        met.extend(limits_met(&wish));
        met.extend(cutting_met(&wish));
    }
    met
}

/// "refused", or the divisor that is chosen.
fn outcome(wish: &Wish) -> String {
    let divider = wish.nearest()[0];
    match wish.is_too_far(divider) {
        true => "refused".to_string(),
        false => pairs_of(divider)[0].0.to_string(),
    }
}

/// "ties go to the smaller divisor, then the smaller period"
fn ties_met(wish: &Wish) -> Vec<String> {
    let mut met = Vec::new();
    let outcome = outcome(wish);
    match wish.nearest()[..] {
        [first, second] => {
            met.push(format!("tie of two rates: {outcome}"));
            let divisors = [first, second].map(|divider| pairs_of(divider)[0].0);
            if divisors[0] != divisors[1] {
                met.push(format!("tie of two rates and divisors: {outcome}"));
            }
        }
        ref nearest => {
            let divisors = pairs_of(nearest[0]).len();
            let exactly = wish.hertz(nearest[0]) == 0;
            met.push(format!("{divisors} divisors: {outcome}"));
            met.push(format!("{divisors} divisors, exactly: {exactly}"));
            let beside = [(1, "fewer"), (-1, "more")].map(|(hertz, name)| {
                let clock = wish.clock.saturating_add_signed(hertz);
                (Wish { clock, ..*wish }, name)
            });
            let ties = beside.iter().filter(|(wish, _)| wish.nearest().len() == 2);
            met.extend(ties.map(|(_, name)| format!("one Hz {name} than a tie: {outcome}")));
            met.extend(other_distances_met(wish));
        }
    }
    met
}

/// Where another pair would be chosen if the distance were taken between the
/// dividers, or from the deviation as it was cut.
fn other_distances_met(wish: &Wish) -> Vec<String> {
    let [first, second] = *wish.beside() else {
        return Vec::new();
    };
    let nearest = wish.nearest()[0];
    let mut met = nearly_ties_met(wish, first, second);
    if !wish.is_too_far(nearest) && nearest == second {
        if wish.hertz(first) <= wish.hertz(second) {
            met.push("the nearest rate is not of the nearest divider".to_string());
        }
        if wish.size(first) == wish.size(second) {
            met.push("cut, another deviation has the same size".to_string());
        }
    }
    met
}

/// "compared as exact fractions": two distances that differ by less than a hundred
/// thousandth.
fn nearly_ties_met(wish: &Wish, first: u64, second: u64) -> Vec<String> {
    let first_distance = wish.hertz(first) * second;
    let second_distance = wish.hertz(second) * first;
    let nearly = 100_000 * first_distance.abs_diff(second_distance) < first * second;
    let nearer = match first_distance < second_distance {
        true => "above",
        false => "below",
    };
    let name = format!("nearly a tie, nearer {nearer}: {}", outcome(wish));
    nearly.then_some(name).into_iter().collect()
}

/// "13 exactly if every pair is more than 25,000 millionths away, before cutting"
fn limits_met(wish: &Wish) -> Vec<String> {
    let nearest = wish.nearest()[0];
    let exact_clock = wish.exact_clock(nearest);
    let hertz = wish.hertz(nearest);
    let side = match wish.clock > exact_clock {
        true => "above",
        false => "below",
    };
    let place = match nearest {
        8 => "8 * 1",
        522_240 => "2048 * 255",
        _ => "between",
    };
    // One Hz more or fewer is 40 fortieths.
    let beyond = (40 * hertz) as i64 - exact_clock as i64;
    let how = match beyond {
        0 => "exactly",
        1..=40 => "just beyond",
        -40..=-1 => "just inside",
        _ => "far",
    };
    let mut met = vec![format!("limit of {place} {side}: {how}")];
    let cut = wish.size(nearest);
    if wish.is_too_far(nearest) && cut == 25_000 {
        met.push(format!("refused, though cut to 25,000 {side}"));
    }
    let (at_41, at_39) = (40 * wish.clock / 41, 40 * wish.clock / 39);
    for (clock, fortieths, side) in [(at_41, 41, "above"), (at_39, 39, "below")] {
        let divider = clock / wish.wanted;
        let at_the_limit = 40 * wish.clock == fortieths * wish.exact_clock(divider);
        if at_the_limit && !pairs_of(divider).is_empty() && divider != nearest {
            met.push(format!("another pair at the limit {side}"));
        }
    }
    met
}

/// "cut toward zero": what is cut off, for each side.
fn cutting_met(wish: &Wish) -> Vec<String> {
    let nearest = wish.nearest()[0];
    if wish.is_too_far(nearest) {
        return Vec::new();
    }
    let exact_clock = wish.exact_clock(nearest);
    let side = match wish.clock.cmp(&exact_clock) {
        Ordering::Greater => "above",
        Ordering::Less => "below",
        Ordering::Equal => return vec!["exact".to_string()],
    };
    let size = wish.size(nearest);
    let rest = 1_000_000 * wish.hertz(nearest) % exact_clock;
    let mut met = vec![format!("not exact, {side}")];
    if size <= 2 {
        met.push(format!("cut to {size}, {side}"));
    }
    let how = match rest {
        0 => "whole",
        _ if rest < exact_clock / 500 => "just beyond whole",
        _ if exact_clock - rest < exact_clock / 500 => "just short of whole",
        _ => "cut",
    };
    met.push(format!("{how}, {side}"));
    met
}

/// What each seed's cases meet.
fn tallies() -> &'static [Tally; 4] {
    static TALLIES: OnceLock<[Tally; 4]> = OnceLock::new();
    TALLIES.get_or_init(|| SEEDS.map(|seed| tally_of(cases_of(seed, CASES).iter().flat_map(met))))
}

fn fixed_tally() -> &'static Tally {
    static TALLY: OnceLock<Tally> = OnceLock::new();
    TALLY.get_or_init(|| tally_of(fixed_cases().iter().flat_map(met)))
}

/// Each name so often at least among the cases of each seed, and once at least
/// among the fixed ones.
fn assert_all_meet(least: usize, names: &[&str]) {
    assert_met(fixed_tally(), 1, names);
    for tally in tallies() {
        assert_met(tally, least, names);
    }
}

/// Usual and random cases, and each answer.
#[test]
fn cases_come_to_every_answer() {
    assert_all_meet(10_000, &["answer 0"]);
    assert_all_meet(1000, &["answer 12", "answer 13"]);
    for divisor in ["8", "32", "128", "512", "2048"] {
        assert_all_meet(1000, &[&format!("divisor {divisor}")]);
    }
    assert_all_meet(5000, &["not exact, above", "not exact, below"]);
    for clock in [1_000_000, 1_843_200, 25_000_000, 60_000_000] {
        assert_all_meet(60, &[&format!("clock {clock}")]);
    }
    for rate in [50, 110, 300, 9600, 115_200, 230_400] {
        assert_all_meet(60, &[&format!("rate {rate}")]);
    }
    let random = &cases_of(1, CASES)[fixed_cases().len()..];
    let clocks: BTreeSet<u32> = random.iter().map(|case| case.clock).collect();
    let rates: BTreeSet<u32> = random.iter().map(|case| case.wanted).collect();
    assert!(clocks.len() > 12_000 && rates.len() > 5000);
}

/// "12 clock or rate outside its range": both sides of both ends, and the ends of
/// 32 bits.
#[test]
fn cases_come_to_the_ends_of_the_ranges() {
    for clock in [0, 999_999, 1_000_000, 60_000_000, 60_000_001, u32::MAX] {
        assert_all_meet(60, &[&format!("clock {clock}")]);
    }
    for rate in [0, 1, 230_400, 230_401, u32::MAX] {
        assert_all_meet(60, &[&format!("rate {rate}")]);
    }
    // Only the clock is outside, only the rate, and both.
    for seed in SEEDS {
        let cases = cases_of(seed, CASES);
        let outside = |clock_fits: bool, rate_fits: bool| {
            let chosen = cases.iter().filter(|case| {
                (1_000_000..=60_000_000).contains(&case.clock) == clock_fits
                    && (1..=230_400).contains(&case.wanted) == rate_fits
            });
            chosen.count()
        };
        assert!(outside(false, true) > 300 && outside(true, false) > 300);
        assert!(outside(false, false) > 100);
    }
}

/// Every pair that can be chosen: 255 of 8, and 64 to 255 of each other divisor.
#[test]
fn cases_come_to_every_pair() {
    let cases = cases_of(1, 100_000);
    let chosen = cases.iter().filter_map(|case| {
        let chosen = choose(case.clock, case.wanted).ok()?;
        Some((chosen.divisor, chosen.period))
    });
    let pairs: BTreeSet<(u32, u32)> = chosen.collect();
    assert_eq!(pairs.len(), 255 + 4 * 192);
    assert!(pairs.iter().all(|pair| pair.0 == 8 || pair.1 >= 64));
}

/// Exact hits, and "ties go to the smaller divisor" with the same divider.
#[test]
fn cases_come_to_ties_between_divisors() {
    assert_all_meet(1000, &["exact"]);
    assert_all_meet(
        300,
        &["1 divisors, exactly: true", "2 divisors, exactly: true"],
    );
    assert_all_meet(
        100,
        &["3 divisors, exactly: true", "4 divisors, exactly: true"],
    );
    assert_all_meet(
        500,
        &["2 divisors, exactly: false", "3 divisors, exactly: false"],
    );
    assert_all_meet(100, &["4 divisors, exactly: false"]);
    let two = ["8", "32", "128", "512"].map(|divisor| format!("2 divisors: {divisor}"));
    let three = ["8", "32", "128"].map(|divisor| format!("3 divisors: {divisor}"));
    let four = ["8", "32"].map(|divisor| format!("4 divisors: {divisor}"));
    for name in two.iter().chain(&three).chain(&four) {
        assert_all_meet(100, &[name]);
    }
}

/// "ties go to the smaller divisor, then the smaller period": one rate above and
/// one below, and one Hz beside such a tie.
#[test]
fn cases_come_to_ties_between_periods() {
    for (outcome, least) in [
        ("8", 100),
        ("32", 60),
        ("128", 60),
        ("512", 30),
        ("2048", 8),
        ("refused", 60),
    ] {
        assert_all_meet(least, &[&format!("tie of two rates: {outcome}")]);
        for beside in ["fewer", "more"] {
            let name = format!("one Hz {beside} than a tie: {outcome}");
            assert_all_meet(least / 2, &[&name]);
        }
    }
    for divisor in ["8", "32", "128"] {
        let name = format!("tie of two rates and divisors: {divisor}");
        assert_all_meet(30, &[&name]);
    }
    for divisor in ["8", "32", "128", "512", "2048"] {
        for side in ["above", "below"] {
            let name = format!("nearly a tie, nearer {side}: {divisor}");
            assert_all_meet(20, &[&name]);
        }
    }
    assert_all_meet(100, &["the nearest rate is not of the nearest divider"]);
    assert_all_meet(100, &["cut, another deviation has the same size"]);
}

/// "13 exactly if every pair is more than 25,000 millionths away, before cutting":
/// just inside, exactly there and just beyond.
#[test]
fn cases_come_to_the_limit() {
    for place in [
        "8 * 1 above",
        "8 * 1 below",
        "2048 * 255 above",
        "between above",
        "between below",
    ] {
        for how in ["just inside", "exactly", "just beyond"] {
            assert_all_meet(40, &[&format!("limit of {place}: {how}")]);
        }
    }
    for side in ["above", "below"] {
        assert_all_meet(80, &[&format!("refused, though cut to 25,000 {side}")]);
        assert_all_meet(40, &[&format!("another pair at the limit {side}")]);
    }
}

/// "cut toward zero": what is cut off, from nothing to nearly a millionth.
#[test]
fn cases_come_to_every_sort_of_cutting() {
    for side in ["above", "below"] {
        assert_all_meet(150, &[&format!("cut to 0, {side}")]);
        assert_all_meet(80, &[&format!("cut to 1, {side}")]);
        assert_all_meet(200, &[&format!("whole, {side}")]);
        assert_all_meet(100, &[&format!("just short of whole, {side}")]);
        assert_all_meet(100, &[&format!("just beyond whole, {side}")]);
    }
}

/// The reference's answers are those of the other way.
#[test]
fn cases_are_answered_alike_by_another_way() {
    for seed in SEEDS {
        for case in cases_of(seed, CASES) {
            assert_eq!(case.answer(), nearest::answer(&case), "{case:?}");
        }
    }
}

// ---------------------------------------------------------------------------
// Command lines
// ---------------------------------------------------------------------------

const COMMAND_LINES: usize = 10_000;

fn command_lines_of(seed: u64, lines: usize) -> Vec<CommandLine> {
    let input = command_lines(seed, lines);
    let lines = input.split(|byte| *byte == 0x0A);
    lines.filter_map(CommandLine::of_line).collect()
}

#[test]
fn command_lines_have_the_lines_asked_for() {
    assert_eq!(command_lines(1, 0), b"");
    for seed in 0..20 {
        let input = command_lines(seed, 300);
        assert_eq!(input, command_lines(seed, 300));
        assert!(command_lines(seed, 400).starts_with(&input));
        assert_eq!(input.last(), Some(&0x0A));
        // Each line is well-formed, and is the line of its words.
        let all = command_lines_of(seed, 300);
        let lines: Vec<Vec<u8>> = all.iter().map(CommandLine::line).collect();
        assert_eq!(all.len(), 300);
        assert_eq!([&lines.join(&0x0A)[..], b"\n"].concat(), input);
    }
    assert_ne!(command_lines(1, 300), command_lines(2, 300));
}

/// What a word is an example of.
fn sort_of_word(word: &[u8]) -> &'static str {
    let digits = word.iter().filter(|byte| byte.is_ascii_digit()).count();
    let zeros = word.iter().take_while(|byte| **byte == b'0').count();
    let significant = word.len() - zeros;
    match word.len() - digits {
        0 if word.is_empty() => "empty",
        0 if significant == 0 => "zero",
        0 if significant > 200 => "hundreds of digits",
        0 if significant > 20 => "more than 64 bits",
        0 if significant > 10 => "more than 32 bits",
        0 if zeros >= 100 => "hundreds of zeros",
        0 if zeros > 0 => "zeros",
        0 => "plain",
        1 if word[0] == b'+' || word[0] == b'-' => "signed",
        1 if word[0] == b' ' || word.ends_with(b" ") => "spaced",
        1 if word.ends_with(b"\n") => "newline",
        1 if word.contains(&b'/') || word.contains(&b':') => "neighbour of the digits",
        1 if word.iter().any(|byte| *byte > 0x7F) => "one byte above 7F",
        1 => "one strange character",
        _ if word.iter().any(|byte| *byte > 0x7F) => "bytes above 7F",
        _ if word.iter().all(u8::is_ascii_alphabetic) => "letters",
        _ => "others",
    }
}

const SORTS_OF_WORDS: [&str; 17] = [
    "empty",
    "zero",
    "hundreds of digits",
    "more than 64 bits",
    "more than 32 bits",
    "hundreds of zeros",
    "zeros",
    "plain",
    "signed",
    "spaced",
    "newline",
    "neighbour of the digits",
    "one byte above 7F",
    "one strange character",
    "bytes above 7F",
    "letters",
    "others",
];

/// Mostly plain words; the others are all met, as rates and as clocks.
#[test]
fn words_of_every_sort() {
    for seed in SEEDS {
        let lines = command_lines_of(seed, COMMAND_LINES);
        let sort = |word: &Vec<u8>| sort_of_word(word).to_string();
        let clocks = tally_of(lines.iter().map(|line| sort(&line.clock)));
        let rates = tally_of(lines.iter().flat_map(|line| line.rates.iter().map(sort)));
        assert_met(&rates, 300, &SORTS_OF_WORDS);
        assert_met(&clocks, 5, &SORTS_OF_WORDS);
        assert_met(&rates, rates.values().sum::<usize>() / 2, &["plain"]);
        assert_met(&clocks, COMMAND_LINES * 3 / 4, &["plain"]);
    }
}

#[test]
fn every_hostile_word_comes() {
    for seed in SEEDS {
        let lines = command_lines_of(seed, COMMAND_LINES);
        for word in HOSTILE_WORDS {
            let clocks = lines.iter().filter(|line| line.clock == word).count();
            let rates = lines.iter().flat_map(|line| &line.rates);
            let rates = rates.filter(|rate| *rate == word).count();
            let name = word.escape_ascii();
            assert!(clocks > 0 && rates > 100, "{name}: {clocks}, {rates}");
        }
    }
}

/// These are among them, as they were asked for.
#[test]
fn hostile_words_that_were_asked_for() {
    let words: [&[u8]; 15] = [
        b"",
        b"+9600",
        b"-1",
        b" 9600",
        b"9600 ",
        b"9600\n",
        b"0x10",
        b"1e6",
        b"4294967295",
        b"4294967296",
        b"18446744073709551616",
        b"18446744073709561216",
        b"4294976896",
        b"/",
        b":",
    ];
    for word in words {
        assert!(HOSTILE_WORDS.contains(&word), "{}", word.escape_ascii());
    }
    for seed in SEEDS {
        let lines = command_lines_of(seed, COMMAND_LINES);
        let words = lines.iter().flat_map(|line| &line.rates);
        let long = words.filter(|word| word.len() == 300 && word.iter().all(u8::is_ascii_digit));
        assert!(long.count() > 300);
    }
}

/// From none, the clock alone, to 40.
#[test]
fn command_lines_have_every_number_of_rates() {
    for seed in SEEDS {
        let lines = command_lines_of(seed, COMMAND_LINES);
        let mut numbers = [0; 41];
        for line in &lines {
            numbers[line.rates.len()] += 1;
        }
        assert!(numbers.iter().all(|number| *number > 40), "{numbers:?}");
        assert!(numbers[0] > 500 && numbers[1] > 500);
        // With a bad clock too.
        let alone = lines.iter().filter(|line| line.rates.is_empty());
        let refused = alone.filter(|line| line.printed().starts_with(b"50 refused 12\n"));
        assert!(refused.count() > 50);
    }
}

/// The line that is printed for one rate, without the rate's word.
fn printed_behind(clock: &[u8], rate: &[u8]) -> String {
    let command_line = CommandLine {
        clock: clock.to_vec(),
        rates: vec![rate.to_vec()],
    };
    let printed = command_line.printed();
    let behind = printed.strip_prefix(rate).expect("the word as it came");
    String::from_utf8(behind.to_vec()).expect("text")
}

fn sort_of_printed(behind: &str) -> &'static str {
    match behind {
        " refused 12\n" => "refused 12",
        " refused 13\n" => "refused 13",
        _ if behind.ends_with(" 0\n") => "exact or cut to 0",
        _ if behind.contains(" +") => "above",
        _ if behind.contains(" -") => "below",
        _ => "something else",
    }
}

/// "Each line begins with the rate's word as it came", and each is what would be
/// printed for that rate alone.
#[test]
fn command_lines_come_to_every_answer() {
    let sorts = [
        "refused 12",
        "refused 13",
        "exact or cut to 0",
        "above",
        "below",
    ];
    for seed in SEEDS {
        let mut tally = Tally::new();
        for line in command_lines_of(seed, COMMAND_LINES / 4) {
            let mut together = Vec::new();
            for rate in &line.rates {
                let behind = printed_behind(&line.clock, rate);
                together.extend([rate, behind.as_bytes()].concat());
                *tally.entry(sort_of_printed(&behind).into()).or_default() += 1;
                if rate.starts_with(b"0") {
                    let name = format!("zeros, {}", sort_of_printed(&behind));
                    *tally.entry(name).or_default() += 1;
                }
            }
            if !line.rates.is_empty() {
                assert_eq!(line.printed(), together);
            }
        }
        assert_met(&tally, 800, &sorts);
        let with_zeros = sorts.map(|sort| format!("zeros, {sort}"));
        assert_met(&tally, 40, &with_zeros.each_ref().map(String::as_str));
        assert!(!tally.contains_key("something else"));
    }
}

/// Most clocks are sensible ones; of the others some only look like one.
#[test]
fn most_clocks_are_sensible() {
    for seed in SEEDS {
        let lines = command_lines_of(seed, COMMAND_LINES);
        let refused = lines.iter().filter(|line| {
            let behind = printed_behind(&line.clock, b"9600");
            behind == " refused 12\n"
        });
        let refused = refused.count();
        let share = COMMAND_LINES / 20..COMMAND_LINES / 5;
        assert!(share.contains(&refused), "{refused}");
    }
}
