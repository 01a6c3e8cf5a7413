//! Request n, "Confirmations": its sentences, each as small checks whose answers
//! are worked out by hand.

mod command;

use command::run;
use reference::confirmations::{confirmations, listing, program, Case};
use reference::confirmations::{ConfirmationsRefusal, Served};

/// The judgements by their numbers.
const ACCEPTED: u8 = 0;
const GAP: u8 = 1;
const REPEATED: u8 = 2;
const SET_ASIDE: u8 = 3;

/// Place, number, litres and judgement.
type Row = (usize, u16, u32, u8);

const PLACES: usize = 10;

/// What stands in a lent list before the call.
const STAYS: Row = (77, 7777, 777_777, 77);

/// The four slices of a lent list, each with ten places.
struct List {
    places: [usize; PLACES],
    numbers: [u16; PLACES],
    litres: [u32; PLACES],
    judgements: [u8; PLACES],
}

impl List {
    fn new() -> List {
        List {
            places: [STAYS.0; PLACES],
            numbers: [STAYS.1; PLACES],
            litres: [STAYS.2; PLACES],
            judgements: [STAYS.3; PLACES],
        }
    }

    /// The call, with so much of each slice lent.
    fn call(&mut self, stream: &[u8], lengths: [usize; 4]) -> Result<Served, ConfirmationsRefusal> {
        confirmations(
            stream,
            &mut self.places[..lengths[0]],
            &mut self.numbers[..lengths[1]],
            &mut self.litres[..lengths[2]],
            &mut self.judgements[..lengths[3]],
        )
    }

    fn rows(&self) -> Vec<Row> {
        let row = |at: usize| {
            let (place, number) = (self.places[at], self.numbers[at]);
            (place, number, self.litres[at], self.judgements[at])
        };
        (0..PLACES).map(row).collect()
    }
}

/// The sum of litres and the entries; the rest of the list stays.
fn served(stream: &[u8]) -> (u64, Vec<Row>) {
    let mut list = List::new();
    let answer = list.call(stream, [PLACES; 4]).expect("a served call");
    let mut entries = list.rows();
    let rest = entries.split_off(answer.entries);
    assert!(rest.iter().all(|row| *row == STAYS));
    (answer.litres, entries)
}

/// The judgements alone.
fn judgements(stream: &[u8]) -> Vec<u8> {
    let (_, entries) = served(stream);
    entries.iter().map(|entry| entry.3).collect()
}

fn assert_nothing_is_listed(stream: &[u8]) {
    assert_eq!(served(stream), (0, vec![]), "{stream:02X?}");
}

// ---------------------------------------------------------------------------
// The form
// ---------------------------------------------------------------------------

/// "a confirmation is STX (02), a four-digit number, a space, one to six digits
/// of litres, ETX (03)"
#[test]
fn the_form_of_a_confirmation() {
    let rows: [(&[u8], u16, u32); 12] = [
        (b"\x021234 5\x03", 1234, 5),
        (b"\x021234 56\x03", 1234, 56),
        (b"\x021234 567\x03", 1234, 567),
        (b"\x021234 5678\x03", 1234, 5678),
        (b"\x021234 56789\x03", 1234, 56_789),
        (b"\x021234 567890\x03", 1234, 567_890),
        (b"\x020000 0\x03", 0, 0),
        (b"\x020000 000000\x03", 0, 0),
        (b"\x029999 999999\x03", 9999, 999_999),
        (b"\x020012 000034\x03", 12, 34),
        (b"\x020100 010\x03", 100, 10),
        (b"\x020089 098\x03", 89, 98),
    ];
    for (stream, number, litres) in rows {
        let sum = u64::from(litres);
        let entries = vec![(0, number, litres, ACCEPTED)];
        assert_eq!(served(stream), (sum, entries), "{stream:?}");
    }
}

const OF_ANOTHER_FORM: [&[u8]; 44] = [
    b"",
    b" ",
    b"1",
    b"1234",
    b"1234 ",
    b" 5",
    b"123 5",
    b"12 5",
    b" 1234",
    b"12345 6",
    b"01234 6",
    b"1234 1234567",
    b"1234 0000001",
    b"1234 12345678",
    b"12345",
    b"1234567890",
    b"1234567890A",
    b"1234  5",
    b"1234 5 ",
    b" 1234 5",
    b"1234 5 6",
    b"123 45",
    b"12345 67890",
    b"1234\x005",
    b"1234\x1F5",
    b"1234\x215",
    b"1234\xA05",
    b"/234 5",
    b":234 5",
    b"12/4 5",
    b"123: 5",
    b"1234 /",
    b"1234 :",
    b"1234 5/",
    b"1234 12345:",
    b"123\xB4 5",
    b"1234 \xB5",
    b"+123 5",
    b"1234 -5",
    b"1234 +5",
    b"1234 5.0",
    b"1234 5\r",
    b"1234 5\n",
    b"12A4 0x5",
];

/// "an undamaged one of another form isn't listed"
#[test]
fn another_form_is_not_listed() {
    for text in OF_ANOTHER_FORM {
        let stream = [b"\x02", text, b"\x03"].concat();
        assert_nothing_is_listed(&stream);
        assert_eq!(listing(&stream), "litres 0\n");
        // It neither stands between a number and the next one, nor counts.
        let between = [b"\x020041 10\x03", &stream[..], b"\x020042 20\x03"].concat();
        let second = stream.len() + 9;
        let entries = vec![(0, 41, 10, ACCEPTED), (second, 42, 20, ACCEPTED)];
        assert_eq!(served(&between), (30, entries), "{text:?}");
    }
}

/// With many digits too many, so that a count of them comes round.
#[test]
fn many_digits_are_another_form() {
    for more in [256, 65_536] {
        let zeros = "0".repeat(more);
        assert_nothing_is_listed(format!("\x021234 {zeros}5\x03").as_bytes());
        assert_nothing_is_listed(format!("\x02{zeros}1234 5\x03").as_bytes());
        assert_nothing_is_listed(format!("\x021234{}5\x03", " ".repeat(more + 1)).as_bytes());
    }
}

/// "FF FF is good FF": a good character, so that the one that holds it is
/// undamaged, and of another form.
#[test]
fn a_good_ff_makes_another_form() {
    for stream in [
        &b"\x02\xFF\xFF1234 5\x03"[..],
        b"\x0212\xFF\xFF34 5\x03",
        b"\x021234\xFF\xFF5\x03",
        b"\x021234 5\xFF\xFF\x03",
        b"\x021234 \xFF\xFF\x03",
    ] {
        assert_nothing_is_listed(stream);
    }
}

// ---------------------------------------------------------------------------
// From STX to ETX
// ---------------------------------------------------------------------------

/// "Each runs from a good STX to the next good ETX"
#[test]
fn each_runs_to_the_next_good_etx() {
    // Behind the first ETX nothing is held any more.
    let one = (5, vec![(0, 1234, 5, ACCEPTED)]);
    assert_eq!(served(b"\x021234 5\x036\x03"), one);
    assert_eq!(served(b"\x021234 5\x03\x03"), one);
    assert_eq!(served(b"\x021234 5\x031235 6\x03"), one);
    assert_nothing_is_listed(b"\x0212\x0334 5\x03");
    assert_nothing_is_listed(b"\x02\x031234 5\x03");
    assert_nothing_is_listed(b"1234 5\x03");
    assert_nothing_is_listed(b"\x03\x03");
    assert_nothing_is_listed(b"");
    // STX and ETX with their highest bit are neither.
    assert_nothing_is_listed(b"\x821234 5\x03");
    assert_nothing_is_listed(b"\x021234 5\x83");
    assert_nothing_is_listed(b"\x021234 5\x83\x03");
}

/// "a good STX", "the next good ETX": a damaged one neither begins nor ends.
#[test]
fn damaged_stx_and_etx_bound_nothing() {
    assert_nothing_is_listed(b"\xFF\x00\x021234 5\x03");
    assert_nothing_is_listed(b"\x021234 5\xFF\x00\x03");
    // The damaged ETX is held up to the next good one.
    let set_aside = (0, vec![(0, 0, 0, SET_ASIDE)]);
    assert_eq!(served(b"\x021234 5\xFF\x00\x03\x03"), set_aside);
    assert_eq!(served(b"\x021234 5\xFF\x00\x03\r\n\x03"), set_aside);
    // The damaged STX abandons nothing.
    assert_eq!(served(b"\x0212\xFF\x00\x021234 5\x03"), set_aside);
    // Damaged ones outside change nothing.
    assert_eq!(
        served(b"\xFF\x00\x02\x021234 5\x03\xFF\x00\x03"),
        (5, vec![(1, 1234, 5, ACCEPTED)])
    );
}

/// "a new good STX abandons an unfinished one"
#[test]
fn a_new_stx_abandons_an_unfinished_one() {
    assert_eq!(
        served(b"\x021234 5\x021240 6\x03"),
        (6, vec![(7, 1240, 6, ACCEPTED)])
    );
    assert_eq!(
        served(b"\x02\x021234 5\x03"),
        (5, vec![(1, 1234, 5, ACCEPTED)])
    );
    assert_eq!(
        served(b"\x0212\x02\x02\x021234 5\x03"),
        (5, vec![(5, 1234, 5, ACCEPTED)])
    );
    assert_nothing_is_listed(b"\x021234 5\x02\x03");
    assert_nothing_is_listed(b"\x0212\x0234 5\x03");
    // With what was damaged in it.
    assert_eq!(
        served(b"\x0212\xFF\x0034\x021234 5\x03"),
        (5, vec![(5, 1234, 5, ACCEPTED)])
    );
    // An ETX later doesn't finish it.
    assert_eq!(
        served(b"\x021111 1\x022222 2\x03\x03"),
        (2, vec![(7, 2222, 2, ACCEPTED)])
    );
}

/// One that is never finished isn't listed, damaged or not.
#[test]
fn an_unfinished_one_is_not_listed() {
    assert_nothing_is_listed(b"\x02");
    assert_nothing_is_listed(b"\x021234 5");
    assert_nothing_is_listed(b"\x0212\xFF\x00\x33");
    assert_eq!(
        served(b"\x021234 5\x03\x021235 6"),
        (5, vec![(0, 1234, 5, ACCEPTED)])
    );
}

/// "List each one found with the place of its STX among the characters, from 0."
/// A good FF and a damaged character are one character each.
#[test]
fn places_count_characters() {
    assert_eq!(
        served(b"\xFF\xFF\xFF\x00\x41\r\x021234 5\x03"),
        (5, vec![(3, 1234, 5, ACCEPTED)])
    );
    // Eight characters, two, then six (the damaged digits are one each), two.
    let stream = b"\x021234 5\x03\r\n\x02\xFF\x00\x31\xFF\x00\xFF23\x03\xFF\xFF \x021235 6\x03";
    let entries = vec![
        (0, 1234, 5, ACCEPTED),
        (10, 0, 0, SET_ASIDE),
        (18, 1235, 6, ACCEPTED),
    ];
    assert_eq!(served(stream), (11, entries));
}

// ---------------------------------------------------------------------------
// Judgements
// ---------------------------------------------------------------------------

/// "One that holds a damaged character is listed as set aside, never counted as
/// litres": each character of it damaged in turn, or one more that is damaged.
#[test]
fn one_that_holds_a_damaged_character_is_set_aside() {
    let text = b"1234 50";
    let set_aside = (0, vec![(0, 0, 0, SET_ASIDE)]);
    for place in 0..text.len() {
        let (before, after) = (&text[..place], &text[place + 1..]);
        for byte in [text[place], 0x00, 0x02, 0x03, 0xFF] {
            let damaged = [0xFF, 0x00, byte];
            let instead = [b"\x02", before, &damaged, after, b"\x03"].concat();
            assert_eq!(served(&instead), set_aside, "{instead:02X?}");
            let between = [b"\x02", before, &damaged, &text[place..], b"\x03"].concat();
            assert_eq!(served(&between), set_aside, "{between:02X?}");
        }
    }
    assert_eq!(served(b"\x021234 50\xFF\x00\x30\x03"), set_aside);
}

/// One that is damaged and of another form is set aside too.
#[test]
fn damaged_and_of_another_form_is_set_aside() {
    for stream in [
        &b"\x02\xFF\x00\x00\x03"[..],
        b"\x02\xFF\x00\x31\x03",
        b"\x02123\xFF\x0045 6\x03",
        b"\x02\xFF\xFF\xFF\x00\xFF\xFF\xFF\x03",
        b"\x02ABC\xFF\x00\x44 and much more than eleven characters\x03",
        b"\x021234 5678901\xFF\x00\x32\x03",
    ] {
        assert_eq!(served(stream), (0, vec![(0, 0, 0, SET_ASIDE)]));
    }
}

/// One that is set aside is not the one last accepted.
#[test]
fn one_set_aside_is_not_last_accepted() {
    let damaged = b"\x020042\xFF\x00\x20 9\x03";
    let rows: [(&[u8], u8); 4] = [
        (b"0042 1", ACCEPTED),
        (b"0041 1", REPEATED),
        (b"0043 1", GAP),
        (b"0000 1", GAP),
    ];
    for (text, judgement) in rows {
        let stream = [b"\x020041 1\x03", &damaged[..], b"\x02", text, b"\x03"].concat();
        assert_eq!(judgements(&stream), [ACCEPTED, SET_ASIDE, judgement]);
    }
}

/// "The first is accepted without a gap.", whatever its number is, and also
/// behind one that is set aside, abandoned or of another form.
#[test]
fn the_first_is_accepted_without_a_gap() {
    for number in [0, 1, 4711, 9998, 9999] {
        let stream = format!("\x02{number:04} 8\x03");
        let first = vec![(0, number, 8, ACCEPTED)];
        assert_eq!(served(stream.as_bytes()), (8, first));
    }
    assert_eq!(
        judgements(b"\x020001\xFF\x00\x20 9\x03\x020007 1\x03"),
        [SET_ASIDE, ACCEPTED]
    );
    assert_eq!(
        judgements(b"\x020000\xFF\x00\x20 9\x03\x020000 1\x03"),
        [SET_ASIDE, ACCEPTED]
    );
    assert_eq!(judgements(b"\x020001 9\x020007 1\x03"), [ACCEPTED]);
    assert_eq!(judgements(b"\x020001  9\x03\x020007 1\x03"), [ACCEPTED]);
}

/// "A number equal to the one last accepted is reported as repeated and adds no
/// litres": listed with its own litres, be they the same or not.
#[test]
fn the_number_last_accepted_is_repeated() {
    let stream = b"\x020007 10\x03\x020007 10\x03\x020007 999\x03\x020007 0\x03\x020008 5\x03";
    let entries = vec![
        (0, 7, 10, ACCEPTED),
        (9, 7, 10, REPEATED),
        (18, 7, 999, REPEATED),
        (28, 7, 0, REPEATED),
        (36, 8, 5, ACCEPTED),
    ];
    assert_eq!(served(stream), (15, entries));
    assert_eq!(
        judgements(b"\x020000 1\x03\x020000 1\x03"),
        [ACCEPTED, REPEATED]
    );
    // A gap is accepted, so that its number can be repeated.
    assert_eq!(
        judgements(b"\x020007 1\x03\x020009 1\x03\x020009 1\x03\x020007 1\x03\x020007 1\x03"),
        [ACCEPTED, GAP, REPEATED, GAP, REPEATED]
    );
}

/// "any other than the next one (0000 follows 9999) is accepted and reported as
/// a gap"
#[test]
fn any_other_than_the_next_is_a_gap() {
    let rows = [
        (7, 8, ACCEPTED),
        (7, 9, GAP),
        (7, 6, GAP),
        (7, 0, GAP),
        (7, 17, GAP),
        (7, 1007, GAP),
        (9, 10, ACCEPTED),
        (99, 100, ACCEPTED),
        (999, 1000, ACCEPTED),
        (9998, 9999, ACCEPTED),
        (9999, 0, ACCEPTED),
        (9999, 1, GAP),
        (9999, 9998, GAP),
        (9998, 0, GAP),
        (0, 9999, GAP),
        (0, 1, ACCEPTED),
        (1, 0, GAP),
        (255, 256, ACCEPTED),
        (256, 0, GAP),
    ];
    for (first, second, judgement) in rows {
        let stream = format!("\x02{first:04} 30\x03\x02{second:04} 4\x03");
        let entries = vec![(0, first, 30, ACCEPTED), (9, second, 4, judgement)];
        assert_eq!(served(stream.as_bytes()), (34, entries));
    }
}

/// The next one is the next behind the gap.
#[test]
fn a_gap_is_accepted() {
    let stream =
        b"\x029998 1\x03\x020005 20\x03\x020006 300\x03\x029999 4000\x03\x020000 50000\x03";
    let entries = vec![
        (0, 9998, 1, ACCEPTED),
        (8, 5, 20, GAP),
        (17, 6, 300, ACCEPTED),
        (27, 9999, 4000, GAP),
        (38, 0, 50_000, ACCEPTED),
    ];
    assert_eq!(served(stream), (54_321, entries));
}

/// "The sum of litres equals the sum over the accepted ones.": more than 32 bits
/// of them too.
#[test]
fn the_sum_of_litres() {
    let stream =
        b"\x020001 100\x03\x020001 7\x03\x020003 20\x03\x020004 \xFF\x00\x31\x03\x020004 3\x03";
    let entries = vec![
        (0, 1, 100, ACCEPTED),
        (10, 1, 7, REPEATED),
        (18, 3, 20, GAP),
        (27, 0, 0, SET_ASIDE),
        (35, 4, 3, ACCEPTED),
    ];
    assert_eq!(served(stream), (123, entries));
    assert_eq!(served(b"litres 12"), (0, vec![]));

    // 5,000 times 999,999 litres.
    let many: String = (0..5000)
        .map(|number| format!("\x02{number:04} 999999\x03"))
        .collect();
    assert!(listing(many.as_bytes()).ends_with("\nlitres 4999995000\n"));
}

// ---------------------------------------------------------------------------
// Refusals
// ---------------------------------------------------------------------------

/// Accepted, of another form, repeated, set aside, gap, unfinished: four
/// entries.
const FOUR_ENTRIES: &[u8] =
    b"\x020001 5\x03\x02001 5\x03\x020001 6\x03\x02\xFF\x00\x41\x03\x020009 7\x03\x020010 8";

/// Lengths of which the shortest is this one: all four, or one of them.
fn shortest(length: usize) -> Vec<[usize; 4]> {
    let mut all = vec![[length; 4]];
    for slice in 0..4 {
        let mut lengths = [9; 4];
        lengths[slice] = length;
        all.push(lengths);
    }
    all
}

/// "16 if the input has more entries than the lent list has places": the list has
/// as many as the shortest slice has. Every entry takes a place, accepted or
/// not; what isn't listed takes none.
#[test]
fn refusal_16() {
    let entries = [
        (0, 1, 5, ACCEPTED),
        (15, 1, 6, REPEATED),
        (23, 0, 0, SET_ASIDE),
        (26, 9, 7, GAP),
    ];
    for lengths in shortest(4).into_iter().chain(shortest(5)) {
        let mut list = List::new();
        let answer = list.call(FOUR_ENTRIES, lengths).expect("a served call");
        assert_eq!((answer.entries, answer.litres), (4, 12));
        assert_eq!(list.rows()[..4], entries);
        assert_eq!(list.rows()[4..], [STAYS; PLACES - 4]);
    }
    for lengths in (0..4).flat_map(shortest) {
        let mut list = List::new();
        let answer = list.call(FOUR_ENTRIES, lengths);
        assert_eq!(answer, Err(ConfirmationsRefusal::ListTooShort));
        assert_eq!(list.rows(), [STAYS; PLACES], "A refusal changes nothing");
    }
}

/// "No refusal is given outside these conditions."
#[test]
fn no_places_are_enough_for_no_entries() {
    for stream in [&b""[..], b"\x02", b"\x021234 5", b"\x02\x03", b"1234 5\x03"] {
        let answer = List::new().call(stream, [0; 4]);
        assert_eq!(
            answer,
            Ok(Served {
                entries: 0,
                litres: 0
            })
        );
    }
}

/// "8 broken stream; the place of the offending FF", which is a place among the
/// bytes. "Lower numbers first": before 16.
#[test]
fn refusal_8() {
    let rows: [(&[u8], usize); 9] = [
        (b"\xFF", 0),
        (b"\xFF\x00", 0),
        (b"\xFF\x021234 5\x03", 0),
        (b"\x021234 5\x03\xFF", 8),
        (b"\x021234 5\x03\xFF\x00", 8),
        (b"\x021234 5\x03\xFF\xFF\xFF\x00\x41\xFF\x01\xFF", 13),
        (b"\x0212\xFF34 5\x03\x021235 6\x03", 3),
        (b"\x021234 5\xFF\x03", 7),
        (b"\x02\xFF\xFF\xFF\x02", 3),
    ];
    for (stream, place) in rows {
        for lengths in [[9; 4], [0; 4], [9, 9, 9, 0], [1, 9, 9, 9]] {
            let mut list = List::new();
            let answer = list.call(stream, lengths);
            assert_eq!(answer, Err(ConfirmationsRefusal::Broken { place }));
            assert_eq!(list.rows(), [STAYS; PLACES], "A refusal changes nothing");
        }
    }
}

// ---------------------------------------------------------------------------
// The listing
// ---------------------------------------------------------------------------

#[test]
fn the_listing_of_a_whole_stream() {
    assert_eq!(listing(b""), "litres 0\n");
    assert_eq!(listing(b"\x02"), "litres 0\n");
    assert_eq!(listing(b"\x021234 5\x03"), "0 accepted 1234 5\nlitres 5\n");
    assert_eq!(
        listing(b"\r\n\x020007 000010\x03"),
        "2 accepted 0007 10\nlitres 10\n"
    );
    assert_eq!(
        listing(b"\x020000 000000\x03\x020000 000\x03"),
        "0 accepted 0000 0\n13 repeated 0000 0\nlitres 0\n"
    );
    let lines = [
        "0 accepted 0001 5",
        "15 repeated 0001 6",
        "23 aside",
        "26 gap 0009 7",
        "litres 12",
    ];
    assert_eq!(listing(FOUR_ENTRIES), lines.join("\n") + "\n");
    assert_eq!(
        listing(b"\x029999 999999\x03\xFF\xFF\x020000 1\x03"),
        "0 accepted 9999 999999\n14 accepted 0000 1\nlitres 1000000\n"
    );
}

/// What stands before the broken FF is listed, and then the refusal in place of
/// the last line, with a place among the bytes.
#[test]
fn the_listing_of_a_broken_stream() {
    assert_eq!(listing(b"\xFF"), "refused 8 0\n");
    assert_eq!(listing(b"\xFF\x00"), "refused 8 0\n");
    assert_eq!(listing(b"\xFF\x021234 5\x03"), "refused 8 0\n");
    assert_eq!(
        listing(b"\x021234 5\x03\xFF\x021235 6\x03"),
        "0 accepted 1234 5\nrefused 8 8\n"
    );
    // The character at place 2 has two bytes, and the one at 11 three.
    assert_eq!(
        listing(b"\r\n\xFF\xFF\x021234 5\x03\xFF\x00\x03\x02\xFF\x00\x31\x03\xFF\x00"),
        "3 accepted 1234 5\n12 aside\nrefused 8 20\n"
    );
    // An unfinished one isn't listed, and its ETX behind the FF isn't looked for.
    assert_eq!(
        listing(b"\x021234 5\x03\x02\xFF\x00\x31\xFF\x03"),
        "0 accepted 1234 5\nrefused 8 12\n"
    );
    assert_eq!(
        listing(b"\x021234 5\xFF\x03\x021235 6\x03\xFF"),
        "refused 8 7\n"
    );
}

// ---------------------------------------------------------------------------
// The confirmations form
// ---------------------------------------------------------------------------

fn answers(lines: &str) -> String {
    let mut output = Vec::new();
    program(lines.as_bytes(), &mut output).expect("well-formed lines");
    String::from_utf8(output).expect("answers are text")
}

#[test]
fn answers_of_cases() {
    // One entry, 1234 and 5 litres, behind a good FF.
    let one = "FFFF0231323334203503";
    assert_eq!(answers(""), "");
    assert_eq!(answers("0 0 0 0 -"), "00:0:0 - - - -\n");
    assert_eq!(
        answers("0 1 2 3 -"),
        "00:0:0 - 42405 2779096485,2779096485 165,165,165\n"
    );
    assert_eq!(
        answers(&format!("2 1 1 3 {one}\n")),
        "00:1:5 1,2779096485 1234 5 0,165,165\n"
    );
    assert_eq!(
        answers(&format!("1 1 0 1 {one}\n1 1 1 1 {one}\n")),
        "16 2779096485 42405 - 165\n00:1:5 1 1234 5 0\n"
    );
    assert_eq!(
        answers(&format!("1 1 0 1 {one}FF")),
        "08:10 2779096485 42405 - 165\n"
    );
    assert_eq!(
        answers("1 1 1 1 02FF004103\n1 1 1 1 02FF0041FF03"),
        "00:1:0 0 0 0 3\n08:4 2779096485 42405 2779096485 165\n"
    );
    assert_eq!(answers("512 0 0 0 -").split(' ').count(), 5);
    assert_eq!(answers("512 0 0 0 -").split(',').count(), 512);
}

const MALFORMED: [&str; 22] = [
    "",
    " ",
    "-",
    "1 1 1 1",
    "1 1 1 1 ",
    "1 1 1 -",
    "1 1 1 1 1 -",
    "1 1 1 1 -  ",
    "1 1 1  1 -",
    " 1 1 1 1 -",
    "1 1 1 1 - -",
    "1 1 1 1 --",
    "1 1 1 1 0",
    "1 1 1 1 0G",
    "1 1 1 1 0a",
    "1 1 1 1 02 03",
    "513 1 1 1 -",
    "1 1 1 513 -",
    "1 +1 1 1 -",
    "1 -1 1 1 -",
    "1 A 1 1 -",
    "1 1 1 1 -\r",
];

#[test]
fn malformed_lines() {
    for line in MALFORMED {
        assert_eq!(Case::of_line(line.as_bytes()), None, "{line:?}");
        let mut output = Vec::new();
        let input = format!("0 0 0 0 02\n{line}\n0 0 0 0 02\n");
        assert!(program(input.as_bytes(), &mut output).is_err(), "{line:?}");
        assert_eq!(output, b"00:0:0 - - - -\n", "{line:?}");
    }
}

#[test]
fn the_command_line() {
    let served = run(&["confirmations"], b"1 1 1 1 0231323334203503\n0 0 0 0 FF");
    assert_eq!(served.stdout, b"00:1:5 0 1234 5 0\n08:0 - - - -\n");
    assert_eq!((served.status.code(), served.stderr.len()), (Some(0), 0));

    let malformed = run(&["confirmations"], b"0 0 0 0 -\n0 0 0 -\n0 0 0 0 -\n");
    assert_eq!(malformed.status.code(), Some(1));
    assert_eq!(malformed.stdout, b"00:0:0 - - - -\n");
    assert!(String::from_utf8_lossy(&malformed.stderr).contains("0 0 0 -"));

    let listed = run(&["listing"], b"\x021234 5\x03\xFF");
    assert_eq!(listed.stdout, b"0 accepted 1234 5\nrefused 8 8\n");
    assert_eq!((listed.status.code(), listed.stderr.len()), (Some(0), 0));
    assert_eq!(run(&["listing"], b"").stdout, b"litres 0\n");

    let cases = run(&["generate-confirmations", "3", "50"], b"").stdout;
    assert_eq!(cases, reference::generate::confirmations::cases(3, 50));
    let stream = run(&["generate-listing", "3", "5000"], b"").stdout;
    assert_eq!(
        stream,
        reference::generate::confirmations::long_stream(3, 5000)
    );
    for words in [
        &["confirmations", "more"][..],
        &["listing", "more"],
        &["generate-confirmations", "1"],
        &["generate-listing", "1"],
        &["generate-listing", "1", "-1"],
    ] {
        assert_eq!(run(words, b"").status.code(), Some(1), "{words:?}");
    }
}
