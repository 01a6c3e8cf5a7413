//! Request b, "Say why nothing was stored": its sentences, and the paper's
//! steps that come to them, each as small checks whose answers are worked out
//! by hand.

mod shared;

use reference::card::Fate::{
    self, BreakIgnored, DamagedDiscarded, FlowCharacterSwallowed, LineEndingDiscarded, Lost, Stored,
};
use reference::card::{Card, Refusal, CR, NL};
use shared::{
    answers_after, card_with, fill, read_all, settings_frame, state, thirteen, twelve, BREAK,
    FRAMING, GOOD, PARITY,
};

/// A field and its value.
type Field = (usize, u8);

/// "1 pass, 2 discard, 3 null, 4 mark"
const PASS: Field = (1, 1);
const DISCARD: Field = (1, 2);
const NULL: Field = (1, 3);
const MARK: Field = (1, 4);
/// "0 ignore, 1 keep"
const IGNORE: Field = (2, 0);
const STRIP: Field = (3, 1);
/// "4, 6 | nothing | NL"
const DROP_CR: Field = (4, 4);
/// "5, 7 | nothing | CR"
const DROP_CR_AND_TURN_NL: Field = (4, 5);
/// "0 off, 1 obey and store, 2 obey and swallow"
const OBEY_AND_STORE: Field = (5, 1);
const OBEY_AND_SWALLOW: Field = (5, 2);
const IMPLIED_XON: Field = (6, 1);
const LITERAL_NEXT: Field = (7, 1);

/// With these, each of the four reasons can come.
const ALL_REASONS: [Field; 4] = [DISCARD, IGNORE, DROP_CR, OBEY_AND_SWALLOW];

/// "then hex 11 13 00 00 16": the characters of the fresh settings.
const XON: u8 = 0x11;
const XOFF: u8 = 0x13;
const LITERAL_NEXT_CHARACTER: u8 = 0x16;

/// The fates of these arrivals, kind and byte, on channel 0. They come to an
/// empty queue, and again to a full one: what the first stores the second
/// loses, and every other fate is the same.
fn fates(fields: &[Field], arrivals: &[(u8, u8)]) -> Vec<Fate> {
    let mut empty = card_with(fields);
    let mut full = card_with(fields);
    fill(&mut full);
    let mut fates = Vec::new();
    for (kind, byte) in arrivals {
        let fate = empty.arrival(0, *kind, *byte).expect("a served arrival");
        let at_a_full_queue = if fate == Stored { Lost } else { fate };
        assert_eq!(full.arrival(0, *kind, *byte), Ok(at_a_full_queue));
        fates.push(fate);
    }
    fates
}

/// The fate of a single arrival.
fn fate(fields: &[Field], kind: u8, byte: u8) -> Fate {
    fates(fields, &[(kind, byte)])[0]
}

/// All the bytes that have this fate, when each comes alone.
fn bytes_of_fate(fields: &[Field], kind: u8, wanted: Fate) -> Vec<u8> {
    (0..=255)
        .filter(|byte| fate(fields, kind, *byte) == wanted)
        .collect()
}

/// "Split it: 1 flow character swallowed, 3 damaged discarded, 4 break
/// ignored, 5 line ending discarded. 0 and 2 stay, and so does 01's whole
/// case", which stands among the checks of the paper.
#[test]
fn the_numbers() {
    let numbers = [
        (Stored, 0),
        (FlowCharacterSwallowed, 1),
        (Lost, 2),
        (DamagedDiscarded, 3),
        (BreakIgnored, 4),
        (LineEndingDiscarded, 5),
    ];
    for (fate, number) in numbers {
        assert_eq!(fate.number(), number, "{fate:?}");
    }
}

/// "The filling supervisor sees fate 1 and can't tell a swallowed XOFF from a
/// discarded bad character." Now the answers of the frames tell them apart,
/// with an empty queue and with thirteen there.
#[test]
fn answers_of_frames() {
    let settings = vec![settings_frame(&ALL_REASONS)];
    let frames = [
        "01000013", "01000141", "01000241", "01000341", "0100000D", "0A00", "01000011", "0A00",
        "01000041", "0A00",
    ];
    assert_eq!(
        answers_after(&settings, &frames),
        [
            "0001",
            "0003",
            "0003",
            "0004",
            "0005",
            "000000010000",
            "0001",
            "000000000000",
            "0000",
            "000100000000",
        ]
    );
    assert_eq!(
        answers_after(&[settings, thirteen()].concat(), &frames),
        [
            "0001",
            "0003",
            "0003",
            "0004",
            "0005",
            "000C00010000",
            "0001",
            "000C00000000",
            "0002",
            "000C00000001",
        ]
    );
}

/// "A fresh channel has 1, 1, 0, 0, 0": pass, keep, no strip, CR and NL as they
/// are, flow characters off. It stores whatever comes.
#[test]
fn a_fresh_channel_stores_every_arrival() {
    for kind in [GOOD, PARITY, FRAMING, BREAK] {
        assert_eq!(bytes_of_fate(&[], kind, Stored).len(), 256);
    }
}

/// "1 flow character swallowed": "store b for value 1, store nothing for value
/// 2". XON is one as XOFF is: "any; 1 is XON, 2 is XOFF".
#[test]
fn a_flow_character_is_swallowed_for_value_2_only() {
    for byte in [XON, XOFF] {
        assert_eq!(
            fate(&[OBEY_AND_SWALLOW], GOOD, byte),
            FlowCharacterSwallowed
        );
        assert_eq!(fate(&[OBEY_AND_STORE], GOOD, byte), Stored);
        assert_eq!(fate(&[], GOOD, byte), Stored);
    }
    // Special characters 3 and 4 are no flow characters.
    for byte in [0x41, 0x42] {
        let fields = [OBEY_AND_SWALLOW, (13, 0x41), (14, 0x42)];
        assert_eq!(fate(&fields, GOOD, byte), Stored);
    }
}

/// "3 damaged discarded": "Parity or framing error. [...] Discard: nothing
/// changes." Step 2 comes before the strip, the flow characters and the line
/// endings, so that it is 3 for every byte, XON, XOFF and CR among them.
#[test]
fn a_damaged_character_is_discarded_whatever_its_byte() {
    let stripped = [&ALL_REASONS[..], &[STRIP]].concat();
    for kind in [PARITY, FRAMING] {
        for byte in 0..=255 {
            assert_eq!(fate(&ALL_REASONS, kind, byte), DamagedDiscarded);
            assert_eq!(fate(&stripped, kind, byte), DamagedDiscarded);
        }
    }
    assert_eq!(fate(&[DISCARD], GOOD, 0x41), Stored);
}

/// "4 break ignored": "(its byte is disregarded)", so that it is 4 for every
/// byte; and step 1 comes before step 2, so that it is 4 for every value of
/// field 1, discard among them.
#[test]
fn a_break_is_ignored_whatever_its_byte() {
    for damaged_characters in [PASS, DISCARD, NULL, MARK] {
        let fields = [damaged_characters, IGNORE, STRIP, DROP_CR, OBEY_AND_SWALLOW];
        for byte in 0..=255 {
            assert_eq!(fate(&fields, BREAK, byte), BreakIgnored);
        }
        // "Kept: store damaged 00 in mark mode, else plain 00"
        let fields = [damaged_characters, DROP_CR, OBEY_AND_SWALLOW];
        for byte in [0x00, XOFF, CR] {
            assert_eq!(fate(&fields, BREAK, byte), Stored);
        }
        // Field 2 is for breaks alone.
        assert_eq!(fate(&[damaged_characters, IGNORE], GOOD, 0x00), Stored);
    }
}

/// "5 line ending discarded": "4, 6 | nothing | NL" and "5, 7 | nothing | CR"
/// in the table's columns for CR and NL. No other row gives nothing.
#[test]
fn a_line_ending_is_discarded_by_values_4_to_7() {
    for value in [0, 1, 2, 3] {
        assert_eq!(fate(&[(4, value)], GOOD, CR), Stored);
        assert_eq!(fate(&[(4, value)], GOOD, NL), Stored);
    }
    for value in [4, 5, 6, 7] {
        assert_eq!(fate(&[(4, value)], GOOD, CR), LineEndingDiscarded);
        assert_eq!(fate(&[(4, value)], GOOD, NL), Stored);
    }
}

/// "one lookup and no second one": the CR that NL gives isn't discarded.
#[test]
fn a_cr_that_nl_gives_is_stored() {
    for value in [5, 7] {
        let mut card = card_with(&[(4, value)]);
        assert_eq!(card.arrival(0, GOOD, NL), Ok(Stored));
        assert_eq!(card.arrival(0, GOOD, CR), Ok(LineEndingDiscarded));
        assert_eq!(read_all(&mut card), [CR]);
    }
}

/// "Pass: go on as good": a damaged character that is passed is not discarded
/// as damaged. Where nothing is stored then, a later step says why.
#[test]
fn a_passed_character_has_the_fate_of_a_good_one() {
    let fields = [PASS, IGNORE, DROP_CR, OBEY_AND_SWALLOW];
    for kind in [PARITY, FRAMING] {
        for byte in [XON, XOFF] {
            assert_eq!(fate(&fields, kind, byte), FlowCharacterSwallowed);
            assert_eq!(fate(&[PASS, OBEY_AND_STORE], kind, byte), Stored);
        }
        assert_eq!(fate(&fields, kind, CR), LineEndingDiscarded);
        assert_eq!(fate(&fields, kind, 0x41), Stored);
    }
}

/// "Null: store plain 00. Mark: store damaged b, unstripped. The last two [...]
/// match no special character": so none is swallowed, nor is a CR discarded.
#[test]
fn a_nulled_or_marked_character_is_stored() {
    for (damaged_characters, image) in [(NULL, vec![0x00]), (MARK, vec![0xFF, 0x00])] {
        let fields = [damaged_characters, STRIP, DROP_CR, OBEY_AND_SWALLOW];
        for kind in [PARITY, FRAMING] {
            for byte in [XON, XOFF, CR, 0x93, 0x8D] {
                assert_eq!(fate(&fields, kind, byte), Stored);
                let mut card = card_with(&fields);
                card.arrival(0, kind, byte).unwrap();
                assert_eq!(state(&mut card).stopped, 0);
                assert!(read_all(&mut card).starts_with(&image));
            }
        }
    }
}

/// "In order", and step 6 says "stop": a CR that is XON or XOFF is swallowed or
/// stored as such, and comes to step 7 only with field 5 off.
#[test]
fn a_flow_character_that_is_a_line_ending_is_swallowed() {
    for field in [11, 12] {
        let flow_character = (field, CR);
        let swallowed = [DROP_CR, OBEY_AND_SWALLOW, flow_character];
        assert_eq!(fate(&swallowed, GOOD, CR), FlowCharacterSwallowed);
        assert_eq!(
            fate(&[DROP_CR, OBEY_AND_STORE, flow_character], GOOD, CR),
            Stored
        );
        assert_eq!(
            fate(&[DROP_CR, flow_character], GOOD, CR),
            LineEndingDiscarded
        );
        // "Discard: nothing changes" comes before both.
        let discarded = [DISCARD, DROP_CR, OBEY_AND_SWALLOW, flow_character];
        assert_eq!(fate(&discarded, PARITY, CR), DamagedDiscarded);
    }
    // An NL that the table would give as CR.
    let swallowed = [DROP_CR_AND_TURN_NL, OBEY_AND_SWALLOW, (12, NL)];
    assert_eq!(fate(&swallowed, GOOD, NL), FlowCharacterSwallowed);
}

/// "If strip is on, b becomes b mod 128": of all bytes, those whose stripped
/// form is XON, XOFF or CR. With strip off only these themselves.
#[test]
fn the_stripped_byte_decides() {
    let stripped = [PASS, IGNORE, STRIP, DROP_CR, OBEY_AND_SWALLOW];
    let unstripped = [PASS, IGNORE, DROP_CR, OBEY_AND_SWALLOW];
    for kind in [GOOD, PARITY, FRAMING] {
        let bytes = |fields: &[Field], fate| bytes_of_fate(fields, kind, fate);
        assert_eq!(
            bytes(&stripped, FlowCharacterSwallowed),
            [0x11, 0x13, 0x91, 0x93]
        );
        assert_eq!(bytes(&stripped, LineEndingDiscarded), [0x0D, 0x8D]);
        assert_eq!(bytes(&stripped, Stored).len(), 250);
        assert_eq!(bytes(&unstripped, FlowCharacterSwallowed), [0x11, 0x13]);
        assert_eq!(bytes(&unstripped, LineEndingDiscarded), [0x0D]);
        assert_eq!(bytes(&unstripped, Stored).len(), 253);
    }
}

/// "If strip is on, b becomes b mod 128": an XOFF above 7F is no byte's
/// stripped form, so that nothing matches it.
#[test]
fn an_xoff_that_strip_never_gives_swallows_nothing() {
    let xoff = (12, 0x93);
    let bytes = |fields: &[Field]| bytes_of_fate(fields, GOOD, FlowCharacterSwallowed);
    assert_eq!(bytes(&[STRIP, OBEY_AND_SWALLOW, xoff]), [0x11, 0x91]);
    assert_eq!(bytes(&[OBEY_AND_SWALLOW, xoff]), [0x11, 0x93]);
}

/// "4. Literal mark set: clear it, store b, stop.": XOFF and CR are stored
/// behind the literal-next character, and not the next time.
#[test]
fn the_character_after_the_literal_next_one_is_stored() {
    let literal_next = (GOOD, LITERAL_NEXT_CHARACTER);
    let arrivals = [
        (literal_next, Stored),
        ((GOOD, XOFF), Stored),
        ((GOOD, XOFF), FlowCharacterSwallowed),
        (literal_next, Stored),
        ((GOOD, CR), Stored),
        ((GOOD, CR), LineEndingDiscarded),
        // The second of two is literal itself.
        (literal_next, Stored),
        (literal_next, Stored),
        ((GOOD, CR), LineEndingDiscarded),
        // "Pass: go on as good", to step 4 and to step 5 too.
        (literal_next, Stored),
        ((PARITY, CR), Stored),
        ((PARITY, LITERAL_NEXT_CHARACTER), Stored),
        ((FRAMING, XON), Stored),
        ((FRAMING, XON), FlowCharacterSwallowed),
    ];
    let fields = [PASS, DROP_CR, OBEY_AND_SWALLOW, LITERAL_NEXT];
    let (arrivals, expected): (Vec<_>, Vec<_>) = arrivals.into_iter().unzip();
    assert_eq!(fates(&fields, &arrivals), expected);
}

/// "5. Literal-next on and b is that character: set the mark, store b, stop.":
/// a CR that is this character never comes to step 7, unless field 7 is off.
#[test]
fn a_literal_next_character_that_is_cr_is_stored() {
    let character = (15, CR);
    let three = [(GOOD, CR); 3];
    let on = fates(&[DROP_CR, LITERAL_NEXT, character], &three);
    assert_eq!(on, [Stored; 3]);
    let off = fates(&[DROP_CR, character], &three);
    assert_eq!(off, [LineEndingDiscarded; 3]);
}

/// "Ignored: nothing changes." and "Discard: nothing changes.": the literal
/// mark stays, so that the XOFF behind them is stored. A break that is kept
/// clears it.
#[test]
fn an_ignored_break_and_a_discarded_character_leave_the_literal_mark() {
    let arrivals = [
        (GOOD, LITERAL_NEXT_CHARACTER),
        (PARITY, XOFF),
        (FRAMING, LITERAL_NEXT_CHARACTER),
        (BREAK, 0x00),
        (GOOD, XOFF),
        (GOOD, XOFF),
    ];
    let ignored = [&ALL_REASONS[..], &[LITERAL_NEXT]].concat();
    assert_eq!(
        fates(&ignored, &arrivals),
        [
            Stored,
            DamagedDiscarded,
            DamagedDiscarded,
            BreakIgnored,
            Stored,
            FlowCharacterSwallowed,
        ]
    );
    let kept = [DISCARD, OBEY_AND_SWALLOW, LITERAL_NEXT];
    assert_eq!(
        fates(&kept, &arrivals),
        [
            Stored,
            DamagedDiscarded,
            DamagedDiscarded,
            Stored,
            FlowCharacterSwallowed,
            FlowCharacterSwallowed,
        ]
    );
}

/// "From here on, with implied XON the transmitter is set running, unless step
/// 6 recognises XOFF": by a discarded line ending, but not by steps 1 and 2.
/// "Flags of steps 1 to 6 change even when the item is lost", and as well when
/// there is none: with an empty queue and with a full one.
#[test]
fn implied_xon_where_nothing_is_stored() {
    let implied = [&ALL_REASONS[..], &[IMPLIED_XON]].concat();
    // The last column: stopped after the arrival, with implied XON and without.
    let rows = [
        (GOOD, XOFF, FlowCharacterSwallowed, [1, 1]),
        (PARITY, XON, DamagedDiscarded, [1, 1]),
        (BREAK, XON, BreakIgnored, [1, 1]),
        (GOOD, XOFF, FlowCharacterSwallowed, [1, 1]),
        (GOOD, CR, LineEndingDiscarded, [0, 1]),
        (PARITY, XOFF, DamagedDiscarded, [0, 1]),
        (BREAK, XOFF, BreakIgnored, [0, 1]),
        (GOOD, XOFF, FlowCharacterSwallowed, [1, 1]),
        (GOOD, XON, FlowCharacterSwallowed, [0, 0]),
        (GOOD, CR, LineEndingDiscarded, [0, 0]),
    ];
    for full in [false, true] {
        let mut cards = [card_with(&implied), card_with(&ALL_REASONS)];
        if full {
            cards.iter_mut().for_each(fill);
        }
        for (kind, byte, fate, stopped) in rows {
            let answers = cards.each_mut().map(|card| card.arrival(0, kind, byte));
            assert_eq!(answers, [Ok(fate); 2]);
            assert_eq!(cards.each_mut().map(|card| state(card).stopped), stopped);
        }
    }
}

/// "If 12 items wait, the new one is lost", or with request a at thirteen: but
/// here there is no new one. So the place behind the twelve stays free, then
/// nothing is flagged, and the loss count stays.
#[test]
fn nothing_is_lost_where_nothing_is_to_be_stored() {
    let reasons = ["01000013", "01000141", "01000300", "0100000D"];
    let later = [
        &reasons[..],
        &["0A00", "0100006D"],
        &reasons,
        &["0A00", "02000C", "02000C"],
    ];
    let first = [vec![settings_frame(&ALL_REASONS)], twelve()].concat();
    assert_eq!(
        answers_after(&first, &later.concat()),
        [
            "0001",
            "0003",
            "0004",
            "0005",
            "000C00010000",
            "0000",
            "0001",
            "0003",
            "0004",
            "0005",
            "000C00010000",
            "000C006162636465666768696A6B6C",
            "0001006D",
        ]
    );
}

/// A card on which nearly everything differs from a fresh one: thirteen items,
/// a flag and a loss, a queued byte, an owed NL, a waiting special, CTS 1, and
/// a pick's place.
fn busy_card() -> Card {
    let fields = [&ALL_REASONS[..], &[LITERAL_NEXT, (10, 1)]].concat();
    let mut card = card_with(&fields);
    fill(&mut card);
    assert_eq!(card.arrival(0, GOOD, 0x41), Ok(Lost));
    assert_eq!(card.load(0, &[NL, 0x42]), Ok(2));
    assert_eq!(card.turn(0), Ok(Some(CR)));
    assert_eq!(card.special(0, 3), Ok(()));
    assert_eq!(card.cts(0, 1), Ok(()));
    assert_eq!(card.pick(), Some(0));
    card
}

/// The request gives other numbers, and the steps stay: "nothing changes" for 3
/// and 4; "set running or stopped" and no more for 1; nothing for 5 without
/// implied XON. "A call on one channel alters no other channel, nor the pick's
/// place."
#[test]
fn nothing_else_changes() {
    let mut card = busy_card();
    let mut expected = card.clone();
    let rows = [
        (PARITY, XOFF, DamagedDiscarded, false),
        (BREAK, XOFF, BreakIgnored, false),
        (GOOD, XOFF, FlowCharacterSwallowed, true),
        (GOOD, CR, LineEndingDiscarded, true),
        (FRAMING, XON, DamagedDiscarded, true),
        (BREAK, XON, BreakIgnored, true),
        (GOOD, XON, FlowCharacterSwallowed, false),
        (GOOD, CR, LineEndingDiscarded, false),
    ];
    for (kind, byte, fate, stopped) in rows {
        assert_eq!(card.arrival(0, kind, byte), Ok(fate));
        expected.channels[0].stopped = stopped;
        assert_eq!(card, expected, "{fate:?}");
    }
    // The same with the literal mark set, by a character that is lost.
    assert_eq!(card.arrival(0, GOOD, LITERAL_NEXT_CHARACTER), Ok(Lost));
    expected.channels[0].literal_mark = true;
    expected.channels[0].loss_count = 2;
    for (kind, fate) in [(PARITY, DamagedDiscarded), (BREAK, BreakIgnored)] {
        assert_eq!(card.arrival(0, kind, 0x41), Ok(fate));
        assert_eq!(card, expected, "{fate:?}");
    }
}

/// "kind above 3" is still refusal 2, and "A refusal changes nothing": no fate
/// of the request stands for it.
#[test]
fn a_kind_above_3_has_no_fate() {
    let mut card = busy_card();
    let before = card.clone();
    for kind in [4, 5, 255] {
        for byte in [XON, XOFF, CR, 0x41] {
            assert_eq!(card.arrival(0, kind, byte), Err(Refusal::Kind));
        }
    }
    assert_eq!(card, before);
}
