//! Request a, "Thirteenth character": its sentences, each as small checks
//! whose answers are worked out by hand.

mod shared;

use reference::card::{Card, Fate, ReadAnswer, Refusal};
use shared::{answers, answers_after, arrivals, settings_frame, thirteen, twelve};

/// n is lost, and m gets the flag.
fn thirteen_and_a_loss() -> Vec<String> {
    arrivals(b"abcdefghijklmn")
}

/// "so thirteen-character lines lose their last digit on our box but not on
/// the old card"
#[test]
fn a_thirteen_character_line_loses_nothing() {
    let line = arrivals(b"LITRES 001234");
    assert_eq!(answers(&line), ["0000"; 13]);
    assert_eq!(
        answers_after(&line, &["02000C", "02000C", "02000C", "0A00"]),
        [
            "000C004C4954524553203030313233",
            "00010034",
            "000000",
            "000000000000",
        ]
    );
    // In other parts: five, then eight.
    assert_eq!(
        answers_after(&line, &["020005", "02000C"]),
        ["0005004C49545245", "0008005320303031323334"]
    );
}

/// "One more place is to hold an item behind the twelve": the thirteenth is
/// stored, and nothing is flagged by that.
#[test]
fn one_more_place_holds_an_item_behind_the_twelve() {
    assert_eq!(answers(&twelve()), ["0000"; 12]);
    assert_eq!(answers(&thirteen()), ["0000"; 13]);
    assert_eq!(
        answers_after(&thirteen(), &["02000C", "020001", "020001"]),
        ["000C006162636465666768696A6B6C", "0001006D", "000000"]
    );
}

/// "it moves up when a read makes room": after a read of twelve it is alone,
/// and a read of one makes room for one more behind it.
#[test]
fn the_held_item_moves_up_when_a_read_makes_room() {
    assert_eq!(
        answers_after(&thirteen(), &["02000C", "0A00", "020001", "0A00"])[1..],
        ["000100000000", "0001006D", "000000000000"]
    );
    assert_eq!(
        answers_after(
            &thirteen(),
            &["020001", "0100006E", "0100006F", "02000C", "02000C"]
        ),
        [
            "00010061",
            "0000",
            "0002",
            "000C0062636465666768696A6B6C6D",
            "0001016E",
        ]
    );
    // Twelve are read, one is left: room for twelve more.
    let mut first = thirteen();
    first.push("02000C".to_string());
    first.extend(arrivals(b"nopqrstuvwxy"));
    assert_eq!(
        answers_after(&first, &["0A00", "0100007A", "02000C", "02000C"]),
        [
            "000C00000000",
            "0002",
            "000C006D6E6F707172737475767778",
            "00010179",
        ]
    );
}

/// "when a read makes room": a read of nothing makes none, nor does a refused
/// one.
#[test]
fn a_read_that_removes_nothing_makes_no_room() {
    assert_eq!(
        answers_after(&thirteen(), &["020000", "0100006E", "02000D", "0100006E"]),
        ["000000", "0002", "03", "0002"]
    );
}

/// "A loss now happens at thirteen, and the flag goes on the newest item,
/// which is the held one."
#[test]
fn a_loss_happens_at_thirteen_and_flags_the_held_item() {
    let mut fates = vec!["0000"; 13];
    fates.push("0002");
    assert_eq!(answers(&thirteen_and_a_loss()), fates);
    assert_eq!(
        answers_after(
            &thirteen_and_a_loss(),
            &["0A00", "02000C", "0A00", "020001", "0A00"]
        ),
        [
            "000C00000001",
            "000C006162636465666768696A6B6C",
            "000100000001",
            "0001016D",
            "000000000001",
        ]
    );
    // A second loss finds the flag set, and only the count rises.
    assert_eq!(
        answers_after(
            &thirteen_and_a_loss(),
            &["0100006F", "0A00", "020001", "02000C"]
        ),
        [
            "0002",
            "000C00000002",
            "00010061",
            "000C0162636465666768696A6B6C6D",
        ]
    );
}

/// The flag stays on the item that moved up; the newest is then another one.
#[test]
fn the_flag_moves_up_with_its_item() {
    let reads = ["02000C", "02000C"];
    let mut first = thirteen_and_a_loss();
    first.push("020001".to_string());
    first.extend(arrivals(b"o"));
    assert_eq!(
        answers_after(&first, &reads),
        ["000C0162636465666768696A6B6C6D", "0001006F"]
    );
    first.extend(arrivals(b"p"));
    assert_eq!(
        answers_after(&first, &reads),
        ["000C0162636465666768696A6B6C6D", "0001016F"]
    );
    // One is read before: both flags are in one read.
    first.push("020001".to_string());
    assert_eq!(
        answers_after(&first, &reads),
        ["000C02636465666768696A6B6C6D6F", "000000"]
    );
}

/// "State still shows at most 12 waiting"
#[test]
fn state_shows_at_most_12() {
    let shown = |bytes: &[u8]| answers_after(&arrivals(bytes), &["0A00"]);
    assert_eq!(shown(b"abcdefghijk"), ["000B00000000"]);
    assert_eq!(shown(b"abcdefghijkl"), ["000C00000000"]);
    assert_eq!(shown(b"abcdefghijklm"), ["000C00000000"]);
    assert_eq!(shown(b"abcdefghijklmn"), ["000C00000001"]);
    assert_eq!(
        answers_after(&thirteen(), &["020001", "0A00", "020001", "0A00"]),
        ["00010061", "000C00000000", "00010062", "000B00000000"]
    );
}

/// "a read asks for at most 12": 13 is refusal 3, with 13 items there and
/// with room for 13 images too.
#[test]
fn a_read_asks_for_at_most_12() {
    assert_eq!(answers_after(&thirteen(), &["02000D"]), ["03"]);
    let mut card = Card::fresh();
    for byte in b"abcdefghijklm" {
        assert_eq!(card.arrival(0, 0, *byte), Ok(Fate::Stored));
    }
    let before = card.clone();
    let mut buffer = [0xA5; 39];
    assert_eq!(card.read(0, 13, &mut buffer, 0), Err(Refusal::Asked));
    assert_eq!((card.clone(), buffer), (before, [0xA5; 39]));
    let twelve = ReadAnswer {
        characters: 12,
        flagged: 0,
        bytes: 12,
    };
    assert_eq!(card.read(0, 12, &mut buffer, 3), Ok(twelve));
    assert_eq!(buffer[..3], [0xA5; 3]);
    assert_eq!(buffer[3..15], *b"abcdefghijkl");
    assert_eq!(buffer[15..], [0xA5; 24]);
}

/// The paper's "service threshold", "1 to 12", stays: 13 is refusal 5, field
/// 8, and thirteen items reach 12.
#[test]
fn the_threshold_is_at_most_12() {
    let refused = settings_frame(&[(8, 13)]);
    assert_eq!(answers_after(&[], &[&refused]), ["0508"]);
    assert_eq!(answers_after(&thirteen(), &[&refused]), ["0508"]);
    let mut first = thirteen();
    first.push(settings_frame(&[(8, 12)]));
    assert_eq!(
        answers_after(&first, &["08", "0100006E", "08", "020001", "08"]),
        ["0000", "0002", "0000", "00010061", "0000"]
    );
    assert_eq!(
        answers_after(&first, &["020002", "08", "0100006E", "08"]),
        ["0002006162", "00FF", "0000", "0000"]
    );
}

/// "The item is fixed at arrival; later settings don't alter it", and "Queues
/// [...] stay": of the held item too, with its flag.
#[test]
fn settings_leave_the_held_item() {
    let mut first = vec![settings_frame(&[(1, 4)])];
    first.extend(twelve());
    first.extend(arrivals(&[0xFF, 0x41]));
    first.push(settings_frame(&[(3, 1)]));
    assert_eq!(
        answers_after(&first, &["01000042", "0A00", "02000C", "020001"]),
        [
            "0002",
            "000C00000002",
            "000C006162636465666768696A6B6C",
            "000101FFFF",
        ]
    );
}

/// "Reset makes one channel fresh", and a fresh channel has its "queues
/// empty": the place behind the twelve too.
#[test]
fn reset_drops_the_held_item() {
    let mut first = thirteen_and_a_loss();
    first.push("0900".to_string());
    assert_eq!(
        answers_after(&first, &["0A00", "02000C", "01000041", "02000C", "02000C"]),
        ["000000000000", "000000", "0000", "00010041", "000000"]
    );
}

/// "Flags of steps 1 to 6 change even when the item is lost", and as well when
/// it is the held one; a swallowed character leaves the place free.
#[test]
fn flow_characters_at_the_held_place() {
    let mut swallowed = vec![settings_frame(&[(5, 2)])];
    swallowed.extend(twelve());
    assert_eq!(
        answers_after(&swallowed, &["01000013", "0A00", "0100006D", "01000011"]),
        ["0001", "000C00010000", "0000", "0001"]
    );
    let mut stored = vec![settings_frame(&[(5, 1)])];
    stored.extend(twelve());
    assert_eq!(
        answers_after(&stored, &["01000013", "0A00", "01000011", "0A00"]),
        ["0000", "000C00010000", "0002", "000C00000001"]
    );
}

/// "A call on one channel alters no other channel": each has a place of its
/// own behind its twelve.
#[test]
fn each_channel_has_its_own_held_place() {
    let mut card = Card::fresh();
    for channel in [3, 1] {
        for byte in 0..13 {
            assert_eq!(card.arrival(channel, 0, byte), Ok(Fate::Stored));
        }
    }
    assert_eq!(card.arrival(3, 0, 0x41), Ok(Fate::Lost));
    assert_eq!(card.arrival(0, 0, 0x41), Ok(Fate::Stored));
    let mut buffer = [0; 36];
    for (channel, flagged) in [(1, 0), (3, 1)] {
        card.read(channel, 12, &mut buffer, 0)
            .expect("a served read");
        let last = ReadAnswer {
            characters: 1,
            flagged,
            bytes: 1,
        };
        assert_eq!(card.read(channel, 12, &mut buffer, 0), Ok(last));
        assert_eq!(buffer[0], 12);
    }
}

/// "a transmit queue of 12 bytes": the request gives it no place more.
#[test]
fn the_transmit_queue_still_takes_12() {
    let load = format!("0300{}", "41".repeat(13));
    assert_eq!(
        answers_after(&[], &[&load, "0A00", "030041"]),
        ["000C", "00000C000000", "0000"]
    );
}
