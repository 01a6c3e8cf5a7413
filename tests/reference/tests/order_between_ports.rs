//! Request l, "Order between ports": "two calls naming different channels give
//! the same card and the same two answers in either order, refusals included.
//! Picks, and calls lent the same buffer, are excepted."
//!
//! "The same card" is the whole of it, each channel's record and the pick's
//! place, and not only what a state tells. An answer has its lent bytes beside
//! it, for a read's characters stand there.

mod calls;
mod shared;

use calls::met::{all_names, met, Counts};
use calls::{
    some_calls, some_card, some_log, some_number_above_3, Asked, AskedBySort, Call, Logged,
    Outcome, Served, SORTS,
};
use reference::card::{Card, Fate, ReadAnswer, Refusal};
use reference::frames::{answer_line, lines, REFUSAL_OF_THE_PROGRAM};
use reference::generate::{trace, Profile};
use reference::random::Random;
use shared::{answers, settings_with, GOOD};
use std::collections::BTreeMap;

// ---------------------------------------------------------------------------
// "two calls naming different channels"
// ---------------------------------------------------------------------------

/// Two different numbers: mostly two of the card's channels, else one or both
/// above 3. Such a call names a channel too, one that the card doesn't have.
fn different_channels(random: &mut Random) -> [u8; 2] {
    loop {
        let channels = [(); 2].map(|()| match random.chance(1, 5) {
            true => some_number_above_3(random),
            false => random.below(4) as u8,
        });
        if channels[0] != channels[1] {
            return channels;
        }
    }
}

/// Makes both calls in either order. "the same card and the same two answers"
fn outcomes_in_either_order(card: &Card, [one, other]: &[Call; 2]) -> [Outcome; 2] {
    let mut one_first = card.clone();
    let outcomes = [one.make(&mut one_first), other.make(&mut one_first)];
    let mut other_first = card.clone();
    let of_other = other.make(&mut other_first);
    let of_one = one.make(&mut other_first);
    assert_eq!([of_one, of_other], outcomes, "{one:?}, {other:?}");
    assert_eq!(one_first, other_first, "{one:?}, {other:?}");
    outcomes
}

/// Every sort of call against every sort, on many cards.
fn pairs_on_cards(cards: usize, mut check: impl FnMut(&Card, &[Call; 2])) {
    let mut random = Random::new(1);
    let asked = AskedBySort::new(&mut random);
    for _ in 0..cards {
        let card = some_card(&mut random);
        for sorts in (0..SORTS).flat_map(|one| (0..SORTS).map(move |other| [one, other])) {
            let channels = different_channels(&mut random);
            let pair = [0, 1].map(|index| Call {
                channel: channels[index],
                asked: asked.some(sorts[index], &mut random),
            });
            check(&card, &pair);
        }
    }
}

#[test]
fn two_calls_naming_different_channels_in_either_order() {
    let mut names = Counts::new();
    let mut channels = Counts::new();
    let mut places = Counts::new();
    pairs_on_cards(800, |card, pair| {
        let outcomes = outcomes_in_either_order(card, pair);
        let [one, other] = [0, 1].map(|index| met(card, &pair[index], &outcomes[index]));
        for first in &one {
            for second in &other {
                names.count((*first, *second));
            }
        }
        channels.count([0, 1].map(|index| pair[index].channel.min(4)));
        places.count(card.last_named);
    });
    for first in all_names() {
        for second in all_names() {
            names.assert_at_least(5, (first, second));
        }
    }
    // Here 4 stands for all numbers above 3, so that it can be beside itself.
    for first in 0..=4 {
        for second in 0..=4 {
            let floor = if first == second && first < 4 {
                0
            } else {
                1000
            };
            channels.assert_at_least(floor, [first, second]);
        }
    }
    for place in [None, Some(0), Some(1), Some(2), Some(3)] {
        places.assert_at_least(4000, place);
    }
}

/// Why it holds: "A call on one channel alters no other channel, nor the pick's
/// place. Answers depend only on that channel". Among the channels and with the
/// pick's place of another card, the same channel gives the same answer, and
/// has the same record afterwards.
#[test]
fn a_call_alters_its_own_channel_alone_and_depends_on_it_alone() {
    let mut random = Random::new(4);
    let other_cards: Vec<Card> = (0..50).map(|_| some_card(&mut random)).collect();
    pairs_on_cards(150, |card, pair| {
        for call in pair {
            let mut altered = card.clone();
            let outcome = call.make(&mut altered);
            let mut expected = card.clone();
            let mut among_others = other_cards[random.below(50)].clone();
            let mut others_expected = among_others.clone();
            if let channel @ 0..=3 = usize::from(call.channel) {
                expected.channels[channel] = altered.channels[channel].clone();
                among_others.channels[channel] = card.channels[channel].clone();
                others_expected.channels[channel] = altered.channels[channel].clone();
            }
            assert_eq!(altered, expected, "{call:?}");
            assert_eq!(call.make(&mut among_others), outcome, "{call:?}");
            assert_eq!(among_others, others_expected, "{call:?}");
        }
    });
}

// ---------------------------------------------------------------------------
// "Our logger merges four ports' calls and may swap neighbours."
// ---------------------------------------------------------------------------

/// The calls of each port: of the four channels, and of three numbers above 3.
fn lists_of_ports(random: &mut Random) -> Vec<Vec<Call>> {
    let mut ports = vec![0, 1, 2, 3];
    while ports.len() < 7 {
        let number = some_number_above_3(random);
        if !ports.contains(&number) {
            ports.push(number);
        }
    }
    ports.iter().map(|port| list_of(*port, random)).collect()
}

/// What a trace asks of one channel is asked of this port, in the same order.
fn list_of(port: u8, random: &mut Random) -> Vec<Call> {
    let mut list = some_calls(400, random);
    list.retain(|call| call.channel == port % 4);
    for call in &mut list {
        call.channel = port;
    }
    list
}

/// A merge of the lists, as the port of each call: now in single calls, now in
/// long runs of one port's calls.
fn some_merge(lists: &[Vec<Call>], random: &mut Random) -> Vec<usize> {
    let longest_run = random.one_of(&[1, 4, 40, 255]);
    let mut left: Vec<usize> = lists.iter().map(Vec::len).collect();
    let mut merge = Vec::new();
    while left.iter().any(|calls| *calls > 0) {
        let port = random.below(lists.len());
        let run = random.between(1, usize::from(longest_run)).min(left[port]);
        left[port] -= run;
        merge.extend(vec![port; run]);
    }
    merge
}

/// The card in the end, and each port's outcomes in its order.
fn made(
    mut card: Card,
    lists: &[Vec<Call>],
    merge: &[usize],
    names: &mut Counts<&'static str>,
) -> (Card, Vec<Vec<Outcome>>) {
    let mut outcomes = vec![Vec::new(); lists.len()];
    for port in merge {
        let of_port = &mut outcomes[*port];
        let call = &lists[*port][of_port.len()];
        let before = card.clone();
        let outcome = call.make(&mut card);
        for name in met(&before, call, &outcome) {
            names.count(name);
        }
        of_port.push(outcome);
    }
    (card, outcomes)
}

/// One merge comes from another by swaps of neighbours that name different
/// channels, so that a merge matters as little as one swap.
#[test]
fn any_two_merges_of_the_ports_calls() {
    let mut random = Random::new(2);
    let mut names = Counts::new();
    let mut elsewhere = 0;
    for round in 0..40 {
        let card = some_card(&mut random);
        let lists = lists_of_ports(&mut random);
        let [one, other] = [(); 2].map(|()| some_merge(&lists, &mut random));
        let pairs = one.iter().zip(&other);
        elsewhere += pairs.filter(|(port, another)| port != another).count();
        let (one_card, one_way) = made(card.clone(), &lists, &one, &mut names);
        let (other_card, other_way) = made(card, &lists, &other, &mut names);
        assert!(one_way == other_way, "answers in round {round}");
        assert_eq!(one_card, other_card, "round {round}");
    }
    assert!(elsewhere > 10_000, "{elsewhere}");
    for name in all_names() {
        names.assert_at_least(40, name);
    }
}

/// What an entry of the log answered.
#[derive(Debug, PartialEq, Eq)]
enum Answered {
    Pick(Option<usize>),
    Call(Outcome),
}

/// The card in the end, and what each entry answered, by the entry's number.
fn answered(mut card: Card, log: &[(usize, Logged)]) -> (Card, BTreeMap<usize, Answered>) {
    let mut answers = BTreeMap::new();
    for (number, entry) in log {
        let answer = match entry {
            Logged::Pick => Answered::Pick(card.pick()),
            Logged::Call(call) => Answered::Call(call.make(&mut card)),
        };
        answers.insert(*number, answer);
    }
    (card, answers)
}

/// Two calls that name different channels; a pick is never one of them.
fn may_be_swapped(one: &Logged, other: &Logged) -> bool {
    match (one, other) {
        (Logged::Call(one), Logged::Call(other)) => one.channel != other.channel,
        _ => false,
    }
}

/// A log with picks in it: these stay behind the calls that came before them.
/// Then the picks answer the same, too.
#[test]
fn swapped_neighbours_in_a_log_with_picks() {
    let mut random = Random::new(3);
    let (mut swaps, mut picks) = (0, Counts::new());
    for round in 0..40 {
        let card = some_card(&mut random);
        let log: Vec<_> = some_log(300, &mut random).into_iter().enumerate().collect();
        let mut swapped = log.clone();
        for _ in 0..40 * log.len() {
            let place = random.below(log.len() - 1);
            if may_be_swapped(&swapped[place].1, &swapped[place + 1].1) {
                swapped.swap(place, place + 1);
                swaps += 1;
            }
        }
        let (card_of_log, answers) = answered(card.clone(), &log);
        let (card_of_swapped, swapped_answers) = answered(card, &swapped);
        assert!(answers == swapped_answers, "answers in round {round}");
        assert_eq!(card_of_log, card_of_swapped, "round {round}");
        for answer in answers.values() {
            if let Answered::Pick(named) = answer {
                picks.count(*named);
            }
        }
    }
    assert!(swaps > 100_000, "{swaps}");
    for named in [None, Some(0), Some(1), Some(2), Some(3)] {
        picks.assert_at_least(40, named);
    }
}

/// "A line that 11 refuses makes no call", so the request doesn't speak of it:
/// it names no channel, whatever its second byte is. Wherever such lines stand,
/// even beside picks, they answer 11, and all other answers stay.
#[test]
fn lines_that_11_refuses_are_no_calls() {
    for profile in [Profile::Refused, Profile::Lines] {
        let trace = trace(profile, 1, 3000);
        let mut card = Card::fresh();
        let [mut calls, mut refused] = [Vec::new(), Vec::new()];
        for line in lines(&trace) {
            let answer = answer_line(&mut card, line);
            let no_call = answer == [REFUSAL_OF_THE_PROGRAM];
            let list = if no_call { &mut refused } else { &mut calls };
            list.push((line, answer));
        }
        assert!(calls.len() > 500 && refused.len() > 500);
        let mut calls_first = Card::fresh();
        for (line, answer) in calls.into_iter().chain(refused) {
            assert_eq!(answer_line(&mut calls_first, line), answer);
        }
        assert_eq!(calls_first, card);
    }
}

// ---------------------------------------------------------------------------
// "Picks, and calls lent the same buffer, are excepted."
// ---------------------------------------------------------------------------

fn stored(card: &mut Card, channel: u8, bytes: &[u8]) {
    for byte in bytes {
        assert_eq!(card.arrival(channel, GOOD, *byte), Ok(Fate::Stored));
    }
}

/// "Picks [...] are excepted": a pick beside any other call. It names no
/// channel itself, and "Answers depend only on that channel, except the
/// pick's".
///
/// Worked out by hand: on a fresh card nothing waits, and each threshold is 1.
/// A pick that comes first names none: "None: says so, and the place stays".
/// Behind the arrival one item waits on channel 0 and reaches the threshold of
/// 1; "a fresh card looks at 0 first", so the pick names 0, and the place is 0.
/// The arrival's fate is 0 either way. The answer of the pick differs, and of
/// the card the pick's place.
#[test]
fn a_pick_and_an_arrival_do_not_commute() {
    let mut pick_first = Card::fresh();
    assert_eq!(pick_first.pick(), None);
    stored(&mut pick_first, 0, &[0x41]);
    let mut arrival_first = Card::fresh();
    stored(&mut arrival_first, 0, &[0x41]);
    assert_eq!(arrival_first.pick(), Some(0));

    assert_eq!(pick_first.channels, arrival_first.channels);
    let places = [pick_first.last_named, arrival_first.last_named];
    assert_eq!(places, [None, Some(0)]);
    // A later answer tells the two cards apart: with an item on channel 1 too,
    // the first looks at 0 first, the second at 1.
    stored(&mut pick_first, 1, &[0x42]);
    stored(&mut arrival_first, 1, &[0x42]);
    assert_eq!(
        [pick_first.pick(), arrival_first.pick()],
        [Some(0), Some(1)]
    );

    let frames = |lines: [&str; 2]| answers(&lines.map(String::from));
    assert_eq!(frames(["08", "01000041"]), ["00FF", "0000"]);
    assert_eq!(frames(["01000041", "08"]), ["0000", "0000"]);
}

/// Other calls that make a channel reach its threshold or fall below it: with
/// one item on channel 2 a pick names 2. Behind a read of the item, behind a
/// threshold of 2 or a reset there is none to name.
#[test]
fn a_pick_and_other_calls_do_not_commute() {
    let rows = [
        Asked::Read {
            n: 1,
            length: 3,
            place: 0,
        },
        Asked::Settings(settings_with(&[(8, 2)]).to_vec()),
        Asked::Reset,
    ];
    let mut card = Card::fresh();
    stored(&mut card, 2, &[0x41]);
    for asked in rows {
        let call = Call { channel: 2, asked };
        let mut pick_first = card.clone();
        let mut call_first = card.clone();
        assert_eq!(pick_first.pick(), Some(2));
        let outcome = call.make(&mut pick_first);
        assert_eq!(call.make(&mut call_first), outcome, "{call:?}");
        assert_eq!(call_first.pick(), None, "{call:?}");
        assert_ne!(pick_first, call_first, "{call:?}");
    }
}

/// Channel 0 has a, channel 1 has b and c.
fn card_with_a_and_bc() -> Card {
    let mut card = Card::fresh();
    stored(&mut card, 0, b"a");
    stored(&mut card, 1, b"bc");
    card
}

/// "calls lent the same buffer, are excepted": the one buffer ends as the later
/// call leaves it.
///
/// Worked out by hand: the read of channel 0 writes a at the buffer's front,
/// the read of channel 1 writes b c there; "Everything [...] after the last
/// written byte stays". With channel 1 last, b c stands there; with channel 0
/// last, a stands over the b, and the c stays. The numbers answered and the
/// card are the same even so.
#[test]
fn two_reads_lent_the_same_buffer_do_not_commute() {
    let read = |characters| ReadAnswer {
        characters,
        flagged: 0,
        bytes: characters,
    };
    let mut card_0_first = card_with_a_and_bc();
    let mut card_1_first = card_0_first.clone();
    let [mut buffer_0_first, mut buffer_1_first] = [*b"......"; 2];
    assert_eq!(card_0_first.read(0, 2, &mut buffer_0_first, 0), Ok(read(1)));
    assert_eq!(card_0_first.read(1, 2, &mut buffer_0_first, 0), Ok(read(2)));
    assert_eq!(card_1_first.read(1, 2, &mut buffer_1_first, 0), Ok(read(2)));
    assert_eq!(card_1_first.read(0, 2, &mut buffer_1_first, 0), Ok(read(1)));
    assert_eq!(buffer_0_first, *b"bc....");
    assert_eq!(buffer_1_first, *b"ac....");
    assert_eq!(card_0_first, card_1_first);
}

/// The words except every two calls lent the same buffer, and a load is lent
/// its bytes. Worked out by hand: the read of channel 0 writes a over the x. A
/// load of the same three bytes on channel 2 takes x y z before it, and a y z
/// behind it. So here the card differs.
#[test]
fn a_read_and_a_load_lent_the_same_buffer_do_not_commute() {
    let [mut read_first, mut load_first] = [card_with_a_and_bc(), card_with_a_and_bc()];
    let [mut buffer, mut same_buffer] = [*b"xyz"; 2];
    let answer = read_first.read(0, 1, &mut buffer, 0);
    assert_eq!(read_first.load(2, &buffer), Ok(3));
    assert_eq!(load_first.load(2, &same_buffer), Ok(3));
    assert_eq!(load_first.read(0, 1, &mut same_buffer, 0), answer);
    assert_eq!([buffer, same_buffer], [*b"ayz"; 2]);
    assert_eq!(read_first.channels[2].transmit_queue, b"ayz");
    assert_eq!(load_first.channels[2].transmit_queue, b"xyz");
}

/// As a load, settings are lent their bytes. Worked out by hand: the read writes
/// a, 61, over field 1, whose values end at 4. Behind it the settings are
/// refused, "the first bad field"; before it they are taken. So here an answer
/// differs, and with it the card.
#[test]
fn a_read_and_settings_lent_the_same_buffer_do_not_commute() {
    let [mut read_first, mut settings_first] = [card_with_a_and_bc(), card_with_a_and_bc()];
    let [mut buffer, mut same_buffer] = [settings_with(&[(8, 2)]); 2];
    let answer = read_first.read(0, 1, &mut buffer, 0);
    let refused = Err(Refusal::Settings { field: 1 });
    assert_eq!(read_first.settings(2, &buffer), refused);
    assert_eq!(settings_first.settings(2, &same_buffer), Ok(()));
    assert_eq!(settings_first.read(0, 1, &mut same_buffer, 0), answer);
    assert_eq!(buffer, same_buffer);
    let thresholds = [read_first, settings_first].map(|card| {
        let settings = &card.channels[2].settings;
        settings.service_threshold
    });
    assert_eq!(thresholds, [1, 2]);
}

/// "naming different channels": of two calls that name the same one, the order
/// matters. Worked out by hand: of two arrivals the first is the older item,
/// each with fate 0, so the card differs; a turn sends what a load before it
/// took, else nothing; of two specials the later is refused with 7.
#[test]
fn two_calls_naming_the_same_channel_do_not_commute() {
    let arrival = |byte| Asked::Arrival { kind: GOOD, byte };
    let fate = Ok(Served::Fate(Fate::Stored));
    let taken = Ok(Served::Taken(1));
    let sent = |byte| Ok(Served::Sent(byte));
    let waits = Ok(Served::Alone);
    let refused = Err(Refusal::SpecialWaits);
    let load = Asked::Load(vec![0x41]);
    let [first, second] = [Asked::Special(1), Asked::Special(2)];
    // The two calls, their answers in this order, and in the other one.
    let rows = [
        ([arrival(0x41), arrival(0x42)], [fate; 2], [fate; 2]),
        (
            [load, Asked::Turn],
            [taken, sent(Some(0x41))],
            [taken, sent(None)],
        ),
        ([first, second], [waits, refused], [refused, waits]),
    ];
    for (asked, in_this_order, in_the_other) in rows {
        let [one, other] = asked.map(|asked| Call { channel: 3, asked });
        let [mut one_first, mut other_first] = [Card::fresh(), Card::fresh()];
        let answers = [&one, &other].map(|call| call.make(&mut one_first).answer);
        assert_eq!(answers, in_this_order);
        let [of_other, of_one] = [&other, &one].map(|call| call.make(&mut other_first).answer);
        assert_eq!([of_one, of_other], in_the_other);
        assert_ne!(one_first, other_first);
    }
}
