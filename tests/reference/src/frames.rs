//! "Frame program", from all input bytes to all output bytes.

use crate::card::{Card, Refusal, StateAnswer};

/// "11: program only: an empty line, a character that is no hexadecimal
/// digit, an odd count of digits, more than 34 bytes, an unknown first byte,
/// or a length not listed below"
pub const REFUSAL_OF_THE_PROGRAM: u8 = 11;

/// "one frame of hexadecimal a line (either letter case, at most 34 bytes)"
pub const LONGEST_FRAME: usize = 34;

/// "02 channel n (lent 36 bytes, place 0)"
const LENT_BYTES: usize = 36;

const NEWLINE: u8 = 0x0A;

/// "It reads standard input, one frame of hexadecimal a line (either letter
/// case, at most 34 bytes), and prints one line of hexadecimal in capitals
/// for each."
pub fn program(input: &[u8]) -> Vec<u8> {
    let mut card = Card::fresh();
    let mut output = Vec::new();
    for line in lines(input) {
        let answer = answer_line(&mut card, line);
        write_hexadecimal(&answer, &mut output);
        output.push(NEWLINE);
    }
    output
}

/// "A last line without its newline counts; empty input prints nothing; an
/// empty line is refusal 11."
pub fn lines(input: &[u8]) -> Vec<&[u8]> {
    let mut lines: Vec<&[u8]> = input.split(|byte| *byte == NEWLINE).collect();
    // What follows the last newline is a line only if it has a byte.
    if lines.last().is_some_and(|last| last.is_empty()) {
        lines.pop();
    }
    lines
}

/// One line's answer, in bytes.
///
/// "A line that 11 refuses makes no call, so in the program 11 comes before
/// all others."
pub fn answer_line(card: &mut Card, line: &[u8]) -> Vec<u8> {
    match frame_of_line(line) {
        Some(frame) => answer_frame(card, &frame),
        None => vec![REFUSAL_OF_THE_PROGRAM],
    }
}

/// The frame's bytes, or none for "an empty line, a character that is no
/// hexadecimal digit, an odd count of digits, more than 34 bytes".
fn frame_of_line(line: &[u8]) -> Option<Vec<u8>> {
    if line.is_empty() || line.len() % 2 != 0 || line.len() / 2 > LONGEST_FRAME {
        return None;
    }
    let mut frame = Vec::with_capacity(LONGEST_FRAME);
    for pair in line.chunks(2) {
        let high = digit_value(pair[0])?;
        let low = digit_value(pair[1])?;
        frame.push(high * 16 + low);
    }
    Some(frame)
}

/// "hexadecimal a line (either letter case"
fn digit_value(character: u8) -> Option<u8> {
    match character {
        b'0'..=b'9' => Some(character - b'0'),
        b'A'..=b'F' => Some(character - b'A' + 10),
        b'a'..=b'f' => Some(character - b'a' + 10),
        _ => None,
    }
}

/// "Frames: 01 channel kind byte; 02 channel n (lent 36 bytes, place 0); 03
/// channel and 0 to 32 bytes; 04 channel (turn); 05 channel CTS; 06 channel
/// special; 07 channel and 0 to 32 bytes of settings (15 are right, else
/// refusal 5); 08 (pick); 09 channel (reset); 0A channel (state)."
///
/// The limit of 34 bytes a frame is the limit of 32 bytes in 03 and 07.
fn answer_frame(card: &mut Card, frame: &[u8]) -> Vec<u8> {
    match frame {
        [0x01, channel, kind, byte] => {
            let fate = card.arrival(*channel, *kind, *byte);
            served_or_refused(fate, |fate| vec![fate.number()])
        }
        [0x02, channel, n] => answer_read(card, *channel, *n),
        [0x03, channel, bytes @ ..] => {
            let taken = card.load(*channel, bytes);
            served_or_refused(taken, |taken| vec![taken as u8])
        }
        [0x04, channel] => served_or_refused(card.turn(*channel), sent),
        [0x05, channel, cts] => served_or_refused(card.cts(*channel, *cts), alone),
        [0x06, channel, special] => served_or_refused(card.special(*channel, *special), alone),
        [0x07, channel, settings @ ..] => {
            served_or_refused(card.settings(*channel, settings), alone)
        }
        [0x08] => served_or_refused(Ok(card.pick()), picked),
        [0x09, channel] => served_or_refused(card.reset(*channel), alone),
        [0x0A, channel] => served_or_refused(card.state(*channel), state),
        // "an unknown first byte, or a length not listed below"
        _ => vec![REFUSAL_OF_THE_PROGRAM],
    }
}

/// "Answers begin with 00 or the refusal number (5 is followed by its field),
/// then:"
fn served_or_refused<Answer>(
    answer: Result<Answer, Refusal>,
    then: impl Fn(Answer) -> Vec<u8>,
) -> Vec<u8> {
    match answer {
        Ok(served) => {
            let mut bytes = vec![0x00];
            bytes.extend(then(served));
            bytes
        }
        Err(Refusal::Settings { field }) => vec![5, field],
        Err(refusal) => vec![refusal.number()],
    }
}

/// "or characters, flagged, bytes;"
fn answer_read(card: &mut Card, channel: u8, n: u8) -> Vec<u8> {
    let mut lent = [0; LENT_BYTES];
    let answer = card.read(channel, usize::from(n), &mut lent, 0);
    served_or_refused(answer, |read| {
        let mut bytes = vec![read.characters as u8, read.flagged as u8];
        bytes.extend(&lent[..read.bytes]);
        bytes
    })
}

/// "or 00, or 01 and the byte sent;"
fn sent(byte: Option<u8>) -> Vec<u8> {
    match byte {
        None => vec![0x00],
        Some(byte) => vec![0x01, byte],
    }
}

/// "or the channel picked, FF for none;"
fn picked(channel: Option<usize>) -> Vec<u8> {
    match channel {
        None => vec![0xFF],
        Some(channel) => vec![channel as u8],
    }
}

/// "or waiting, transmit waiting, stopped, loss high, loss low."
fn state(state: StateAnswer) -> Vec<u8> {
    let [loss_high, loss_low] = state.loss_count.to_be_bytes();
    vec![
        state.waiting as u8,
        state.transmit_waiting as u8,
        state.stopped,
        loss_high,
        loss_low,
    ]
}

/// "Served frames 05, 06, 07 and 09 answer 00 alone."
fn alone(_served: ()) -> Vec<u8> {
    Vec::new()
}

/// "one line of hexadecimal in capitals"
pub fn write_hexadecimal(bytes: &[u8], output: &mut Vec<u8>) {
    const DIGITS: &[u8; 16] = b"0123456789ABCDEF";
    for byte in bytes {
        output.push(DIGITS[usize::from(byte / 16)]);
        output.push(DIGITS[usize::from(byte % 16)]);
    }
}
