//! Random cases for the reader of a marked stream.

use crate::frames::write_hexadecimal;
use crate::random::Random;

/// "streams from 0 to 64 bytes"
const LONGEST_STREAM: usize = 64;

/// So many lines of the stream form. The same seed gives the same lines.
pub fn cases(seed: u64, lines: usize) -> Vec<u8> {
    let mut random = Random::new(seed.wrapping_mul(16).wrapping_add(15));
    let mut output = Vec::new();
    for _ in 0..lines {
        let stream = some_stream(&mut random);
        // Mostly both outputs are long enough, or the stream would not be read.
        let first = output_length(&mut random, stream.len());
        let second = output_length(&mut random, stream.len());
        output.extend(format!("{first} {second} ").bytes());
        if stream.is_empty() {
            output.push(b'-');
        } else {
            write_hexadecimal(&stream, &mut output);
        }
        output.push(0x0A);
    }
    output
}

fn output_length(random: &mut Random, length: usize) -> usize {
    match random.below(20) {
        0 => length.saturating_sub(1),
        1 => random.between(0, length),
        2..=9 => length,
        10..=12 => length + 1,
        _ => length + random.between(1, 9),
    }
}

fn some_stream(random: &mut Random) -> Vec<u8> {
    match random.weighted(&[32, 22, 16, 3, 20, 7]) {
        0 => good_stream(random),
        1 => damaged_stream(random),
        2 => cut_stream(random),
        3 => Vec::new(),
        4 => stream_of(random, &[0xFF, 0xFF, 0xFF, 0x00, 0x00, 0x41]),
        _ => {
            let length = random.between(0, LONGEST_STREAM);
            (0..length).map(|_| random.byte()).collect()
        }
    }
}

/// Whole items only: plain, doubled and damaged.
fn good_stream(random: &mut Random) -> Vec<u8> {
    let length = random.between(0, LONGEST_STREAM);
    let mut stream = Vec::new();
    loop {
        let image = match random.below(6) {
            0 | 1 => vec![0xFF, 0xFF],
            2 | 3 => vec![0xFF, 0x00, some_byte(random)],
            _ => vec![good_byte(random)],
        };
        if stream.len() + image.len() > length {
            return stream;
        }
        stream.extend(image);
    }
}

fn some_byte(random: &mut Random) -> u8 {
    match random.below(4) {
        0 => 0xFF,
        1 => 0x00,
        _ => random.byte(),
    }
}

fn good_byte(random: &mut Random) -> u8 {
    match random.below(3) {
        0 => random.one_of(&[0x00, 0x01, 0xFE, 0x0A, 0x0D]),
        _ => random.below(0xFF) as u8,
    }
}

/// A good stream with one byte changed, put in or taken out.
fn damaged_stream(random: &mut Random) -> Vec<u8> {
    let mut stream = good_stream(random);
    if stream.is_empty() {
        return stream;
    }
    let place = random.below(stream.len());
    match random.below(3) {
        0 => stream[place] = some_byte(random),
        1 => stream.insert(place, 0xFF),
        _ => {
            stream.remove(place);
        }
    }
    stream.truncate(LONGEST_STREAM);
    stream
}

/// A good stream that ends inside an item.
fn cut_stream(random: &mut Random) -> Vec<u8> {
    let mut stream = good_stream(random);
    let beginning: &[u8] = if random.chance(1, 2) {
        &[0xFF]
    } else {
        &[0xFF, 0x00]
    };
    stream.truncate(LONGEST_STREAM - beginning.len());
    stream.extend(beginning);
    stream
}

fn stream_of(random: &mut Random, bytes: &[u8]) -> Vec<u8> {
    let length = random.between(0, LONGEST_STREAM);
    // Short ones too, for a long one of these is nearly always broken.
    let length = if random.chance(1, 2) {
        length % 8
    } else {
        length
    };
    (0..length).map(|_| random.one_of(bytes)).collect()
}
