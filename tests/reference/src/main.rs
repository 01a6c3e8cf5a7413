//! The command line of the reference: the frame program, its account, the
//! stream form, the reads form, the confirmations form and the listing, the rates
//! form and the fitters' rate lines, the one-ending form and the fitters' ending
//! lines, and the generators of random input for each.

use reference::fields::{bytes_of_field, write_field, FILLING};
use reference::generate::merges::{self, Merge};
use reference::generate::{self, streams, Profile};
use reference::stream::{clean_front, read_stream, StreamRefusal};
use reference::{account, confirmations, ending_lines, endings, fitters, frames, rate, reads};
use std::io::{self, Read, Write};
use std::process::ExitCode;

const USAGE: &str = "usage: reference frames
       reference account
       reference stream
       reference reads
       reference confirmations
       reference listing
       reference rates
       reference rate-lines
       reference one-ending
       reference ending-lines
       reference generate PROFILE SEED LINES
       reference streams SEED LINES
       reference generate-reads SEED LINES
       reference generate-merge SEED LINES WHICH
       reference generate-confirmations SEED LINES
       reference generate-listing SEED BYTES
       reference generate-rates SEED LINES
       reference generate-rate-words SEED LINES
       reference generate-ending-pairs SEED LINES
       reference generate-ending-words SEED LINES
profiles: mixed full marks flow turns settings refused lines picks
WHICH: 1 or 2";

fn main() -> ExitCode {
    let arguments: Vec<String> = std::env::args().skip(1).collect();
    let mut output = Vec::new();
    let ended = run(&arguments, &mut output);
    // What was answered before an error is written too.
    let written = io::stdout().lock().write_all(&output);
    match (ended, written) {
        (Ok(()), Ok(())) => ExitCode::SUCCESS,
        (Err(message), _) => complain(&message),
        (Ok(()), Err(error)) => complain(&error.to_string()),
    }
}

fn complain(message: &str) -> ExitCode {
    eprintln!("{message}");
    ExitCode::FAILURE
}

fn run(arguments: &[String], output: &mut Vec<u8>) -> Result<(), String> {
    let words: Vec<&str> = arguments.iter().map(String::as_str).collect();
    match words[..] {
        ["frames"] => output.extend(frames::program(&standard_input()?)),
        ["account"] => output.extend(account::program(&standard_input()?).bytes()),
        ["stream"] => output.extend(answer_cases(&standard_input()?)?),
        ["reads"] => reads::program(&standard_input()?, output)?,
        ["confirmations"] => confirmations::program(&standard_input()?, output)?,
        ["listing"] => output.extend(confirmations::listing(&standard_input()?).bytes()),
        ["rates"] => rate::program(&standard_input()?, output)?,
        ["rate-lines"] => fitters::program(&standard_input()?, output)?,
        ["one-ending"] => endings::program(&standard_input()?, output)?,
        ["ending-lines"] => ending_lines::program(&standard_input()?, output)?,
        _ => output.extend(generated(&words)?),
    }
    Ok(())
}

/// What the generator of this name gives; every other word is refused.
fn generated(words: &[&str]) -> Result<Vec<u8>, String> {
    match *words {
        ["generate", profile, seed, lines] => {
            let profile = Profile::named(profile).ok_or(USAGE)?;
            Ok(generate::trace(profile, number(seed)?, size(lines)?))
        }
        ["streams", seed, lines] => Ok(streams::cases(number(seed)?, size(lines)?)),
        ["generate-reads", seed, lines] => Ok(generate::reads::trace(number(seed)?, size(lines)?)),
        ["generate-merge", seed, lines, which] => {
            let which = Merge::named(which).ok_or(USAGE)?;
            Ok(merges::trace(number(seed)?, size(lines)?, which))
        }
        ["generate-confirmations", seed, lines] => {
            Ok(generate::confirmations::cases(number(seed)?, size(lines)?))
        }
        ["generate-listing", seed, bytes] => Ok(generate::confirmations::long_stream(
            number(seed)?,
            size(bytes)?,
        )),
        [name, seed, lines] => {
            let generator = generator_for_fitters(name).ok_or(USAGE)?;
            Ok(generator(number(seed)?, size(lines)?))
        }
        _ => Err(USAGE.to_string()),
    }
}

/// The generators over the requests of fitters, each from a seed and a number of
/// lines; none for another name.
fn generator_for_fitters(name: &str) -> Option<fn(u64, usize) -> Vec<u8>> {
    match name {
        "generate-rates" => Some(generate::rates::cases),
        "generate-rate-words" => Some(generate::rate_words::command_lines),
        "generate-ending-pairs" => Some(generate::ending_pairs::cases),
        "generate-ending-words" => Some(generate::ending_words::command_lines),
        _ => None,
    }
}

fn standard_input() -> Result<Vec<u8>, String> {
    let mut input = Vec::new();
    io::stdin()
        .lock()
        .read_to_end(&mut input)
        .map_err(|error| error.to_string())?;
    Ok(input)
}

fn number(word: &str) -> Result<u64, String> {
    word.parse()
        .map_err(|_| format!("{word:?} is no decimal number"))
}

/// How many lines or bytes.
fn size(word: &str) -> Result<usize, String> {
    Ok(number(word)? as usize)
}

/// Each line is a case of the stream reader; one line answers each.
fn answer_cases(input: &[u8]) -> Result<Vec<u8>, String> {
    let text = std::str::from_utf8(input).map_err(|error| error.to_string())?;
    let mut output = Vec::new();
    for line in text.lines() {
        let (first, second, stream) =
            case_of_line(line).ok_or_else(|| format!("no stream case: {line:?}"))?;
        answer_case(first, second, &stream, &mut output);
    }
    Ok(output)
}

/// "the length of the first output buffer in decimal, the length of the
/// second output buffer in decimal, the stream's bytes in hexadecimal
/// capitals, or `-` for the empty stream"
fn case_of_line(line: &str) -> Option<(usize, usize, Vec<u8>)> {
    let fields: Vec<&str> = line.split(' ').collect();
    let [first, second, stream] = fields[..] else {
        return None;
    };
    Some((
        first.parse().ok()?,
        second.parse().ok()?,
        bytes_of_field(stream)?,
    ))
}

/// Prints `NUMBER FRONT FIRST SECOND`.
fn answer_case(first_length: usize, second_length: usize, stream: &[u8], output: &mut Vec<u8>) {
    let mut first = vec![FILLING; first_length];
    let mut second = vec![FILLING; second_length];
    let number = match read_stream(stream, &mut first, &mut second) {
        Ok(items) => format!("00:{items}"),
        Err(StreamRefusal::Broken { place }) => format!("08:{place}"),
        Err(StreamRefusal::OutputTooShort) => "09".to_string(),
    };
    let front = clean_front(stream).len();
    output.extend(format!("{number} {front} ").bytes());
    write_field(&first, output);
    output.push(b' ');
    write_field(&second, output);
    output.push(b'\n');
}
