//! Closing lines: they show what a card is, so that cards that differ in any
//! part answer them differently, as far as calls can tell that part at all.

use super::*;
use crate::card::{FlowCharacters, Settings, CR, FRESH_SETTINGS, NL};

/// The lines for this card; where a choice is left, it is drawn.
pub(super) fn lines(card: Card, random: &mut Random) -> Vec<Vec<u8>> {
    let mut closing = Closing {
        card,
        lines: Vec::new(),
    };
    closing.all_channels(|closing, channel| {
        closing.write(state_frame(channel));
    });
    closing.all_channels(Closing::reads_until_empty);
    closing.all_channels(Closing::arrivals_that_show_the_settings);
    // All four reach their thresholds now: the first pick tells the place.
    closing.all_channels(Closing::fill);
    closing.picks(CHANNELS + 1);
    closing.all_channels(Closing::reads_until_empty);
    closing.all_channels(Closing::picks_at_the_threshold);
    closing.all_channels(|closing, channel| closing.turns(channel, random.chance(1, 2)));
    closing.all_channels(|closing, channel| {
        closing.write(state_frame(channel));
    });
    closing.lines
}

struct Closing {
    /// It gets every line that is written.
    card: Card,
    lines: Vec<Vec<u8>>,
}

impl Closing {
    /// Writes the frame; its answer.
    fn write(&mut self, frame: Vec<u8>) -> Vec<u8> {
        let mut line = Vec::new();
        frames::write_hexadecimal(&frame, &mut line);
        let answer = frames::answer_line(&mut self.card, &line);
        self.lines.push(line);
        answer
    }

    fn all_channels(&mut self, mut show: impl FnMut(&mut Closing, u8)) {
        for channel in 0..CHANNELS as u8 {
            show(self, channel);
        }
    }

    fn settings(&self, channel: u8) -> &Settings {
        &self.card.channels[usize::from(channel)].settings
    }

    fn good_arrivals(&mut self, channel: u8, bytes: &[u8]) {
        for byte in bytes {
            self.write(good_arrival_frame(channel, *byte));
        }
    }

    fn picks(&mut self, number: usize) {
        for _ in 0..number {
            self.write(pick_frame());
        }
    }

    /// The last of them answers that there was none.
    fn reads_until_empty(&mut self, channel: u8) {
        while self.write(longest_read_frame(channel)) != [0, 0, 0] {}
    }

    /// The last of them answers that nothing was sent.
    fn turns_until_silent(&mut self, channel: u8) {
        while self.write(turn_frame(channel)) != [0, 0] {}
    }

    /// At most thirteen items, on an empty queue: they can all be read. The
    /// states between tell what the flow characters do.
    fn arrivals_that_show_the_settings(&mut self, channel: u8) {
        let settings = self.settings(channel).clone();
        let telling = telling_byte(&settings);
        let literal_next_character = settings.literal_next_character;
        // The first is stored as it is if the literal mark is set; the other
        // is not. What comes behind XOFF shows implied XON, and the strip.
        for byte in [telling, telling, 0xC1, settings.xon()] {
            self.good_arrivals(channel, &[byte]);
            self.write(state_frame(channel));
        }
        self.good_arrivals(channel, &[literal_next_character, telling]);
        self.write(state_frame(channel));
        self.good_arrivals(channel, &[settings.xon(), CR, NL, 0xFF]);
        for (kind, byte) in [(1, 0xC1), (2, 0x41), (3, 0x00)] {
            self.write(arrival_frame(channel, kind, byte));
        }
    }

    /// Fifteen different good bytes: two of them can be flow characters that
    /// are swallowed, and thirteen there are at most.
    fn fill(&mut self, channel: u8) {
        let bytes: Vec<u8> = (b'A'..=b'O').collect();
        self.good_arrivals(channel, &bytes);
    }

    /// One item below the threshold, and at it. Nothing waits on the other
    /// channels, so that no pick names them.
    fn picks_at_the_threshold(&mut self, channel: u8) {
        let settings = self.settings(channel);
        let flow_characters = [settings.xon(), settings.xoff()];
        let stored = (b'A'..=b'C').find(|byte| !flow_characters.contains(byte));
        let stored = [stored.expect("one of three is no flow character")];
        for _ in 1..settings.service_threshold {
            self.good_arrivals(channel, &stored);
        }
        self.picks(1);
        self.good_arrivals(channel, &stored);
        self.picks(1);
        self.reads_until_empty(channel);
    }

    /// What waits to be sent, as far as it goes out; the four specials; NL with
    /// field 10 as it is. Then new settings let go what was held.
    ///
    /// With field 9 off and CTS 1, a turn under CTS 0 tells the one, a turn
    /// under field 9 the other, and none tells both: so one is chosen.
    fn turns(&mut self, channel: u8, tell_field_9: bool) {
        self.turns_until_silent(channel);
        for special in 1..=4 {
            self.write(special_frame(channel, special));
            self.write(turn_frame(channel));
        }
        let load = load_frame(channel, &[NL, 0x41]);
        self.write(load.clone());
        self.turns_until_silent(channel);
        if tell_field_9 || self.settings(channel).cts_holds_the_transmitter {
            for cts in [0, 1] {
                self.write(cts_frame(channel, cts));
                self.write(load.clone());
                self.turns_until_silent(channel);
            }
        }
        let mut settings = FRESH_SETTINGS;
        settings[9 - 1] = 1;
        self.write(settings_frame(channel, &settings));
        self.write(load);
        self.turns_until_silent(channel);
        self.write(cts_frame(channel, 1));
        self.turns_until_silent(channel);
    }
}

/// A good byte that is stored as it is behind the literal-next character, and
/// not otherwise, if the settings have such a byte.
fn telling_byte(settings: &Settings) -> u8 {
    let line_endings = settings.line_endings;
    match settings.flow_characters {
        FlowCharacters::Off if line_endings < 2 => NL,
        FlowCharacters::Off => CR,
        _ => settings.xoff(),
    }
}
