//! Plans: short rows of frames that lead to a telling situation.

use super::*;

impl Generator {
    pub(super) fn plan(&mut self) {
        let channel = self.some_channel();
        let profile = match self.profile {
            Profile::Mixed | Profile::Refused | Profile::Lines => {
                PROFILES[self.random.between(1, 8)].1
            }
            profile => profile,
        };
        match profile {
            Profile::Full => self.plan_full(channel),
            Profile::Marks => self.plan_marks(channel),
            Profile::Flow => self.plan_flow(channel),
            Profile::Turns => self.plan_turns(channel),
            Profile::Settings => self.plan_settings(channel),
            Profile::Picks => self.plan_picks(channel),
            Profile::Mixed | Profile::Refused | Profile::Lines => self.plan_flow(channel),
        }
    }

    fn plan_frames(&mut self, frames: Vec<Vec<u8>>) {
        self.planned.extend(frames);
    }

    fn plan_arrivals(&mut self, channel: u8, number: usize) {
        for _ in 0..number {
            let frame = self.some_arrival(channel);
            self.planned.push_back(frame);
        }
    }

    fn plan_settings_with(&mut self, channel: u8, fields: &[(usize, u8)]) {
        let settings = self.good_settings_with(fields);
        self.planned.push_back(settings_frame(channel, &settings));
    }

    fn zero_or_one(&mut self) -> u8 {
        self.random.below(2) as u8
    }

    /// A channel that can hold no more, or one more; then XOFF and the
    /// literal-next character, which take effect even where they are lost;
    /// then the flags are read.
    fn plan_full(&mut self, channel: u8) {
        let known = self.known(channel);
        let room = MOST_ITEMS - known.items().count();
        let xoff = known.settings.xoff();
        let literal_next_character = known.settings.literal_next_character;
        let arrivals = match self.random.below(6) {
            0 => room.saturating_sub(1),
            _ => room + self.random.between(0, 4),
        };
        self.plan_arrivals(channel, arrivals);
        self.plan_frames(vec![state_frame(channel)]);
        if self.random.chance(1, 2) {
            self.plan_frames(vec![good_arrival_frame(channel, literal_next_character)]);
        }
        self.plan_frames(vec![
            good_arrival_frame(channel, xoff),
            state_frame(channel),
            read_frame(channel, 1),
            good_arrival_frame(channel, 0x41),
        ]);
        let more = self.random.between(0, 3);
        self.plan_arrivals(channel, more);
        if self.random.chance(1, 2) {
            self.plan_reads_of_all(channel);
        }
    }

    /// Request a: the held item "moves up when a read makes room", and the
    /// read after it hands it over.
    fn plan_reads_of_all(&mut self, channel: u8) {
        self.plan_frames(vec![longest_read_frame(channel), state_frame(channel)]);
        if self.random.chance(1, 2) {
            self.plan_frames(vec![read_frame(channel, 1), state_frame(channel)]);
        }
    }

    /// Items of one mode, read in another: "The item is fixed at arrival".
    fn plan_marks(&mut self, channel: u8) {
        let strip = self.zero_or_one();
        self.plan_settings_with(channel, &[(1, 4), (2, 1), (3, strip)]);
        let all_damaged = self.random.chance(1, 4);
        let number = self.random.between(2, MOST_ITEMS + 1);
        for _ in 0..number {
            let kind = if all_damaged {
                self.random.between(1, 3)
            } else {
                self.random.weighted(&[6, 2, 1, 2])
            };
            let byte = self
                .random
                .one_of(&[0xFF, 0xFF, 0x00, 0x7F, 0x80, 0xC1, 0x0D, 0x0A]);
            self.plan_frames(vec![arrival_frame(channel, kind as u8, byte)]);
        }
        if self.random.chance(1, 2) {
            let damaged_characters = self.random.between(1, 3) as u8;
            self.plan_settings_with(channel, &[(1, damaged_characters)]);
            self.plan_frames(vec![good_arrival_frame(channel, 0xFF)]);
        }
        if self.random.chance(1, 2) {
            let n = self.random.between(0, 11) as u8;
            self.plan_frames(vec![read_frame(channel, n)]);
        }
        self.plan_frames(vec![longest_read_frame(channel)]);
    }

    fn plan_flow(&mut self, channel: u8) {
        let flow = self.random.between(1, 2) as u8;
        let implied_xon = self.zero_or_one();
        let strip = self.zero_or_one();
        let settings =
            self.good_settings_with(&[(3, strip), (5, flow), (6, implied_xon), (7, 1), (9, 0)]);
        self.plan_frames(vec![
            settings_frame(channel, &settings),
            load_frame(channel, &[0x41, 0x0A]),
        ]);
        let [.., xon, xoff, _, _, literal_next_character] = settings;
        let frames = match self.random.below(4) {
            0 => self.xoff_and_what_follows(channel, xon, xoff),
            // An XOFF after the literal-next character is an ordinary byte.
            1 => vec![
                good_arrival_frame(channel, literal_next_character),
                good_arrival_frame(channel, xoff),
                turn_frame(channel),
                good_arrival_frame(channel, xoff),
            ],
            2 => vec![
                good_arrival_frame(channel, literal_next_character),
                self.between_literal_next_and_xoff(channel, literal_next_character),
                good_arrival_frame(channel, xoff),
            ],
            _ => self.literal_xon_when_stopped(channel, xon, xoff, literal_next_character),
        };
        self.plan_frames(frames);
        self.plan_frames(vec![
            state_frame(channel),
            turn_frame(channel),
            longest_read_frame(channel),
        ]);
    }

    /// An XOFF, then what may or may not set the transmitter running.
    fn xoff_and_what_follows(&mut self, channel: u8, xon: u8, xoff: u8) -> Vec<Vec<u8>> {
        let kind = self.random.one_of(&[0, 0, 1, 2, 3]);
        let byte = self.arrival_byte(channel);
        vec![
            good_arrival_frame(channel, xoff),
            turn_frame(channel),
            arrival_frame(channel, kind, byte),
            turn_frame(channel),
            good_arrival_frame(channel, xon),
        ]
    }

    /// A literal XON sets nothing running, unless XON is implied.
    fn literal_xon_when_stopped(
        &mut self,
        channel: u8,
        xon: u8,
        xoff: u8,
        literal_next_character: u8,
    ) -> Vec<Vec<u8>> {
        vec![
            good_arrival_frame(channel, xoff),
            state_frame(channel),
            good_arrival_frame(channel, literal_next_character),
            state_frame(channel),
            good_arrival_frame(channel, xon),
        ]
    }

    /// What comes between may clear the literal mark.
    fn between_literal_next_and_xoff(
        &mut self,
        channel: u8,
        literal_next_character: u8,
    ) -> Vec<u8> {
        match self.random.below(6) {
            0 => arrival_frame(channel, 3, 0x41),
            1 => arrival_frame(channel, 1, 0x41),
            2 => arrival_frame(channel, 2, literal_next_character),
            3 => good_arrival_frame(channel, literal_next_character),
            4 => {
                let settings = self.good_settings_with(&[(5, 1), (7, 1)]);
                settings_frame(channel, &settings)
            }
            _ => reset_frame(channel),
        }
    }

    fn plan_turns(&mut self, channel: u8) {
        match self.random.below(5) {
            0 => self.plan_owed_nl_across_settings(channel),
            1 => self.plan_owed_nl_under_cts(channel),
            2 => self.plan_owed_nl_when_stopped(channel),
            3 => self.plan_special_across_settings(channel),
            _ => self.plan_full_transmit_queue(channel),
        }
    }

    /// "An owed NL is sent even if field 10 was since turned off."
    fn plan_owed_nl_across_settings(&mut self, channel: u8) {
        self.plan_settings_with(channel, &[(9, 0), (10, 1)]);
        self.plan_frames(vec![
            load_frame(channel, &[0x0A, 0x0A, 0x41]),
            turn_frame(channel),
        ]);
        if self.random.chance(1, 8) {
            self.plan_frames(vec![reset_frame(channel)]);
        } else {
            let still_on = u8::from(self.random.chance(1, 4));
            self.plan_settings_with(channel, &[(9, 0), (10, still_on)]);
        }
        self.plan_frames(vec![
            state_frame(channel),
            turn_frame(channel),
            turn_frame(channel),
            turn_frame(channel),
        ]);
    }

    /// "A waiting special goes first, even when stopped or CTS is 0, even
    /// between CR and its NL."
    fn plan_owed_nl_under_cts(&mut self, channel: u8) {
        let special = self.random.between(1, 4) as u8;
        self.plan_settings_with(channel, &[(9, 1), (10, 1)]);
        self.plan_frames(vec![
            load_frame(channel, &[0x0A, 0xFF]),
            turn_frame(channel),
            cts_frame(channel, 1),
            turn_frame(channel),
            cts_frame(channel, 0),
            turn_frame(channel),
            special_frame(channel, special),
            special_frame(channel, special),
            turn_frame(channel),
            turn_frame(channel),
            cts_frame(channel, 1),
            turn_frame(channel),
            turn_frame(channel),
        ]);
    }

    fn plan_owed_nl_when_stopped(&mut self, channel: u8) {
        let settings = self.good_settings_with(&[(5, 2), (7, 0), (9, 0), (10, 1)]);
        let [.., xon, xoff, _, _, _] = settings;
        self.plan_frames(vec![
            settings_frame(channel, &settings),
            load_frame(channel, &[0x0A, 0x0D]),
            turn_frame(channel),
            good_arrival_frame(channel, xoff),
            turn_frame(channel),
            special_frame(channel, 3),
            turn_frame(channel),
            turn_frame(channel),
            good_arrival_frame(channel, xon),
            turn_frame(channel),
            turn_frame(channel),
        ]);
    }

    /// The character waits as it was when the special was asked for.
    fn plan_special_across_settings(&mut self, channel: u8) {
        let special = self.random.between(1, 4) as u8;
        self.plan_frames(vec![special_frame(channel, special)]);
        self.plan_settings_with(channel, &[(13, 0x0A), (14, 0xFF)]);
        self.plan_frames(vec![
            state_frame(channel),
            turn_frame(channel),
            special_frame(channel, 3),
            turn_frame(channel),
            turn_frame(channel),
        ]);
    }

    /// The room is counted in queued bytes; an owed NL takes none.
    fn plan_full_transmit_queue(&mut self, channel: u8) {
        self.plan_settings_with(channel, &[(9, 0), (10, 1)]);
        let first = self.load_bytes(13);
        let second = self.load_bytes(3);
        self.plan_frames(vec![
            load_frame(channel, &[&[0x0A], &first[..]].concat()),
            load_frame(channel, &second),
            turn_frame(channel),
            state_frame(channel),
            load_frame(channel, &second),
            load_frame(channel, &[]),
            turn_frame(channel),
            state_frame(channel),
            load_frame(channel, &second),
        ]);
    }

    /// Settings of any sort, and a few frames that show their effect.
    fn plan_settings(&mut self, channel: u8) {
        let settings = self.any_settings();
        self.plan_frames(vec![settings_frame(channel, &settings)]);
        let number = self.random.between(1, 5);
        for _ in 0..number {
            // The idea of the traffic doesn't have these settings yet.
            let from_settings = settings.len() > 10 && self.random.chance(1, 2);
            let frame = if from_settings {
                good_arrival_frame(channel, self.random.one_of(&settings[10..]))
            } else {
                self.some_arrival(channel)
            };
            self.planned.push_back(frame);
        }
        self.plan_frames(vec![
            load_frame(channel, &[0x0A, 0x41]),
            turn_frame(channel),
            turn_frame(channel),
            state_frame(channel),
        ]);
        if self.random.chance(1, 2) {
            self.plan_frames(vec![pick_frame()]);
        }
        self.plan_frames(vec![longest_read_frame(channel)]);
    }

    /// Several channels at their thresholds or one below, then many picks.
    fn plan_picks(&mut self, channel: u8) {
        for other in 0..4 {
            if self.random.chance(1, 4) {
                self.plan_frames(vec![longest_read_frame(other)]);
            } else if self.random.chance(1, 2) {
                let known = self.known(other);
                let threshold = known.settings.service_threshold;
                let below = threshold.saturating_sub(known.receive_queue.len());
                let missing = usize::from(self.random.chance(1, 4));
                for _ in 0..below.saturating_sub(missing) {
                    self.plan_frames(vec![good_arrival_frame(other, 0x41)]);
                }
            }
        }
        let number = self.random.between(4, 6);
        self.plan_frames(vec![pick_frame(); number]);
        let n = self.random.between(1, 4) as u8;
        self.plan_frames(vec![read_frame(channel, n), pick_frame(), pick_frame()]);
        if self.random.chance(1, 4) {
            self.plan_frames(vec![reset_frame(channel)]);
        }
        self.plan_frames(vec![pick_frame(), pick_frame(), state_frame(channel)]);
    }
}
