//! Single frames: each stands for itself.

use super::*;

/// The bytes that most arrivals bring.
pub(super) const ARRIVAL_BYTES: [u8; 13] = [
    0x0A, 0x0D, 0x11, 0x13, 0x16, 0xFF, 0x00, 0x7F, 0x8A, 0x8D, 0x91, 0x93, 0x41,
];

/// The bytes that most loads bring; NL most of all, for field 10.
const LOAD_BYTES: [u8; 7] = [0x0A, 0x0A, 0x0A, 0x0D, 0xFF, 0x11, 0x13];

impl Generator {
    /// One frame that the card serves, unless a special already waits.
    pub(super) fn single(&mut self) -> Vec<u8> {
        let channel = self.some_channel();
        match self.random.weighted(&self.weights_of_frames()) {
            0 => self.some_arrival(channel),
            1 => self.some_read(channel),
            2 => self.some_load(channel),
            3 => self.some_turn(channel),
            4 => self.some_cts(channel),
            5 => special_frame(channel, self.random.between(1, 4) as u8),
            6 => self.some_settings(channel),
            7 => pick_frame(),
            8 => reset_frame(channel),
            _ => state_frame(channel),
        }
    }

    /// In the order: arrival, read, load, turn, CTS, special, settings, pick,
    /// reset, state.
    fn weights_of_frames(&self) -> [usize; 10] {
        match self.profile {
            Profile::Full if self.flooded.is_some() => [940, 10, 10, 5, 1, 1, 5, 3, 0, 25],
            Profile::Full => [760, 50, 60, 20, 5, 5, 25, 15, 2, 60],
            Profile::Marks => [540, 250, 20, 20, 5, 5, 50, 20, 10, 60],
            Profile::Flow => [500, 90, 20, 180, 10, 40, 40, 10, 10, 100],
            Profile::Turns => [90, 20, 120, 480, 60, 80, 60, 5, 10, 75],
            Profile::Settings => [250, 90, 60, 100, 20, 30, 340, 10, 10, 90],
            Profile::Picks => [370, 170, 10, 10, 5, 5, 70, 300, 20, 40],
            Profile::Mixed | Profile::Refused | Profile::Lines => {
                [360, 100, 50, 190, 40, 50, 60, 60, 10, 80]
            }
        }
    }

    pub(super) fn some_arrival(&mut self, channel: u8) -> Vec<u8> {
        let weights_of_kinds = match self.profile {
            Profile::Marks => [60, 16, 12, 12],
            Profile::Flow => [86, 5, 4, 5],
            _ => [70, 12, 10, 8],
        };
        let kind = self.random.weighted(&weights_of_kinds) as u8;
        let byte = self.arrival_byte(channel);
        arrival_frame(channel, kind, byte)
    }

    /// Often one of the channel's own characters, mostly one of the telling
    /// bytes, otherwise any.
    pub(super) fn arrival_byte(&mut self, channel: u8) -> u8 {
        let settings = &self.known(channel).settings;
        let strip = settings.strip;
        let own_characters = [
            settings.xon(),
            settings.xoff(),
            settings.xoff(),
            settings.literal_next_character,
            settings.literal_next_character,
            settings.special_characters[2],
        ];
        let weights = match self.profile {
            Profile::Flow => [55, 35, 10],
            Profile::Marks => [8, 82, 10],
            _ => [18, 70, 12],
        };
        let byte = match self.random.weighted(&weights) {
            // A good FF is the byte that mark mode doubles.
            _ if self.profile == Profile::Marks && self.random.chance(1, 6) => 0xFF,
            0 => self.random.one_of(&own_characters),
            1 => self.random.one_of(&ARRIVAL_BYTES),
            _ => self.random.byte(),
        };
        // With strip on, the other half of the bytes is as telling.
        if strip && self.random.chance(1, 4) {
            byte ^ 0x80
        } else {
            byte
        }
    }

    fn some_read(&mut self, channel: u8) -> Vec<u8> {
        let n = match self.profile {
            Profile::Full => match self.random.below(20) {
                0 => RECEIVE_QUEUE_DEPTH,
                1..=3 => self.random.between(3, 6),
                _ => self.random.between(0, 2),
            },
            Profile::Picks if self.random.chance(9, 10) => self.random.between(0, 6),
            _ if self.random.chance(1, 3) => RECEIVE_QUEUE_DEPTH,
            _ => self.random.between(0, RECEIVE_QUEUE_DEPTH),
        };
        read_frame(channel, n as u8)
    }

    pub(super) fn some_load(&mut self, channel: u8) -> Vec<u8> {
        let room = TRANSMIT_QUEUE_DEPTH - self.known(channel).transmit_queue.len();
        let length = match self.random.below(16) {
            0 => 0,
            1 => room,
            2 => room + 1,
            3 => room.saturating_sub(1),
            4 => self.random.between(0, 32),
            _ => self.random.between(1, 4),
        };
        let bytes = self.load_bytes(length);
        load_frame(channel, &bytes)
    }

    pub(super) fn load_bytes(&mut self, length: usize) -> Vec<u8> {
        let mut bytes = Vec::new();
        for _ in 0..length {
            bytes.push(match self.random.below(5) {
                0 => self.random.byte(),
                _ => self.random.one_of(&LOAD_BYTES),
            });
        }
        bytes
    }

    /// A turn over nothing tells little, so most of them become loads.
    fn some_turn(&mut self, channel: u8) -> Vec<u8> {
        let known = self.known(channel);
        let nothing_to_send =
            known.transmit_queue.is_empty() && !known.owed_nl && known.waiting_special.is_none();
        if nothing_to_send && self.random.chance(3, 4) {
            self.some_load(channel)
        } else {
            turn_frame(channel)
        }
    }

    /// Mostly the other value than the present one.
    fn some_cts(&mut self, channel: u8) -> Vec<u8> {
        let present = self.known(channel).cts;
        let cts = if self.random.chance(3, 4) {
            1 - present
        } else {
            present
        };
        cts_frame(channel, cts)
    }

    fn some_settings(&mut self, channel: u8) -> Vec<u8> {
        let settings = match self.profile {
            Profile::Settings => self.any_settings(),
            _ => self.good_settings().to_vec(),
        };
        settings_frame(channel, &settings)
    }
}
