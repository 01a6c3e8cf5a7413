//! Settings: good ones as a profile likes them, and bad ones of every sort.

use super::single::ARRIVAL_BYTES;
use super::*;
use crate::card::{FRESH_SETTINGS, OWN_RANGES, SETTINGS_LENGTH};

pub(super) type SettingsBytes = [u8; SETTINGS_LENGTH];

/// The paper numbers the fields from 1.
fn set(settings: &mut SettingsBytes, field: usize, value: u8) {
    settings[field - 1] = value;
}

fn get(settings: &SettingsBytes, field: usize) -> u8 {
    settings[field - 1]
}

impl Generator {
    /// Settings that the card takes, as the profile likes them.
    pub(super) fn good_settings(&mut self) -> SettingsBytes {
        let mut settings = self.settings_within_ranges();
        self.lean_to_profile(&mut settings);
        self.uncross(&mut settings);
        settings
    }

    /// Good settings with these fields and values among them.
    pub(super) fn good_settings_with(&mut self, fields: &[(usize, u8)]) -> SettingsBytes {
        let mut settings = self.good_settings();
        for (field, value) in fields {
            set(&mut settings, *field, *value);
        }
        self.uncross(&mut settings);
        settings
    }

    /// Every field in its own range; the crossed values may be bad.
    fn settings_within_ranges(&mut self) -> SettingsBytes {
        let mut settings = FRESH_SETTINGS;
        for field in 1..=10 {
            let (lowest, highest) = OWN_RANGES[field - 1];
            let value = self.random.between(lowest.into(), highest.into());
            set(&mut settings, field, value as u8);
        }
        let usual_characters = self.random.chance(1, 2);
        for field in 11..=15 {
            if !usual_characters || field == 13 || field == 14 {
                let character = self.special_character();
                set(&mut settings, field, character);
            }
        }
        settings
    }

    fn special_character(&mut self) -> u8 {
        if self.random.chance(7, 8) {
            self.random.one_of(&ARRIVAL_BYTES)
        } else {
            self.random.byte()
        }
    }

    fn lean_to_profile(&mut self, settings: &mut SettingsBytes) {
        match self.profile {
            Profile::Full => self.lean_to_full(settings),
            Profile::Marks => {
                self.lean(settings, 1, 3, &[4]);
                self.lean(settings, 2, 2, &[1]);
            }
            Profile::Flow => {
                self.lean(settings, 5, 6, &[1, 2]);
                self.lean(settings, 7, 2, &[1]);
            }
            Profile::Turns => {
                self.lean(settings, 10, 2, &[1]);
                self.lean(settings, 9, 1, &[0]);
            }
            Profile::Picks => {
                self.lean(settings, 1, 3, &[1, 3, 4]);
                self.lean(settings, 2, 3, &[1]);
                self.lean(settings, 5, 3, &[0]);
                self.lean(settings, 4, 3, &[0, 1, 2, 3]);
            }
            Profile::Mixed | Profile::Settings | Profile::Refused | Profile::Lines => {}
        }
    }

    /// Arrivals in the profile `full` should have something to store; on a
    /// flooded channel all of them have.
    fn lean_to_full(&mut self, settings: &mut SettingsBytes) {
        let often = if self.flooded.is_some() { 1000 } else { 7 };
        self.lean(settings, 1, often, &[1, 3, 4, 4]);
        self.lean(settings, 2, often, &[1]);
        self.lean(settings, 4, often, &[0, 1, 2, 3]);
        self.lean(settings, 5, often, &[0, 1, 1]);
        self.lean(settings, 7, 1, &[1]);
    }

    /// Sets the field to one of the values, so many times for one time that
    /// it stays.
    fn lean(&mut self, settings: &mut SettingsBytes, field: usize, often: usize, values: &[u8]) {
        if self.random.chance(often, often + 1) {
            let value = self.random.one_of(values);
            set(settings, field, value);
        }
    }

    /// Draws XOFF and the literal-next character anew until they are not
    /// crossed with others.
    fn uncross(&mut self, settings: &mut SettingsBytes) {
        let flow = get(settings, 5) != 0;
        let literal_next = get(settings, 7) != 0;
        while flow && get(settings, 12) == get(settings, 11) {
            let character = self.special_character();
            set(settings, 12, character);
        }
        while flow
            && literal_next
            && [get(settings, 11), get(settings, 12)].contains(&get(settings, 15))
        {
            let character = self.special_character();
            set(settings, 15, character);
        }
    }

    /// Settings of every sort: good, one bad field, two bad fields, crossed
    /// values, wrong lengths.
    pub(super) fn any_settings(&mut self) -> Vec<u8> {
        match self.random.weighted(&[45, 15, 12, 18, 10]) {
            0 => self.good_settings().to_vec(),
            1 => self.settings_with_bad_fields(1),
            2 => self.settings_with_bad_fields(2),
            3 => self.crossed_settings().to_vec(),
            _ => self.settings_of_wrong_length(),
        }
    }

    /// Settings that the card refuses.
    pub(super) fn bad_settings(&mut self) -> Vec<u8> {
        match self.random.below(5) {
            0 => self.settings_of_wrong_length(),
            3 | 4 => self.badly_crossed_settings().to_vec(),
            number => self.settings_with_bad_fields(number),
        }
    }

    fn settings_with_bad_fields(&mut self, number: usize) -> Vec<u8> {
        let mut settings = if self.random.chance(1, 4) {
            self.crossed_settings()
        } else {
            self.good_settings()
        };
        for _ in 0..number {
            let field = self.random.between(1, 10);
            let value = self.bad_value(field);
            set(&mut settings, field, value);
        }
        settings.to_vec()
    }

    /// A value outside the field's own range, often just outside.
    fn bad_value(&mut self, field: usize) -> u8 {
        let (lowest, highest) = OWN_RANGES[field - 1];
        loop {
            let value = match self.random.below(4) {
                0 => highest + 1,
                1 => lowest.wrapping_sub(1),
                2 => highest | 0x80,
                _ => self.random.byte(),
            };
            if value < lowest || value > highest {
                return value;
            }
        }
    }

    /// Crossed values: bad ones, and the like that are good because a field
    /// is off.
    fn crossed_settings(&mut self) -> SettingsBytes {
        let mut settings = self.good_settings();
        let flow = self.random.below(3) as u8;
        let literal_next = self.random.below(2) as u8;
        set(&mut settings, 5, flow);
        set(&mut settings, 7, literal_next);
        let xon = get(&settings, 11);
        let xoff = get(&settings, 12);
        match self.random.below(4) {
            0 => set(&mut settings, 12, xon),
            1 => set(&mut settings, 15, xon),
            2 => set(&mut settings, 15, xoff),
            _ => {
                set(&mut settings, 12, xon);
                set(&mut settings, 15, xon);
            }
        }
        settings
    }

    /// Crossed values with field 5 on, so that they are bad.
    fn badly_crossed_settings(&mut self) -> SettingsBytes {
        let mut settings = self.good_settings_with(&[(5, 2), (7, 1)]);
        let xon = get(&settings, 11);
        let xoff = get(&settings, 12);
        match self.random.below(3) {
            0 => set(&mut settings, 12, xon),
            1 => set(&mut settings, 15, xon),
            _ => set(&mut settings, 15, xoff),
        }
        settings
    }

    fn settings_of_wrong_length(&mut self) -> Vec<u8> {
        let length = match self.random.below(6) {
            0 => 0,
            1 | 2 => 14,
            3 | 4 => 16,
            _ => self.random.between(0, 32),
        };
        let mut settings = self.crossed_settings().repeat(3);
        settings.truncate(if length == SETTINGS_LENGTH {
            32
        } else {
            length
        });
        settings
    }
}
