//! Lines that the card or the program refuses, and lines of strange lengths
//! and bytes.

use super::*;
use crate::frames::LONGEST_FRAME;

/// Characters that are no hexadecimal digits, the neighbours of the digits
/// first.
const BAD_CHARACTERS: [u8; 16] = *b"/:@G`gxXzZ -+.,\t";

impl Generator {
    /// A well-formed frame that the card refuses.
    pub(super) fn refused_call(&mut self) -> Vec<u8> {
        let channel = if self.random.chance(1, 6) {
            self.bad_channel()
        } else {
            self.some_channel()
        };
        match self.random.below(8) {
            0 | 1 => self.frame_with_bad_channel(),
            2 => arrival_frame(channel, self.byte_above(3), 0x41),
            3 => read_frame(channel, self.byte_above(RECEIVE_QUEUE_DEPTH as u8)),
            4 => {
                let settings = self.bad_settings();
                settings_frame(channel, &settings)
            }
            5 => special_frame(channel, self.bad_special()),
            6 => self.special_while_another_waits(channel),
            _ => cts_frame(channel, self.byte_above(1)),
        }
    }

    /// A byte above the limit, often just above.
    pub(super) fn byte_above(&mut self, limit: u8) -> u8 {
        match self.random.below(4) {
            0 | 1 => limit + 1,
            2 => 0xFF,
            _ => self.random.between(usize::from(limit) + 1, 255) as u8,
        }
    }

    fn bad_channel(&mut self) -> u8 {
        self.byte_above(3)
    }

    fn bad_special(&mut self) -> u8 {
        if self.random.chance(1, 2) {
            0
        } else {
            self.byte_above(4)
        }
    }

    fn frame_with_bad_channel(&mut self) -> Vec<u8> {
        let mut frame = self.single();
        if frame.len() > 1 {
            frame[1] = self.bad_channel();
        }
        frame
    }

    /// Asks for a special; if none waits yet, once more after it.
    fn special_while_another_waits(&mut self, channel: u8) -> Vec<u8> {
        let special = self.random.between(1, 4) as u8;
        let frame = special_frame(channel, special);
        if channel < 4 && self.known(channel).waiting_special.is_none() {
            self.planned.push_front(frame.clone());
        }
        frame
    }

    /// A line of the profile `refused`.
    pub(super) fn refused_line(&mut self) -> Vec<u8> {
        match self.random.weighted(&[30, 25, 12, 8, 4, 8, 13]) {
            0 => self.good_line(),
            1 => {
                let frame = self.refused_call();
                self.text(&frame)
            }
            2 => {
                let frame = self.frame_of_wrong_length();
                self.text(&frame)
            }
            3 => {
                let frame = self.frame_with_unknown_first_byte();
                self.text(&frame)
            }
            4 => Vec::new(),
            5 => self.line_with_odd_digits(),
            _ => self.line_with_bad_character(),
        }
    }

    fn good_line(&mut self) -> Vec<u8> {
        let frame = self.frame();
        let mut text = self.text(&frame);
        if self.random.chance(1, 4) {
            text.make_ascii_lowercase();
        }
        text
    }

    /// A byte more or fewer than the frame has, or many more. Loads and
    /// settings of other lengths stay listed; they come here too.
    fn frame_of_wrong_length(&mut self) -> Vec<u8> {
        let mut frame = if self.random.chance(1, 4) {
            self.refused_call()
        } else {
            self.single()
        };
        match self.random.below(5) {
            0 | 1 => {
                frame.pop();
            }
            2 | 3 => frame.push(self.random.one_of(&[0x00, 0x01, 0xFF])),
            _ => frame.truncate(1),
        }
        frame
    }

    fn frame_with_unknown_first_byte(&mut self) -> Vec<u8> {
        let mut frame = self.single();
        frame[0] = match self.random.below(4) {
            0 => 0x00,
            1 => 0x0B,
            2 => 0x10 + self.random.between(1, 10) as u8,
            _ => self.random.between(0x0B, 0xFF) as u8,
        };
        frame
    }

    fn line_with_odd_digits(&mut self) -> Vec<u8> {
        let mut text = self.good_text();
        if self.random.chance(1, 2) {
            text.pop();
        } else {
            let place = self.random.between(0, text.len());
            text.insert(place, b'0');
        }
        text
    }

    fn line_with_bad_character(&mut self) -> Vec<u8> {
        let mut text = self.good_text();
        let place = self.random.below(text.len());
        let character = self.random.one_of(&BAD_CHARACTERS);
        if self.random.chance(3, 4) {
            text[place] = character;
        } else {
            text.insert(place, character);
        }
        text
    }

    fn good_text(&mut self) -> Vec<u8> {
        let frame = self.single();
        self.text(&frame)
    }

    /// A line of the profile `lines`.
    pub(super) fn strange_line(&mut self) -> Vec<u8> {
        match self
            .random
            .weighted(&[40, 10, 10, 5, 1, 1, 8, 8, 5, 8, 3, 3])
        {
            0 => self.good_line(),
            1 => self.line_of_bytes(LONGEST_FRAME),
            2 => {
                let length = self.random.between(LONGEST_FRAME + 1, LONGEST_FRAME + 4);
                self.line_of_bytes(length)
            }
            3 => self.line_of_about_the_longest(),
            4 => {
                let length = self.random.between(500, 4500);
                self.line_of_bytes(length)
            }
            5 => {
                let length = self.random.between(1000, 9000);
                self.line_of_any_bytes(length)
            }
            6 => {
                let length = self.random.between(1, 70);
                self.line_of_any_bytes(length)
            }
            7 => [self.good_text(), vec![0x0D]].concat(),
            8 => self.line_with_any_byte(),
            9 => self.line_with_spaces(),
            10 => Vec::new(),
            _ => self.frame_before_a_long_rest(),
        }
    }

    /// A load, settings or another frame of so many bytes, in good digits.
    fn line_of_bytes(&mut self, length: usize) -> Vec<u8> {
        let channel = self.some_channel();
        let mut frame = match self.random.below(8) {
            0..=4 => vec![0x03, channel],
            5 | 6 => vec![0x07, channel],
            _ => vec![self.random.byte(), channel],
        };
        while frame.len() < length {
            frame.push(self.random.byte());
        }
        self.text(&frame)
    }

    /// One digit more or fewer than the longest line.
    fn line_of_about_the_longest(&mut self) -> Vec<u8> {
        let mut text = self.line_of_bytes(LONGEST_FRAME);
        if self.random.chance(1, 2) {
            text.pop();
        } else {
            text.push(b'0');
        }
        text
    }

    /// Any byte but the newline, which would make it two lines.
    fn byte_of_a_line(&mut self) -> u8 {
        loop {
            let byte = match self.random.below(8) {
                0 => 0x00,
                1 => 0x0D,
                2 => 0xFF,
                3 => 0x20,
                _ => self.random.byte(),
            };
            if byte != 0x0A {
                return byte;
            }
        }
    }

    fn line_of_any_bytes(&mut self, length: usize) -> Vec<u8> {
        (0..length).map(|_| self.byte_of_a_line()).collect()
    }

    /// A good line with one byte of any value set or put in.
    fn line_with_any_byte(&mut self) -> Vec<u8> {
        let mut text = self.good_text();
        let byte = self.byte_of_a_line();
        let place = self.random.below(text.len());
        if self.random.chance(1, 2) {
            text[place] = byte;
        } else {
            text.insert(place, byte);
        }
        text
    }

    fn line_with_spaces(&mut self) -> Vec<u8> {
        let spaces = vec![b' '; self.random.between(1, 2)];
        let text = self.good_text();
        match self.random.below(4) {
            0 => [spaces, text].concat(),
            1 => [text, spaces].concat(),
            2 => [&text[..2], &spaces, &text[2..]].concat(),
            _ => spaces,
        }
    }

    /// A frame, then a rest that is much too long for a line.
    fn frame_before_a_long_rest(&mut self) -> Vec<u8> {
        let byte = self.random.one_of(&[b'0', b' ', 0x00, 0x0D, b'F']);
        let length = self.random.between(60, 600);
        [self.good_text(), vec![byte; length]].concat()
    }
}
