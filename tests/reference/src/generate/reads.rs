//! Random traces for reads into lent buffers of any length and place.

use super::*;
use crate::card::CR;
use crate::reads::{Call, CHANNEL};

/// The longest lent buffer of a trace: room for the longest read, and some
/// more.
const LONGEST_BUFFER: usize = 48;

/// A place beyond the end lies so many bytes beyond it at most.
const FARTHEST_BEYOND: usize = 4;

/// "fewer than 3n bytes from the place to the buffer's end"
const LONGEST_IMAGE: usize = 3;

/// Arrivals of one sort: how often each kind comes, and the bytes that come.
struct Sort {
    kinds: [usize; 4],
    bytes: &'static [u8],
}

const SORTS: [Sort; 6] = [
    // Images of all three lengths; the byte that fills the buffers too.
    Sort {
        kinds: [6, 2, 1, 1],
        bytes: &[0xFF, 0xFF, 0xFF, 0x41, 0x00, 0x7F, 0x80, 0xC1, 0x0D, 0xA5],
    },
    // Images of three bytes only: the longest read then takes all of 36 bytes.
    Sort {
        kinds: [0, 4, 3, 2],
        bytes: &[0xFF, 0x00, 0x41, 0xC1, 0x0A, 0x0D, 0xA5],
    },
    // Images of two bytes only.
    Sort {
        kinds: [1, 0, 0, 0],
        bytes: &[0xFF],
    },
    Sort {
        kinds: [0, 0, 0, 1],
        bytes: &[0x00, 0x41, 0xFF],
    },
    // CR and NL, and the bytes that strip makes CR and NL of.
    Sort {
        kinds: [9, 1, 1, 0],
        bytes: &[0x0D, 0x0A, 0x0D, 0x0A, 0x8D, 0x8A, 0x41],
    },
    // Plain bytes that differ, so that their order shows.
    Sort {
        kinds: [1, 0, 0, 0],
        bytes: &[0x61, 0x62, 0x63, 0x64, 0x65, 0x66, 0x67, 0x68, 0xE9],
    },
];

/// How often each of the sorts comes, and last, arrivals of no sort.
const WEIGHTS_OF_SORTS: [usize; SORTS.len() + 1] = [5, 2, 3, 1, 2, 2, 2];

/// A trace of so many lines. The same seed gives the same trace.
pub fn trace(seed: u64, lines: usize) -> Vec<u8> {
    let mut generator = ReadsGenerator::new(seed);
    while generator.calls.len() < lines {
        generator.scene();
    }
    let mut output = Vec::new();
    for call in &generator.calls[..lines] {
        output.extend(call.line());
        output.push(b'\n');
    }
    output
}

struct ReadsGenerator {
    /// Draws settings and arrivals; its card gets every call that is written.
    traffic: Generator,
    calls: Vec<Call>,
}

impl ReadsGenerator {
    fn new(seed: u64) -> ReadsGenerator {
        ReadsGenerator {
            traffic: Generator {
                // The profiles and the stream cases have other numbers.
                random: Random::new(seed.wrapping_mul(16).wrapping_add(14)),
                profile: Profile::Marks,
                card: Card::fresh(),
                channel: CHANNEL,
                planned: VecDeque::new(),
                lower_case: false,
                flooded: None,
            },
            calls: Vec::new(),
        }
    }

    fn random(&mut self) -> &mut Random {
        &mut self.traffic.random
    }

    /// All that wait, request a's held item too.
    fn waiting(&self) -> usize {
        self.traffic.known(CHANNEL).items().count()
    }

    /// The bytes that a served read of n would write.
    fn image_bytes(&self, n: usize) -> usize {
        let oldest = self.traffic.known(CHANNEL).items().take(n);
        oldest.map(|waiting| waiting.item.image().len()).sum()
    }

    /// True when the call was served.
    fn write(&mut self, call: Call) -> bool {
        let answer = call.answer(&mut self.traffic.card);
        self.calls.push(call);
        answer.starts_with(b"00")
    }

    /// A short row of calls that leads to telling reads.
    fn scene(&mut self) {
        if self.random().chance(1, 2) {
            self.write_settings();
        }
        match self.random().weighted(&[55, 10, 20, 15, 10]) {
            0 => self.full_or_nearly_full(),
            1 => self.flags_throughout(),
            2 => self.few_items(),
            3 => self.settings_between(),
            _ => self.nothing_stored(),
        }
    }

    /// Mostly mark mode, for its images have different lengths.
    fn write_settings(&mut self) {
        let settings = match self.random().weighted(&[55, 20, 10, 15]) {
            0 => self.mark_mode(),
            1 => self.traffic.good_settings().to_vec(),
            2 => self.traffic.any_settings(),
            _ => self.traffic.bad_settings(),
        };
        self.write(Call::Settings(settings));
    }

    /// Strip off more often than on, for no FF is doubled with strip on.
    fn mark_mode(&mut self) -> Vec<u8> {
        let strip = u8::from(self.random().chance(1, 3));
        let fields = [(1, 4), (2, 1), (3, strip)];
        self.traffic.good_settings_with(&fields).to_vec()
    }

    // -----------------------------------------------------------------------
    // Scenes
    // -----------------------------------------------------------------------

    /// Often some items are lost, so that the newest item has its flag. Now and
    /// then a read of one lets it move up, into the reach of the longest read.
    fn full_or_nearly_full(&mut self) {
        let waiting = match self.random().below(4) {
            0 => self.random().between(9, MOST_ITEMS - 1),
            _ => MOST_ITEMS,
        };
        self.fill(waiting);
        if waiting == MOST_ITEMS {
            let more = self.random().between(0, 3);
            self.write_arrivals(more);
            if self.random().chance(1, 3) {
                let read = self.read_with_room(1, LONGEST_IMAGE);
                self.write(read);
            }
        }
        let reads = self.random().between(1, 4);
        self.write_reads(reads);
    }

    /// A full queue whose newest item is flagged again and again: in the end
    /// many flags wait, up to thirteen.
    fn flags_throughout(&mut self) {
        self.fill(MOST_ITEMS);
        let rounds = match self.random().below(3) {
            0 => MOST_ITEMS,
            _ => self.random().between(1, MOST_ITEMS),
        };
        // With two removed each time, every other item has no flag.
        let removed = 1 + usize::from(self.random().chance(1, 5));
        for _ in 0..rounds {
            let read = self.read_with_room(removed, LONGEST_IMAGE * removed);
            self.write(read);
            self.fill(MOST_ITEMS);
            self.write_arrivals(1);
        }
        let reads = self.random().between(1, 3);
        self.write_reads(reads);
    }

    /// More is asked than waits: "removes the oldest min(n, waiting) items".
    fn few_items(&mut self) {
        let arrivals = self.random().between(0, 5);
        self.write_arrivals(arrivals);
        let reads = self.random().between(1, 3);
        self.write_reads(reads);
    }

    /// "The item is fixed at arrival; later settings don't alter it."
    fn settings_between(&mut self) {
        let waiting = self.random().between(2, MOST_ITEMS);
        self.fill(waiting);
        self.write_settings();
        let arrivals = self.random().between(0, 4);
        self.write_arrivals(arrivals);
        let reads = self.random().between(1, 3);
        self.write_reads(reads);
    }

    /// Request b: "Say why nothing was stored". Each of its reasons can come,
    /// to a full queue, to an empty one, or to what there is; the reads show
    /// that nothing is flagged by that.
    fn nothing_stored(&mut self) {
        match self.random().below(3) {
            0 => self.fill(MOST_ITEMS),
            1 => self.read_all(),
            _ => {}
        }
        let settings = self.settings_of_all_reasons();
        self.write(Call::Settings(settings));
        let arrivals = self.random().between(2, 8);
        for _ in 0..arrivals {
            let call = self.arrival_of_a_reason();
            self.write(call);
        }
        let reads = self.random().between(1, 2);
        self.write_reads(reads);
    }

    /// "1 flow character swallowed, 3 damaged discarded, 4 break ignored, 5
    /// line ending discarded". Now and then a damaged character is passed, and
    /// has the fate of a good one.
    fn settings_of_all_reasons(&mut self) -> Vec<u8> {
        let damaged_characters = self.random().one_of(&[1, 2, 2]);
        let line_endings = self.random().between(4, 7) as u8;
        let fields = [(1, damaged_characters), (2, 0), (4, line_endings), (5, 2)];
        self.traffic.good_settings_with(&fields).to_vec()
    }

    // -----------------------------------------------------------------------
    // Arrivals
    // -----------------------------------------------------------------------

    /// Arrivals until so many items wait. Under some settings a sort stores
    /// nothing, so the arrivals have an end.
    fn fill(&mut self, waiting: usize) {
        for _ in 0..4 {
            let missing = waiting.saturating_sub(self.waiting());
            self.write_arrivals(missing);
        }
    }

    fn write_arrivals(&mut self, number: usize) {
        let sort = self.random().weighted(&WEIGHTS_OF_SORTS);
        for _ in 0..number {
            let call = match SORTS.get(sort) {
                _ if self.random().chance(1, 80) => self.arrival_of_bad_kind(),
                Some(sort) => self.arrival_of(sort),
                None => self.any_arrival(),
            };
            self.write(call);
        }
    }

    fn arrival_of(&mut self, sort: &Sort) -> Call {
        let kind = self.random().weighted(&sort.kinds) as u8;
        let byte = self.random().one_of(sort.bytes);
        Call::Arrival { kind, byte }
    }

    /// Here the channel's own characters come too.
    fn any_arrival(&mut self) -> Call {
        let kind = self.random().weighted(&[60, 16, 12, 12]) as u8;
        let byte = self.traffic.arrival_byte(CHANNEL);
        Call::Arrival { kind, byte }
    }

    /// A flow character or a CR, of any kind: with strip off, the byte that
    /// strip makes CR of is stored.
    fn arrival_of_a_reason(&mut self) -> Call {
        let settings = &self.traffic.known(CHANNEL).settings;
        let bytes = [settings.xon(), settings.xoff(), CR, CR + 0x80];
        let kind = self.random().below(4) as u8;
        let byte = self.random().one_of(&bytes);
        Call::Arrival { kind, byte }
    }

    /// Refusal 2: "kind above 3"
    fn arrival_of_bad_kind(&mut self) -> Call {
        let kind = self.traffic.byte_above(3);
        let byte = self.random().byte();
        Call::Arrival { kind, byte }
    }

    // -----------------------------------------------------------------------
    // Reads
    // -----------------------------------------------------------------------

    fn write_reads(&mut self, number: usize) {
        for _ in 0..number {
            // Most reads of an empty queue would look the same.
            if self.waiting() == 0 && self.random().chance(2, 3) {
                let waiting = self.random().between(1, MOST_ITEMS);
                self.fill(waiting);
            }
            let read = self.some_read();
            let served = self.write(read.clone());
            if !served && self.random().chance(4, 5) {
                self.write_again_with_room(read);
            }
        }
    }

    /// Reads until nothing waits.
    fn read_all(&mut self) {
        while self.waiting() > 0 {
            let n = RECEIVE_QUEUE_DEPTH;
            let read = self.read_with_room(n, LONGEST_IMAGE * n);
            self.write(read);
        }
    }

    /// "A refusal changes nothing, and a refused read asks for nothing": the
    /// same read with room shows it. Now and then it is refused once more
    /// before, or a character arrives between.
    fn write_again_with_room(&mut self, refused: Call) {
        let Call::Read { n, place, .. } = refused else {
            return;
        };
        match self.random().below(6) {
            0 => {
                self.write(refused);
            }
            1 => self.write_arrivals(1),
            _ => {}
        }
        // A read of more than 12 has no room anywhere, so 12 are read then.
        let n = n.min(RECEIVE_QUEUE_DEPTH);
        let more = match self.random().below(3) {
            0 => self.random().between(1, 12),
            _ => 0,
        };
        let room = LONGEST_IMAGE * n + more;
        let place = place.min(LONGEST_BUFFER - room);
        let length = place + room;
        self.write(Call::Read { n, length, place });
    }

    fn some_read(&mut self) -> Call {
        let n = self.some_n();
        let enough = LONGEST_IMAGE * n;
        match self.random().weighted(&[22, 13, 10, 5, 7, 10, 16, 17]) {
            0 => self.read_with_room(n, enough),
            1 if n > 0 => self.read_with_room(n, enough - 1),
            2 => self.read_with_room(n, enough + 1),
            3 => self.read_with_room(0, 0),
            1 | 4 => self.read_beyond_the_end(n),
            5 => self.read_of_more_than_12(),
            6 => self.read_with_room_for_the_images(n),
            _ => self.any_read(),
        }
    }

    /// From 0 to 12; often all that may be asked, or about what waits.
    fn some_n(&mut self) -> usize {
        let waiting = self.waiting();
        let n = match self.random().below(10) {
            0..=2 => RECEIVE_QUEUE_DEPTH,
            3 => waiting,
            4 => waiting + 1,
            5 => waiting.saturating_sub(1),
            6 => 0,
            _ => self.random().between(0, RECEIVE_QUEUE_DEPTH),
        };
        n.min(RECEIVE_QUEUE_DEPTH)
    }

    /// A read with so many bytes from the place to the buffer's end.
    fn read_with_room(&mut self, n: usize, room: usize) -> Call {
        let place = match self.random().below(3) {
            0 => 0,
            _ => self.random().between(0, LONGEST_BUFFER - room),
        };
        Call::Read {
            n,
            length: place + room,
            place,
        }
    }

    /// "or the place beyond the end"; a read of nothing too.
    fn read_beyond_the_end(&mut self, n: usize) -> Call {
        let length = self.random().between(0, LONGEST_BUFFER);
        let place = length + self.random().between(1, FARTHEST_BEYOND);
        let n = if self.random().chance(1, 2) { 0 } else { n };
        Call::Read { n, length, place }
    }

    /// "more than 12 asked": "Lower numbers first", so the refusal is 3 with
    /// room, without room, and beyond the end.
    fn read_of_more_than_12(&mut self) -> Call {
        let n = match self.random().below(8) {
            0..=2 => 13,
            3 | 4 => 14,
            // As many as a byte would take for 0 to 12.
            5 => self.random().between(256, 256 + RECEIVE_QUEUE_DEPTH),
            _ => self.random().between(15, 300),
        };
        let enough = LONGEST_IMAGE * n;
        match self.random().below(6) {
            0 | 1 if enough <= LONGEST_BUFFER => self.read_with_room(n, enough),
            2 if enough <= LONGEST_BUFFER => self.read_with_room(n, enough - 1),
            0..=2 => self.read_with_room(n, LONGEST_BUFFER),
            3 => {
                let length = self.random().between(0, LONGEST_BUFFER);
                let place = length + self.random().between(1, FARTHEST_BEYOND);
                Call::Read { n, length, place }
            }
            _ => {
                let room = self.random().between(0, LONGEST_BUFFER);
                self.read_with_room(n, room)
            }
        }
    }

    /// Room for the images that wait but not for 3n: refusal 4 all the same.
    fn read_with_room_for_the_images(&mut self, n: usize) -> Call {
        // Where all images have three bytes, more must be asked than waits.
        let all_long = self.image_bytes(n) == LONGEST_IMAGE * n;
        let n = if all_long { RECEIVE_QUEUE_DEPTH } else { n };
        let images = self.image_bytes(n);
        let enough = LONGEST_IMAGE * n;
        if images == enough {
            return self.read_with_room(n, enough);
        }
        let room = match self.random().below(3) {
            0 => images,
            1 => enough - 1,
            _ => self.random().between(images, enough - 1),
        };
        self.read_with_room(n, room)
    }

    fn any_read(&mut self) -> Call {
        let length = self.random().between(0, LONGEST_BUFFER);
        let place = match self.random().below(3) {
            0 => 0,
            _ => self.random().between(0, length + FARTHEST_BEYOND),
        };
        let n = self.random().between(0, RECEIVE_QUEUE_DEPTH + 2);
        Call::Read { n, length, place }
    }
}
