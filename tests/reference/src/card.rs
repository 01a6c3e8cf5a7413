//! The card and its calls, in the order of the paper.

use std::collections::VecDeque;

/// "Four channels, 0 to 3."
pub const CHANNELS: usize = 4;

/// "Each has settings, a receive queue of 12 items, a transmit queue of
/// 12 bytes, and small flags."
///
/// Request a leaves the host with these twelve: "State still shows at most 12
/// waiting; a read asks for at most 12." Nor does it alter field 8, "service
/// threshold", "1 to 12".
pub const RECEIVE_QUEUE_DEPTH: usize = 12;

/// Request a: "One more place is to hold an item behind the twelve"; "A loss
/// now happens at thirteen".
pub const MOST_ITEMS: usize = RECEIVE_QUEUE_DEPTH + 1;

/// "a transmit queue of 12 bytes": a number of its own, which request a
/// doesn't alter.
pub const TRANSMIT_QUEUE_DEPTH: usize = 12;

/// "Line endings (CR 0D, NL 0A)"
pub const CR: u8 = 0x0D;
pub const NL: u8 = 0x0A;

// ---------------------------------------------------------------------------
// Settings, 15 bytes
// ---------------------------------------------------------------------------

/// "settings not 15 bytes (field 0)"
pub const SETTINGS_LENGTH: usize = 15;

/// The lowest and the highest value of each field, in field order.
pub const OWN_RANGES: [(u8, u8); SETTINGS_LENGTH] = [
    (1, 4),   // 1: damaged characters: 1 pass, 2 discard, 3 null, 4 mark
    (0, 1),   // 2: break: 0 ignore, 1 keep
    (0, 1),   // 3: strip to seven bits: 0, 1
    (0, 7),   // 4: line endings: 0 to 7
    (0, 2),   // 5: flow characters: 0 off, 1 obey and store, 2 obey and swallow
    (0, 1),   // 6: implied XON: 0, 1
    (0, 1),   // 7: literal-next: 0, 1
    (1, 12),  // 8: service threshold: 1 to 12
    (0, 1),   // 9: CTS holds the transmitter: 0, 1
    (0, 1),   // 10: NL sent as CR NL: 0, 1
    (0, 255), // 11: special character 1, any; 1 is XON
    (0, 255), // 12: special character 2, any; 2 is XOFF
    (0, 255), // 13: special character 3, any
    (0, 255), // 14: special character 4, any
    (0, 255), // 15: literal-next character, any
];

/// Field 1: "1 pass, 2 discard, 3 null, 4 mark"
#[derive(Clone, Copy, Debug, PartialEq, Eq)]
pub enum DamagedCharacters {
    Pass,
    Discard,
    Null,
    Mark,
}

/// Field 5: "0 off, 1 obey and store, 2 obey and swallow"
#[derive(Clone, Copy, Debug, PartialEq, Eq)]
pub enum FlowCharacters {
    Off,
    ObeyAndStore,
    ObeyAndSwallow,
}

/// The settings, in the order of the paper's table.
#[derive(Clone, Debug, PartialEq, Eq)]
pub struct Settings {
    pub damaged_characters: DamagedCharacters,
    pub keep_break: bool,
    pub strip: bool,
    pub line_endings: usize,
    pub flow_characters: FlowCharacters,
    pub implied_xon: bool,
    pub literal_next: bool,
    pub service_threshold: usize,
    pub cts_holds_the_transmitter: bool,
    pub nl_sent_as_cr_nl: bool,
    pub special_characters: [u8; 4],
    pub literal_next_character: u8,
}

/// "A fresh channel has 1, 1, 0, 0, 0, 0, 0, 1, 0, 0, then hex 11 13 00 00 16"
pub const FRESH_SETTINGS: [u8; SETTINGS_LENGTH] =
    [1, 1, 0, 0, 0, 0, 0, 1, 0, 0, 0x11, 0x13, 0x00, 0x00, 0x16];

/// The paper numbers the fields from 1.
fn field(bytes: &[u8], number: usize) -> u8 {
    bytes[number - 1]
}

/// The field that refusal 5 names, or none for settings that are taken.
///
/// "settings not 15 bytes (field 0) or the first bad field"
fn first_bad_field(bytes: &[u8]) -> Option<u8> {
    if bytes.len() != SETTINGS_LENGTH {
        return Some(0);
    }
    // "Own ranges are tested first, in field order, then these two in order."
    for number in 1..=SETTINGS_LENGTH {
        let (lowest, highest) = OWN_RANGES[number - 1];
        let value = field(bytes, number);
        if value < lowest || value > highest {
            return Some(number as u8);
        }
    }
    let xon = field(bytes, 11);
    let xoff = field(bytes, 12);
    // "with field 5 not 0, XON equal to XOFF (reported as field 12)"
    if field(bytes, 5) != 0 && xon == xoff {
        return Some(12);
    }
    // "with fields 5 and 7 both on, the literal-next character equal to XON
    // or XOFF (field 15)"
    let literal_next_character = field(bytes, 15);
    let both_on = field(bytes, 5) != 0 && field(bytes, 7) != 0;
    if both_on && (literal_next_character == xon || literal_next_character == xoff) {
        return Some(15);
    }
    None
}

impl Settings {
    /// Reads settings from the 15 bytes of the paper's table.
    pub fn from_bytes(bytes: &[u8]) -> Result<Settings, Refusal> {
        if let Some(bad_field) = first_bad_field(bytes) {
            return Err(Refusal::Settings { field: bad_field });
        }
        Ok(Settings {
            damaged_characters: match field(bytes, 1) {
                1 => DamagedCharacters::Pass,
                2 => DamagedCharacters::Discard,
                3 => DamagedCharacters::Null,
                _ => DamagedCharacters::Mark,
            },
            keep_break: field(bytes, 2) == 1,
            strip: field(bytes, 3) == 1,
            line_endings: usize::from(field(bytes, 4)),
            flow_characters: match field(bytes, 5) {
                0 => FlowCharacters::Off,
                1 => FlowCharacters::ObeyAndStore,
                _ => FlowCharacters::ObeyAndSwallow,
            },
            implied_xon: field(bytes, 6) == 1,
            literal_next: field(bytes, 7) == 1,
            service_threshold: usize::from(field(bytes, 8)),
            cts_holds_the_transmitter: field(bytes, 9) == 1,
            nl_sent_as_cr_nl: field(bytes, 10) == 1,
            special_characters: [
                field(bytes, 11),
                field(bytes, 12),
                field(bytes, 13),
                field(bytes, 14),
            ],
            literal_next_character: field(bytes, 15),
        })
    }

    /// "any; 1 is XON, 2 is XOFF"
    pub fn xon(&self) -> u8 {
        self.special_characters[0]
    }

    /// "any; 1 is XON, 2 is XOFF"
    pub fn xoff(&self) -> u8 {
        self.special_characters[1]
    }

    fn mark_mode(&self) -> bool {
        self.damaged_characters == DamagedCharacters::Mark
    }
}

// ---------------------------------------------------------------------------
// Refusal numbers
// ---------------------------------------------------------------------------

/// The refusals of the card's calls. Refusals 8 and 9 belong to the marked
/// stream, refusal 11 to the program.
#[derive(Clone, Copy, Debug, PartialEq, Eq)]
pub enum Refusal {
    /// 1: "channel above 3"
    Channel,
    /// 2: "kind above 3"
    Kind,
    /// 3: "more than 12 asked"
    Asked,
    /// 4: "fewer than 3n bytes from the place to the buffer's end, or the
    /// place beyond the end"
    Buffer,
    /// 5: "settings not 15 bytes (field 0) or the first bad field"
    Settings { field: u8 },
    /// 6: "special not 1 to 4"
    Special,
    /// 7: "a special already waits"
    SpecialWaits,
    /// 10: "CTS neither 0 nor 1"
    Cts,
}

impl Refusal {
    pub fn number(&self) -> u8 {
        match self {
            Refusal::Channel => 1,
            Refusal::Kind => 2,
            Refusal::Asked => 3,
            Refusal::Buffer => 4,
            Refusal::Settings { .. } => 5,
            Refusal::Special => 6,
            Refusal::SpecialWaits => 7,
            Refusal::Cts => 10,
        }
    }
}

// ---------------------------------------------------------------------------
// The channel
// ---------------------------------------------------------------------------

/// "Images: plain b is b; doubled is FF FF; damaged b is FF 00 b."
#[derive(Clone, Copy, Debug, PartialEq, Eq)]
pub enum Item {
    Plain(u8),
    Doubled,
    Damaged(u8),
}

impl Item {
    /// "Images: plain b is b; doubled is FF FF; damaged b is FF 00 b."
    pub fn image(&self) -> Vec<u8> {
        match self {
            Item::Plain(byte) => vec![*byte],
            Item::Doubled => vec![0xFF, 0xFF],
            Item::Damaged(byte) => vec![0xFF, 0x00, *byte],
        }
    }
}

/// An item in the receive queue or behind it, beside its overrun flag.
#[derive(Clone, Debug, PartialEq, Eq)]
pub struct WaitingItem {
    pub item: Item,
    pub overrun: bool,
}

#[derive(Clone, Debug, PartialEq, Eq)]
pub struct Channel {
    pub settings: Settings,
    /// The oldest item stands at the front.
    pub receive_queue: VecDeque<WaitingItem>,
    /// Request a: "One more place is to hold an item behind the twelve". It
    /// has an item only while the queue is full.
    pub held_item: Option<WaitingItem>,
    /// The head of the queue stands at the front.
    pub transmit_queue: VecDeque<u8>,
    pub literal_mark: bool,
    pub stopped: bool,
    pub owed_nl: bool,
    pub waiting_special: Option<u8>,
    pub cts: u8,
    pub loss_count: u16,
}

/// "Kinds: 0 good, 1 parity error, 2 framing error, 3 break"
#[derive(Clone, Copy, Debug, PartialEq, Eq)]
pub enum Kind {
    Good,
    ParityError,
    FramingError,
    Break,
}

impl Kind {
    /// Refusal 2: "kind above 3"
    pub fn from_number(number: u8) -> Result<Kind, Refusal> {
        match number {
            0 => Ok(Kind::Good),
            1 => Ok(Kind::ParityError),
            2 => Ok(Kind::FramingError),
            3 => Ok(Kind::Break),
            _ => Err(Refusal::Kind),
        }
    }
}

/// "The answer is a fate: 0 stored, 1 nothing to store, 2 lost." Request b:
/// "Split it: 1 flow character swallowed, 3 damaged discarded, 4 break ignored,
/// 5 line ending discarded. 0 and 2 stay".
#[derive(Clone, Copy, Debug, PartialEq, Eq)]
pub enum Fate {
    Stored,
    FlowCharacterSwallowed,
    Lost,
    DamagedDiscarded,
    BreakIgnored,
    LineEndingDiscarded,
}

impl Fate {
    pub fn number(&self) -> u8 {
        match self {
            Fate::Stored => 0,
            Fate::FlowCharacterSwallowed => 1,
            Fate::Lost => 2,
            Fate::DamagedDiscarded => 3,
            Fate::BreakIgnored => 4,
            Fate::LineEndingDiscarded => 5,
        }
    }
}

/// "Answers the characters removed, how many had the overrun flag, and the
/// bytes written."
#[derive(Clone, Copy, Debug, PartialEq, Eq)]
pub struct ReadAnswer {
    pub characters: usize,
    pub flagged: usize,
    pub bytes: usize,
}

/// "State: waiting items, bytes in the transmit queue (an owed NL or a
/// special doesn't count), stopped (1) or running (0), loss count." Request a:
/// "State still shows at most 12 waiting".
#[derive(Clone, Copy, Debug, PartialEq, Eq)]
pub struct StateAnswer {
    pub waiting: usize,
    pub transmit_waiting: usize,
    pub stopped: u8,
    pub loss_count: u16,
}

/// "Line endings (CR 0D, NL 0A), one lookup and no second one". Each row:
/// what CR gives and what NL gives, for the values 0 to 7.
///
/// Request e has the box "Work the eight line-ending rows out from the three
/// bits of the value", for its "page for constants is full". There is no such
/// page here, and "No answer changes": so this stays the paper's table, another
/// way to the same answers.
const LINE_ENDINGS: [(Option<u8>, Option<u8>); 8] = [
    (Some(CR), Some(NL)), // 0
    (Some(CR), Some(CR)), // 1
    (Some(NL), Some(NL)), // 2
    (Some(NL), Some(CR)), // 3
    (None, Some(NL)),     // 4
    (None, Some(CR)),     // 5
    (None, Some(NL)),     // 6
    (None, Some(CR)),     // 7
];

impl Channel {
    /// "A fresh channel has 1, 1, 0, 0, 0, 0, 0, 1, 0, 0, then hex 11 13 00
    /// 00 16; queues empty, nothing pending, transmitter running, CTS 0, loss
    /// count 0."
    pub fn fresh() -> Channel {
        Channel {
            settings: Settings::from_bytes(&FRESH_SETTINGS)
                .expect("the fresh settings of the paper are good"),
            receive_queue: VecDeque::new(),
            held_item: None,
            transmit_queue: VecDeque::new(),
            literal_mark: false,
            stopped: false,
            owed_nl: false,
            waiting_special: None,
            cts: 0,
            loss_count: 0,
        }
    }

    /// All items that are there, in the order in which reads hand them over:
    /// request a's held item comes last.
    pub fn items(&self) -> impl Iterator<Item = &WaitingItem> {
        self.receive_queue.iter().chain(&self.held_item)
    }

    /// "Taking settings clears the literal mark and sets the transmitter
    /// running. Queues, an owed NL, a waiting special, CTS and the loss count
    /// stay." So does the item that request a holds behind the queue.
    fn take_settings(&mut self, settings: Settings) {
        self.settings = settings;
        self.literal_mark = false;
        self.stopped = false;
    }

    // -----------------------------------------------------------------------
    // One arrival
    // -----------------------------------------------------------------------

    /// "Kinds: 0 good, 1 parity error, 2 framing error, 3 break (its byte is
    /// disregarded). In order:"
    fn arrival(&mut self, kind: Kind, byte: u8) -> Fate {
        match kind {
            Kind::Break => self.arrival_step_1_break(),
            Kind::ParityError | Kind::FramingError => self.arrival_step_2_damaged(byte),
            Kind::Good => self.arrival_step_3_good(byte),
        }
    }

    /// "1. Break. Ignored: nothing changes. Kept: store damaged 00 in mark
    /// mode, else plain 00; clear the literal mark." Request b: "4 break
    /// ignored".
    fn arrival_step_1_break(&mut self) -> Fate {
        if !self.settings.keep_break {
            return Fate::BreakIgnored;
        }
        self.literal_mark = false;
        if self.settings.mark_mode() {
            self.store_item(Item::Damaged(0x00))
        } else {
            self.store_item(Item::Plain(0x00))
        }
    }

    /// "2. Parity or framing error. Pass: go on as good. Discard: nothing
    /// changes. Null: store plain 00. Mark: store damaged b, unstripped. The
    /// last two clear the literal mark, and match no special character."
    /// Request b: "3 damaged discarded".
    fn arrival_step_2_damaged(&mut self, byte: u8) -> Fate {
        match self.settings.damaged_characters {
            DamagedCharacters::Pass => self.arrival_step_3_good(byte),
            DamagedCharacters::Discard => Fate::DamagedDiscarded,
            DamagedCharacters::Null => {
                self.literal_mark = false;
                self.store_item(Item::Plain(0x00))
            }
            DamagedCharacters::Mark => {
                self.literal_mark = false;
                self.store_item(Item::Damaged(byte))
            }
        }
    }

    /// "3. Good. If strip is on, b becomes b mod 128. From here on, with
    /// implied XON the transmitter is set running, unless step 6 recognises
    /// XOFF."
    fn arrival_step_3_good(&mut self, byte: u8) -> Fate {
        let byte = if self.settings.strip {
            byte % 128
        } else {
            byte
        };
        // An XOFF that step 6 recognises stops the transmitter there, after
        // this line; so the "unless" is kept.
        if self.settings.implied_xon {
            self.stopped = false;
        }
        self.arrival_step_4_literal_mark(byte)
    }

    /// "4. Literal mark set: clear it, store b, stop."
    fn arrival_step_4_literal_mark(&mut self, byte: u8) -> Fate {
        if self.literal_mark {
            self.literal_mark = false;
            return self.store_good(byte);
        }
        self.arrival_step_5_literal_next(byte)
    }

    /// "5. Literal-next on and b is that character: set the mark, store b,
    /// stop."
    fn arrival_step_5_literal_next(&mut self, byte: u8) -> Fate {
        if self.settings.literal_next && byte == self.settings.literal_next_character {
            self.literal_mark = true;
            return self.store_good(byte);
        }
        self.arrival_step_6_flow_characters(byte)
    }

    /// "6. Field 5 not 0 and b is XON or XOFF: set running or stopped; store
    /// b for value 1, store nothing for value 2; stop." Request b: "1 flow
    /// character swallowed".
    fn arrival_step_6_flow_characters(&mut self, byte: u8) -> Fate {
        let is_xon = byte == self.settings.xon();
        let is_xoff = byte == self.settings.xoff();
        let flow_characters = self.settings.flow_characters;
        if flow_characters == FlowCharacters::Off || !(is_xon || is_xoff) {
            return self.arrival_step_7_line_endings(byte);
        }
        // XON and XOFF differ here: equal ones are refused with field 5 on.
        self.stopped = is_xoff;
        if flow_characters == FlowCharacters::ObeyAndStore {
            self.store_good(byte)
        } else {
            Fate::FlowCharacterSwallowed
        }
    }

    /// "7. Line endings (CR 0D, NL 0A), one lookup and no second one; store
    /// what comes out." Request b: "5 line ending discarded", where the table
    /// gives nothing.
    fn arrival_step_7_line_endings(&mut self, byte: u8) -> Fate {
        let (cr_gives, nl_gives) = LINE_ENDINGS[self.settings.line_endings];
        let comes_out = match byte {
            CR => cr_gives,
            NL => nl_gives,
            other => Some(other),
        };
        match comes_out {
            Some(stored) => self.store_good(stored),
            None => Fate::LineEndingDiscarded,
        }
    }

    /// "Storing a good FF in mark mode makes a doubled item; any other good
    /// byte makes a plain item."
    fn store_good(&mut self, byte: u8) -> Fate {
        if byte == 0xFF && self.settings.mark_mode() {
            self.store_item(Item::Doubled)
        } else {
            self.store_item(Item::Plain(byte))
        }
    }

    /// "If 12 items wait, the new one is lost, the newest waiting item gets
    /// the overrun flag (data sheets: the flag sits on the last good
    /// character) and the loss count rises by 1, staying at 65,535."
    ///
    /// Request a makes these 12 thirteen: "One more place is to hold an item
    /// behind the twelve"; "A loss now happens at thirteen, and the flag goes
    /// on the newest item, which is the held one."
    fn store_item(&mut self, item: Item) -> Fate {
        let arrived = WaitingItem {
            item,
            overrun: false,
        };
        if self.receive_queue.len() < RECEIVE_QUEUE_DEPTH {
            self.receive_queue.push_back(arrived);
            return Fate::Stored;
        }
        let Some(newest) = &mut self.held_item else {
            self.held_item = Some(arrived);
            return Fate::Stored;
        };
        newest.overrun = true;
        self.loss_count = self.loss_count.saturating_add(1);
        Fate::Lost
    }

    // -----------------------------------------------------------------------
    // Host and line
    // -----------------------------------------------------------------------

    /// "Read n characters, n from 0 to 12: removes the oldest min(n, waiting)
    /// items and writes their images into the lent buffer from a given place
    /// on. Answers the characters removed, how many had the overrun flag, and
    /// the bytes written. Everything before the place and after the last
    /// written byte stays."
    ///
    /// Request a's thirteenth item is beyond any one read, for "a read asks
    /// for at most 12".
    fn read(&mut self, n: usize, buffer: &mut [u8], place: usize) -> ReadAnswer {
        let characters = n.min(self.receive_queue.len());
        let mut flagged = 0;
        let mut bytes = 0;
        for waiting in self.receive_queue.drain(..characters) {
            if waiting.overrun {
                flagged += 1;
            }
            for image_byte in waiting.item.image() {
                buffer[place + bytes] = image_byte;
                bytes += 1;
            }
        }
        // Request a: "it moves up when a read makes room". A read that removes
        // nothing makes none.
        if characters > 0 {
            self.receive_queue.extend(self.held_item.take());
        }
        ReadAnswer {
            characters,
            flagged,
            bytes,
        }
    }

    /// "Load: takes the first min(length, room) bytes; answers that number.
    /// Load of nothing takes 0."
    fn load(&mut self, bytes: &[u8]) -> usize {
        let room = TRANSMIT_QUEUE_DEPTH - self.transmit_queue.len();
        let taken = bytes.len().min(room);
        for byte in &bytes[..taken] {
            self.transmit_queue.push_back(*byte);
        }
        taken
    }

    /// "Line turn, one character time." The answer is the byte sent, or none.
    fn turn(&mut self) -> Option<u8> {
        // "A waiting special goes first, even when stopped or CTS is 0, even
        // between CR and its NL."
        if let Some(special) = self.waiting_special {
            self.waiting_special = None;
            return Some(special);
        }
        // "Else nothing goes if stopped, or if field 9 is 1 and CTS is 0."
        if self.stopped || (self.settings.cts_holds_the_transmitter && self.cts == 0) {
            return None;
        }
        // "Else an owed NL;" "An owed NL is sent even if field 10 was since
        // turned off."
        if self.owed_nl {
            self.owed_nl = false;
            return Some(NL);
        }
        // "else the head of the queue; else nothing. With field 10, a queued
        // NL goes out as CR, leaves the queue and owes an NL."
        let head = self.transmit_queue.pop_front()?;
        if head == NL && self.settings.nl_sent_as_cr_nl {
            self.owed_nl = true;
            return Some(CR);
        }
        Some(head)
    }

    /// "Special s from 1 to 4: the present special character s waits for the
    /// next turn."
    fn special(&mut self, special: u8) -> Result<(), Refusal> {
        if !(1..=4).contains(&special) {
            return Err(Refusal::Special);
        }
        if self.waiting_special.is_some() {
            return Err(Refusal::SpecialWaits);
        }
        let present = self.settings.special_characters[usize::from(special) - 1];
        self.waiting_special = Some(present);
        Ok(())
    }

    /// "whose waiting items reach its threshold". No threshold is above 12, so
    /// that request a's held item makes no difference here.
    fn reaches_its_threshold(&self) -> bool {
        self.receive_queue.len() >= self.settings.service_threshold
    }

    /// "State: waiting items, bytes in the transmit queue (an owed NL or a
    /// special doesn't count), stopped (1) or running (0), loss count." Request
    /// a: "State still shows at most 12 waiting", so the held item isn't shown.
    fn state(&self) -> StateAnswer {
        StateAnswer {
            waiting: self.receive_queue.len(),
            transmit_waiting: self.transmit_queue.len(),
            stopped: u8::from(self.stopped),
            loss_count: self.loss_count,
        }
    }
}

// ---------------------------------------------------------------------------
// The card's calls, with their refusals: "Lower numbers first", "A refusal
// changes nothing"
// ---------------------------------------------------------------------------

/// "Four channels, 0 to 3", and the pick's place.
#[derive(Clone, Debug, PartialEq, Eq)]
pub struct Card {
    pub channels: Vec<Channel>,
    /// The channel that the last pick with a name named; none on a fresh card.
    pub last_named: Option<usize>,
}

impl Card {
    pub fn fresh() -> Card {
        Card {
            channels: vec![Channel::fresh(); CHANNELS],
            last_named: None,
        }
    }

    /// Refusal 1: "channel above 3"
    fn channel(&mut self, channel: u8) -> Result<&mut Channel, Refusal> {
        self.channels
            .get_mut(usize::from(channel))
            .ok_or(Refusal::Channel)
    }

    /// Refusals 1 and 2.
    pub fn arrival(&mut self, channel: u8, kind: u8, byte: u8) -> Result<Fate, Refusal> {
        let channel = self.channel(channel)?;
        let kind = Kind::from_number(kind)?;
        Ok(channel.arrival(kind, byte))
    }

    /// Refusals 1, 3 and 4. "Read 12 into 36 bytes is served, into 35 refused
    /// (4); read 0 at the very end of a buffer is served." Request a keeps
    /// refusal 3: "a read asks for at most 12".
    pub fn read(
        &mut self,
        channel: u8,
        n: usize,
        buffer: &mut [u8],
        place: usize,
    ) -> Result<ReadAnswer, Refusal> {
        let channel = self.channel(channel)?;
        if n > RECEIVE_QUEUE_DEPTH {
            return Err(Refusal::Asked);
        }
        if place > buffer.len() {
            return Err(Refusal::Buffer);
        }
        if buffer.len() - place < 3 * n {
            return Err(Refusal::Buffer);
        }
        Ok(channel.read(n, buffer, place))
    }

    /// Refusal 1.
    pub fn load(&mut self, channel: u8, bytes: &[u8]) -> Result<usize, Refusal> {
        Ok(self.channel(channel)?.load(bytes))
    }

    /// Refusal 1.
    pub fn turn(&mut self, channel: u8) -> Result<Option<u8>, Refusal> {
        Ok(self.channel(channel)?.turn())
    }

    /// Refusals 1 and 10: "CTS neither 0 nor 1"
    pub fn cts(&mut self, channel: u8, cts: u8) -> Result<(), Refusal> {
        let channel = self.channel(channel)?;
        if cts > 1 {
            return Err(Refusal::Cts);
        }
        channel.cts = cts;
        Ok(())
    }

    /// Refusals 1, 6 and 7.
    pub fn special(&mut self, channel: u8, special: u8) -> Result<(), Refusal> {
        self.channel(channel)?.special(special)
    }

    /// Refusals 1 and 5.
    pub fn settings(&mut self, channel: u8, bytes: &[u8]) -> Result<(), Refusal> {
        let channel = self.channel(channel)?;
        let settings = Settings::from_bytes(bytes)?;
        channel.take_settings(settings);
        Ok(())
    }

    /// "Pick: the first channel after the last named one, going round 0 to 3,
    /// whose waiting items reach its threshold; a fresh card looks at 0
    /// first. None: says so, and the place stays."
    pub fn pick(&mut self) -> Option<usize> {
        let first = match self.last_named {
            None => 0,
            Some(last) => last + 1,
        };
        for step in 0..CHANNELS {
            let channel = (first + step) % CHANNELS;
            if self.channels[channel].reaches_its_threshold() {
                self.last_named = Some(channel);
                return Some(channel);
            }
        }
        None
    }

    /// Refusal 1. "Reset makes one channel fresh." "A channel's reset doesn't
    /// move the pick's place."
    pub fn reset(&mut self, channel: u8) -> Result<(), Refusal> {
        *self.channel(channel)? = Channel::fresh();
        Ok(())
    }

    /// Refusal 1.
    pub fn state(&mut self, channel: u8) -> Result<StateAnswer, Refusal> {
        Ok(self.channel(channel)?.state())
    }
}
