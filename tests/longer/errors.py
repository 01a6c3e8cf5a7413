"""The paper's "Errors that look right" and wrong readings of the requests, each as an edit of the reference that the longer trace must tell apart."""
import os
import subprocess

import kit

# the error, a text of the reference's card.rs, and what stands in its place
ERRORS = [
    ('FF written bare', 'Item::Doubled => vec![0xFF, 0xFF]', 'Item::Doubled => vec![0xFF]'),
    ('a damaged byte stripped', 'self.store_item(Item::Damaged(byte))',
     'self.store_item(Item::Damaged(if self.settings.strip { byte % 128 } else { byte }))'),
    ('FF doubled before the strip', 'let byte = if self.settings.strip {',
     'if self.settings.strip && self.settings.mark_mode() && byte == 0xFF { return self.store_item(Item::Doubled); }\n'
     'let byte = if self.settings.strip {'),
    ('CR and NL swapped by two tests one after the other', 'match comes_out {',
     'match if comes_out == Some(NL) { nl_gives } else { comes_out } {'),
    ('room counted in bytes', 'self.receive_queue.len() < RECEIVE_QUEUE_DEPTH',
     'self.receive_queue.iter().chain([&WaitingItem { item, overrun: false }]).map(|waiting| waiting.item.image().len()).sum::<usize>()'
     ' <= RECEIVE_QUEUE_DEPTH'),
    ('XOFF without effect because the queue is full', 'self.stopped = is_xoff;',
     'self.stopped = is_xoff && self.held_item.is_none();'),
    ('a break told from a damaged 00 by the bytes', 'Kind::Break => self.arrival_step_1_break(),',
     'Kind::FramingError if byte == 0x00 => self.arrival_step_1_break(),\nKind::Break => self.arrival_step_1_break(),'),
    # request a: "the flag goes on the newest item, which is the held one"
    ('the flag on the twelfth item', 'newest.overrun = true;', 'self.receive_queue[RECEIVE_QUEUE_DEPTH - 1].overrun = true;'),
    # "State still shows at most 12 waiting"
    ('a state that shows 13', 'waiting: self.receive_queue.len(),', 'waiting: self.items().count(),'),
    # "a read asks for at most 12"
    ('a read of 13 served', 'if n > RECEIVE_QUEUE_DEPTH {',
     'if n == MOST_ITEMS { return Ok(channel.read(n, buffer, place)); }\nif n > RECEIVE_QUEUE_DEPTH {'),
    # "A loss now happens at thirteen": as the paper had it, with its flag on the twelfth and its count
    ('a loss at twelve', 'self.held_item = Some(arrived);',
     'self.receive_queue[RECEIVE_QUEUE_DEPTH - 1].overrun = true;\nself.loss_count = self.loss_count.saturating_add(1);\n'
     'return Fate::Lost;'),
    # request b: "Split it: 1 flow character swallowed, 3 damaged discarded, 4 break ignored, 5 line ending discarded"
    ('two reasons exchanged', 'Fate::DamagedDiscarded => 3,\n            Fate::BreakIgnored => 4,',
     'Fate::DamagedDiscarded => 4,\n            Fate::BreakIgnored => 3,'),
    ('every reason told as 1', 'Fate::DamagedDiscarded => 3,\n            Fate::BreakIgnored => 4,\n            Fate::LineEndingDiscarded => 5,',
     'Fate::DamagedDiscarded => 1,\n            Fate::BreakIgnored => 1,\n            Fate::LineEndingDiscarded => 1,'),
    # "Pass: go on as good"
    ('a passed XOFF or CR told as damaged', 'DamagedCharacters::Pass => self.arrival_step_3_good(byte),',
     'DamagedCharacters::Pass => match self.arrival_step_3_good(byte) {\n'
     'Fate::FlowCharacterSwallowed | Fate::LineEndingDiscarded => Fate::DamagedDiscarded,\nfate => fate,\n},'),
    ('an ignored break told as lost where the queue is full', 'return Fate::BreakIgnored;',
     'return if self.held_item.is_some() { Fate::Lost } else { Fate::BreakIgnored };'),
    ('a swallowed XOFF that is CR told as a line ending', '            Fate::FlowCharacterSwallowed\n',
     '            if byte == CR { Fate::LineEndingDiscarded } else { Fate::FlowCharacterSwallowed }\n'),
    # request e: "4 drops CR, 2 turns CR into NL, 1 turns NL into CR"
    ('a 4 that drops NL', 'NL => nl_gives,', 'NL => cr_gives.and(nl_gives),'),
    ('a CR to be dropped that 2 turns into NL', 'CR => cr_gives,',
     'CR if cr_gives.is_none() && self.settings.line_endings & 2 != 0 => Some(NL),\nCR => cr_gives,'),
]

# the frame program alone: without the generators it is compiled in less than a second
MAIN = '''
mod card;
mod frames;
use std::io::{stdin, stdout, Read, Write};

fn main() {
    let mut trace = Vec::new();
    stdin().read_to_end(&mut trace).expect("a trace");
    stdout().write_all(&frames::program(&trace)).expect("someone who takes the answers");
}
'''


def answers(card, trace):
    """What the frame program answers with this text as its card.rs."""
    folder = os.path.join(kit.WORK, 'errors')
    os.makedirs(folder, exist_ok=True)
    for name, text in (('main', MAIN), ('card', card), ('frames', source('frames'))):
        with open(os.path.join(folder, name + '.rs'), 'w', encoding='utf-8') as file:
            file.write(text)
    program = os.path.join(folder, 'frames')
    kit.told('rustc', '--edition', '2021', '--cap-lints', 'allow', '-o', program, os.path.join(folder, 'main.rs'))
    return subprocess.run([program], input=trace, stdout=subprocess.PIPE, check=True).stdout


def source(name):
    return kit.content(f'tests/reference/src/{name}.rs').decode()


def not_told(trace, right):
    """The errors that the trace does not tell; first that what tells them is the edit."""
    card = source('card')
    if answers(card, trace) != right:
        yield 'the reference without an edit answers otherwise'
    for name, old, new in ERRORS:
        if card.count(old) != 1:
            yield f'{name}: its text does not stand once in card.rs'
        elif answers(card.replace(old, new), trace) == right:
            yield name
