"""What the longer trace claims to meet: a table of named conditions, in groups.

A condition is a name and a test of one record: a line of the trace, the reference's answer to it, and the card before and
after. A condition is met when some record passes its test; those of the group ALWAYS when every record does.
"""
import json
import types

PASS, DISCARD, NULL, MARK = 1, 2, 3, 4
GOOD, PARITY, FRAMING, BREAK = 0, 1, 2, 3
STORED, FLOW_SWALLOWED, LOST, DAMAGED_DISCARDED, BREAK_IGNORED, ENDING_DISCARDED = range(6)        # an arrival's fates
CR, NL = 0x0D, 0x0A
FULL = 13       # the paper's 12, and behind them one more: "A loss now happens at thirteen" in request a
LENGTHS = {1: 4, 2: 3, 3: 2, 4: 2, 5: 3, 6: 3, 7: 2, 8: 1, 9: 2, 10: 2}      # the least listed length of each frame
ROWS = [(CR, NL), (CR, CR), (NL, NL), (NL, CR), (None, NL), (None, CR), (None, NL), (None, CR)]


class Told(types.SimpleNamespace):
    """A card or a channel as the reference's account tells it."""

    def field(self, number):
        return self.settings[number - 1]


class Record:
    """One line of the trace and what became of it."""

    def __init__(self, line, before, after, past):
        self.line, self.before, self.after, self.past = line, before, after, past
        self.answer = after.answer
        self.frame = None if self.answer == [11] else bytes.fromhex(line.decode('ascii'))
        self.call = self.frame[0] if self.frame else None
        self.served = self.answer[0] == 0
        named = self.frame is not None and self.call != 8 and self.frame[1] < 4
        self.number = self.frame[1] if named else None
        self.old = before.channels[self.number] if named else None          # the channel named, before and after
        self.new = after.channels[self.number] if named else None
        self.events = events_of(self)

    def is_call(self, number):
        return self.call == number and self.old is not None

    def happened(self, *events):
        return all(event in self.events for event in events)

    def arrived(self, kind, byte=None):
        return self.is_call(1) and self.served and self.frame[2] == kind and byte in (None, self.frame[3])

    def refused(self, *numbers):
        return self.answer == list(numbers)


def records_of(lines, account):
    """The records of a trace's lines, from the account that the reference gives of them: a card for the start, and one after each line."""
    cards = [json.loads(told, object_hook=lambda parts: Told(**parts)) for told in account.splitlines()]
    past = []
    for line, before, after in zip(lines, cards[:-1], cards[1:], strict=True):
        past.append(Record(line, before, after, past[:]))
    return past


# ---- what happened between the card before and the card after

def events_of(r):
    if r.is_call(1) and r.served:
        return {STORED: ['stored'], LOST: ['lost']}.get(r.answer[1], []) + [end_of_arrival(r)]
    return [turned(r.old, r.new)] if r.is_call(4) else []


def end_of_arrival(r):
    """The step that an arrival ended in, by the mark and the settings that it found."""
    kind, byte = r.frame[2:]
    if kind == BREAK:
        return 'break kept' if r.old.field(2) else 'break ignored'
    if kind != GOOD and r.old.field(1) != PASS:
        return {DISCARD: 'damaged discarded', NULL: 'damaged null', MARK: 'damaged marked'}[r.old.field(1)]
    if r.old.literal_mark or r.new.literal_mark:
        return 'step 4' if r.old.literal_mark else 'step 5'
    flow = {r.old.field(11): 'XON', r.old.field(12): 'XOFF'} if r.old.field(5) else {}
    return flow.get(byte % 128 if r.old.field(3) else byte, 'step 7')


def reason(r):
    """Why an arrival has nothing to store, by the step that it ended in; None where it has something."""
    ended = r.events[-1]
    if ended in ('XON', 'XOFF'):
        return FLOW_SWALLOWED if r.old.field(5) == 2 else None
    if ended == 'step 7':
        byte = r.frame[3] % 128 if r.old.field(3) else r.frame[3]
        return ENDING_DISCARDED if byte == CR and r.old.field(4) >= 4 else None
    return {'damaged discarded': DAMAGED_DISCARDED, 'break ignored': BREAK_IGNORED}.get(ended)


def turned(old, new):
    """What a line turn did."""
    if old.waiting_special != new.waiting_special:
        return 'special sent'
    if old.owed_nl != new.owed_nl:
        return 'owed NL sent' if old.owed_nl else 'NL sent as CR'
    if old.transmit_queue != new.transmit_queue:
        return 'head sent'
    if old.stopped:
        return 'held, stopped'
    return 'held, CTS' if old.field(9) and not old.cts else 'nothing to send'


# ---- always

def always():
    yield 'an answer begins with 00 or a refusal number that the program can give; 4, 8 and 9 it cannot', lambda r: \
        r.answer[0] in (0, 1, 2, 3, 5, 6, 7, 10, 11)
    yield 'a refusal changes nothing', lambda r: r.served or (
        r.before.channels == r.after.channels and r.before.last_named == r.after.last_named)
    yield 'a call on one channel alters no other', lambda r: all(
        i == r.number or r.before.channels[i] == r.after.channels[i] for i in range(4))
    yield 'only a pick that names a channel moves the place', lambda r: r.before.last_named == r.after.last_named or (
        r.call == 8 and r.answer == [0, r.after.last_named])
    yield 'a refusal is its number alone, 5 with its field', lambda r: \
        r.served or len(r.answer) == (2 if r.answer[0] == 5 else 1)
    # these two hold the account, and the events that are told from it, to the frames
    yield 'settings that are taken are those of the frame', lambda r: not (r.is_call(7) and r.served) or \
        r.new.settings == list(r.frame[2:])
    yield 'XOFF stops the transmitter, and nothing else does', lambda r: r.old is None or (
        r.new.stopped if r.happened('XOFF') else r.old.stopped or not r.new.stopped)
    # request a: "A loss now happens at thirteen", "it moves up when a read makes room", "State still shows at most 12 waiting"
    yield 'an item is lost only where thirteen are there', lambda r: not r.happened('lost') or len(r.old.receive_queue) == FULL
    yield 'an item is stored only where fewer are there', lambda r: not r.happened('stored') or len(r.old.receive_queue) < FULL
    yield 'a read takes the oldest, and the others move up', lambda r: not (r.is_call(2) and r.served) or (
        r.answer[1] == min(r.frame[2], len(r.old.receive_queue)) and r.new.receive_queue == r.old.receive_queue[r.answer[1]:])
    yield 'a state shows the items that are there, 12 at most', lambda r: not r.is_call(10) or \
        r.answer[1] == min(len(r.old.receive_queue), 12)
    # request b: "1 flow character swallowed, 3 damaged discarded, 4 break ignored, 5 line ending discarded. 0 and 2 stay"
    yield 'an arrival with nothing to store is told by its reason, and any other is stored or lost', lambda r: \
        not (r.is_call(1) and r.served) or r.answer[1] in ((STORED, LOST) if reason(r) is None else (reason(r),))
    yield 'an arrival with nothing to store leaves the queue and the loss count', lambda r: \
        not (r.is_call(1) and r.served) or reason(r) is None or (
            r.new.receive_queue == r.old.receive_queue and r.new.loss_count == r.old.loss_count)


# ---- refusals

def refusals():
    for number in (1, 2, 3, 4, 5, 6, 7, 9, 10):
        for channel in (4, 255):
            yield f'refusal 1: frame {number:02X}, channel {channel}', lambda r, n=number, c=channel: \
                r.refused(1) and r.call == n and r.frame[1] == c
    for kind in (4, 255):
        yield f'refusal 2: kind {kind}', lambda r, k=kind: r.refused(2) and r.frame[2] == k
    for n in (13, 255):
        yield f'refusal 3: {n} asked', lambda r, n=n: r.refused(3) and r.frame[2] == n
    for field in (0, 1, 2, 3, 4, 5, 6, 7, 8, 9, 10, 12, 15):
        yield f'refusal 5: field {field}', lambda r, f=field: r.refused(5, f)
    for s in (0, 5, 255):
        yield f'refusal 6: special {s}', lambda r, s=s: r.refused(6) and r.frame[2] == s
    yield 'refusal 7: the same special again', lambda r: r.refused(7) and r.old.waiting_special == r.old.field(10 + r.frame[2])
    yield 'refusal 7: another one', lambda r: r.refused(7) and r.old.waiting_special != r.old.field(10 + r.frame[2])
    for value in (2, 255):
        yield f'refusal 10: CTS {value}', lambda r, v=value: r.refused(10) and r.frame[2] == v
    yield 'refusal 10 while CTS is 1', lambda r: r.refused(10) and r.old.cts == 1


def digits(line):
    """The bytes that a line spells, whatever frame they are; None where it spells none."""
    if not line or len(line) % 2 or any(c not in b'0123456789ABCDEFabcdef' for c in line):
        return None
    return bytes.fromhex(line.decode('ascii'))


def no_frame():
    def refused(test):
        return lambda r: r.refused(11) and test(r.line)

    def spelled(test):
        return refused(lambda line: digits(line) is not None and test(digits(line)))

    yield '11: empty line', refused(lambda line: line == b'')
    for name, char in (('CR at the end', b'\r'), ('space', b' '), ('tab', b'\t'), ('NUL', b'\0'), ('DEL', b'\x7f'), ('/', b'/'),
                       (':', b':'), ('@', b'@'), ('G', b'G'), ('`', b'`'), ('g', b'g'), ('x', b'x')):
        yield f'11: no digit, {name}', refused(lambda line, c=char: c in line and len(line) <= 68)
    yield '11: no digit, a byte above 127', refused(lambda line: any(c > 127 for c in line) and len(line) <= 68)
    yield '11: no digit behind 34 bytes', refused(lambda line: len(line) == 70 and digits(line) is None)
    for count in (1, 3, 5, 7, 67):
        yield f'11: odd count, {count} digits', refused(lambda line, n=count: len(line) == n and digits(line + b'0') is not None)
    yield '11: odd count, 69 digits', refused(lambda line: len(line) == 69 and digits(line[:68]) is not None)
    for first in (0x00, 0x0B, 0x0C, 0x10, 0x80, 0xFF):
        yield f'11: first byte {first:02X}', spelled(lambda f, b=first: f[0] == b and len(f) < 34)
    for number, least in LENGTHS.items():
        if least > 1:
            yield f'11: frame {number:02X} one byte too short', spelled(
                lambda f, n=number, k=least: f[0] == n and len(f) == k - 1)
        most = 34 if number in (3, 7) else least
        yield f'11: frame {number:02X} one byte too long', spelled(lambda f, n=number, k=most: f[0] == n and len(f) == k + 1)
    yield '11: 35 bytes of no known frame', spelled(lambda f: len(f) == 35 and f[0] == 0x0B)
    yield '11: some thousand digits', spelled(lambda f: len(f) > 2000)
    yield '11: some thousand digits and one', refused(lambda line: len(line) > 8000 and len(line) % 2 == 1)
    yield '11: a long line of spaces', refused(lambda line: len(line) >= 1000 and set(line) == {32})
    yield '11: every byte but a newline, in one line', refused(lambda line: len(set(line)) >= 245)
    yield 'served: 34 bytes of frame 03', lambda r: r.is_call(3) and r.served and len(r.line) == 68
    yield 'looked at: 34 bytes of frame 07', lambda r: r.refused(5, 0) and len(r.line) == 68


def order():
    def eleven(test):
        return lambda r: r.refused(11) and digits(r.line) is not None and test(digits(r.line))

    yield '11 before 1', eleven(lambda f: f[0] in LENGTHS and len(f) > 1 and f[1] > 3)
    yield '11 before 1, in 35 bytes', eleven(lambda f: f[0] in (3, 7) and len(f) == 35 and f[1] > 3)
    yield '11 before 2', eleven(lambda f: f[0] == 1 and len(f) in (3, 5) and f[1] < 4 and f[2] > 3)
    yield '11 before 3', eleven(lambda f: f[0] == 2 and len(f) == 4 and f[1] < 4 and f[2] > 12)
    yield '11 before 6', eleven(lambda f: f[0] == 6 and len(f) == 4 and f[1] < 4 and f[2] > 4)
    yield '11 before 10', eleven(lambda f: f[0] == 5 and len(f) == 4 and f[1] < 4 and f[2] > 1)
    for number, name, test in ((1, 2, lambda f: f[2] > 3), (2, 3, lambda f: f[2] > 12), (6, 6, lambda f: not 1 <= f[2] <= 4),
                               (5, 10, lambda f: f[2] > 1), (7, '5, field 0', lambda f: len(f) != 17),
                               (7, '5, field 1', lambda f: len(f) == 17 and f[2] == 255),
                               (7, '5, field 12', lambda f: len(f) == 17 and f[6] == 1 and f[12] == f[13])):
        yield f'1 before {name}', lambda r, n=number, t=test: r.refused(1) and r.call == n and t(r.frame)
    yield '6 before 7', lambda r: r.refused(6) and r.old.waiting_special is not None
    yield '5: the length before the fields', lambda r: r.refused(5, 0) and r.frame[2:4] == b'\xff\xff'
    yield '5: the first of two bad fields', lambda r: r.refused(5, 2) and r.frame[11] > 1
    yield '5: all fields bad', lambda r: r.refused(5, 1) and r.frame[2:] == b'\xff' * 15
    yield '5: field 10 before 12', lambda r: r.refused(5, 10) and r.frame[6] > 0 and r.frame[12] == r.frame[13]
    yield '5: field 10 before 15', lambda r: r.refused(5, 10) and r.frame[6] and r.frame[8] and r.frame[16] == r.frame[13]
    yield '5: 12 before 15', lambda r: r.refused(5, 12) and r.frame[8] == 1 and r.frame[16] == r.frame[12]
    yield '5: field 5 itself before 12', lambda r: r.refused(5, 5) and r.frame[12] == r.frame[13]


# ---- settings

def setting_edges():
    def took(test):
        return lambda r: r.is_call(7) and r.served and test(r.frame[2:])

    highs = (4, 1, 1, 7, 2, 1, 1, 12, 1, 1)
    for field, high in enumerate(highs, 1):
        low = 1 if field in (1, 8) else 0
        for value in (low, high):
            yield f'field {field}: {value} is good', took(lambda v, f=field, x=value: v[f - 1] == x)
        for value in ([low - 1] if low else []) + [high + 1]:
            yield f'field {field}: {value} is bad', lambda r, f=field, x=value: r.refused(5, f) and r.frame[f + 1] == x
    for field, values in ((1, (2, 3)), (4, range(1, 7)), (5, (1,))):
        for value in values:
            yield f'field {field}: {value} is good', took(lambda v, f=field, x=value: v[f - 1] == x)
    for field in range(11, 16):
        for value in (0, 255) if field < 15 else (0, 0xFE):
            yield f'field {field}: {value} is good', took(lambda v, f=field, x=value: v[f - 1] == x)
    for length in (0, 14, 16, 32):
        yield f'{length} bytes of settings', lambda r, n=length: r.refused(5, 0) and len(r.frame) == 2 + n


def crossed():
    def took(test):
        return lambda r: r.is_call(7) and r.served and test(r.frame[2:])

    for flow in (1, 2):
        yield f'12: XON is XOFF, field 5 is {flow}', lambda r, f=flow: r.refused(5, 12) and r.frame[6] == f
        for name, at in (('XON', 12), ('XOFF', 13)):
            yield f'15: literal-next is {name}, field 5 is {flow}', lambda r, f=flow, a=at: \
                r.refused(5, 15) and r.frame[6] == f and r.frame[16] == r.frame[a]
            yield f'literal-next is {name}, field 5 is {flow}, field 7 off: good', took(
                lambda v, f=flow, a=at: v[4] == f and v[6] == 0 and v[14] == v[a - 2])
    yield 'XON is XOFF, field 5 off: good', took(lambda v: v[4] == 0 and v[10] == v[11])
    for name, at in (('XON', 10), ('XOFF', 11)):
        yield f'literal-next is {name}, field 5 off, field 7 on: good', took(
            lambda v, a=at: v[4] == 0 and v[6] == 1 and v[14] == v[a])
    yield 'all three alike, fields 5 and 7 off: good', took(lambda v: v[4] == v[6] == 0 and v[10] == v[11] == v[14])
    yield 'specials 3 and 4 like XON and XOFF: good', took(lambda v: v[4] and v[6] and v[12] == v[10] and v[13] == v[11])
    yield 'special 3 like the literal-next character: good', took(lambda v: v[4] and v[6] and v[12] == v[14])


def taking():
    def took(test):
        return lambda r: r.is_call(7) and r.served and test(r)

    yield 'clears the literal mark', took(lambda r: r.old.literal_mark and not r.new.literal_mark)
    yield 'sets the transmitter running', took(lambda r: r.old.stopped and not r.new.stopped)
    yield 'leaves a full receive queue', took(lambda r: len(r.old.receive_queue) == FULL and r.new.receive_queue == r.old.receive_queue)
    yield 'leaves the transmit queue', took(lambda r: r.old.transmit_queue and r.new.transmit_queue == r.old.transmit_queue)
    yield 'leaves an owed NL', took(lambda r: r.old.owed_nl and r.new.owed_nl)
    yield 'leaves a waiting special', took(lambda r: r.old.waiting_special is not None and r.new.waiting_special == r.old.waiting_special)
    yield 'leaves CTS', took(lambda r: r.old.cts == 1 and r.new.cts == 1)
    yield 'leaves the loss count', took(lambda r: r.old.loss_count and r.new.loss_count == r.old.loss_count)
    yield 'refused, leaves mark and stop', lambda r: r.is_call(7) and not r.served and r.new.literal_mark and r.new.stopped
    yield 'the cleared mark shows: XOFF is obeyed', lambda r: r.happened('XOFF') and any(
        p.call == 7 and p.served and p.number == r.number and p.old.literal_mark for p in r.past[-2:])


# ---- arrivals

def damage():
    names = {PASS: 'pass', DISCARD: 'discard', NULL: 'null', MARK: 'mark'}
    for mode, name in names.items():
        for strip in (0, 1):
            for kind, what in ((1, 'parity'), (2, 'framing'), (3, 'break')):
                yield f'{name}, strip {strip}: {what}', lambda r, m=mode, s=strip, k=kind: r.arrived(k) and \
                    r.frame[3] > 127 and r.old.field(1) == m and r.old.field(3) == s and r.old.field(2) == 1
            yield f'{name}, strip {strip}: good FF', lambda r, m=mode, s=strip: r.arrived(0, 0xFF) and \
                r.old.field(1) == m and r.old.field(3) == s and r.happened('stored')
        yield f'{name}: break ignored', lambda r, m=mode: r.happened('break ignored') and r.old.field(1) == m
        yield f'{name}: a damaged XOFF', lambda r, m=mode: r.is_call(1) and r.frame[2] in (1, 2) and r.old.field(1) == m and \
            r.old.field(5) and r.frame[3] == r.old.field(12) and r.happened('XOFF') == (m == PASS)
        yield f'{name}: a damaged literal-next character', lambda r, m=mode: r.is_call(1) and r.frame[2] in (1, 2) and \
            r.old.field(1) == m and r.old.field(7) and r.frame[3] == r.old.field(15) and r.happened('step 5') == (m == PASS)
        yield f'{name}: a damaged CR', lambda r, m=mode: r.is_call(1) and r.frame[2] in (1, 2) and r.frame[3] == CR and \
            r.old.field(1) == m and r.old.field(4) >= 4
    yield 'mark: damaged FF', lambda r: r.happened('damaged marked') and r.frame[3] == 0xFF
    yield 'mark: damaged 00, breaks ignored', lambda r: r.happened('damaged marked') and r.frame[3] == 0 and not r.old.field(2)
    yield 'a break with another byte than 00', lambda r: r.happened('break kept') and r.frame[3] != 0


def good_ff():
    def doubled(event):
        return lambda r: r.happened(event, 'stored') and r.new.receive_queue[-1][:2] == ['doubled', 0xFF]

    yield 'doubled as an ordinary character', doubled('step 7')
    yield 'doubled behind the literal mark', doubled('step 4')
    yield 'doubled as the literal-next character', doubled('step 5')
    yield 'doubled as a stored XON', doubled('XON')
    yield 'stripped first: 7F', lambda r: r.happened('stored') and r.frame[3] == 0xFF and r.new.receive_queue[-1][:2] == ['plain', 0x7F] \
        and r.old.field(1) == MARK
    for kind in ('doubled', 'damaged'):
        yield f'{kind} item read in another mode', lambda r, k=kind: r.is_call(2) and r.served and r.answer[1] and \
            r.old.field(1) != MARK and any(item[0] == k for item in r.old.receive_queue[:r.answer[1]])
    yield 'plain FF read in mark mode', lambda r: r.is_call(2) and r.served and r.answer[1] and r.old.field(1) == MARK and \
        any(item[:2] == ['plain', 0xFF] for item in r.old.receive_queue[:r.answer[1]])


def endings():
    for row, gives in enumerate(ROWS):
        for name, byte, out in (('CR', CR, gives[0]), ('NL', NL, gives[1]), ('another', 0x0C, 0x0C)):
            yield f'row {row}: {name}', lambda r, row=row, b=byte, o=out: r.happened('step 7') and r.old.field(4) == row and \
                r.frame[3] == b and (r.answer == [0, ENDING_DISCARDED] if o is None else r.new.receive_queue[-1][:2] == ['plain', o])
    for name, byte in (('CR', CR), ('NL', NL)):
        yield f'stripped {name} is looked up', lambda r, b=byte: r.happened('step 7') and r.old.field(3) and \
            r.frame[3] == b + 128 and r.new.receive_queue[-1][1] not in (b, b + 128)
        yield f'unstripped {name} plus 80 is not', lambda r, b=byte: r.happened('step 7', 'stored') and not r.old.field(3) and \
            r.frame[3] == b + 128 and r.old.field(4) == 7
        yield f'literal {name} is not', lambda r, b=byte: r.happened('step 4') and r.frame[3] == b and r.old.field(4) == 3
        yield f'a damaged {name} that passes is', lambda r, b=byte: r.happened('step 7') and r.frame[2] in (1, 2) and \
            r.frame[3] % 128 == b and r.old.field(4) == 3
    yield 'a literal-next character CR is not', lambda r: r.happened('step 5') and r.frame[3] == CR
    yield 'a stored XOFF that is NL is not', lambda r: r.happened('XOFF', 'stored') and r.frame[3] == NL and r.old.field(4) == 1
    yield 'a swallowed XOFF that is CR', lambda r: r.happened('XOFF') and r.frame[3] == CR and r.old.field(5) == 2


def flow():
    for value in (0, 1, 2):
        for name, field in (('XON', 11), ('XOFF', 12)):
            yield f'field 5 is {value}: {name}', lambda r, v=value, f=field, n=name: r.arrived(0) and r.old.field(5) == v and \
                r.frame[3] == r.old.field(f) and r.happened(n) == (v > 0) and r.happened('stored') == (v < 2)
    yield 'XOFF while stopped, XON while running', lambda r: r.happened('XON') and not r.old.stopped and any(
        p.happened('XOFF') and p.old.stopped for p in r.past)
    yield 'XOFF by strip', lambda r: r.happened('XOFF') and r.frame[3] > 127 and r.old.field(3)
    yield 'an XOFF that strip makes unreachable', lambda r: r.happened('step 7') and r.old.field(5) and r.old.field(3) and \
        r.frame[3] == r.old.field(12) > 127
    for s in (3, 4):
        yield f'special {s} arrives and stops nothing', lambda r, s=s: r.happened('step 7') and r.old.field(5) and \
            r.frame[3] == r.old.field(10 + s) and not r.new.stopped
    yield 'implied XON: an ordinary character', lambda r: started(r) and r.happened('step 7', 'stored')
    yield 'implied XON: a line ending that gives nothing', lambda r: started(r) and r.answer == [0, ENDING_DISCARDED]
    yield 'implied XON: the literal-next character', lambda r: started(r) and r.happened('step 5')
    yield 'implied XON: XON', lambda r: started(r) and r.happened('XON')
    yield 'implied XON: a damaged character that passes', lambda r: started(r) and r.frame[2] in (1, 2)
    yield 'implied XON: a lost character', lambda r: started(r) and r.happened('lost')
    yield 'implied XON: a literal XOFF leaves it running', lambda r: r.happened('step 4') and r.old.field(6) and \
        r.frame[3] == r.old.field(12) and not r.new.stopped
    for event in ('XOFF', 'break kept', 'damaged null', 'damaged marked', 'damaged discarded'):
        yield f'implied XON: stays stopped, {event}', lambda r, e=event: r.happened(e) and r.old.field(6) and \
            r.old.stopped and r.new.stopped
    yield 'no implied XON: stays stopped', lambda r: r.happened('step 7') and not r.old.field(6) and r.new.stopped
    yield 'implied XON with field 5 off: XOFF is stored', lambda r: r.happened('step 7') and r.old.field(6) and \
        not r.old.field(5) and r.frame[3] == r.old.field(12)


def started(r):
    return r.is_call(1) and r.old.field(6) == 1 and r.old.stopped and not r.new.stopped


def literal():
    for name, byte in (('XON', 0x11), ('XOFF', 0x13), ('CR', CR), ('NL', NL), ('the literal-next character', 0x16),
                       ('another', 0x41)):
        yield f'mark, then {name}', lambda r, b=byte: r.happened('step 4', 'stored') and r.frame[3] == b and r.old.field(7)
    yield 'the literal-next character by strip', lambda r: r.happened('step 5') and r.frame[3] > 127 and r.old.field(3)
    yield 'field 7 off: the character is like any other', lambda r: r.happened('step 7') and not r.old.field(7) and \
        r.frame[3] == r.old.field(15)
    for name, event, stays in (('a kept break', 'break kept', False), ('an ignored break', 'break ignored', True),
                               ('null', 'damaged null', False), ('mark', 'damaged marked', False),
                               ('discard', 'damaged discarded', True)):
        yield f'between: {name}, the mark ' + ('stays' if stays else 'is cleared'), lambda r, e=event, s=stays: \
            r.happened(e) and r.old.literal_mark and r.new.literal_mark == s
    yield 'between: a damaged character that passes is the literal one', lambda r: r.happened('step 4') and r.frame[2] in (1, 2)
    yield 'between: a refused arrival, the mark stays', lambda r: r.refused(2) and r.new.literal_mark
    for call, name in ((2, 'read'), (3, 'load'), (4, 'turn'), (5, 'CTS'), (6, 'special'), (10, 'state')):
        yield f'between: {name}, the mark stays', lambda r, c=call: r.is_call(c) and r.served and r.new.literal_mark
    yield 'between: a pick, the mark stays', lambda r: r.call == 8 and any(c.literal_mark for c in r.after.channels)
    yield 'between: another channel\'s reset, the mark stays', lambda r: r.is_call(9) and \
        any(c.literal_mark for c in r.after.channels)


def full_queue():
    def at_full(test):
        return lambda r: r.happened('lost') and test(r)

    yield 'a lost XOFF stops', at_full(lambda r: r.happened('XOFF') and not r.old.stopped and r.new.stopped)
    yield 'a lost XON starts', at_full(lambda r: r.happened('XON') and r.old.stopped and not r.new.stopped)
    yield 'a lost literal-next character sets the mark', at_full(lambda r: r.happened('step 5') and r.new.literal_mark)
    yield 'a lost literal one clears the mark', at_full(lambda r: r.happened('step 4') and not r.new.literal_mark)
    for event in ('break kept', 'damaged marked', 'damaged null'):
        yield f'{event}, lost, clears the mark', at_full(lambda r, e=event: r.happened(e) and r.old.literal_mark and not r.new.literal_mark)
    for name in ('XON', 'XOFF'):
        yield f'a swallowed {name} is not lost', lambda r, n=name: r.happened(n) and len(r.old.receive_queue) == FULL and \
            r.answer == [0, FLOW_SWALLOWED]
    yield 'the newest item gets the flag', at_full(lambda r: not any(i[2] for i in r.old.receive_queue) and r.new.receive_queue[-1][2] == 1)
    yield 'the flag is set again', at_full(lambda r: r.old.receive_queue[-1][2] == 1)
    yield 'a flag on an older item stays', at_full(lambda r: any(i[2] for i in r.old.receive_queue[:-1]) and not r.old.receive_queue[-1][2])


# ---- host and line

def reading():
    def told(test):
        return lambda r: r.is_call(2) and r.served and test(r, r.answer[1], r.answer[2])

    for n in (0, 1, 2, 4, 11, 12):
        yield f'read {n}', told(lambda r, count, flagged, n=n: r.frame[2] == n and count == n)
    yield 'read 0 of some', told(lambda r, count, flagged: r.frame[2] == 0 and r.old.receive_queue)
    yield 'read 1 of none', told(lambda r, count, flagged: r.frame[2] == 1 and count == 0)
    yield 'read more than wait', told(lambda r, count, flagged: 0 < count < r.frame[2])
    yield 'read fewer than wait', told(lambda r, count, flagged: 0 < count == r.frame[2] < len(r.old.receive_queue))
    yield '36 bytes', told(lambda r, count, flagged: len(r.answer) == 39)
    yield 'overrun flag told', told(lambda r, count, flagged: flagged == 1)
    yield 'two overrun flags told', told(lambda r, count, flagged: flagged == 2)
    yield 'overrun flag of a damaged item told', told(lambda r, count, flagged: flagged and r.old.receive_queue[count - 1][0] == 'damaged')
    yield 'a read before the flagged item tells none', told(
        lambda r, count, flagged: count and not flagged and any(i[2] for i in r.new.receive_queue))
    yield 'room made by a read is taken again', lambda r: r.happened('stored') and len(r.new.receive_queue) == FULL and any(
        p.is_call(2) and p.served and p.number == r.number and p.answer[1] in (1, 2) and len(p.old.receive_queue) == FULL for p in r.past[-3:])


def loading():
    def took(test):
        return lambda r: r.is_call(3) and r.served and test(len(r.frame) - 2, r.answer[1], len(r.old.transmit_queue))

    yield 'nothing, into an empty queue', took(lambda given, taken, had: given == 0 and had == 0)
    yield 'nothing, into a full queue', took(lambda given, taken, had: given == 0 and had == 12)
    yield '12 taken of 12', took(lambda given, taken, had: given == 12 and taken == 12)
    yield '12 taken of 13', took(lambda given, taken, had: given == 13 and taken == 12)
    yield '12 taken of 32', took(lambda given, taken, had: given == 32 and taken == 12)
    yield 'none taken: full', took(lambda given, taken, had: given > 0 and taken == 0)
    yield 'all taken into some room', took(lambda given, taken, had: given > 0 and taken == given and had > 0)
    yield 'a part taken', took(lambda given, taken, had: 0 < taken < given and had > 0)
    yield 'filled to the last place', took(lambda given, taken, had: 0 < taken and had > 0 and had + taken == 12)
    yield 'the last of twelve is sent', lambda r: r.happened('head sent') and not r.new.transmit_queue and any(
        p.is_call(3) and len(p.new.transmit_queue) == 12 for p in r.past[-12:])


def turns():
    def went(event, test):
        return lambda r: r.happened(event) and test(r.old)

    yield 'nothing to send', went('nothing to send', lambda c: True)
    yield 'special first, before the queue', went('special sent', lambda c: c.transmit_queue and not c.stopped)
    yield 'special when stopped', went('special sent', lambda c: c.stopped)
    yield 'special when CTS holds', went('special sent', lambda c: c.field(9) and not c.cts)
    yield 'special when stopped and CTS holds', went('special sent', lambda c: c.stopped and c.field(9) and not c.cts)
    yield 'special between CR and its NL', went('special sent', lambda c: c.owed_nl)
    yield 'special with nothing else', went('special sent', lambda c: not c.transmit_queue and not c.owed_nl)
    yield 'stopped holds the queue', went('held, stopped', lambda c: c.transmit_queue and not c.owed_nl)
    yield 'stopped holds the queue, CTS 1', went('held, stopped', lambda c: c.transmit_queue and c.field(9) and c.cts)
    yield 'stopped holds an owed NL', went('held, stopped', lambda c: c.owed_nl)
    yield 'CTS holds the queue', went('held, CTS', lambda c: c.transmit_queue and not c.owed_nl)
    yield 'CTS holds an owed NL', went('held, CTS', lambda c: c.owed_nl)
    yield 'CTS 0 with field 9 off holds nothing', went('head sent', lambda c: not c.field(9) and not c.cts)
    yield 'CTS 1 with field 9 on sends', went('head sent', lambda c: c.field(9) and c.cts)
    yield 'queued NL as CR', went('NL sent as CR', lambda c: True)
    yield 'queued NL as CR, two in a row', went('NL sent as CR', lambda c: c.transmit_queue[:2] == [NL, NL])
    yield 'owed NL before the queue', went('owed NL sent', lambda c: c.transmit_queue)
    yield 'owed NL before a full queue', went('owed NL sent', lambda c: len(c.transmit_queue) == 12)
    yield 'owed NL with an empty queue', went('owed NL sent', lambda c: not c.transmit_queue)
    yield 'owed NL, field 10 since turned off', went('owed NL sent', lambda c: not c.field(10))
    yield 'queued NL, field 10 off', went('head sent', lambda c: c.transmit_queue[0] == NL)
    yield 'queued CR, field 10 on', went('head sent', lambda c: c.transmit_queue[0] == CR and c.field(10))
    yield 'queued XOFF stops nothing', went('head sent', lambda c: c.transmit_queue[0] == 0x13)


def special_characters():
    def asked(test):
        return lambda r: r.is_call(6) and r.served and test(r)

    for s in (1, 2, 3, 4):
        yield f'special {s}', asked(lambda r, s=s: r.frame[2] == s and r.new.waiting_special == r.old.field(10 + s))
    yield 'sent as it was when asked, settings since changed', lambda r: r.happened('special sent') and \
        r.answer[2] not in r.old.settings[10:14]
    yield 'the present one after that', lambda r: r.happened('special sent') and r.answer[2] == r.old.field(14) == 0x64
    yield 'a special NL with field 10 on owes nothing', lambda r: r.happened('special sent') and r.answer[2] == NL and \
        r.old.field(10) and not r.old.owed_nl and not r.new.owed_nl
    yield 'sending XOFF stops nothing', lambda r: r.happened('head sent') and any(
        p.happened('special sent') and p.number == r.number and p.answer[2] == p.old.field(12) for p in r.past[-1:])
    yield 'asked again after it was sent', asked(lambda r: any(
        p.happened('special sent') and p.number == r.number for p in r.past[-1:]))


def named(r):
    return r.answer[1] if r.call == 8 and r.answer[1] != 255 else None


def ready(card):
    return [len(c.receive_queue) >= c.field(8) for c in card.channels]


def since_pick(r):
    """The records since the last pick, that pick first."""
    at = max((i for i, p in enumerate(r.past) if p.call == 8), default=None)
    return [] if at is None else r.past[at:]


def picking():
    yield 'fresh card: none', lambda r: r.call == 8 and not r.past and r.answer == [0, 255]
    yield 'fresh card: 0 first of four', lambda r: named(r) == 0 and all(ready(r.before)) and all(
        p.call != 8 or p.answer[1] == 255 for p in r.past)
    yield 'four in a row, each named once', lambda r: len(r.past) > 3 and all(all(ready(p.before)) for p in r.past[-3:] + [r]) and \
        sorted(named(p) if named(p) is not None else 9 for p in r.past[-3:] + [r]) == [0, 1, 2, 3]
    yield 'from 3 round to 0', lambda r: named(r) == 0 and r.before.last_named == 3 and any(ready(r.before)[1:])
    yield 'one below its threshold is passed over', lambda r: named(r) is not None and r.before.last_named is not None and \
        (named(r) - r.before.last_named) % 4 > 1
    yield 'the same again, alone', lambda r: named(r) is not None and named(r) == r.before.last_named
    yield 'none, with some waiting', lambda r: r.call == 8 and r.answer[1] == 255 and any(c.receive_queue for c in r.before.channels)
    yield 'none: the place stays', lambda r: named(r) is not None and r.past[-1:] and any(
        p.call == 8 and p.answer[1] == 255 for p in since_pick(r)[:1]) and named(r) != ready(r.before).index(True)
    yield 'reset of the last named: the place stays', lambda r: named(r) is not None and any(
        p.call == 9 and p.number == r.before.last_named for p in since_pick(r)) and named(r) != ready(r.before).index(True)
    yield 'threshold reached exactly', lambda r: named(r) is not None and len(r.before.channels[named(r)].receive_queue) == \
        r.before.channels[named(r)].field(8) > 1
    yield 'threshold passed', lambda r: named(r) is not None and len(r.before.channels[named(r)].receive_queue) > \
        r.before.channels[named(r)].field(8)
    yield 'threshold 12, 11 waiting', lambda r: r.call == 8 and named(r) is None and any(
        c.field(8) == 12 and len(c.receive_queue) == 11 for c in r.before.channels)
    yield 'threshold 12 reached', lambda r: named(r) is not None and r.before.channels[named(r)].field(8) == 12
    yield 'threshold 12 after a loss', lambda r: named(r) is not None and r.before.channels[named(r)].field(8) == 12 and \
        r.before.channels[named(r)].loss_count
    yield 'a lower threshold makes ready', lambda r: named(r) is not None and any(
        p.call == 7 and p.number == named(r) for p in since_pick(r)) and since_pick(r)[0].answer[1] == 255
    for call in (1, 3, 4, 5, 6, 7, 10):
        yield f'frame {call:02X} between picks of other channels', lambda r, n=call: named(r) is not None and any(
            p.call == n and p.served and p.number != named(r) for p in since_pick(r))


def states():
    def told(test):
        return lambda r: r.is_call(10) and r.served and test(*r.answer[1:])

    yield 'a fresh channel', told(lambda items, line, stopped, high, low: not any((items, line, stopped, high, low)))
    yield '12 waiting', told(lambda items, line, stopped, high, low: items == 12)
    yield '12 to be sent', told(lambda items, line, stopped, high, low: line == 12)
    yield 'stopped', told(lambda items, line, stopped, high, low: stopped == 1)
    for count in (1, 254, 255, 256, 257):
        yield f'loss count {count}', told(lambda items, line, stopped, high, low, n=count: 256 * high + low == n)
    yield 'loss count above 300', told(lambda items, line, stopped, high, low: 256 * high + low > 300)
    yield 'loss count after the queue was read', told(lambda items, line, stopped, high, low: items == 0 and high + low > 0)
    yield 'an owed NL doesn\'t count', lambda r: r.is_call(10) and r.old.owed_nl
    yield 'a waiting special doesn\'t count', lambda r: r.is_call(10) and r.old.waiting_special is not None


def resets():
    def pending(channel, name):
        return getattr(channel, name) not in (None, 0, False, [])

    for name in ('receive_queue', 'transmit_queue', 'stopped', 'loss_count', 'owed_nl', 'cts', 'literal_mark', 'waiting_special'):
        yield f'reset clears {name}', lambda r, n=name: r.is_call(9) and pending(r.old, n)
        yield f'reset leaves another channel\'s {name}', lambda r, n=name: r.is_call(9) and any(
            pending(c, n) for i, c in enumerate(r.after.channels) if i != r.number)
    yield 'reset gives the fresh settings', lambda r: r.is_call(9) and r.old.settings != r.new.settings
    for name in ('owed_nl', 'waiting_special'):
        yield f'after reset a turn sends nothing, {name} was pending', lambda r, n=name: r.happened('nothing to send') and any(
            p.is_call(9) and p.number == r.number and pending(p.old, n) for p in r.past[-1:])


def spelling():
    for number in range(1, 11):
        yield f'frame {number:02X}', lambda r, n=number: r.call == n and r.served
    yield 'lower case', lambda r: r.served and r.line != r.line.upper() and r.line == r.line.lower()
    yield 'mixed case', lambda r: r.served and r.line not in (r.line.upper(), r.line.lower())
    yield 'lower case in a first byte', lambda r: r.served and r.line.startswith(b'0a')
    for digit in b'ABCDEFabcdef':
        yield f'digit {chr(digit)}', lambda r, d=digit: r.served and d in r.line
    yield 'a line after a long one stands by itself', lambda r: r.served and any(len(p.line) > 8000 for p in r.past[-1:])


# ---- request a

def there(number, test):
    """On a channel with so many items there."""
    return lambda r: r.old is not None and len(r.old.receive_queue) == number and test(r)


def filled(records, number):
    """Thirteen arrivals in a row, all stored, on this channel that was empty."""
    return len(records) == FULL and not records[0].before.channels[number].receive_queue and all(
        p.happened('stored') and p.number == number for p in records)


def flags(channel):
    """The places of the items with the overrun flag; the oldest item has place 1."""
    return [place for place, item in enumerate(channel.receive_queue, 1) if item[2]]


def thirteenth():
    yield 'thirteen in a row are stored', lambda r: r.happened('stored') and filled((r.past + [r])[-FULL:], r.number)
    yield 'the fourteenth in a row is lost, the thirteenth has the flag, the count rises', there(FULL, lambda r: r.happened('lost') and
        filled(r.past[-FULL:], r.number) and flags(r.new) == [13] and r.new.loss_count == r.old.loss_count + 1)
    yield 'the thirteenth is stored behind twelve, without a flag', there(12, lambda r: r.happened('stored') and not flags(r.new))
    for kind in ('plain', 'doubled', 'damaged'):
        yield f'the thirteenth is {kind}', there(12, lambda r, k=kind: r.happened('stored') and r.new.receive_queue[-1][0] == k)
    for number, shown in ((11, 11), (12, 12), (13, 12)):
        yield f'state shows {shown} with {number} there', there(number, lambda r, n=shown: r.is_call(10) and r.answer[1] == n)
    yield 'state shows 12 and the loss count with 13 there', there(FULL, lambda r: r.is_call(10) and r.answer[1] == 12 and r.answer[5])
    yield 'a read of 13 is refused with 13 there', there(FULL, lambda r: r.refused(3) and r.frame[2] == 13)
    yield 'threshold 13 is refused with 13 there', there(FULL, lambda r: r.refused(5, 8) and r.frame[9] == 13)
    for number in (12, 13):
        yield f'threshold 12 with {number} there', lambda r, n=number: named(r) is not None and \
            r.before.channels[named(r)].field(8) == 12 and len(r.before.channels[named(r)].receive_queue) == n
    yield 'XOFF is the thirteenth, stored and obeyed', there(12, lambda r: r.happened('XOFF', 'stored') and r.new.stopped)
    yield 'a swallowed XOFF behind twelve takes no place', there(12, lambda r: r.happened('XOFF') and r.answer == [0, FLOW_SWALLOWED])
    yield 'settings leave 13, with their flag', there(FULL, lambda r: r.is_call(7) and r.served and flags(r.new) == [13])
    yield 'reset drops 13', there(FULL, lambda r: r.is_call(9))
    yield 'after a reset with 13 there a read finds none', lambda r: r.is_call(2) and r.answer == [0, 0, 0] and any(
        p.is_call(9) and p.number == r.number and len(p.old.receive_queue) == FULL for p in r.past[-2:])
    yield 'two channels with 13', lambda r: sum(len(c.receive_queue) == FULL for c in r.after.channels) > 1


def after_read(n, test):
    """On a channel that a read of n just found with thirteen there."""
    return lambda r: r.old is not None and test(r) and any(
        p.is_call(2) and p.served and p.number == r.number and p.frame[2] == n and len(p.old.receive_queue) == FULL for p in r.past[-1:])


def held():
    def leaves_one(test):
        return there(FULL, lambda r: r.is_call(2) and r.served and r.answer[1] == 12 and test(r))

    taken = after_read(1, lambda r: r.happened('stored') and len(r.new.receive_queue) == FULL)
    yield 'a read of twelve out of thirteen leaves one', leaves_one(lambda r: len(r.new.receive_queue) == 1)
    yield 'the one that is left keeps its flag, and the read tells none', leaves_one(lambda r: flags(r.new) == [1] and not r.answer[2])
    yield 'the flag is found on the thirteenth, by a read of one after a read of twelve', after_read(
        12, lambda r: r.is_call(2) and r.frame[2] == 1 and r.answer[1:3] == [1, 1])
    yield 'a line of thirteen in two reads, and nothing is lost', after_read(
        12, lambda r: r.is_call(2) and r.answer[1:3] == [1, 0] and not r.new.receive_queue and not r.new.loss_count)
    yield 'a held item read in another mode', after_read(
        12, lambda r: r.is_call(2) and r.answer[3:] == [0xFF, 0xFF] and r.old.field(1) != MARK)
    yield 'twelve damaged items out of thirteen: 36 bytes', leaves_one(lambda r: len(r.answer) == 39)
    yield 'one more behind it is lost again', lambda r: r.happened('lost') and any(taken(p) and p.number == r.number for p in r.past[-1:])
    yield 'a read of none makes no room', after_read(0, lambda r: r.happened('lost'))
    yield 'a read of twelve makes room for twelve', there(FULL, lambda r: r.happened('lost') and any(
        leaves_one(lambda p: p.number == r.number)(p) for p in r.past[-14:-12]) and all(p.happened('stored') for p in r.past[-12:]))
    yield 'a flag that has moved up, and none on the held item', there(12, lambda r: r.happened('stored') and flags(r.new) == [12])
    yield 'a flag that has moved up, and one on the held item', there(FULL, lambda r: r.happened('lost') and flags(r.new) == [12, 13])


# ---- request b

def nothing_stored():
    def told(fate, test):
        return lambda r: r.is_call(1) and r.answer == [0, fate] and test(r)

    def swallows(r):
        return r.old.field(5) == 2

    def drops(r):
        return r.old.field(4) >= 4

    for fate, name in ((FLOW_SWALLOWED, 'flow character swallowed'), (DAMAGED_DISCARDED, 'damaged discarded'), (BREAK_IGNORED, 'break ignored'),
                       (ENDING_DISCARDED, 'line ending discarded')):
        for number in (0, 12, FULL):
            yield f'{fate}, {name}, {number} there', there(number, told(fate, lambda r: True))
    for name, stopped in (('XON', True), ('XOFF', False)):
        yield f'{name} swallowed, and obeyed', told(FLOW_SWALLOWED, lambda r, n=name, s=stopped: r.happened(n) and
                                                    r.old.stopped == s and r.new.stopped != s)
        yield f'{name} by strip swallowed', told(FLOW_SWALLOWED, lambda r, n=name: r.happened(n) and r.frame[3] > 127)
    yield 'CR by strip discarded', told(ENDING_DISCARDED, lambda r: r.frame[3] > 127)
    for row in (4, 5, 6, 7):
        yield f'CR discarded in row {row}', told(ENDING_DISCARDED, lambda r, row=row: r.old.field(4) == row)
    for kind, what in ((PARITY, 'parity'), (FRAMING, 'framing')):
        for fate, name in ((FLOW_SWALLOWED, 'XOFF'), (FLOW_SWALLOWED, 'XON'), (ENDING_DISCARDED, 'step 7')):
            yield f'{what} error that passes: {fate}, not 3, {name}', told(fate, lambda r, k=kind, n=name: r.frame[2] == k and r.happened(n))
        yield f'{what} error of XOFF discarded: 3, not 1', told(DAMAGED_DISCARDED, lambda r, k=kind: r.frame[2] == k and swallows(r) and
                                                               r.frame[3] == r.old.field(12))
        yield f'{what} error of CR discarded: 3, not 5', told(DAMAGED_DISCARDED, lambda r, k=kind: r.frame[2:] == bytes((k, CR)) and drops(r))
    yield 'a break with the byte of XOFF: 4, not 1', told(BREAK_IGNORED, lambda r: swallows(r) and r.frame[3] == r.old.field(12))
    yield 'a break with the byte CR: 4, not 5', told(BREAK_IGNORED, lambda r: drops(r) and r.frame[3] == CR)
    yield 'a break where damaged characters are discarded: 4, not 3', told(BREAK_IGNORED, lambda r: r.old.field(1) == DISCARD)
    yield 'XOFF that is CR: 1, not 5', told(FLOW_SWALLOWED, lambda r: drops(r) and r.frame[3] == CR)
    yield 'CR behind the literal mark: 0, not 5', told(STORED, lambda r: r.happened('step 4') and drops(r) and r.frame[3] == CR)
    yield 'XOFF behind the literal mark: 0, not 1', told(STORED, lambda r: r.happened('step 4') and swallows(r) and r.frame[3] == r.old.field(12))
    yield 'a literal-next character that is CR: 0, not 5', told(STORED, lambda r: r.happened('step 5') and drops(r) and r.frame[3] == CR)
    yield 'XOFF obeyed and stored that is CR: 0, not 5', told(STORED, lambda r: r.happened('XOFF') and drops(r) and r.frame[3] == CR)
    for fate in (DAMAGED_DISCARDED, BREAK_IGNORED):
        yield f'{fate} behind the literal mark, which stays', told(fate, lambda r: r.old.literal_mark and r.new.literal_mark)
    yield 'all four in a row at a full queue', lambda r: r.happened('lost') and [p.answer for p in r.past[-4:]] == [
        [0, FLOW_SWALLOWED], [0, DAMAGED_DISCARDED], [0, BREAK_IGNORED], [0, ENDING_DISCARDED]]


MET = [
    ('refusals by number', refusals), ('refusal 11', no_frame), ('order of refusals', order),
    ('settings: ranges', setting_edges), ('settings: crossed values', crossed), ('taking settings', taking),
    ('damaged characters and breaks', damage), ('good FF', good_ff), ('line endings', endings), ('flow characters', flow),
    ('literal-next', literal), ('a full queue', full_queue), ('reads', reading), ('loads', loading), ('line turns', turns),
    ('special characters', special_characters), ('picks', picking), ('states', states), ('resets', resets),
    ('spelling', spelling), ('the thirteenth character', thirteenth), ('the held item', held),
    ('why nothing was stored', nothing_stored),
]
ALWAYS = always


def check(records):
    """For each group its name, its count of conditions, and the names of those not met."""
    every = [(name, all(test(r) for r in records)) for name, test in ALWAYS()]
    yield 'of every line', len(every), [name for name, good in every if not good]
    for group, conditions in MET:
        found = [(name, any(test(r) for r in records)) for name, test in conditions()]
        yield group, len(found), [name for name, good in found if not good]
