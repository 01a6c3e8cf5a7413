#!/usr/bin/env python3
"""Writes the longer trace to standard output: sections written by hand, each for a few sentences of the paper or of a request of 02.

    trace.py > crates/frames_longer/stdin

The refusals 4, 8 and 9 cannot occur in the frame program and so not here: frame 02 is always lent 36 bytes at place 0,
and no frame calls the reader of marked streams. tests/longer/run counts over this trace and the reference's answers
that what the sections claim is met.
"""
import sys

FIELDS = ('damaged breaks strip endings flow implied literal threshold hold expand '
          'xon xoff third fourth quote').split()
FRESH = [1, 1, 0, 0, 0, 0, 0, 1, 0, 0, 0x11, 0x13, 0x00, 0x00, 0x16]
PASS, DISCARD, NULL, MARK = 1, 2, 3, 4
GOOD, PARITY, FRAMING, BREAK = 0, 1, 2, 3
CR, NL, XON, XOFF, QUOTE = 0x0D, 0x0A, 0x11, 0x13, 0x16

# "Whole case, input"
WHOLE_CASE = ('0700040100020200010200011113000016 010000FF 01000141 01000013 01000016 01000013 0100000D 08 '
              '03000A42 0400 01000011 0400 0400 0A00 02000C 01040041').split()

lines = []


# ---- spelling frames

def raw(line):
    lines.append(line if isinstance(line, bytes) else line.encode('ascii'))


def frame(*numbers):
    raw(bytes(numbers).hex().upper())


def arrive(channel, *given, kind=GOOD):
    """One arrival of this kind for each byte."""
    for byte in given:
        frame(1, channel, kind, byte)


def read(channel, n=12):
    frame(2, channel, n)


def load(channel, *given):
    frame(3, channel, *given)


def turn(channel, times=1):
    for _ in range(times):
        frame(4, channel)


def cts(channel, value):
    frame(5, channel, value)


def special(channel, s):
    frame(6, channel, s)


def spelled(**changes):
    """Fresh settings but for the fields named."""
    values = list(FRESH)
    for name, value in changes.items():
        values[FIELDS.index(name)] = value
    return values


def settings(channel, **changes):
    frame(7, channel, *spelled(**changes))


def pick(times=1):
    for _ in range(times):
        frame(8)


def reset(*channels):
    for channel in channels:
        frame(9, channel)


def state(*channels):
    for channel in channels:
        frame(10, channel)


def full(channel, first=0x61):
    """Thirteen arrivals: a, b, c, ... m. Request a: "A loss now happens at thirteen"."""
    arrive(channel, *range(first, first + 13))


# ---- the card and its picks

def fresh_card():
    # "queues empty, nothing pending, transmitter running, CTS 0, loss count 0"; "a fresh card looks at 0 first"
    pick()
    state(0, 1, 2, 3)
    for channel in range(4):
        turn(channel)
        read(channel)
    for channel in (3, 2, 1, 0):
        arrive(channel, 0x40 + channel)
    # "going round 0 to 3"; "A channel at its threshold at each of four picks in a row is named by one of them."
    pick(6)


def picks():
    # here channel 1 was named last. "the first channel after the last named one ... whose waiting items reach its threshold"
    read(2, 1)
    pick()
    read(3, 1)
    pick(2)
    # "None: says so, and the place stays": the last named is 1, so 2 comes before 0
    read(0, 1)
    read(1, 1)
    pick(2)
    arrive(0, 0x41)
    arrive(2, 0x43)
    pick()
    # "A channel's reset doesn't move the pick's place": 2 was named last, so 3 comes before 0
    reset(2)
    arrive(3, 0x44)
    pick()
    # "A call on one channel alters no other channel, nor the pick's place": 3 was named last, so 0 comes first
    load(1, 0x42)
    turn(1)
    cts(1, 1)
    special(1, 2)
    settings(1, threshold=2)
    arrive(1, 0x42)
    state(1)
    pick(2)
    reset(0, 1, 2, 3)


def thresholds():
    # "service threshold | 1 to 12", "reach": 11 waiting do not reach 12, 12 do, and 13 do; a loss at 13 leaves it reached
    settings(1, threshold=12)
    settings(2, threshold=3)
    arrive(1, *range(0x30, 0x3B))
    arrive(2, 0x61, 0x62)
    pick()
    arrive(2, 0x63)
    pick()
    arrive(1, 0x3B)
    pick(3)
    arrive(1, 0x3C)
    pick(2)
    arrive(1, 0x3D)
    pick(2)
    read(1, 1)
    pick(2)
    read(1, 1)
    read(2, 0)
    pick(2)
    # the present threshold decides
    settings(2, threshold=4)
    pick()
    settings(2, threshold=2)
    pick()
    reset(1, 2)


def whole_case():
    # here the channel is fresh by reset, and no other channel has an item
    for line in WHOLE_CASE:
        raw(line)
    reset(0)


# ---- settings

def ranges_of_settings():
    # the column "Values": the lowest and the highest good value, then the first bad one above, and below
    highest = dict(zip(FIELDS, (4, 1, 1, 7, 2, 1, 1, 12, 1, 1)))
    for name, high in highest.items():
        low = 1 if name in ('damaged', 'threshold') else 0
        for value in (low, high, high + 1):
            settings(0, **{name: value})
        settings(0, **{name: low - 1 if low else 0xFF})
    settings(0, damaged=2)
    settings(0, damaged=3)
    settings(0, flow=1)
    # "special characters 1 to 4 | any", "literal-next character | any"
    frame(7, 0, *FRESH[:10], 0x00, 0xFF, 0x80, 0x7F, 0xFE)
    frame(7, 0, *FRESH[:10], 0xFF, 0x00, 0xFF, 0xFF, 0x00)


def length_of_settings():
    # "settings not 15 bytes (field 0)"; the length is looked at before any field
    frame(7, 0)
    frame(7, 0, *FRESH[:14])
    frame(7, 0, *FRESH, 0)
    frame(7, 0, *([0xFF] * 14))
    frame(7, 0, *([1] * 32))
    # "the first bad field"; "Own ranges are tested first, in field order, then these two in order."
    frame(7, 0, *([0xFF] * 15))
    settings(0, breaks=2, expand=2)
    settings(0, expand=2, flow=1, xon=0x13)
    settings(0, expand=2, flow=1, literal=1, quote=0x13)
    settings(0, flow=2, literal=1, xon=0x20, xoff=0x20, quote=0x20)
    settings(0, flow=3, xon=0x13)


def crossed_settings():
    # "with field 5 not 0, XON equal to XOFF (reported as field 12)"
    settings(0, flow=1, xoff=XON)
    settings(0, flow=2, xoff=XON)
    settings(0, flow=0, xoff=XON)
    # "with fields 5 and 7 both on, the literal-next character equal to XON or XOFF (field 15)"
    for flow in (1, 2):
        settings(0, flow=flow, literal=1, quote=XON)
        settings(0, flow=flow, literal=1, quote=XOFF)
    for char in (XON, XOFF):
        settings(0, flow=0, literal=1, quote=char)
        settings(0, flow=1, literal=0, quote=char)
        settings(0, flow=2, literal=0, quote=char)
    # with both off; and special characters 3 and 4 cross with nothing
    settings(0, xoff=XON, quote=XON)
    settings(0, flow=1, literal=1, third=XON, fourth=XOFF)
    settings(0, flow=2, literal=1, third=QUOTE, fourth=QUOTE)
    reset(0)


def taking_settings():
    # "Taking settings clears the literal mark and sets the transmitter running. Queues, an owed NL, a waiting special,
    # CTS and the loss count stay."
    settings(0, flow=1, literal=1, expand=1, hold=1)
    cts(0, 1)
    load(0, NL, 0x42, 0x43)
    turn(0)
    full(0)
    arrive(0, QUOTE, XOFF)
    arrive(0, XOFF)
    special(0, 2)
    state(0)
    # here the mark is set again by a lost character, all flags are on, and settings come
    arrive(0, QUOTE)
    settings(0, flow=2, literal=1, expand=1, hold=1, third=0x33)
    state(0)
    arrive(0, XOFF)
    state(0)
    settings(0, hold=1)
    turn(0, 5)
    read(0)
    state(0)
    reset(0)
    # refused settings clear and set nothing: the mark and the stop stay
    settings(0, flow=1, literal=1)
    arrive(0, XOFF, QUOTE)
    settings(0, flow=1, literal=2)
    frame(7, 0, *FRESH, 0)
    state(0)
    arrive(0, XON)
    state(0)
    read(0)
    reset(0)


# ---- arrivals

def damaged_characters():
    # steps 1 and 2: each mode with parity error, framing error and break, with strip and without. "Mark: store damaged b,
    # unstripped"; "break (its byte is disregarded)"
    for mode in (PASS, DISCARD, NULL, MARK):
        for strip in (0, 1):
            settings(0, damaged=mode, strip=strip)
            arrive(0, 0xC1, kind=PARITY)
            arrive(0, 0xC2, kind=FRAMING)
            arrive(0, 0xC3, kind=BREAK)
            arrive(0, 0xC4)
            arrive(0, 0xFF)
            read(0)
    # "Break. Ignored: nothing changes."
    for mode in (PASS, DISCARD, NULL, MARK):
        settings(0, damaged=mode, breaks=0)
        arrive(0, 0x00, 0x41, kind=BREAK)
        read(0)
    # a damaged FF and a damaged 00 beside a break: "Telling a break from a damaged 00 by the bytes" is an error
    settings(0, damaged=MARK, breaks=0)
    arrive(0, 0xFF, 0x00, kind=PARITY)
    arrive(0, 0x00, kind=FRAMING)
    arrive(0, 0x00, kind=BREAK)
    read(0)
    reset(0)


def damaged_specials():
    # "The last two clear the literal mark, and match no special character."; "Pass: go on as good."
    for mode, kind in ((PASS, PARITY), (PASS, FRAMING), (DISCARD, PARITY), (NULL, FRAMING), (MARK, PARITY)):
        settings(2, damaged=mode, flow=2, endings=4, literal=1)
        arrive(2, XOFF, kind=kind)
        state(2)
        arrive(2, CR, NL, QUOTE, kind=kind)
        arrive(2, XOFF)
        state(2)
        read(2)
    reset(2)


def good_ff():
    # "Storing a good FF in mark mode makes a doubled item; any other good byte makes a plain item."
    settings(3, damaged=MARK)
    arrive(3, 0xFE, 0xFF, 0x00, 0x7F, 0x80)
    # "The item is fixed at arrival; later settings don't alter it."
    arrive(3, 0xD5, kind=FRAMING)
    settings(3)
    arrive(3, 0xFF)
    settings(3, damaged=MARK)
    read(3)
    arrive(3, 0xFF)
    arrive(3, 0x99, kind=PARITY)
    settings(3, damaged=NULL, strip=1)
    arrive(3, 0xFF, 0x8D)
    read(3)
    # FF as literal-next character, as one behind the mark, and as XON that is obeyed and stored
    settings(3, damaged=MARK, flow=1, literal=1, xon=0xFF, quote=0x7F)
    arrive(3, 0xFF, 0x7F, 0xFF)
    settings(3, damaged=MARK, literal=1, quote=0xFF)
    arrive(3, 0xFF, 0xFF, 0xFF, 0x41)
    read(3)
    # doubling comes after the strip
    settings(3, damaged=MARK, strip=1)
    arrive(3, 0xFF, 0xFF)
    read(3)
    reset(3)


def line_endings():
    # "Line endings (CR 0D, NL 0A), one lookup and no second one; store what comes out."
    for row in range(8):
        settings(1, endings=row)
        arrive(1, CR, NL, 0x0C)
        read(1)
    # behind the strip, and never for a character behind the literal mark; "Pass: go on as good."
    settings(1, endings=3, strip=1, literal=1)
    arrive(1, CR + 0x80, NL + 0x80, QUOTE, CR, QUOTE + 0x80, NL)
    arrive(1, CR, kind=PARITY)
    arrive(1, NL + 0x80, kind=FRAMING)
    read(1)
    # without strip, 8D and 8A are no line endings
    settings(1, endings=7)
    arrive(1, CR + 0x80, NL + 0x80, CR)
    read(1)
    # steps 5 and 6 stand before step 7
    settings(1, endings=1, flow=1, literal=1, xoff=NL, quote=CR)
    arrive(1, NL)
    state(1)
    arrive(1, CR, CR)
    settings(1, endings=6, flow=2, xon=NL, xoff=CR)
    arrive(1, CR)
    state(1)
    arrive(1, NL)
    state(1)
    read(1)
    reset(1)


def flow_characters():
    # "Field 5 not 0 and b is XON or XOFF: set running or stopped; store b for value 1, store nothing for value 2; stop."
    for flow in (0, 1, 2):
        settings(0, flow=flow)
        load(0, 0x41)
        arrive(0, XOFF)
        state(0)
        turn(0)
        arrive(0, XOFF, XON)
        state(0)
        turn(0)
        arrive(0, XON)
        read(0)
    # behind the strip; and characters with bit 8 that strip makes unreachable
    settings(0, flow=1, strip=1)
    arrive(0, XOFF + 0x80)
    state(0)
    settings(0, flow=1, strip=1, xoff=XOFF + 0x80)
    arrive(0, XOFF + 0x80, XOFF)
    state(0)
    # special characters 3 and 4 are no flow characters
    settings(0, flow=2, third=0x33, fourth=0x34)
    arrive(0, 0x33, 0x34)
    state(0)
    read(0)
    reset(0)


def implied_xon():
    # "From here on, with implied XON the transmitter is set running, unless step 6 recognises XOFF."
    settings(0, flow=2, implied=1, literal=1, endings=4)
    for byte in (0x41, CR, NL, XON, QUOTE):
        arrive(0, XOFF)
        state(0)
        arrive(0, byte)
        state(0)
    # QUOTE left the mark, so the first XOFF here is literal and sets running; the second one stops, and so does a third
    settings(0, flow=2, implied=1, literal=1)
    arrive(0, QUOTE, XOFF)
    state(0)
    arrive(0, XOFF, XOFF)
    state(0)
    # the literal-next character itself sets running, and the literal XOFF behind it leaves it so
    arrive(0, QUOTE)
    state(0)
    arrive(0, XOFF)
    state(0)
    read(0)
    # damaged characters and breaks end at steps 1 and 2, before the implied XON, but for those that pass
    for mode in (NULL, MARK, DISCARD, PASS):
        settings(0, damaged=mode, flow=2, implied=1)
        arrive(0, XOFF)
        arrive(0, 0x41, kind=BREAK)
        state(0)
        arrive(0, 0x41, kind=FRAMING)
        state(0)
    # without it only XON sets running
    settings(0, flow=2)
    arrive(0, XOFF, 0x41)
    state(0)
    # with field 5 off nothing stops, and XOFF is a character like any other
    settings(0, implied=1)
    arrive(0, XOFF)
    state(0)
    reset(0)


def literal_next():
    # "Literal mark set: clear it, store b, stop." "Literal-next on and b is that character: set the mark, store b, stop."
    settings(0, flow=2, literal=1, endings=5)
    for byte in (XOFF, XON, CR, NL, 0x41, QUOTE):
        arrive(0, QUOTE, byte)
    state(0)
    read(0)
    # behind QUOTE QUOTE the mark is clear
    arrive(0, QUOTE, QUOTE, XOFF)
    state(0)
    arrive(0, XON)
    # off: the character is one like any other, and the next one too
    settings(0, flow=2, literal=0)
    arrive(0, QUOTE, XOFF)
    state(0)
    read(0)
    reset(0)


def between_mark_and_character():
    # what comes between the literal-next character and XOFF: the mark holds XOFF off where it stays
    between = [
        (dict(), lambda: arrive(0, 0x55, kind=BREAK)),                      # kept, pass: clears
        (dict(damaged=MARK), lambda: arrive(0, 0x55, kind=BREAK)),          # kept, mark: clears
        (dict(breaks=0), lambda: arrive(0, 0x55, kind=BREAK)),              # ignored: stays
        (dict(damaged=NULL), lambda: arrive(0, 0x55, kind=PARITY)),         # clears
        (dict(damaged=MARK), lambda: arrive(0, 0x55, kind=FRAMING)),        # clears
        (dict(damaged=DISCARD), lambda: arrive(0, 0x55, kind=PARITY)),      # stays
        (dict(), lambda: arrive(0, CR, kind=FRAMING)),                      # passes: it is the literal one
        (dict(), lambda: arrive(0, CR)),                                    # good: it is the literal one
        (dict(), lambda: frame(1, 0, 4, 0x55)),                             # refused: stays
    ]
    for changes, what in between:
        settings(0, flow=2, literal=1, endings=4, **changes)
        arrive(0, QUOTE)
        what()
        arrive(0, XOFF)
        state(0)
        read(0)
    # the host's calls and the other channels leave the mark
    settings(0, flow=2, literal=1)
    arrive(0, QUOTE)
    read(0)
    load(0, 0x41)
    turn(0)
    cts(0, 1)
    special(0, 1)
    turn(0)
    pick()
    state(0)
    reset(1)
    arrive(1, 0x41)
    arrive(0, XOFF)
    state(0)
    reset(0, 1)


def flags_at_a_full_queue():
    # "Flags of steps 1 to 6 change even when the item is lost."
    settings(2, flow=1, literal=1)
    full(2)
    arrive(2, XOFF)
    state(2)
    load(2, 0x58)
    turn(2)
    arrive(2, XON)
    state(2)
    turn(2)
    # the mark is set by a lost character, cleared by a lost one, and XOFF between them is literal
    arrive(2, QUOTE, XOFF)
    state(2)
    arrive(2, XOFF)
    state(2)
    # a lost kept break clears the mark
    settings(2, flow=1, literal=1, damaged=MARK)
    arrive(2, QUOTE)
    arrive(2, 0x00, kind=BREAK)
    arrive(2, XOFF)
    state(2)
    # so do lost damaged characters, in mark mode and in null mode
    for mode in (MARK, NULL):
        settings(2, flow=1, literal=1, damaged=mode)
        arrive(2, QUOTE)
        arrive(2, 0x41, kind=PARITY)
        arrive(2, XOFF)
        state(2)


def implied_xon_at_a_full_queue():
    # the queue is still full. XOFF is swallowed, and a lost character sets running
    settings(2, flow=2, implied=1)
    arrive(2, XOFF)
    state(2)
    arrive(2, 0x41)
    state(2)
    read(2)
    state(2)
    reset(2)


def why_nothing_was_stored():
    # request b: "1 flow character swallowed, 3 damaged discarded, 4 break ignored, 5 line ending discarded"; with nothing there, with twelve, with one
    # held behind them
    settings(1, damaged=DISCARD, breaks=0, endings=4, flow=2)
    for good in ([], range(0x61, 0x6D), [0x6D]):
        arrive(1, *good)
        arrive(1, XON, XOFF)
        state(1)
        arrive(1, XON)
        state(1)
        for kind in (PARITY, FRAMING):
            arrive(1, XOFF, CR, kind=kind)
        arrive(1, XOFF, CR, kind=BREAK)
        arrive(1, CR)
        state(1)
    # each of the four, and then a loss: only this one is counted
    arrive(1, XOFF)
    arrive(1, 0x41, kind=PARITY)
    arrive(1, 0x41, kind=BREAK)
    arrive(1, CR, 0x6E)
    state(1)
    read(1, 12)
    read(1, 12)
    reset(1)


def reasons_of_passed_and_literal_characters():
    # "Pass: go on as good": what is then swallowed, or is a line ending that gives nothing, was not discarded as damaged
    for row, kind in ((4, PARITY), (5, FRAMING), (6, PARITY), (7, FRAMING)):
        settings(1, breaks=0, strip=1, endings=row, flow=2)
        arrive(1, XOFF + 0x80, XOFF, kind=kind)
        state(1)
        arrive(1, XON + 0x80, CR, CR + 0x80, kind=kind)
        state(1)
        arrive(1, CR, CR + 0x80, NL, XOFF + 0x80, XON + 0x80)
        read(1)
    # "Literal mark set: clear it, store b, stop.", whatever b is; what is discarded or ignored leaves the mark
    settings(1, damaged=DISCARD, breaks=0, endings=4, flow=2, literal=1)
    arrive(1, QUOTE, CR, CR, QUOTE, XOFF, XOFF, QUOTE)
    arrive(1, 0x41, kind=PARITY)
    arrive(1, 0x41, kind=BREAK)
    arrive(1, CR, CR)
    # steps 5 and 6 stand before step 7: CR as literal-next character, as XOFF that is swallowed, and as XOFF that is stored
    settings(1, endings=7, literal=1, quote=CR)
    arrive(1, CR, CR)
    for flow in (2, 1):
        settings(1, endings=7, flow=flow, xoff=CR)
        arrive(1, CR)
        state(1)
    read(1)
    reset(1)


# ---- losses and reads

def losses():
    # "If 12 items wait, the new one is lost, the newest waiting item gets the overrun flag ... and the loss count rises
    # by 1"; with request a, if 13 do. The flag is told by the read that removes its item
    full(1)
    arrive(1, 0x78, 0x79)
    state(1)
    read(1, 12)
    read(1, 1)
    state(1)
    # two flagged items in one read: the newest is another one each time
    full(1)
    arrive(1, 0x78)
    read(1, 1)
    arrive(1, 0x6E)
    arrive(1, 0x79)
    read(1, 1)
    read(1, 12)
    # a damaged item with the flag; 12 damaged ones write 36 bytes
    settings(1, damaged=MARK)
    for byte in range(0xA0, 0xAD):
        arrive(1, byte, kind=PARITY)
    arrive(1, 0xAD, kind=FRAMING)
    state(1)
    read(1, 12)
    read(1, 1)
    # a room made by a read is taken again
    full(1)
    arrive(1, 0xFF)
    read(1, 2)
    arrive(1, 0xFF, 0xFF, 0xFF)
    read(1, 12)
    read(1, 12)
    state(1)
    reset(1)
    state(1)


def many_losses():
    # "loss high, loss low": 310 losses pass 255 and tell both bytes
    full(3)
    for count in range(1, 311):
        arrive(3, count % 256)
        if count in (1, 254, 255, 256, 257, 310):
            state(3)
    read(3, 12)
    arrive(3, 0x41)
    settings(3, threshold=2)
    state(3)
    read(3, 2)
    reset(3)
    state(3)


def thirteenth_character():
    # request a: "thirteen-character lines lose their last digit on our box but not on the old card"
    arrive(2, *b'LITRES 001234')
    read(2, 12)
    read(2, 1)
    state(2)
    # "One more place is to hold an item behind the twelve"; "State still shows at most 12 waiting"
    arrive(2, *range(0x61, 0x6C))
    for byte in (0x6C, 0x6D):
        state(2)
        arrive(2, byte)
    state(2)
    # "A loss now happens at thirteen, and the flag goes on the newest item, which is the held one"
    arrive(2, 0x6E)
    state(2)
    # "a read asks for at most 12"; nor is a threshold above 12
    read(2, 13)
    settings(2, threshold=13)
    # "it moves up when a read makes room": a read of nothing makes none, a read of twelve makes room for twelve
    read(2, 0)
    arrive(2, 0x6F)
    read(2, 12)
    state(2)
    arrive(2, *range(0x70, 0x7D))
    state(2)
    read(2, 12)
    read(2, 1)
    state(2)
    reset(2)


def held_item():
    # request a: "it moves up when a read makes room", with the flag that it has; the newest item is then another one
    full(2)
    read(2, 1)
    arrive(2, 0x6E, 0x6F)
    read(2, 1)
    arrive(2, 0x70, 0x71)
    state(2)
    read(2, 12)
    read(2, 1)
    # "The item is fixed at arrival", also the held one
    settings(2, damaged=MARK)
    arrive(2, *range(0x61, 0x6D), 0xFF)
    settings(2)
    read(2, 12)
    read(2, 1)
    # "store nothing for value 2": the place stays free. XOFF takes it with value 1, and XON behind it is lost
    settings(2, flow=2)
    arrive(2, *range(0x61, 0x6D), XOFF)
    state(2)
    settings(2, flow=1)
    arrive(2, XOFF)
    state(2)
    arrive(2, XON)
    state(2)
    # settings leave it, and reset drops it
    settings(2, flow=1, threshold=12)
    state(2)
    reset(2)
    state(2)
    read(2, 12)


def reads():
    # "Read n characters, n from 0 to 12: removes the oldest min(n, waiting) items"
    read(0, 0)
    read(0, 1)
    arrive(0, 0x31, 0x32, 0x33)
    read(0, 0)
    state(0)
    read(0, 1)
    read(0, 13)
    read(0, 0xFF)
    read(0, 12)
    full(0)
    for n in (0, 1, 2, 4, 12):
        read(0, n)
    full(0)
    read(0, 11)
    state(0)
    read(0, 12)
    full(0)
    read(0, 12)
    state(0)


def loads():
    # "takes the first min(length, room) bytes; answers that number. Load of nothing takes 0."
    load(0)
    load(0, *range(0x41, 0x4D))
    load(0)
    load(0, 0x5A)
    state(0)
    turn(0, 13)
    load(0, *range(0x41, 0x4E))
    state(0)
    turn(0, 2)
    load(0, 0x31, 0x32, 0x33)
    turn(0, 7)
    load(0, *range(0x61, 0x6D))
    turn(0, 12)
    turn(0)
    load(0, *range(0x20, 0x40))
    state(0)
    turn(0, 13)
    # all of a list that fits into the room that is left, then a list that is longer than it
    load(0, 0x00, 0xFF, CR, NL)
    load(0, XON, XOFF)
    load(0, *range(0x80, 0x8A))
    state(0)
    turn(0, 13)
    reset(0)


# ---- line turns

def stopped_and_held():
    # "Else nothing goes if stopped, or if field 9 is 1 and CTS is 0."
    settings(0, flow=2, hold=1)
    load(0, 0x41, 0x42, 0x43, 0x44)
    turn(0)
    cts(0, 1)
    turn(0)
    arrive(0, XOFF)
    turn(0)
    cts(0, 0)
    turn(0)
    arrive(0, XON)
    turn(0)
    cts(0, 1)
    turn(0)
    # "CTS holds the transmitter | 0": CTS is not looked at
    settings(0)
    cts(0, 0)
    turn(0)
    # CTS stays when settings are taken
    cts(0, 1)
    settings(0, hold=1)
    turn(0, 2)
    reset(0)
    settings(0, hold=1)
    load(0, 0x45)
    turn(0)
    reset(0)


def newlines():
    # "With field 10, a queued NL goes out as CR, leaves the queue and owes an NL."
    settings(0, expand=1, flow=2, hold=1)
    cts(0, 1)
    load(0, 0x41, NL, NL, CR, 0x42, NL)
    turn(0, 2)
    state(0)
    turn(0, 7)
    turn(0)
    # the owed NL is held by a stop and by CTS, as everything but a special is
    load(0, NL, 0x43)
    turn(0)
    arrive(0, XOFF)
    turn(0)
    arrive(0, XON)
    cts(0, 0)
    turn(0)
    cts(0, 1)
    turn(0, 2)


def owed_newlines():
    # "An owed NL is sent even if field 10 was since turned off."
    load(0, NL, NL, 0x44)
    turn(0)
    settings(0)
    turn(0, 3)
    # with field 10 off an NL goes as it is; turned on later, it counts at the turn
    load(0, NL, NL)
    turn(0)
    settings(0, expand=1)
    turn(0, 3)
    # reset drops what is owed
    load(0, NL)
    turn(0)
    reset(0)
    turn(0)
    # the queue may be filled again while an NL is owed, and the NL goes before it
    settings(0, expand=1)
    load(0, NL)
    turn(0)
    load(0, *range(0x61, 0x6D))
    state(0)
    turn(0, 3)
    reset(0)


def specials():
    # "Special s from 1 to 4: the present special character s waits for the next turn."
    settings(0, third=0x33, fourth=0xFF)
    for s in (1, 2, 3, 4):
        special(0, s)
        turn(0)
    turn(0)
    # "A waiting special goes first, even when stopped or CTS is 0, even between CR and its NL."
    settings(0, flow=2, hold=1, expand=1, third=NL)
    cts(0, 1)
    load(0, NL, 0x41, 0x42)
    turn(0)
    special(0, 2)
    state(0)
    turn(0, 2)
    arrive(0, XOFF)
    special(0, 1)
    turn(0, 2)
    arrive(0, XON)
    cts(0, 0)
    special(0, 3)
    turn(0, 2)
    arrive(0, XOFF)
    special(0, 4)
    turn(0, 2)
    state(0)


def specials_and_settings():
    # a special NL is no queued NL: it owes nothing; and sending XOFF or XON stops or starts nothing here
    settings(0, expand=1, third=NL)
    special(0, 3)
    turn(0, 2)
    special(0, 2)
    turn(0, 2)
    # "the present special character": settings that come while it waits don't change it
    settings(0, fourth=0x34)
    special(0, 4)
    settings(0, xon=0x61, xoff=0x62, third=0x63, fourth=0x64)
    special(0, 4)
    turn(0)
    special(0, 4)
    turn(0)
    # reset drops it
    special(0, 1)
    reset(0)
    turn(0)


def special_refusals():
    # 6 "special not 1 to 4", 7 "a special already waits"; "Lower numbers first": 6 before 7
    for s in (0, 5, 0xFF):
        special(1, s)
    special(1, 3)
    special(1, 3)
    special(1, 1)
    for s in (0, 5, 0xFF):
        special(1, s)
    turn(1)
    special(1, 4)
    turn(1)
    # 10 "CTS neither 0 nor 1": what it was stays
    settings(1, hold=1)
    cts(1, 1)
    cts(1, 2)
    cts(1, 0xFF)
    load(1, 0x41, 0x42)
    turn(1)
    cts(1, 0)
    cts(1, 2)
    turn(1)
    reset(1)


# ---- channels apart

def one_reset_of_four():
    # "A call on one channel alters no other channel"; "Reset makes one channel fresh."
    for channel in range(4):
        settings(channel, flow=1, literal=1, hold=1, expand=1, threshold=3, xon=0x21 + channel)
        load(channel, NL, 0x41 + channel)
        cts(channel, 1)
        turn(channel)
        if channel in (1, 2):
            full(channel, 0x30)
        arrive(channel, 0x7A, XOFF, QUOTE)
        special(channel, 1)
    state(0, 1, 2, 3)
    pick()
    reset(2)
    state(0, 1, 2, 3)
    pick(4)
    for channel in range(4):
        turn(channel)
        arrive(channel, 0x21 + channel)
        turn(channel)
        arrive(channel, 0x21 + channel)
        turn(channel, 2)
        read(channel)
        state(channel)
    reset(0, 1, 2, 3)
    state(0, 1, 2, 3)


# ---- lines and refusals

def letter_case():
    # "one frame of hexadecimal a line (either letter case, at most 34 bytes)"
    for line in ('0100 00ff', '010000Ff', '010000fF', '0100 00aB'):
        raw(line.replace(' ', ''))
    raw('0a00')
    raw('0A00')
    raw('02000c')
    raw('0700010100000000000c00001113abcdef')
    raw('0300DeadBeefcafeF00D')
    raw('0a00')
    for _ in range(9):
        raw('0400')
    raw('060003')
    raw('0400')
    raw('0900')


def refusal_1():
    # "channel above 3": every frame that names a channel, and before its other refusals ("Lower numbers first")
    for number, rest in ((1, [0, 0x41]), (2, [1]), (3, []), (3, [0x41]), (4, []), (5, [1]), (6, [1]), (7, FRESH), (9, []),
                         (10, [])):
        frame(number, 4, *rest)
        frame(number, 0xFF, *rest)
    frame(1, 4, 4, 0x41)
    frame(2, 4, 13)
    frame(5, 4, 2)
    frame(6, 4, 0)
    frame(6, 4, 5)
    frame(7, 4)
    frame(7, 4, *([0xFF] * 15))
    frame(7, 4, *spelled(flow=1, xon=XOFF))
    # 2 "kind above 3", for any byte
    for kind in (4, 5, 0xFF):
        arrive(0, 0x00, kind=kind)
    arrive(3, 0xFF, kind=4)
    state(0, 3)


def no_frames():
    # refusal 11: "an empty line, a character that is no hexadecimal digit, an odd count of digits"
    raw('')
    for line in (b'0A00\r', b'08\r', b'\r', b'0A00 ', b' 0A00', b'0A 00', b'08\t', b'0A0\xff', b'\xc3\xa9', b'0A00\x80', b'\x00',
                 b'0x08', b'0G', b'0g', b'0/', b'0:', b'0@', b'0`', b'0A00;', b'-8', b'+8', b'0A00\x7f', b'0O'):
        raw(line)
    for line in ('0', '8', '080', '0A0', '01000', '0100004', '0' * 67):
        raw(line)


def unknown_and_unlisted():
    # "an unknown first byte"
    for line in ('00', '0000', '0B', '0B00', '0B0000', '0C00', '10', '80', 'FF', 'FF00', 'FF0000FF'):
        raw(line)
    # "a length not listed below": one byte too short and one too long
    for line in ('0100', '010000', '0100004100', '01',
                 '0200', '0200010C', '02',
                 '03',
                 '04', '040000',
                 '0500', '05000100', '05',
                 '0600', '06000100', '06',
                 '07',
                 '0800', '080000',
                 '09', '090000',
                 '0A', '0A0000'):
        raw(line)
    # 11 comes before 1, and before 2, 3, 6 and 10
    for line in ('0104', '01040041FF', '0204', '02040C00', '0404FF', '0504', '0604', '06040102', '0904FF', '0A0400',
                 '010004', '01000441FF', '02000D00', '06000500', '05000200'):
        raw(line)


def long_lines():
    # "more than 34 bytes": 34 are served, 34 and a half, 35 and more are not, whatever they begin with
    raw('0300' + '41' * 32)
    raw('0300' + '41' * 32 + '4')
    raw('0300' + '41' * 33)
    raw('0301' + '42' * 100)
    raw('0700' + '01' * 32)
    raw('0700' + '01' * 33)
    raw('0304' + '41' * 33)
    raw('0704' + '01' * 33)
    raw('0B' * 35)
    raw('FF' * 34)
    raw(b'0300' + b'41' * 32 + b'\r')
    raw(b'0300' + b'41' * 32 + b'zz')
    raw('0300' + '41' * 2500)
    raw(' ' * 1000)
    raw(bytes(range(11, 256)) * 4)
    raw('08' * 4096 + '8')
    # the line after each of them stands by itself
    state(0, 1)
    turn(0, 13)
    reset(0)
    pick()


def last_line():
    # "A last line without its newline counts"
    settings(0, flow=1)
    arrive(0, XOFF)
    state(0)


SECTIONS = [
    fresh_card, picks, thresholds, whole_case,
    ranges_of_settings, length_of_settings, crossed_settings, taking_settings,
    damaged_characters, damaged_specials, good_ff, line_endings, flow_characters, implied_xon,
    literal_next, between_mark_and_character, flags_at_a_full_queue, implied_xon_at_a_full_queue,
    why_nothing_was_stored, reasons_of_passed_and_literal_characters,
    losses, many_losses, thirteenth_character, held_item, reads, loads,
    stopped_and_held, newlines, owed_newlines, specials, specials_and_settings, special_refusals, one_reset_of_four,
    letter_case, refusal_1, no_frames, unknown_and_unlisted, long_lines, last_line,
]


def whole_trace():
    """The trace's bytes. Its last line has no newline."""
    lines.clear()
    for section in SECTIONS:
        section()
    return b'\n'.join(lines)


if __name__ == '__main__':
    sys.stdout.buffer.write(whole_trace())
