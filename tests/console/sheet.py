"""Tests of the yield sheet's program: a marked stream in, its confirmations and their litres out.

What is wanted is written here by hand, or in crates/confirmations/stdout, or it is the reference's listing.
"""
import functools
import re

import both
import kit
import mains
import wrong
from both import MEGABYTE, ask, finish, one_line, quiet, same
from talk import answer, ended, in_pieces, say, start, taken, whole

COMMAND = [kit.FRAMES[0], 'confirmations']
GIVEN, LISTED = (kit.content(f'crates/confirmations/{name}') for name in ('stdin', 'stdout'))
*LINES, LAST = LISTED.splitlines(keepends=True)
# the user's case, cut behind each confirmation that is listed; that of number 12 is of another form
CASE = list(zip(re.findall(b'(?:\x0212 3\3)?[^\3]*\3', GIVEN), (line[:-1] for line in LINES), strict=True))
SEED, BROKEN = 101, range(105, 135, 5)      # none of those that tests/reference begins with; four of six are broken long before their end
ONE = b'\x020001 250\3'                     # ten bytes, and as many characters


@functools.cache
def generated(seed, size):
    """A random stream and the reference's listing of it."""
    stream = kit.reference('generate-listing', seed, size)
    assert len(stream) >= size, f'the reference gave {len(stream)} bytes, not {size} or more'
    return stream, kit.reference('listing', given=stream)


# ---- dialogues

def dialogue_on_a_pipe():
    process = start()
    ask(process, CASE)
    say(process, b'\n')
    finish(process, LAST)


def half_a_confirmation_waits():
    process = start()
    ask(process, [(ONE + b'\x0200', b'0 accepted 0001 250')])
    for half in (b'02', b' ', b'3', b'0'):
        taken(process)
        say(process, half)
    taken(process)
    ask(process, [(b'\3', b'10 accepted 0002 30')])
    finish(process, b'litres 280\n')


def mark_at_the_end_waits():
    """An FF, and an FF 00, at the end of a piece: what it is, the next piece tells."""
    process = start()
    say(process, b'\xff')
    taken(process)
    ask(process, [(b'\xff' + ONE, b'1 accepted 0001 250')])
    for part in (b'\x020002 2\xff', b'\0', b'5'):
        say(process, part)
        taken(process)
    ask(process, [(b'0\3', b'11 aside')])
    say(process, b'\x020002 2\xff')
    taken(process)
    ask(process, [(b'\xff\3\x020002 2\3', b'30 accepted 0002 2')])
    finish(process, b'litres 252\n')


def dialogue_on_a_raw_terminal():
    """Hung up on, it either reads an end, and writes its last line, or fails to read, and writes none."""
    written, said = both.dialogue_on_a_raw_terminal(CASE)
    if said:
        one_line(said, b'standard input')
    same(written, b'' if said else LAST, 'the last line')


# ---- input of any length, cut anywhere

def pieces_of(size):
    return lambda: same(in_pieces(GIVEN, lambda: size), LISTED)


def random_stream_in_pieces_of(size):
    def test():
        stream, listed = generated(SEED, 20000)
        same(in_pieces(stream, lambda: size), listed)
    return test


def large_input():
    stream, listed = generated(SEED, 5 * MEGABYTE)
    written, said, status = whole(stream)
    quiet(said, status)
    same(written, listed)


def large_file():
    stream, listed = generated(SEED, 5 * MEGABYTE)
    written, said, status = both.from_a_file(stream)
    quiet(said, status)
    same(written, listed)


def broken_streams():
    for seed in BROKEN:
        stream, listed = generated(seed, 1000000)
        assert re.search(rb'^refused 8 \d+\n\Z', listed, re.M), f'the reference does not refuse the stream of seed {seed}'
        written, said, status = both.from_a_file(stream)
        quiet(said, status)
        same(written, listed)


def full_buffers():
    """Shortest entries and nothing else: each piece of 65,536 bytes makes more lines than two buffers hold, and ends within an entry."""
    for entry, long, first, more, last in ((b'\2\xff\0\0\3', 3, b'0 aside\n', b'%d aside\n', b'litres 0\n'),
                                           (b'\x020001 1\3', 8, b'0 accepted 0001 1\n', b'%d repeated 0001 1\n', b'litres 1\n')):
        count = 10 * 65536 // len(entry) + 1
        lines = [first, *(more % (long * number) for number in range(1, count))]
        assert sum(map(len, lines[:65536 // len(entry)])) > 2 * 65536, 'the lines are too short'
        written, said, status = both.from_a_file(entry * count)
        quiet(said, status)
        same(written, b''.join(lines) + last)


ENDS = [(b'', b'litres 0\n'), (b'x', b'litres 0\n'), (b'\n', b'litres 0\n'), (b'\0', b'litres 0\n'), (b'\2', b'litres 0\n'), (b'\3', b'litres 0\n'),
        (b'\xff', b'refused 8 0\n'), (b'\xff\0', b'refused 8 0\n'), (b'\xff\xff', b'litres 0\n'), (b'\xff\0x', b'litres 0\n'),
        (b'\xff\0\xff', b'litres 0\n'), (b'\xff\xff\xff', b'refused 8 2\n'), (b'\xff\0x\xff', b'refused 8 3\n'), (b'x\xff\0', b'refused 8 1\n'),
        (b'\x020001 250', b'litres 0\n'), (b'0001 250\3', b'litres 0\n'), (b'\x020001 250\xff', b'refused 8 9\n'),
        (b'\x020001 250\xff\0\3', b'litres 0\n'), (b'\xff\0\x020001 250\3', b'litres 0\n'), (b'\2\3', b'litres 0\n'), (b'\3\2', b'litres 0\n'),
        (b'\2\xff\0\3\3', b'0 aside\nlitres 0\n'), (ONE, b'0 accepted 0001 250\nlitres 250\n'), (ONE + b'\2', b'0 accepted 0001 250\nlitres 250\n'),
        (ONE + b'\x020002 30', b'0 accepted 0001 250\nlitres 250\n'), (ONE + b'\xff', b'0 accepted 0001 250\nrefused 8 10\n'),
        (ONE + b'\xff\0', b'0 accepted 0001 250\nrefused 8 10\n'), (ONE + b'\xff\0\3', b'0 accepted 0001 250\nlitres 250\n')]


def ends_of_input():
    both.each(ENDS)
    for stream, wanted in ENDS:
        same(in_pieces(stream, lambda: 1), wanted, f'the answers to {stream!r} byte by byte')


# ---- a broken FF

def broken_mark_ends_it():
    """The last line comes at once, and the program ends, though its input is still open; what follows in the same piece is not looked at."""
    for byte in (b'\1', b'\2', b'\3', b' ', b'1', b'\xfe'):
        for before, after in ((b'', b'\xff' + byte), (b'\xff', byte)):
            process = start()
            ask(process, [(ONE + b'\x020002 3' + before, b'0 accepted 0001 250')])
            taken(process)
            ask(process, [(after + b'0\3' + ONE, b'refused 8 17')])
            result = ended(process)
            same(process.stdout.read(), b'', 'what follows the last line')
            quiet(*result)


# ---- ends that close or break

def closed_before_the_last_line(ignored):
    process = start(before=both.ignore if ignored else None)
    process.stdout.close()
    process.stdin.close()
    quiet(*ended(process), both.CLOSED)


def error_after_a_confirmation_and_a_half():
    for half in (b'', b'\x020002 3', b'\xff', b'\xff\0'):
        both.error_after(ONE + half, [b'0 accepted 0001 250'])


# ---- memory

def constant_memory(*streams):
    """Behind each stream comes a confirmation, whose line tells that all was read."""
    for stream in streams:
        wanted = kit.reference('listing', given=GIVEN + stream + ONE)
        same(both.constant_memory((GIVEN, len(LINES)), (stream + ONE, wanted.count(b'\n') - 1 - len(LINES))), wanted)


def constant_memory_for_confirmations():
    numbered = b''.join(b'\2%04d %d\3' % (number, number * number % 1000000) for number in range(10000))
    constant_memory(numbered * (20 * MEGABYTE // len(numbered) + 1))


TESTS = [('sheet: ' + name, test) for name, test in [
    ('dialogue on a pipe', dialogue_on_a_pipe),
    ('half a confirmation waits', half_a_confirmation_waits),
    ('an FF at the end of a piece waits', mark_at_the_end_waits),
    ('dialogue on a raw terminal', dialogue_on_a_raw_terminal),
    ('stopped and continued while it waits', lambda: both.stopped_and_continued(CASE, LAST)),
    *((f'the user\'s case in pieces of {size}', pieces_of(size)) for size in (1, 2, 3, 7)),
    ('the user\'s case in pieces of random size', lambda: both.pieces_of_random_size(GIVEN, LISTED, (1, 2, 3, 5, 8, 13, 21))),
    *((f'a random stream in pieces of {size}', random_stream_in_pieces_of(size)) for size in (1, 7, 4095)),
    ('a random stream in pieces of random size', lambda: both.pieces_of_random_size(*generated(SEED, 20000), (1, 2, 3, 11, 64, 200, 3000))),
    ('5 MB in one go', large_input),
    ('5 MB from a file into a file', large_file),
    ('broken streams from a file into a file', broken_streams),
    ('more lines than the output\'s buffer holds', full_buffers),
    ('ends of input', ends_of_input),
    ('a broken FF ends it at once, its input still open', broken_mark_ends_it),
    ('closed output, much input pending', lambda: both.closed_output(ONE * 500000, b'0 accepted 0001 250', False)),
    ('closed output, much input pending, SIGPIPE ignored', lambda: both.closed_output(ONE * 500000, b'0 accepted 0001 250', True)),
    ('closed output, waiting for a confirmation', lambda: both.closed_while_waiting(ONE, b'0 accepted 0001 250', False)),
    ('closed output, waiting for a confirmation, SIGPIPE ignored', lambda: both.closed_while_waiting(ONE, b'0 accepted 0001 250', True)),
    ('closed output, before the last line', lambda: closed_before_the_last_line(False)),
    ('closed output, before the last line, SIGPIPE ignored', lambda: closed_before_the_last_line(True)),
    ('a folder as standard input', both.reading_a_folder),
    ('a read error after a confirmation and a half', error_after_a_confirmation_and_a_half),
    ('no standard input at all', both.no_input_at_all),
    ('output to a full device', lambda: both.output_to_a_full_device(GIVEN, ONE * 200000, b'', b'\xff\1')),
    ('constant memory, 20 MB of confirmations', constant_memory_for_confirmations),
    ('constant memory, 20 MB without a newline or an STX', lambda: constant_memory(b'x' * (20 * MEGABYTE), b'\xff\0x' * (7 * MEGABYTE))),
    ('constant memory, a confirmation of 20 MB', lambda: constant_memory(b'\2' + b'0' * (20 * MEGABYTE) + b'\3')),
]]
TESTS.append(('sheet: wrong mains, which are proved, are caught', wrong.caught(mains.MAIN, dict(TESTS))))
