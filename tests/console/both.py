"""What both programs have to do, each with its own words. A case is a list of what is said and the line that answers it."""
import errno
import os
import pty
import random
import signal
import socket
import tempfile
import time
import tty

from talk import BULK, LIMIT, Drain, answer, ended, in_pieces, most_memory, say, start, taken, whole

MEGABYTE = 1 << 20


def same(found, wanted, what='the answers'):
    """Compares, and says where they part."""
    if found != wanted:
        at = next((i for i, (a, b) in enumerate(zip(found, wanted)) if a != b), min(len(found), len(wanted)))
        line = wanted[:at].count(b'\n') + 1
        raise AssertionError(f'{what} part in line {line}: {len(found)} bytes, not {len(wanted)}; '
                             f'...{found[max(0, at - 20):at + 20]!r}, not ...{wanted[max(0, at - 20):at + 20]!r}')


def quiet(said, status, statuses=(0,)):
    assert said == b'', f'it said {said!r}'
    assert status in statuses, f'it ended with status {status}'


def one_line(said, of):
    """The program says on standard error which of its ends failed, and nothing else."""
    assert said.startswith(of + b': ') and said.count(b'\n') == 1 and said.endswith(b'\n'), f'standard error has {said!r}, not one line of {of!r}'


def finish(process, last=b''):
    """Its input ends: it writes no more than this, and ends quietly."""
    process.stdin.close()
    result = ended(process)
    same(process.stdout.read(), last, 'what it writes at the end')
    quiet(*result)


# ---- dialogues

def ask(process, case, to=None):
    """Each is answered before the next is said."""
    for said, wanted in case:
        say(process if to is None else to, said)
        same(answer(process), wanted, f'the answer to {said!r}')


def dialogue_on_a_raw_terminal(case):
    """Answers what is written and said when it is hung up on: raw input has no end of its own, so that ends it, as an end or as an error."""
    ours, its = pty.openpty()
    try:
        tty.setraw(its)
        process = start(stdin=its)
        ask(process, case, ours)
        os.close(its)
        os.close(ours)
        its = ours = None
        said, _ = ended(process)
        return process.stdout.read(), said
    finally:
        for number in (ours, its):
            if number is not None:
                os.close(number)


def stopped_and_continued(case, last=b''):
    """Stopped and continued while it waits in a read: at a line's start, in half a line, and fed while it is stopped."""
    process = start()

    def pause(between=lambda: None):
        taken(process)
        time.sleep(0.02)
        os.kill(process.pid, signal.SIGSTOP)
        until = time.monotonic() + LIMIT
        while os.waitpid(process.pid, os.WUNTRACED | os.WNOHANG)[0] == 0:
            assert time.monotonic() < until, 'it does not stop'
            time.sleep(0.001)
        between()
        os.kill(process.pid, signal.SIGCONT)

    for number, (said, wanted) in enumerate(case):
        if number % 3 == 0:
            pause()
            say(process, said)
        elif number % 3 == 1:
            say(process, said[:3])
            pause()
            say(process, said[3:])
        else:
            pause(lambda said=said: say(process, said))
        same(answer(process), wanted, f'the answer to {said!r}')
    finish(process, last)


# ---- input of any length, cut anywhere

def pieces_of_random_size(data, wanted, sizes):
    for seed in range(3):
        chance = random.Random(seed)
        same(in_pieces(data, lambda: chance.choice(sizes)), wanted)


def from_a_file(data):
    """What it writes into a file, and what it says; the file is read in pieces as long as the program's buffer."""
    with tempfile.TemporaryFile() as given, tempfile.TemporaryFile() as written:
        given.write(data)
        given.seek(0)
        result = ended(start(stdin=given, stdout=written), BULK)
        written.seek(0)
        return written.read(), *result


def each(cases):
    """Whole inputs and what is written for each."""
    for data, wanted in cases:
        written, said, status = whole(data)
        quiet(said, status)
        same(written, wanted, f'the answers to {data[:80]!r}')


# ---- ends that close or break

def ignore():
    signal.signal(signal.SIGPIPE, signal.SIG_IGN)


CLOSED = 0, -signal.SIGPIPE, 128 + signal.SIGPIPE       # how it may end: with status 0, or by SIGPIPE


def closed_output(data, first, ignored):
    """The reader closes after the first line, with much input pending."""
    with tempfile.TemporaryFile() as given:
        given.write(data)
        given.seek(0)
        process = start(stdin=given, before=ignore if ignored else None)
        same(answer(process), first)
        process.stdout.close()
        quiet(*ended(process), CLOSED)


def closed_while_waiting(data, wanted, ignored):
    """The reader closes while the program waits for more; it ends though its input stays open."""
    process = start(before=ignore if ignored else None)
    ask(process, [(data, wanted)])
    process.stdout.close()
    say(process, data)
    quiet(*ended(process), CLOSED)


def reading_a_folder():
    folder = os.open('/', os.O_RDONLY)
    try:
        written, said, _ = whole(None, stdin=folder)
    finally:
        os.close(folder)
    same(written, b'')
    one_line(said, b'standard input')


def error_after(data, wanted):
    """A connection that is reset after some lines and a half: they are answered, the half is not, and it says so."""
    assert reset_works(), 'no read error after data can be made here'
    ours, its = socket.socketpair(socket.AF_UNIX, socket.SOCK_STREAM)
    process = start(stdin=its)
    ours.sendall(data)
    for line in wanted:
        same(answer(process), line)
    # a socket that is closed with something unread in it resets its peer
    its.sendall(b'unread')
    its.close()
    ours.close()
    said, _ = ended(process)
    same(process.stdout.read(), b'', 'the answers after the error')
    one_line(said, b'standard input')


def reset_works():
    """That a reset makes a read error on this machine, without the program."""
    ours, its = socket.socketpair(socket.AF_UNIX, socket.SOCK_STREAM)
    its.sendall(b'unread')
    ours.close()
    try:
        its.recv(1)
    except OSError as error:
        return error.errno == errno.ECONNRESET
    finally:
        its.close()
    return False


def no_input_at_all():
    written, said, _ = whole(None, stdin=None, before=lambda: os.close(0))
    same(written, b'')
    one_line(said, b'standard input')


def output_to_a_full_device(*inputs):
    assert os.path.exists('/dev/full'), 'no /dev/full here'
    for data in inputs:
        with tempfile.TemporaryFile() as given, open('/dev/full', 'wb') as device:
            given.write(data)
            given.seek(0)
            said, _ = ended(start(stdin=given, stdout=device))
            one_line(said, b'standard output')


# ---- memory

def constant_memory(first, then):
    """How much the most memory held grows, from one input that makes so many lines to another; what is written."""
    process = start()
    drain = Drain(process)
    say(process, first[0])
    drain.wait_for(first[1])
    before = most_memory(process)
    say(process, then[0])
    drain.wait_for(first[1] + then[1])
    after = most_memory(process)
    process.stdin.close()
    written = drain.all()
    quiet(*ended(process))
    assert after - before < 8 * MEGABYTE, f'it grew by {(after - before) / MEGABYTE:.1f} MB'
    return written
