"""Talking with a program as another program would: starting it, asking it, feeding it in pieces."""
import fcntl
import os
import select
import signal
import struct
import subprocess
import termios
import threading
import time

LIMIT = 20          # seconds for one answer, or for the end of a run that has nothing more to do
BULK = 300          # seconds for a large input

command = []        # what starts the program
started = []        # what this test started, ended after it if need be


def start(stdin=subprocess.PIPE, stdout=subprocess.PIPE, before=None, arguments=()):
    process = subprocess.Popen([*command, *arguments], stdin=stdin, stdout=stdout, stderr=subprocess.PIPE, bufsize=0, preexec_fn=before,
                               start_new_session=True)
    started.append(process)
    return process


def end_all():
    """Ends what a test left running: the processes that it started itself, one by one, each with what it runs: papergrotto may be proving."""
    for process in started:
        if process.poll() is None:
            os.killpg(process.pid, signal.SIGKILL)
        for stream in (process.stdin, process.stdout, process.stderr):
            if stream is not None and not stream.closed:
                stream.close()
        process.wait()
    started.clear()


def whole(data, **words):
    """Everything in one go: what was written, what was said on standard error, and the status."""
    process = start(**words)
    try:
        written, said = process.communicate(data, timeout=BULK)
    except subprocess.TimeoutExpired:
        raise AssertionError(f'still running after {BULK} s') from None
    return written, said, process.returncode


def ended(process, limit=LIMIT):
    """What it said on standard error, and its status; it has to end within the limit."""
    try:
        process.wait(limit)
    except subprocess.TimeoutExpired:
        raise AssertionError(f'still running after {limit} s') from None
    return process.stderr.read(), process.returncode


def answer(process, limit=LIMIT):
    """The next answer line, without its newline; taken byte by byte, so that nothing beyond it is taken."""
    line, until = b'', time.monotonic() + limit
    while not line.endswith(b'\n'):
        left = until - time.monotonic()
        if left <= 0 or not select.select([process.stdout], [], [], left)[0]:
            raise AssertionError(f'no answer within {limit} s')
        byte = os.read(process.stdout.fileno(), 1)
        if not byte:
            raise AssertionError(f'ended instead of answering: {process.stderr.read()!r}')
        line += byte
    return line[:-1]


def say(to, data):
    """Writes all of it, to a file number or a process's standard input."""
    number = to if isinstance(to, int) else to.stdin.fileno()
    while data:
        data = data[os.write(number, data):]


def taken(process, limit=LIMIT):
    """Waits until the program has read all that was written into its pipe."""
    until = time.monotonic() + limit
    for tries in range(1 << 30):
        waiting = struct.unpack('i', fcntl.ioctl(process.stdin.fileno(), termios.FIONREAD, b'\0' * 4))[0]
        if waiting == 0:
            return
        if process.poll() is not None or time.monotonic() > until:
            raise AssertionError(f'{waiting} bytes of the input were not read')
        if tries < 100:
            os.sched_yield()
        else:
            time.sleep(0.0002)


class Drain(threading.Thread):
    """Takes what the program writes, beside the test that feeds it."""

    def __init__(self, process):
        super().__init__(daemon=True)
        self.number, self.pieces, self.lines = process.stdout.fileno(), [], 0
        self.start()

    def run(self):
        while True:
            piece = os.read(self.number, 1 << 16)
            if not piece:
                return
            self.pieces.append(piece)
            self.lines += piece.count(b'\n')

    def wait_for(self, lines, limit=BULK):
        until = time.monotonic() + limit
        while self.lines < lines:
            if time.monotonic() > until:
                raise AssertionError(f'{self.lines} of {lines} answers within {limit} s')
            time.sleep(0.002)

    def all(self):
        self.join(LIMIT)
        if self.is_alive():
            raise AssertionError('its output does not end')
        return b''.join(self.pieces)


def in_pieces(data, size):
    """Feeds the data in pieces, each read by the program before the next is written; what it answers."""
    process = start()
    drain = Drain(process)
    at = 0
    while at < len(data):
        piece = data[at:at + size()]
        say(process, piece)
        taken(process)
        at += len(piece)
    process.stdin.close()
    written = drain.all()
    said, status = ended(process)
    assert (said, status) == (b'', 0), f'said {said!r}, status {status}'
    return written


def most_memory(process):
    """The most memory that the program has held so far, in bytes."""
    with open(f'/proc/{process.pid}/status', encoding='ascii', errors='replace') as file:
        for line in file:
            if line.startswith('VmHWM:'):
                return int(line.split()[1]) * 1024
    raise AssertionError('the machine does not tell a process\'s memory')
