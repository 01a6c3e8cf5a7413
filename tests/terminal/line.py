"""The kernel's terminal as a reader of characters: pseudo-terminals with the POSIX input modes that settings name, raw otherwise, one or more in a row."""
import contextlib
import os
import pty
import random
import select
import termios

CR, NL = 0x0D, 0x0A
LIMIT = 20                  # seconds without a byte from the terminal
END = b'...this is all'     # no mode alters it, and the characters before it do not hold it

# The data sheet's three bits of a line-ending row, and the POSIX mode that each one is.
MODES = ((1, 'NL gives CR', termios.INLCR), (2, 'CR gives NL', termios.ICRNL), (4, 'CR gives nothing', termios.IGNCR))


def characters(seed):
    """Every byte once, each beside CR, NL and FF, and then random ones that dwell on those; the END last."""
    chance = random.Random(seed)
    told = bytes(range(256))
    told += bytes(b for byte in range(256) for b in (CR, byte, NL, 0xFF, byte, byte, CR, NL, 0xFF))
    often = (CR, NL, 0xFF, CR | 0x80, NL | 0x80, 0x7F, 0x00, 0x11, 0x13, 0x16)
    told += bytes(chance.choice(often) if chance.random() < 0.6 else chance.randrange(256) for _ in range(1500))
    return told + END


def input_modes(endings, strip, mark):
    modes = sum(mode for bit, _, mode in MODES if endings & bit)
    return modes | (termios.ISTRIP if strip else 0) | (termios.PARMRK if mark else 0)


def raw_but_for(terminal, wanted):
    """Sets the input modes, and nothing else: no output modes, no line editing, eight bits, no parity."""
    modes = termios.tcgetattr(terminal)
    modes[0], modes[1], modes[3] = wanted, 0, 0
    modes[2] = modes[2] & ~(termios.CSIZE | termios.PARENB) | termios.CS8 | termios.CREAD
    modes[6][termios.VMIN], modes[6][termios.VTIME] = 1, 0
    termios.tcsetattr(terminal, termios.TCSANOW, modes)
    if termios.tcgetattr(terminal)[0] != wanted:
        raise AssertionError(f'the terminal does not take the input modes {wanted:#o}')


@contextlib.contextmanager
def terminals(modes):
    """Pseudo-terminals with these input modes, each by the line's end and the reader's."""
    pairs = []
    try:
        for wanted in modes:
            pairs.append(pty.openpty())
            raw_but_for(pairs[-1][1], wanted)
        yield pairs
    finally:
        for end in (end for pair in pairs for end in pair):
            os.close(end)


def through(modes, sent):
    """What the last reader gets of the characters sent into the first of the terminals in a row; each other reader sends on what it gets."""
    with terminals(modes) as pairs:
        lines, readers = zip(*pairs)
        onward = dict(zip(readers, lines[1:]))
        got, at = b'', 0
        while not got.endswith(END):
            at += os.write(lines[0], sent[at:at + 64]) if at < len(sent) else 0
            ready = select.select(readers, [], [], 0 if at < len(sent) else LIMIT)[0]
            if at == len(sent) and not ready:
                raise AssertionError(f'the terminal gave no end within {LIMIT} s; last {got[-40:]!r}')
            for reader in ready:
                here = os.read(reader, 4096)
                if reader in onward:
                    os.write(onward[reader], here)
                else:
                    got += here
        return got
