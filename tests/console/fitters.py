"""Tests of the fitters' program: a clock and rates as words, a line for each rate out.

What is wanted is written here by hand, or it is the reference's.
"""
import os
import subprocess
import tempfile

import kit
import words
import wrong
from both import CLOSED, ignore, one_line, quiet, same
from talk import answer, ended, start, whole

COMMAND = [kit.FRAMES[0], 'rate']
LONGEST = 131071        # bytes of the longest word that Linux hands to a program, where a page has 4096

# 25 MHz, for the usual rates; those of the data sheet's table are as it has them
USUAL = b'''50 2048 244 +576
75 2048 163 -1469
110 2048 111 -243
150 2048 81 +4693
300 512 163 -1469
600 512 81 +4693
1200 128 163 -1469
1800 128 109 -4523
2400 128 81 +4693
3600 32 217 +64
4800 32 163 -1469
7200 32 109 -4523
9600 32 81 +4693
14400 8 217 +64
19200 8 163 -1469
28800 8 109 -4523
38400 8 81 +4693
57600 8 54 +4693
115200 8 27 +4693
230400 refused 13
'''
CASES = [
    (('25000000', '9600'), b'9600 32 81 +4693\n'),
    (('25000000', '9600', '19200', '9600'), b'9600 32 81 +4693\n19200 8 163 -1469\n9600 32 81 +4693\n'),
    (('20275200', '9600', '230400'), b'9600 32 66 0\n230400 8 11 0\n'),
    (('60000000', '230400', '112', '113'), b'230400 8 33 -13573\n112 refused 13\n113 2048 255 +16723\n'),
    (('60000001', '9600'), b'9600 refused 12\n'),
    (('999999', '9600', '9600'), b'9600 refused 12\n' * 2),
    (('25000000', '0', '1', '230401', '4294967295', '4294967296', '4294976896', '18446744073709561216'),
     b'0 refused 12\n1 refused 13\n230401 refused 12\n4294967295 refused 12\n4294967296 refused 12\n4294976896 refused 12\n'
     b'18446744073709561216 refused 12\n'),
    (('25000000', '', '+9600', '-9600', ' 9600', '9600 ', '9600\n', '96O0', '0x2580', '9.6e3', '/', ':', '09600'),
     b' refused 12\n+9600 refused 12\n-9600 refused 12\n 9600 refused 12\n9600  refused 12\n9600\n refused 12\n96O0 refused 12\n'
     b'0x2580 refused 12\n9.6e3 refused 12\n/ refused 12\n: refused 12\n09600 32 81 +4693\n'),
    (('25MHz', '9600', 'x'), b'9600 refused 12\nx refused 12\n'),
    (('', '9600'), b'9600 refused 12\n'),
    (('0025000000', '9600'), b'9600 32 81 +4693\n'),
    ((b'25000000', b'\xff\x01'), b'\xff\x01 refused 12\n'),
]


def writes(arguments, wanted):
    written, said, status = whole(b'', arguments=arguments)
    quiet(said, status)
    same(written, wanted, f'the lines for {arguments[:3]}')


def cases():
    for arguments, wanted in CASES:
        writes(arguments, wanted)


def usual_rates():
    writes(('25000000',), USUAL)
    writes(('25000000', *(line.split()[0] for line in USUAL.decode().splitlines())), USUAL)
    writes(('no clock',), b''.join(line.split()[0] + b' refused 12\n' for line in USUAL.splitlines()))


def says_how_it_is_used():
    written, said, status = whole(b'9600\n')
    same(written, b'', 'standard output')
    assert status == 0 and said.startswith(b'usage: rate CLOCK [RATE...]\n') and said.endswith(b'\n'), f'it said {said!r}, status {status}'


def longest_words():
    """ "printed as it came" """
    zeros, letters = '9600'.rjust(LONGEST, '0'), 'x' * LONGEST
    writes(('25000000', zeros, letters, '9600'), f'{zeros} 32 81 +4693\n{letters} refused 12\n9600 32 81 +4693\n'.encode())
    writes((zeros.replace('9600', '25000000')[4:], '9600'), b'9600 32 81 +4693\n')


def many_words():
    rates = [str(rate) for rate in range(1, 230400, 41)]
    line = ' '.join(word.encode().hex().upper() for word in ('18432000', *rates))
    writes(('18432000', *rates), bytes.fromhex(kit.answers('rate-lines', line.encode() + b'\n').decode()))


def input_is_not_read():
    """What stands on standard input is left there; and there may be none."""
    with tempfile.TemporaryFile() as given:
        given.write(b'19200\n')
        given.seek(0)
        process = start(stdin=given, arguments=('25000000', '9600'))
        same(answer(process), b'9600 32 81 +4693')
        quiet(*ended(process))
        assert given.tell() == 0, 'it read its standard input'
    process = start(stdin=subprocess.DEVNULL, arguments=('25000000', '9600'), before=lambda: os.close(0))
    same(answer(process), b'9600 32 81 +4693')
    quiet(*ended(process))


def closed_output(ignored):
    """The reader closes after the first line, with many words pending: more than a pipe holds."""
    def test():
        process = start(arguments=('25000000', *['x' * 1000] * 300), before=ignore if ignored else None)
        same(answer(process), b'x' * 1000 + b' refused 12')
        process.stdout.close()
        quiet(*ended(process), CLOSED)
    return test


def full_device():
    assert os.path.exists('/dev/full'), 'no /dev/full here'
    for arguments in (('25000000',), ('25000000', '9600', '19200')):
        with open('/dev/full', 'wb') as device:
            said, _ = ended(start(stdout=device, arguments=arguments))
            one_line(said, b'standard output')


TESTS = [
    ('rate: cases by hand', cases),
    ('rate: the clock alone', usual_rates),
    ('rate: no words', says_how_it_is_used),
    ('rate: the longest words', longest_words),
    ('rate: thousands of words', many_words),
    ('rate: standard input is not read', input_is_not_read),
    ('rate: closed output, words pending', closed_output(False)),
    ('rate: closed output, words pending, SIGPIPE ignored', closed_output(True)),
    ('rate: output to a full device', full_device),
]
TESTS.append(('rate: wrong mains, which are proved, are caught', wrong.caught(words.MAIN, dict(TESTS))))
