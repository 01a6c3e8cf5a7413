"""02 h, "Two boxes in a row", by the kernel: two pseudo-terminals in a row for every pair of line-ending settings, and one for each single setting.

Which single setting does the work of both is found by what the terminals' readers get, the least first; it is held against what './papergrotto endings'
says of the pair and has in its table. Where there is none, a lone NL has to show it of all eight.
"""
import subprocess

from line import END, NL, characters, input_modes, through

SETTINGS = range(8)
SEED = 64               # of the characters that go through the terminals; those of 'run' have lower ones


def got(*settings, sent):
    """What the last reader gets where each box in the row has one of these settings, and is raw otherwise."""
    return through([input_modes(setting, strip=0, mark=0) for setting in settings], sent)


def said(program, *words):
    ran = subprocess.run([*program, *words], stdin=subprocess.DEVNULL, capture_output=True, check=True)
    if ran.stderr:
        raise AssertionError(f'it says {ran.stderr.decode()!r}')
    return ran.stdout.decode()


def table_of(program):
    """The program's table: what it has for each pair, by a line for each first box and a column for each second."""
    head, *lines = said(program).splitlines()
    if head.split() != [str(setting) for setting in SETTINGS] or [line.split()[0] for line in lines] != head.split():
        raise AssertionError(f'the table has the head line {head!r} and the lines {[line[:1] for line in lines]}')
    return {(first, second): answer for first, line in enumerate(lines) for second, answer in enumerate(line.split()[1:])}


class Kernel:
    """What the terminals do."""

    def __init__(self):
        self.sent, self.lone = characters(SEED), bytes([NL]) + END
        self.single = [got(setting, sent=self.sent) for setting in SETTINGS]
        self.single_lone = [got(setting, sent=self.lone) for setting in SETTINGS]

    def both(self, first, second):
        """The single setting of a pair as the program writes it, or 'none'; and what is not as it should be."""
        row = got(first, second, sent=self.sent)
        does = [setting for setting in SETTINGS if self.single[setting] == row]
        if does:
            return str(does[0]), ''
        lone = got(first, second, sent=self.lone)
        return 'none', 'a lone NL does not show it' if lone in self.single_lone else ''

    def settled(self):
        """Which settings change nothing more when used twice."""
        return [setting for setting in SETTINGS if got(setting, setting, sent=self.sent) == self.single[setting]]


def fault(program, table, kernel, first, second):
    """In what program and terminals differ for a pair; nothing where they agree."""
    wanted, wrong = kernel.both(first, second)
    answer = said(program, str(first), str(second))
    if wrong or answer != wanted + '\n' or table.get((first, second)) != wanted.replace('none', '-'):
        return wrong or f'the terminals have {wanted}, the program {answer!r}, its table {table.get((first, second))!r}'
    return ''


def faults(program):
    """For each pair, and for 'used twice', its name and its fault."""
    kernel, table = Kernel(), table_of(program)
    for first in SETTINGS:
        for second in SETTINGS:
            yield f'endings {first} followed by {second}', fault(program, table, kernel, first, second)
    # 0 leaves every list as it is, so its line of the table has the least setting that acts as each
    settled = [setting for setting in SETTINGS if table[setting, setting] == table[0, setting]]
    yield 'endings used twice', '' if kernel.settled() == settled else f'the terminals settle {kernel.settled()}, the table {settled}'
