"""Makes what the race needs: the proved program, the plain C program built by the same compiler, and the lines; and counts the instructions of a run."""
import os
import re
import subprocess
import sys

HERE = os.path.dirname(os.path.realpath(__file__))
sys.path.insert(0, os.path.dirname(HERE))
from kit import ROOT, kit, linked, told         # noqa: E402,F401

WORK = os.path.join(ROOT, 'target', 'bench')
TARGET = 'x86_64-unknown-linux-gnu'
CPU = 'x86-64-v2'                           # that for which rt compiles the proved program
MIXES = ('even', 'busy')


def proved(name='frames'):
    """A proved program; its way in proves and links it first, where it has to be."""
    return linked(name)[0]


def plain(name='plain'):
    """A plain C program, by the kit's own compiler and linker."""
    os.makedirs(WORK, exist_ok=True)
    own, program = kit(), os.path.join(WORK, name)
    told(os.path.join(own, 'toolchain', 'bin', 'clang'), '--target=' + TARGET, '-march=' + CPU, '-O3', '-fPIE', '-c',
         os.path.join(HERE, name + '.c'), '-o', program + '.o')
    told(os.path.join(own, 'bin', 'rattle-link'), '--target', TARGET, '--toolchain', os.path.join(own, 'toolchain'),
         '-o', program, program + '.o')
    return program


def lines(mix, count, seed=1):
    """A file of random lines, the same on every machine; its writer is built by the machine's own compiler."""
    os.makedirs(WORK, exist_ok=True)
    writer, name = os.path.join(WORK, 'trace'), os.path.join(WORK, f'{mix}-{count}')
    told('cc', '-O2', '-o', writer, os.path.join(HERE, 'trace.c'))
    with open(name, 'wb') as file:
        subprocess.run([writer, str(count), str(seed), mix], stdin=subprocess.DEVNULL, stdout=file, check=True)
    return name


def programs(words):
    """The two programs that race: the proved one, or the one that is named, and the plain one."""
    if len(words) > 1 or words[:1] == ['--help']:
        sys.exit('usage: one program file to race in place of crates/frames/out/frames, or none')
    return {'proved': os.path.abspath(words[0]) if words else proved(), 'plain C': plain()}


def instructions(program, given, notes):
    """How many instructions a run takes, by valgrind."""
    with open(given, 'rb') as file:
        subprocess.run(['valgrind', '-q', '--tool=callgrind', '--callgrind-out-file=' + notes, program],
                       stdin=file, stdout=subprocess.DEVNULL, check=True)
    with open(notes, encoding='utf-8') as file:
        return int(re.search(r'^(?:summary|totals): (\d+)', file.read(), re.M)[1])
