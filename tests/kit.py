"""What the tests share: the Rattle kit, the programs as it links them, how C is linked with the proved library, and the reference."""
import functools
import os
import platform
import shutil
import subprocess
import sys

ROOT = os.path.dirname(os.path.dirname(os.path.realpath(__file__)))
FRAMES = [os.path.join(ROOT, 'papergrotto'), 'frames']       # the frame program's command
WORK = os.path.join(ROOT, 'target', 'tests')
HEADERS = os.path.join(ROOT, 'include')
LIBRARY = os.path.join(ROOT, 'crates', 'papergrotto', 'out', 'libpapergrotto.a')

if not __debug__:
    sys.exit('the tests tell what is wrong by assert, so they are not run with -O or PYTHONOPTIMIZE')


def told(*command, cwd=ROOT, **words):
    """What a command writes; where it fails, what it said, and the end."""
    ran = subprocess.run(command, stdin=subprocess.DEVNULL, capture_output=True, check=False, cwd=cwd, **words)
    if ran.returncode != 0:
        sys.exit(f'{" ".join(command)} failed:\n{ran.stdout.decode()}{ran.stderr.decode()}')
    return ran.stdout.decode().strip()


def content(name):
    """What a file of the repository has."""
    with open(os.path.join(ROOT, name), 'rb') as file:
        return file.read()


def lines_in(data):
    """How many lines there are; a last one without its newline counts."""
    return data.count(b'\n') + (data[-1:] not in (b'', b'\n'))


def case(program):
    """What a program is run on, and what it must write: an answer for each line, and not none."""
    given, wanted = (content(f'crates/{program}/{name}') for name in ('stdin', 'stdout'))
    if not 0 < lines_in(given) == lines_in(wanted):
        sys.exit(f'crates/{program} has {lines_in(wanted)} answers to {lines_in(given)} lines')
    return given, wanted


def kit():
    """The kit's folder: rt doc answers KIT/START-HERE.md."""
    return os.path.dirname(told('rt', 'doc'))


def linked(name):
    """The words that start a program of the repository without its way in, which proves and links it first. It starts as any program of x86-64."""
    told(FRAMES[0], name)
    return [os.path.join(ROOT, 'crates', name, 'out', name)]


def sources():
    """All files of the crates but for what rt makes of them, in out/."""
    for folder, folders, names in os.walk(os.path.join(ROOT, 'crates')):
        if os.path.basename(os.path.dirname(folder)) == 'crates' and 'out' in folders:
            folders.remove('out')
        yield from (os.path.join(folder, name) for name in names)


def library():
    """The proved static library; it is proved and written first, unless it is newer than all that it is made of."""
    if not os.path.exists(LIBRARY) or max(map(os.path.getmtime, sources())) > os.path.getmtime(LIBRARY):
        told('rt', 'lib', cwd=os.path.join(ROOT, 'crates', 'papergrotto'))
    return LIBRARY


def c_compiler():
    """A C compiler for x86-64: the machine's own, or the cross compiler."""
    own = ['cc'] if platform.machine() == 'x86_64' else []
    for name in own + ['x86_64-linux-gnu-gcc']:
        if shutil.which(name):
            return name
    sys.exit('no C compiler for x86-64: Debian has it in the package gcc-x86-64-linux-gnu')


def c_program(source, headers=HEADERS):
    """Builds a C file with the header and the library; the words that run it."""
    os.makedirs(WORK, exist_ok=True)
    program = os.path.join(WORK, os.path.basename(source)[:-len('.c')])
    told(c_compiler(), '-std=c11', '-O2', '-Wall', '-Wextra', '-Werror', '-I', headers, '-static', '-o', program,
         os.path.join(ROOT, source), library())
    return [program]


# the reference: the second implementation of the paper, in tests/reference
BUILT = os.path.join(ROOT, 'target', 'reference')
CARGO = '--release', '--offline', '--manifest-path', os.path.join(ROOT, 'tests', 'reference', 'Cargo.toml'), '--target-dir', BUILT


@functools.cache
def reference_program():
    """The reference, built by cargo; nothing comes from a registry."""
    told('cargo', 'build', *CARGO)
    return os.path.join(BUILT, 'release', 'reference')


def reference(*words, given=b''):
    """What the reference writes. Where it fails there is nothing to compare with: what it said is on standard error, and this is the end."""
    ran = subprocess.run([reference_program(), *map(str, words)], input=given, stdout=subprocess.PIPE, check=False)
    if ran.returncode != 0:
        sys.exit(f'the reference failed: {" ".join(map(str, words))} ended with status {ran.returncode}')
    return ran.stdout


def generated(*words):
    """A random trace, as of ('generate', 'mixed', SEED, LINES), with as many lines as the last word asks for."""
    trace = reference(*words)
    if lines_in(trace) != words[-1]:
        sys.exit(f'the reference failed: {" ".join(map(str, words))} gave {lines_in(trace)} lines')
    return trace


def answers(form, trace):
    """What the reference answers, in the form 'frames', 'reads', 'stream', 'confirmations', 'rates', 'rate-lines', 'one-ending' or 'ending-lines': a line for each line."""
    written = reference(form, given=trace)
    if written.count(b'\n') != lines_in(trace):
        sys.exit(f'the reference failed: {form} gave {lines_in(written)} answers to {lines_in(trace)} lines')
    return written
