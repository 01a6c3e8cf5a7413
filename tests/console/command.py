"""Tests of ./papergrotto itself, in a repository of a few small crates, with a stand-in for rt that says what a test has it say."""
import os
import shutil
import subprocess
import tempfile

import kit

TOOLS = 'awk cat chmod cp dirname find grep mkdir readlink rm sed sh sha256sum sleep sort wc'.split()
FILES = {
    'crates.txt': '# name: what it stands on\nbase:\nmiddle staticlib: base\necho status=0: middle io\napart: base\ncase: middle\n',
    'crates/base/src/lib.rt': '',
    'crates/base/must-fail/wrong.edit': '',
    'crates/base/out/kept': '',
    'crates/middle/src/lib.rt': '',
    'crates/apart/src/lib.rt': '',
    'crates/echo/src/main.rt': '// Program: gives back what it reads.\n',
    'crates/case/src/main.rt': '// Test case: gives back what it reads.\n',
    'program': '#!/bin/sh\ncat\n',
    # as rt does, it runs the program that it has linked; while there is a file 'hold' it waits, 10 s at most
    'bin/rt': '''#!/bin/sh
top=$(dirname "$0")/..
[ "$*" = run ] || exit 9
cat "$top/said" >&2
tries=0
while [ -e "$top/hold" ] && [ "$((tries += 1))" -le 100 ]; do sleep 0.1; done
rm -f "$top/hold"
[ "$(cat "$top/status")" = 0 ] || exit "$(cat "$top/status")"
mkdir -p out && cp "$top/program" out/"${PWD##*/}" && chmod +x out/"${PWD##*/}" || exit 9
echo "rt: running out/${PWD##*/}; to give it other input, run that file yourself" >&2
exec out/"${PWD##*/}"
''',
}
LIST = 'usage: papergrotto PROGRAM [WORD...] < INPUT\n  echo          gives back what it reads.\n'
FIRST = 'papergrotto: proving and linking echo first; crates: 3\n'
# what rt says of a crate, beside what stands in the place of the dots
PROVED = '''rt: chose --jobs 2 for {0}
fn {0}::f: proved
logic /opt/rattle/logic/antt-project.json: libraries=16 files=2756
library base: modules loaded=16 checked=0
statements std: modules loaded=21 checked=0
crate {0}: modules loaded=0 checked=33
logic=proved functions=1 native=nat,char,string
'''
NOT_PROVED = '''rt: chose --jobs 2 for middle
note: what the function ensures is not proved
fn middle::f: no proof
logic /opt/rattle/logic/antt-project.json: libraries=16 files=2756
crate middle: modules loaded=0 checked=33
logic=not-proved
rattle build: nothing was built, since only a proved crate is built
statements std: modules loaded=0 checked=0
only=0 proved=0
rt: the library middle did not build, so nothing above it was checked
'''
SHOWN = '''rt: chose --jobs 2 for middle
note: what the function ensures is not proved
fn middle::f: no proof
logic=not-proved
rattle build: nothing was built, since only a proved crate is built
rt: the library middle did not build, so nothing above it was checked
'''


class Repository:
    """The small repository and its command."""

    def __init__(self, folder):
        self.folder = folder
        for name, text in FILES.items():
            self.write(name, text)
        for tool in TOOLS:
            os.symlink(shutil.which(tool), os.path.join(folder, 'bin', tool))
        shutil.copy(kit.FRAMES[0], folder)
        self.rt_says(PROVED.format('middle') + PROVED.format('echo') + 'linked target=x86_64-unknown-linux-gnu\n', 0)

    def write(self, name, text):
        path = os.path.join(self.folder, name)
        os.makedirs(os.path.dirname(path), exist_ok=True)
        with open(path, 'w', encoding='utf-8') as file:
            file.write(text)
        os.chmod(path, 0o755)

    def rt_says(self, text, status):
        self.write('said', text)
        self.write('status', str(status))

    def started(self, *words):
        """The command, started in another folder."""
        return subprocess.Popen([os.path.join(self.folder, 'papergrotto'), *words], cwd='/', env={'PATH': os.path.join(self.folder, 'bin')},
                                stdin=subprocess.PIPE, stdout=subprocess.PIPE, stderr=subprocess.PIPE)

    def gives(self, *words, given='', written='', said='', status=0):
        """What the command writes and says, and its status."""
        process = self.started(*words)
        found = *process.communicate(given.encode('latin-1')), process.returncode
        wanted = written.encode('latin-1'), said.encode(), status
        assert found == wanted, f'papergrotto {" ".join(words)} gave {found}, not {wanted}'


def lists(repository):
    os.remove(os.path.join(repository.folder, 'bin', 'rt'))
    repository.gives(written=LIST)
    for name in ('nothing', 'case', 'middle', '../echo', '-e'):
        repository.gives(name, said=f'papergrotto: there is no program {name}\n' + LIST, status=2)
    repository.gives('echo', said='papergrotto: no rt on the path; it is in the bin folder of the Rattle kit\n', status=2)


def proves_first(repository):
    """Once, and again after a change in what the program is made of; its input is its own."""
    every = ''.join(map(chr, range(256)))
    said = FIRST + 'papergrotto: proved 1 of at most 3: middle\npapergrotto: proved 2 of at most 3: echo\n'
    repository.gives('echo', given=every, written=every, said=said)
    repository.gives('echo', given=every, written=every)
    for name in ('crates/apart/src/lib.rt', 'crates/base/must-fail/wrong.edit', 'crates/base/out/kept'):
        repository.write(name, 'altered')
    repository.gives('echo', given=every, written=every)
    for name in ('crates/base/src/lib.rt', 'crates/echo/stdin', 'crates/echo/out/echo'):
        repository.write(name, '#!/bin/sh\necho altered\n')
        repository.gives('echo', given=every, written=every, said=said)
    os.remove(os.path.join(repository.folder, 'crates', 'echo', 'out', 'echo'))
    repository.gives('echo', given=every, written=every, said=said)


def hands_on_its_words(repository):
    """To the program, as they came."""
    repository.write('program', '#!/bin/sh\nfor word; do echo "<$word>"; done\n')
    repository.rt_says('', 0)
    repository.gives('echo', 'one', '', '-h', 'two words', '*', said=FIRST, written='<one>\n<>\n<-h>\n<two words>\n<*>\n')


def says_as_it_comes(repository):
    repository.write('hold', '')
    process = repository.started('echo')
    said = [process.stderr.readline() for _ in range(3)]
    assert said[2] == b'papergrotto: proved 2 of at most 3: echo\n', said
    os.remove(os.path.join(repository.folder, 'hold'))      # it is gone where rt waited in vain
    process.communicate()


def shows_what_is_not_proved(repository):
    repository.rt_says(PROVED.format('base') + NOT_PROVED, 1)
    for _ in range(2):
        repository.gives('echo', given='unread', status=2, said=FIRST + 'papergrotto: proved 1 of at most 3: base\n' + SHOWN
                         + 'papergrotto: \'rt run\' in crates/echo did not link it, so echo is not run\n')


def ends_as_the_program(repository):
    """What it says and its status are the program's; of the run by which rt ends nothing is shown, and its status is of no interest."""
    repository.write('program', '#!/bin/sh\necho written\necho said >&2\nexit 3\n')
    repository.rt_says('', 0)
    repository.gives('echo', written='written\n', said=FIRST + 'said\n', status=3)
    repository.gives('echo', written='written\n', said='said\n', status=3)


def in_a_repository(test):
    def run():
        with tempfile.TemporaryDirectory() as folder:
            test(Repository(folder))
    return run


TESTS = [
    ('papergrotto lists the programs, and refuses what is none', in_a_repository(lists)),
    ('papergrotto proves a program first, and where it changed', in_a_repository(proves_first)),
    ('papergrotto hands its words on to the program', in_a_repository(hands_on_its_words)),
    ('papergrotto says how far it has come while rt still runs', in_a_repository(says_as_it_comes)),
    ('papergrotto shows what is not proved, and runs nothing', in_a_repository(shows_what_is_not_proved)),
    ('papergrotto ends as the program does', in_a_repository(ends_as_the_program)),
]
