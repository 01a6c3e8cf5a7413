"""Wrong starts of a program, each of which a test of the console has to catch.

No contract can say what is read and written, so a start that forgets what is to be carried between two pieces of the input is proved like the
right one, and only a run tells them apart. Here a copy of the repository has wrong starts beside the right one, all proved, and its program begins
with the one that a variable of the environment says.
"""
import os
import re
import shutil
import subprocess
import tempfile
import typing

import kit
import talk

CHOICE = 'WRONG_START'      # as many letters as the number of the wrong start; without it the right one begins


class Wrong(typing.NamedTuple):
    """What is wrong, a text of the start, what stands in its place, what else the proof needs, and the test that has to fail."""
    what: str
    old: str
    new: str
    needs: list         # of files of the start's proof: the file, a text, what stands in its place
    test: str


class Start(typing.NamedTuple):
    """The function with which a program begins: it has no contract, answers nothing, and stands last in its file."""
    program: str
    crate: str
    source: str
    name: str
    rt: str             # the type of what it takes
    wrong: list


def edited(text, *edits):
    for old, new in edits:
        assert text.count(old) == 1, f'this does not stand once: {old}'
        text = text.replace(old, new)
    return text


def content(*path):
    with open(os.path.join(*path), encoding='utf-8') as file:
        return file.read()


def write(text, *path):
    os.makedirs(os.path.join(*path[:-1]), exist_ok=True)
    with open(os.path.join(*path), 'w', encoding='utf-8') as file:
        file.write(text)


def chooser(start, path, given):
    """The program's main: start_1 for one letter, start_2 for two, and so on; the right one for none."""
    choices = ''.join(f'        Ok({number}) => {path}start_{number}({given}),\n' for number in range(1, len(start.wrong) + 1))
    return f'''fn main(rt: HostRuntime) {{
    let mut choice = [0u8; 100];
    match std::env::Env::var(&rt, "{CHOICE}", &mut choice) {{
{choices}        _ => {path}start_0({given}),
    }}
}}
'''


def add_wrong_starts(start, crates):
    """In the place of the right start, start_0, which is the same, and start_1, start_2, ..., each with its proof."""
    name, folder = start.name, os.path.join(crates, start.crate)
    proofs = os.path.join(folder, 'proofs', name)
    proof = {file: content(proofs, file) for file in sorted(os.listdir(proofs))} if os.path.isdir(proofs) else {}
    shutil.rmtree(proofs, ignore_errors=True)
    text = content(folder, 'src', start.source)
    head = re.search(rf'^((?:#\[[^\n]*\]\n)*)(?:pub )?fn {name}\(rt: {re.escape(start.rt)}\) \{{', text, re.M)
    assert head, f'no function {name} that takes {start.rt}'
    right, text = text[head.end():], text[:head.start()]
    for number, wrong in enumerate([None, *start.wrong]):
        text += f'{head[1]}pub fn start_{number}(rt: {start.rt}) {{' + (edited(right, (wrong.old, wrong.new)) if wrong else right) + '\n'
        for file, lines in proof.items():
            needs = [(old, new) for where, old, new in (wrong.needs if wrong else []) if where == file]
            write(re.sub(rf'\bproofs\.{name}\.', f'proofs.start_{number}.', edited(lines, *needs)), folder, 'proofs', f'start_{number}', file)
    if start.crate == start.program:
        text += chooser(start, '', 'rt')
    else:
        write('#![tactic(auto)]\n\n' + chooser(start, f'{start.crate}::', '&rt'), crates, start.program, 'src', 'main.rt')
    write(text, folder, 'src', start.source)


def copied(folder, program):
    """A copy of the crates that a program stands on. What rt kept of them on this machine serves there too: what is not altered is not proved again."""
    listed = {line.partition(':')[0].split()[0]: line.partition(':')[2].split() for line in kit.content('crates.txt').decode().splitlines()
              if ':' in line.partition('#')[0]}
    wanted = [program]
    for crate in wanted:
        wanted += [below for below in listed[crate] if below in listed and below not in wanted]
        shutil.copytree(os.path.join(kit.ROOT, 'crates', crate), os.path.join(folder, 'crates', crate), ignore=shutil.ignore_patterns('must-fail', 'out'))
    write(''.join(f'{crate}: {" ".join(listed[crate])}\n' for crate in wanted), folder, 'crates.txt')


def linked(start, folder):
    """The program with all its starts; what it shares with the right one is not proved again."""
    kit.told(kit.FRAMES[0], start.program)
    copied(folder, start.program)
    add_wrong_starts(start, os.path.join(folder, 'crates'))
    inside = os.path.join(folder, 'crates', start.program)
    ran = subprocess.run(['rt', 'run'], cwd=inside, stdin=subprocess.DEVNULL, stdout=subprocess.DEVNULL, stderr=subprocess.PIPE, check=False)
    said = ran.stderr.decode()
    wrong = [line[:300] for line in said.splitlines() if re.search(r'error|not proved|no proof|did not build', line)]
    # it runs what it has linked, on no input
    assert 'rt: running out/' in said, f'the wrong starts are not proved: {wrong or said[-3000:]}'
    return os.path.join(inside, 'out', start.program)


def failure(test):
    """Why a test fails; empty where it passes."""
    try:
        test()
    except (AssertionError, OSError) as reason:
        return repr(reason)
    finally:
        talk.end_all()
    return ''


def caught(start, tests):
    """The test of all wrong starts by these tests, which pass with the right start, in the same program: so it is the start that they catch."""
    def test():
        command = talk.command[:]
        with tempfile.TemporaryDirectory() as folder:
            program = linked(start, folder)
            try:
                for number, wrong in enumerate(start.wrong, 1):
                    talk.command[:] = [program]
                    reason = failure(tests[wrong.test])
                    assert not reason, f'it fails with the right start too: {wrong.test}: {reason}'
                    talk.command[:] = ['env', f'{CHOICE}={"x" * number}', program]
                    assert failure(tests[wrong.test]), f'not caught: {wrong.what}; by the test: {wrong.test}'
                    print(f'caught: {wrong.what}; by the test: {wrong.test}', flush=True)
            finally:
                talk.command[:] = command
    return test
