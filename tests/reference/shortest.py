"""The shortest trace that shows a difference."""
import contextlib
import time

PATIENCE = 60           # the seconds after which shortest_stream leaves out no more: what needs thousands of confirmations would take it hours
NUMBER = 'there is another number of answers than of cases'


def lines_of(data):
    """The lines, and whether the last one has its newline."""
    lines = data.split(b'\n')
    return (lines[:-1], True) if lines[-1] == b'' else (lines, False)


def shown(line, limit=200):
    """A line as a person reads it: bytes that are no text as escapes, and a long line by its start."""
    text = repr(line)[2:-1]
    return text if len(text) <= limit else f'{text[:limit]}... ({len(line)} bytes)'


def reduced(parts, still):
    """Leaves out parts, in ever smaller runs, as long as what is left still shows it: in the end each single one is needed."""
    size = max(1, len(parts) // 2)
    while True:
        before, at = len(parts), 0
        while at < len(parts):
            fewer = parts[:at] + parts[at + size:]
            if still(fewer):
                parts = fewer
            else:
                at += size
        if size == 1 and len(parts) == before:
            return parts
        size = max(1, size // 2)


def shortest_trace(data, asked, answering):
    """The frames that are left, each with the program's answer and the reference's."""
    lines, ended = lines_of(data)

    def joined(some):
        return b''.join(line + b'\n' for line in some) if ended else b'\n'.join(some)

    def differs(some):
        return asked(joined(some)) != answering(joined(some))

    ours, theirs = (lines_of(answer(data))[0] for answer in (asked, answering))
    first = next((at for at, (one, other) in enumerate(zip(ours, theirs)) if one != other), min(len(ours), len(theirs)))
    if differs(lines[:first + 1]):
        lines = lines[:first + 1]
    lines = reduced(lines, differs)
    ours, theirs = (lines_of(answer(joined(lines)))[0] for answer in (asked, answering))
    yield f'{len(lines)} lines are left of the trace; the line, the program\'s answer, the reference\'s:'
    for at, line in enumerate(lines):
        one, other = (shown(answers[at]) if at < len(answers) else '(nothing)' for answers in (ours, theirs))
        yield f'{shown(line)}  {one}  {other}' + ('  <--' if one != other else '')


def first_case(cases, ours, theirs):
    """The first case with other answers, and both of them; none where there is only another number of answers."""
    lines = zip(*(lines_of(text)[0] for text in (cases, ours, theirs)))
    return next((found for found in lines if found[1] != found[2]), None)


def shown_case(cases, ours, theirs, *_):
    """Its first difference, as it stands."""
    found = first_case(cases, ours, theirs)
    yield '{}: the program {}, the reference {}'.format(*map(bytes.decode, found)) if found else NUMBER


def shortest_case(cases, ours, theirs, asked, answering):
    """One stream behind the lengths of what is lent: its first difference, with bytes left out as long as the answers differ."""
    found = first_case(cases, ours, theirs)
    if found is None:
        yield NUMBER
        return
    case = found[0]
    *lengths, digits = case.split(b' ')
    stream = [digits[at:at + 2] for at in range(0, len(digits), 2)] if digits != b'-' else []

    def words(some):
        return b' '.join((*lengths, b''.join(some) or b'-')) + b'\n'

    stream = reduced(stream, lambda some: asked(words(some)) != answering(words(some)))
    yield f'{words(stream).decode().strip()}: the program {asked(words(stream)).decode().strip()}, the reference {answering(words(stream)).decode().strip()}'


def shortest_stream(stream, asked, answering):
    """A stream by itself, with bytes left out as long as what is written differs: the shortest one that was found in time."""
    found, end = [stream], time.monotonic() + PATIENCE

    def differs(some):
        if time.monotonic() > end:
            raise TimeoutError
        if asked(some) == answering(some):
            return False
        found[:] = [some]
        return True

    with contextlib.suppress(TimeoutError):
        reduced(stream, differs)
    digits, ours, theirs = found[0].hex().upper() or '-', asked(found[0]), answering(found[0])
    yield f'{shown(digits.encode())}: the program {shown(ours)}, the reference {shown(theirs)}'
