"""Wrong mains of the yield sheet's program, each with what its proof needs and the test that has to catch it; see wrong.py."""
from wrong import Start, Wrong

LIST = 'carried = list(&rt, carried, &piece[..n], &mut page),'


def made(arms):
    """What is carried on is made of what `list` answers."""
    return LIST.replace('carried = ', 'carried = match ', 1).removesuffix(',') + ' { ' + arms + ', next => next },'


WRONG = [
    Wrong('it begins behind an FF', 'Carried::Open(Search::beginning())',
          'Carried::Open(Search { part: finding::PartRead::Mark, ..Search::beginning() })', [], 'sheet: dialogue on a pipe'),
    Wrong('the search is not carried from piece to piece', LIST, made('Carried::Open(_) => Carried::Open(Search::beginning())'),
          [], 'sheet: dialogue on a pipe'),
    Wrong('an FF at the end of a piece is forgotten', LIST,
          made('Carried::Open(search) => Carried::Open(Search { part: finding::PartRead::Nothing, ..search })'),
          [], 'sheet: an FF at the end of a piece waits'),
    Wrong('the last byte of a piece is not handed over', LIST, LIST.replace('..n', '..n - 1'), [], 'sheet: ends of input'),
    Wrong('only a thousand pieces are read', 'for _ in 0..u64::MAX {', 'for _ in 0..1000 {', [], 'sheet: a random stream in pieces of 7'),
    Wrong('there is no last line', 'close(&rt, carried, &mut page);', '', [], 'sheet: dialogue on a pipe'),
    Wrong('the last line is written where the input failed too', 'None => return,',
          'None => {\n                close(&rt, carried, &mut page);\n                return;\n            }',
          [], 'sheet: a read error after a confirmation and a half'),
    Wrong('it goes on behind a broken FF', LIST, made('Carried::Over(search) => Carried::Open(search)'),
          [], 'sheet: a broken FF ends it at once, its input still open'),
    Wrong('it goes on where the output is closed', LIST, made('Carried::Closed(search) => Carried::Open(search)'),
          [], 'sheet: closed output, waiting for a confirmation, SIGPIPE ignored'),
]

MAIN = Start('confirmations', 'confirmations', 'main.rt', 'main', 'HostRuntime', WRONG)
