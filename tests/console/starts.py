"""Wrong starts of the frame program, each with what its proof needs and the test that has to catch it; see wrong.py."""
from wrong import Start, Wrong

CARRIED = 'Some(next) => carried = next,'

# where it begins otherwise, there is something else to prove
BEGINS = [('Answers.antt', 'use Rattle.std.proofs.Common.{refl, rules}', 'use Rattle.std.proofs.Common.{refl, rules, arith}'),
          ('Answers.antt', 'fits = fresh_fits;',
           'fits = record { digits = omega arith; last = omega arith; room = fresh_fits.room; bytes = fresh_fits.bytes };')]

# where the last piece is not served, nothing is to be proved of its bounds
UNSERVED = [('Answers.antt', '''pub slice_bounds-piece-end-in-Some-Last : goal.slice_bounds-piece-end-in-Some-Last
slice_bounds-piece-end-in-Some-Last g c = (c.next_piece.ensures.last c.in-Some-Last.n (search rules)).0
''', '')]

WRONG = [
    Wrong('the first line does not begin empty', 'digits: 0, last: 0', 'digits: 1, last: 0', BEGINS, 'dialogue on a pipe'),
    Wrong('the card is not carried from piece to piece', CARRIED,
          'Some(next) => carried = Carried { card: carried.card, line: next.line },', [], 'dialogue on a pipe'),
    Wrong('the line so far is not carried from piece to piece', CARRIED,
          'Some(next) => carried = Carried { card: next.card, line: LineSoFar { digits: 0, last: 0 } },',
          [], 'half a line waits, whole ones are answered'),
    Wrong('the last byte of a piece of odd length is not handed over', 'match answer(rt, carried, &piece[..n],', 'match answer(rt, carried, &piece[..n - n % 2],',
          [], 'empty input, lone newlines, unfinished lines'),
    Wrong('a last line without its newline is not served', 'let _ = answer(rt, carried, &piece[..n], &mut frame, &mut page);', 'let _ = n;',
          UNSERVED, 'empty input, lone newlines, unfinished lines'),
    Wrong('only a thousand pieces are read', '0..u64::MAX', '0..1000u64', [], 'the longer trace in pieces of 7'),
]

START = Start('frames', 'shell', 'lib.rt', 'start', '&(impl Input + Print + Eprint)', WRONG)
