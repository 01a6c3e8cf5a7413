"""Wrong mains of the fitters' program, each with what its proof needs and the test that has to catch it; see wrong.py."""
from wrong import Start, Wrong

WRONG = [
    Wrong('the first rate is left out', 'for i in 2..count {', 'for i in 3..count {', [], 'rate: cases by hand'),
    Wrong('the clock is listed as a rate', 'for i in 2..count {', 'for i in 1..count {', [], 'rate: cases by hand'),
    Wrong('it ends behind the first rate', 'if !write_rate(', 'if write_rate(', [], 'rate: cases by hand'),
    Wrong('the clock alone shows nothing', 'if count == 2 {', 'if count == 1 {', [], 'rate: the clock alone'),
    Wrong('one rate shows the usual ones', 'if count == 2 {', 'if count == 3 {', [], 'rate: cases by hand'),
    Wrong('it does not say how it is used', 'if count < 2 {', 'if count < 1 {', [], 'rate: no words'),
]

MAIN = Start('rate', 'rate', 'main.rt', 'main', 'HostRuntime', WRONG)
