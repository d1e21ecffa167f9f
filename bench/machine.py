#!/usr/bin/env python3
"""How many instructions a second nrmi makes, beside two interpreters of the real java on the same class files.

Usage: bench/machine.py [--nrmi PROGRAM] [--turns N] [--rounds N]

Two programs are compiled by ecj: IntLoop, a plain loop of int arithmetic, and ObjectLoop, a loop of fields and virtual calls.
nrmi (crates/nrmi/out/nrmi where none is given, which `rt run` builds in crates/nrmi), `java -zero` (an interpreter in C++:
Debian's openjdk-17-jre-zero) and `java -Xint` (one in machine code) run each with N turns and with a tenth of them; the
difference of the processor seconds takes starting off. That is done three times, the machines one after the other in each round.
All have to return the same number, and nrmi has to end within just the steps that are counted here, which the rates are told by.
Printed are the instructions a second, in millions, of each round, and the ratios of the middle ones. The bars are 0.5 of
`java -zero` on the plain loop and 0.8 on objects; one that is missed makes the status 1. A java that isn't there is left out, and
without ecj nothing is run; both are said. Without nrmi it is an error.
"""
import argparse
import os
import statistics
import subprocess
import sys
import tempfile

HERE = os.path.dirname(os.path.abspath(__file__))
sys.path.insert(0, os.path.join(HERE, '..', 'tools'))

import java_side

ZERO, XINT, NRMI = 'java -zero', 'java -Xint', 'nrmi'
SMALL = 1000
GO = '''public class Go {
  public static void main(String[] words) {
    int[] ints = {Integer.parseInt(words[1])};
    System.out.println("result " + (words[0].equals("IntLoop") ? IntLoop.main(ints) : ObjectLoop.main(ints)));
  }
}
'''


class Loop:
    """A program: the instructions of a turn and of all else, counted in its class files, and its bar beside `java -zero`."""

    def __init__(self, name, turn, rest, bar):
        self.name, self.turn, self.rest, self.bar = name, turn, rest, bar

    def steps(self, turns):
        return self.rest + self.turn * turns


# IntLoop, a turn: 10 for the product and the sum, 6 for the difference, 1 for i, 3 for the test. The rest: 9 before, the last
# test, 2 after. ObjectLoop, a turn: 11 in main and 19 in either method. The rest: 4 for the number, 7 and 11 for the objects,
# of which 3 and 6 in their initialisers, 4 for the ring, 5 before the loop, the last test, 13 after.
LOOPS = [Loop('IntLoop', 20, 14, 0.5), Loop('ObjectLoop', 30, 47, 0.8)]


def compiled(room):
    """The folders of the two programs, and the class path that java runs them by."""
    for loop in LOOPS:
        java_side.compile([os.path.join(HERE, loop.name + '.java')], os.path.join(room, loop.name))
    path = [os.path.join(room, loop.name) for loop in LOOPS] + [os.path.join(room, 'go')]
    os.mkdir(path[-1])
    with open(os.path.join(path[-1], 'Go.java'), 'w') as out:
        out.write(GO)
    java_side.compile([os.path.join(path[-1], 'Go.java')], path[-1], *path)
    return ':'.join(path)


def machines(program, room):
    """The machines that are there, each with the command that runs a loop with so many turns."""
    path = compiled(room)
    found = {NRMI: lambda loop, turns: [program, 'run', os.path.join(room, loop.name), loop.name, str(loop.steps(turns)), str(turns)]}
    for name in (ZERO, XINT):
        if java_side.missing('java') or subprocess.run(name.split() + ['-version'], capture_output=True).returncode != 0:
            print('%s is missing: it is left out' % name)
            continue
        found[name] = lambda loop, turns, name=name: name.split() + ['-cp', path, 'Go', loop.name, str(turns)]
    return found


def run(command, room):
    """The processor seconds of a command, and what it printed."""
    place = os.path.join(room, 'printed')
    with open(place, 'w') as out:
        child = subprocess.Popen(command, stdout=out, stderr=out)
        _, status, usage = os.wait4(child.pid, 0)
        child.returncode = os.waitstatus_to_exitcode(status)
    with open(place, errors='replace') as told:
        return usage.ru_utime + usage.ru_stime, told.read().strip()


def check_steps(command, loop, room):
    """Ends the program where nrmi doesn't make just the steps that are counted above."""
    words = command(loop, SMALL)
    exact = run(words, room)[1]
    words[4] = str(loop.steps(SMALL) - 1)
    fewer = run(words, room)[1]
    if not exact.startswith('result ') or fewer != 'nrmi: budget ' + words[4]:
        sys.exit('%s: not %d steps for %d turns: %s; within one fewer: %s' % (loop.name, loop.steps(SMALL), SMALL, exact, fewer))


def rates(loop, found, turns, rounds, room):
    """The instructions a second of each machine in each round."""
    results, told = set(), {name: [] for name in found}
    for _ in range(rounds):
        for name, command in found.items():
            less, _ = run(command(loop, turns // 10), room)
            more, printed = run(command(loop, turns), room)
            results.add(printed)
            told[name].append(loop.turn * (turns - turns // 10) / max(more - less, 1e-6))
    if len(results) != 1 or not printed.startswith('result '):
        sys.exit('%s: the machines differ: %s' % (loop.name, ', '.join(sorted(results))))
    return told


def is_within_bar(loop, told):
    """Prints the rates of a loop and their ratios; whether its bar is kept."""
    middle, kept = {name: statistics.median(its) for name, its in told.items()}, True
    for name, its in told.items():
        print('%-12s%-12s%s millions a second' % (loop.name, name, ' '.join('%8.1f' % (it / 1e6) for it in its)))
    for name in (ZERO, XINT):
        if name in middle:
            ratio = middle[NRMI] / middle[name]
            kept = kept and (name != ZERO or ratio >= loop.bar)
            bar = ', the bar is %.1f%s' % (loop.bar, '' if ratio >= loop.bar else ': MISSED') if name == ZERO else ''
            print('%-12snrmi makes %.2f of %s%s' % (loop.name, ratio, name, bar))
    return kept


def main():
    words = argparse.ArgumentParser(usage=__doc__.split('\n\n')[1][7:])
    words.add_argument('--nrmi', default=os.path.join(java_side.TOP, 'crates', 'nrmi', 'out', 'nrmi'))
    words.add_argument('--turns', type=int, default=30000000)
    words.add_argument('--rounds', type=int, default=3)
    chosen = words.parse_args()
    if java_side.missing('ecj'):
        print('ecj is missing: nothing was run')
        return
    if not java_side.is_there(chosen.nrmi):
        sys.exit('machine: no program at %s' % chosen.nrmi)
    with tempfile.TemporaryDirectory() as room:
        found = machines(os.path.abspath(chosen.nrmi), room)
        for loop in LOOPS:
            check_steps(found[NRMI], loop, room)
        kept = [is_within_bar(loop, rates(loop, found, chosen.turns, chosen.rounds, room)) for loop in LOOPS]
    if not all(kept):
        sys.exit(1)


if __name__ == '__main__':
    main()
