#!/usr/bin/env python3
"""Compiles the examples, runs each one that is a program by nrmi, and compares what it prints with the file beside it.

Usage: examples/run.py [--nrmi PROGRAM] [--make]

The file PACKAGE/MAIN-INT-INT.out holds what both outputs hold for the class MAIN of the package and these numbers: what the program
prints, and then `result N` or the line of the error output. PROGRAM is crates/nrmi/out/nrmi where none is given, which `rt run`
builds in crates/nrmi; without a program it is an error. With --make the real java runs the programs instead, over a stand-in of
the class that prints, and the files are written. Where ecj is missing, or java with --make, it says so and ends well.
"""
import argparse
import os
import sys
import tempfile

sys.path.insert(0, os.path.join(os.path.dirname(os.path.abspath(__file__)), '..', 'tools'))

import java_side

BUDGET = 10000000


def make(runs, room):
    """Writes the files by what java prints."""
    stand = java_side.stand_in(room)
    endings = java_side.by_java([run[1:] for run in runs], java_side.compiled_examples(room), stand, room)
    for (path, _, _), ending in zip(runs, endings):
        with open(path, 'wb') as out:
            out.write(ending.text())
    print('%d files written' % len(runs))


def compare(program, runs, room):
    """How many runs print something else than their file holds."""
    folder, different = java_side.compiled_examples(room), 0
    for path, main, ints in runs:
        package = os.path.join(folder, main.split('/')[0])
        ending = java_side.by_nrmi(program, package, main, BUDGET, ints)
        with open(path, 'rb') as wanted:
            same = wanted.read() == ending.text()
        print('%s %s: %s%s' % (main, ' '.join(map(str, ints)), ending.end, '' if same else '  DIFFERENT'))
        different += not same
    return different


def main():
    words = argparse.ArgumentParser(usage=__doc__.split('\n\n')[1][7:])
    words.add_argument('--nrmi', default=os.path.join(java_side.TOP, 'crates', 'nrmi', 'out', 'nrmi'))
    words.add_argument('--make', action='store_true')
    chosen = words.parse_args()
    tool = java_side.missing(*['ecj'] + ['java'] * chosen.make)
    if tool:
        print('%s is missing: nothing was run' % tool)
        return
    runs = java_side.examples()
    with tempfile.TemporaryDirectory() as room:
        if chosen.make:
            make(runs, room)
        elif not java_side.is_there(chosen.nrmi):
            sys.exit('run: no program at %s' % chosen.nrmi)
        elif compare(chosen.nrmi, runs, room) or not runs:
            sys.exit(1)


if __name__ == '__main__':
    main()
