#!/usr/bin/env python3
"""Runs programs by the real java and by nrmi, and compares what they print, what they return and what they throw.

Usage: tools/agree_with_java.py [--nrmi PROGRAM] [--count N] [--seed S] [--java-only]

The programs are the examples (examples/run.py) and N random ones (1,000 where it isn't given), which S chooses
(random_programs.py). ecj compiles them to class files of version 50. The real java runs them over a stand-in of the class that
prints, many in one machine, each by a direct call of its `main`; nrmi (crates/nrmi/out/nrmi where none is given) runs each by
itself. Where this java can count steps (Steps.java), nrmi has to end within just as many, and not within one fewer. A program that
nrmi refuses as one that can't be loaded, linked or verified is counted alone; there must be none. The source and the class files
of each random program that ends differently are kept in a folder, which is told, the shortest of a batch first. One difference is
a failure. With --java-only nrmi isn't run, and nothing is compared. Where java or ecj is missing, it says so and ends well.
"""
import argparse
import collections
import os
import shutil
import sys
import tempfile
import time
from concurrent.futures import ThreadPoolExecutor

import java_side
from random_programs import Program

BATCH = 250
BUDGET = 100000000
OUT_OF_BUDGET = 9


class Run:
    """A program that both run: its main, its numbers, the folder of its classes, its source, and how java ended it."""

    def __init__(self, main, ints, folder, source):
        self.main, self.ints, self.folder, self.source = main, ints, folder, source
        self.java = self.nrmi = self.early = None

    def run(self, program):
        steps = self.java.steps
        self.nrmi = java_side.by_nrmi(program, self.folder, self.main, steps or BUDGET, self.ints)
        if steps and steps > 1:
            self.early = java_side.by_nrmi(program, self.folder, self.main, steps - 1, self.ints)

    def fault(self):
        """What differs, if anything does."""
        if self.nrmi.status in java_side.REFUSED:
            return 'refused: ' + self.nrmi.end
        if self.nrmi != self.java:
            return 'nrmi: %s; java: %s; %s' % (shown(self.nrmi), shown(self.java), first_difference(self.nrmi.printed, self.java.printed))
        if self.early is not None and self.early.status != OUT_OF_BUDGET:
            return 'java took %d steps; within one fewer nrmi: %s' % (self.java.steps, shown(self.early))
        return None


def shown(ending):
    return '%s (status %d)' % (ending.end, ending.status)


def first_difference(ours, theirs):
    if ours == theirs:
        return 'both printed the same'
    at = next((n for n, pair in enumerate(zip(ours, theirs)) if pair[0] != pair[1]), min(len(ours), len(theirs)))
    return 'printed from byte %d: %r and %r' % (at, ours[at:at + 40], theirs[at:at + 40])


def example_runs(room, stand, counter):
    folder = java_side.compiled_examples(room)
    runs = [Run(main, ints, os.path.join(folder, os.path.dirname(main)), 'examples/%s.java' % main) for _, main, ints in java_side.examples()]
    told(runs, folder, stand, room, 'examples-by-java', counter)
    return runs


def random_runs(numbers, seed, room, stand, counter):
    """A batch of random programs, compiled in one call and run by one java."""
    name = 'programs-%d' % numbers[0]
    out, runs = os.path.join(room, name), []
    for number in numbers:
        program = Program('p%05d' % number, seed)
        source = os.path.join(out, 'src', program.package, 'Main.java')
        os.makedirs(os.path.dirname(source))
        with open(source, 'w') as text:
            text.write(program.text)
        runs.append(Run(program.package + '/Main', program.ints, os.path.join(out, 'classes', program.package), source))
    java_side.compile([run.source for run in runs], os.path.join(out, 'classes'), stand)
    told(runs, os.path.join(out, 'classes'), stand, room, name + '-by-java', counter)
    return runs


def told(runs, programs, stand, room, name, counter):
    """Has java run the programs: with steps too where it can count them, which has to change nothing else."""
    pairs = [(run.main, run.ints) for run in runs]
    endings = java_side.by_java(pairs, programs, stand, room, name)
    if counter:
        counted = java_side.by_java(pairs, programs, stand, room, name + '-counted', counter)
        for run, plain, other in zip(runs, endings, counted):
            if plain != other:
                sys.exit('%s: java ends otherwise where steps are counted' % run.source)
        endings = counted
    for run, ending in zip(runs, endings):
        run.java = ending


def compare(program, runs):
    """Has nrmi run the programs."""
    with ThreadPoolExecutor(os.cpu_count()) as pool:
        for _ in pool.map(lambda run: run.run(program), runs):
            pass


def lines_of(run):
    """How long the source of a random program is; an example has none here."""
    if not os.path.isabs(run.source):
        return 0
    with open(run.source) as source:
        return len(source.readlines())


def differences(runs, kept):
    """Tells what differs, and keeps the random programs that do: the numbers of all and of those refused."""
    found = refused = 0
    for run in sorted(runs, key=lines_of):
        fault = run.fault()
        if fault is None:
            continue
        found += 1
        refused += run.nrmi.status in java_side.REFUSED
        source = run.source
        if os.path.isabs(source):
            place = os.path.join(kept, os.path.dirname(run.main))
            os.makedirs(place, exist_ok=True)
            source = '%s (%d lines)' % (shutil.copy(source, place), lines_of(run))
            shutil.copytree(run.folder, os.path.join(place, 'classes'), dirs_exist_ok=True)
        print('%s %s: %s: %s' % (run.main, ' '.join(map(str, run.ints)), fault, source), flush=True)
    return found, refused


def summary(runs):
    """What kinds of runs there were, by java."""
    ends = collections.Counter(run.java.end.split()[0] for run in runs)
    steps = sorted(run.java.steps for run in runs if run.java.steps)
    text = '%d returned, %d threw, %d bytes printed' % (ends['result'], ends['thrown'], sum(len(run.java.printed) for run in runs))
    if steps:
        text += ', steps of %d counted: %d in the middle, %d at most' % (len(steps), steps[len(steps) // 2], steps[-1])
    return text


def main():
    words = argparse.ArgumentParser(usage=__doc__.split('\n\n')[1][7:])
    words.add_argument('--nrmi', default=os.path.join(java_side.TOP, 'crates', 'nrmi', 'out', 'nrmi'))
    words.add_argument('--count', type=int, default=1000)
    words.add_argument('--seed', default='1')
    words.add_argument('--java-only', action='store_true')
    chosen = words.parse_args()
    tool = java_side.missing()
    if tool:
        print('%s is missing: nothing was compared' % tool)
        return
    if not chosen.java_only and not java_side.is_there(chosen.nrmi):
        sys.exit('agree_with_java: no program at %s' % chosen.nrmi)
    found = refused = 0
    kept = os.path.join(tempfile.gettempdir(), 'nrmi-differences-%d' % os.getpid())
    runs, begun = [], time.time()
    with tempfile.TemporaryDirectory() as room:
        stand = java_side.stand_in(room)
        counter = java_side.step_counter(room, stand)
        batches = [range(at, min(at + BATCH, chosen.count)) for at in range(0, chosen.count, BATCH)]
        for numbers in [None] + batches:
            batch = example_runs(room, stand, counter) if numbers is None else random_runs(numbers, chosen.seed, room, stand, counter)
            if not chosen.java_only:
                compare(chosen.nrmi, batch)
                more, others = differences(batch, kept)
                found, refused = found + more, refused + others
            runs += batch
    print('%d programs, %d of them random: %s' % (len(runs), chosen.count, summary(runs)))
    if not counter:
        print('this java can not count steps: they were not compared')
    if chosen.java_only:
        print('by java alone: nothing was compared; %d seconds' % (time.time() - begun))
        return
    print('%d refused as out of the profile, %d differences in all; %d seconds' % (refused, found, time.time() - begun))
    if found:
        sys.exit(1)


if __name__ == '__main__':
    main()
