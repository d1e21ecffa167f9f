#!/usr/bin/env python3
"""How long the program takes to load, link and verify a class with one of the longest methods.

Usage: bench/verifier.py [PROGRAM [CASE..]]

Each class has a method of 65,535 bytes, the most that one can have, beside a `main` that returns at once. The rule is that
each is loaded, linked, verified and run within a second of processor time. PROGRAM is crates/nrmi/out/nrmi where none is given,
which `rt run` builds in crates/nrmi; without a program it is an error. One line is printed for each case: its name, the
bytes of its file, processor seconds, peak memory, and how the program ended. A case past the rule, or that isn't verified, is
marked, and the status is 1 then.
"""
import os
import sys
import tempfile

HERE = os.path.dirname(os.path.abspath(__file__))
sys.path.insert(0, os.path.join(HERE, '..', 'tools'))

import hostile
from hostile import LONG, File, u2

BRANCHES = 10000
SECONDS = 1
NOP, ICONST_0, ILOAD_0, ISTORE, ISTORE_0, IFEQ, IRETURN, RETURN, WIDE = 0, 3, 26, 54, 59, 153, 172, 177, 196
FULL_FRAME, TOP, INT = 255, 0, 1


def to_the_end(code):
    """The code with `nop`s behind it and a `return` at the end."""
    return code + bytes([NOP]) * (LONG - 1 - len(code)) + bytes([RETURN])


def branches(locals_):
    """10,000 branches, each to the next one, where a whole frame stands with an int and so many local variables in all."""
    code = bytes([ICONST_0, ISTORE_0]) + (bytes([ILOAD_0, IFEQ]) + u2(5) + bytes([NOP, NOP])) * BRANCHES
    frame = u2(locals_) + bytes([INT]) + bytes([TOP]) * (locals_ - 1) + u2(0)
    maps = bytes([FULL_FRAME]) + u2(8) + frame + (bytes([FULL_FRAME]) + u2(5) + frame) * (BRANCHES - 1)
    return to_the_end(code), u2(BRANCHES) + maps


def branches_of_one_local(f):
    code, maps = branches(1)
    f.method('f', '()V', code, maps=maps)


def branches_of_fifty_locals(f):
    code, maps = branches(50)
    f.method('f', '()V', code, maps=maps)


def stores_far_out(f):
    """Stores into the last local variable, over and over, of which the first lists all before it."""
    store = bytes([ICONST_0, WIDE, ISTORE]) + u2(LONG - 1)
    f.method('f', '()V', to_the_end(store * ((LONG - 1) // len(store))))


CASES = [branches_of_one_local, branches_of_fifty_locals, stores_far_out]


def tried(program, case):
    """Whether the class of the case is verified and run by the rule."""
    f = File()
    case(f)
    f.method('main', '([I)I', bytes([ICONST_0, IRETURN]))
    with tempfile.TemporaryDirectory() as folder:
        os.mkdir(os.path.join(folder, 'd'))
        with open(os.path.join(folder, 'd', 'M.class'), 'wb') as out:
            size = out.write(f.data())
        seconds, peak, end = hostile.run(program, folder)
    kept = seconds <= SECONDS and end == 'status 0: result 0'
    mark = '' if kept else '  NOT BY THE RULE'
    print(f'{case.__name__:28}{size:9} bytes{seconds:8.2f} s{peak / (1 << 20):8.0f} MiB  {end}{mark}', flush=True)
    return kept


def main():
    program = sys.argv[1] if len(sys.argv) > 1 else hostile.PROGRAM
    names = sys.argv[2:] or [case.__name__ for case in CASES]
    chosen = [case for case in CASES if case.__name__ in names]
    if not os.access(program, os.X_OK):
        sys.exit(f'verifier: no program at {program}')
    if len(chosen) != len(names):
        sys.exit('verifier: no such case')
    if not all([tried(program, case) for case in chosen]):
        sys.exit(1)


if __name__ == '__main__':
    main()
