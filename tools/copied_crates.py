"""Small programs over the crates, which are built in a copy of them. Nothing is proved."""
import os
import shutil
import subprocess
import sys
import tempfile

TOP = os.path.dirname(os.path.dirname(os.path.abspath(__file__)))


def run(name, needs, program, words, seconds=None):
    """The lines that a program prints for some words of the command line. `needs` are its crates; it may run so many seconds."""
    with tempfile.TemporaryDirectory() as copy:
        shutil.copytree(os.path.join(TOP, 'crates'), os.path.join(copy, 'crates'), ignore=shutil.ignore_patterns('out'))
        shutil.copy(os.path.join(TOP, 'HANDLES'), copy)
        with open(os.path.join(TOP, 'crates.txt')) as crates, open(os.path.join(copy, 'crates.txt'), 'w') as out:
            out.write(crates.read() + '%s: %s\n' % (name, needs))
        crate = os.path.join(copy, 'crates', name)
        os.makedirs(os.path.join(crate, 'src'))
        with open(os.path.join(crate, 'src', 'main.rt'), 'w') as out:
            out.write(program)
        done = subprocess.run(['rt', 'try'] + ([] if seconds is None else ['--seconds', str(seconds)]) + ['--'] + words, cwd=crate, capture_output=True, text=True)
        if done.returncode != 0:
            sys.exit(done.stdout[-3000:] + done.stderr[-3000:])
        return done.stdout.split('\n')
