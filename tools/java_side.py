"""Programs of the profile compiled by ecj, and run by the real java and by nrmi, for the tools that compare the two."""
import glob
import os
import shutil
import subprocess
import sys

TOP = os.path.dirname(os.path.dirname(os.path.abspath(__file__)))
STUBS = os.path.join(TOP, 'examples', 'stubs')
STAND_IN = os.path.join(TOP, 'examples', 'java')
HERE = os.path.join(TOP, 'tools')
ASM = 'java.base/jdk.internal.org.objectweb.asm=ALL-UNNAMED'
RESULT, THROWN = 0, 1
REFUSED = (4, 5, 6)

DRIVER = r'''import nrmi.Out;

public class Drive {
  static int called(int number) {
    switch (number) {
%s
      default: throw new IllegalArgumentException();
    }
  }

  public static void main(String[] words) {
    for (int number = 0; number < %d; number++) {
      StringBuilder line = new StringBuilder();
      String end;
      try {
        end = "result " + called(number);
      } catch (Throwable thrown) {
        end = "thrown " + thrown.getClass().getName().replace('.', '/');
      }
      for (byte one : Out.taken()) {
        line.append(String.format("%%02x", one));
      }
      System.out.println(line.append(' ').append(StepCount.taken()).append(' ').append(end));
      System.out.flush();
    }
  }
}
'''


def missing(*tools):
    """The first of the tools that isn't there, if any."""
    return next((it for it in tools or ('java', 'ecj') if not shutil.which(it)), None)


def is_there(program):
    """Whether the program can be run."""
    return os.access(program, os.X_OK) and os.path.isfile(program)


def compile(sources, out, *path):
    """Compiles Java files to class files of version 50 in a folder, against the folders of the path."""
    os.makedirs(out, exist_ok=True)
    command = ['ecj', '-source', '1.6', '-target', '1.6', '-nowarn', '-proc:none', '-d', out]
    done = subprocess.run(command + (['-cp', ':'.join(path)] if path else []) + sources, capture_output=True, text=True)
    if done.returncode != 0:
        sys.exit('ecj: ' + (done.stdout + done.stderr)[-6000:])


def stand_in(room):
    """The folder of the compiled stand-ins of nrmi's built-in classes, which print what java's run of a program prints."""
    out = os.path.join(room, 'stand-in')
    others = [it for it in glob.glob(os.path.join(STUBS, 'nrmi', '*.java')) if not it.endswith('/Out.java')]
    compile(others + [os.path.join(STAND_IN, 'nrmi', 'Out.java'), os.path.join(HERE, 'StepCount.java')], out)
    return out


def step_counter(room, stand):
    """The folder of the class that has java's runs tell their steps; none where this java lacks what it needs."""
    out = os.path.join(room, 'steps')
    command = ['javac', '-nowarn', '--add-exports', ASM, '-cp', stand, '-d', out, os.path.join(HERE, 'Steps.java')]
    if missing('javac') or subprocess.run(command, capture_output=True).returncode != 0:
        return None
    return out


class Ending:
    """What a run printed, and how it ended: `result N`, `thrown CLASS`, or something else with the status; its steps if known."""

    def __init__(self, printed, end, status=None, steps=None):
        self.printed, self.end, self.steps = printed, end, steps
        self.status = status if status is not None else THROWN if end.startswith('thrown') else RESULT

    def __eq__(self, other):
        return (self.printed, self.end, self.status) == (other.printed, other.end, other.status)

    def text(self):
        """What both outputs of nrmi hold."""
        line = self.end if self.status == RESULT else 'nrmi: ' + self.end
        return self.printed + line.encode() + b'\n'


def by_java(runs, programs, stand, room, name='drive', counter=None, seconds=600):
    """How the real java's runs of some programs end. A run is (MAIN, ints); `programs` is the folder that has their classes, and
    `stand` that of the stand-ins. With a step counter each is told with its steps."""
    place = os.path.join(room, name)
    os.makedirs(place, exist_ok=True)
    case = '      case %d: return %s.main(new int[] {%s});'
    cases = [case % (n, main.replace('/', '.'), ', '.join(map(str, ints))) for n, (main, ints) in enumerate(runs)]
    with open(os.path.join(place, 'Drive.java'), 'w') as out:
        out.write(DRIVER % ('\n'.join(cases), len(runs)))
    compile([os.path.join(place, 'Drive.java')], place, programs, stand)
    command = ['java', '-Xverify:all', '-cp', ':'.join([place, programs, stand]), 'Drive']
    if counter:
        command = ['java', '-Xverify:all', '--add-exports', ASM, '-cp', ':'.join([place, counter, stand]), 'Steps', programs]
    with open(os.path.join(place, 'told'), 'w') as told, open(os.path.join(place, 'faults'), 'w') as faults:
        try:
            status = subprocess.run(command, stdout=told, stderr=faults, timeout=seconds).returncode
        except subprocess.TimeoutExpired:
            status = 'past %d seconds' % seconds
    with open(os.path.join(place, 'told')) as told:
        lines = told.read().split('\n')[:-1]
    if status != 0 or len(lines) != len(runs):
        after = runs[len(lines)] if len(lines) < len(runs) else 'all runs'
        with open(os.path.join(place, 'faults')) as faults:
            sys.exit('java: %s, at %s: %s' % (status, after, faults.read()[-3000:]))
    parts = [line.split(' ', 2) for line in lines]
    return [Ending(bytes.fromhex(printed), end, steps=int(steps) or None) for printed, steps, end in parts]


def by_nrmi(program, folder, main, budget, ints, seconds=600):
    """How nrmi's run of a program ends."""
    words = [program, 'run', folder, main, str(budget)] + [str(it) for it in ints]
    try:
        done = subprocess.run(words, capture_output=True, timeout=seconds)
    except subprocess.TimeoutExpired:
        return Ending(b'', 'past %d seconds' % seconds, -1)
    end = done.stderr.decode(errors='replace').rstrip('\n')
    if end.startswith('nrmi: '):
        end = end[6:]
    printed = done.stdout
    if done.returncode == RESULT:
        lines = printed.split(b'\n')
        last = lines[-2] if len(lines) > 1 and lines[-1] == b'' else b''
        place = last.rfind(b'result ')
        if place < 0 or end:
            return Ending(printed, end or 'no result', -1)
        end = last[place:].decode()
        printed = printed[:len(printed) - len(end) - 1]
    return Ending(printed, end, done.returncode)


def examples():
    """The runs of the examples, by the files of what they print, as examples/PACKAGE/MAIN-INT-INT.out: (file, MAIN, ints)."""
    found = []
    for path in sorted(glob.glob(os.path.join(TOP, 'examples', '*', '*.out'))):
        main, *ints = os.path.basename(path)[:-4].replace('--', '-~').split('-')
        package = os.path.basename(os.path.dirname(path))
        found.append((path, package + '/' + main, [int(it.replace('~', '-')) for it in ints]))
    return found


def compiled_examples(room):
    """The folder with the compiled examples: each package's is the folder of its program."""
    out = os.path.join(room, 'examples')
    os.makedirs(out)
    subprocess.run(['bash', os.path.join(TOP, 'examples', 'compile.sh'), out], check=True)
    return out
