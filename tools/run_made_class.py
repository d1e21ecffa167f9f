#!/usr/bin/env python3
"""Makes a class by ClassMaker and write_class, and has the real java load, verify and run it.

Usage: tools/run_made_class.py

A small program over nr_classmake and nr_classwrite, which is built in a copy of the crates (`rt try`, nothing is
proved), makes the class Made: `sum` adds the numbers from one to another, in a loop with frame maps, and two fields
have constant values. A Java class that was compiled against a stub of it prints what it finds; the wanted line is
worked out by hand. The same is done with the version set to 51, since java verifies a class of version 50 whose frame
maps are wrong without them. Then single bytes are changed so that the class breaks a rule of the verifier, which has
to refuse it: so verification is on. Where java, javac or rt is missing, it says so and ends well.
"""
import os
import shutil
import subprocess
import sys
import tempfile

import copied_crates

PROGRAM = r'''//! Makes a class.
#![tactic(auto)]

use nr_base::{Items, Name};
use nr_classmake::ClassMaker;
use nr_classwrite::write_class;
use nr_prog::Code;
use std::test::Fail;

// 0 iconst_0, 1 istore_2, 2 iload_0, 3 iload_1, 4 if_icmpgt 17, 7 iload_2, 8 iload_0, 9 iadd, 10 istore_2,
// 11 iinc 0 1, 14 goto 2, 17 iload_2, 18 ireturn
const SUM: &[u8] = &[
    0x03, 0x3D, 0x1A, 0x1B, 0xA3, 0x00, 0x0D, 0x1C, 0x1A, 0x60, 0x3D, 0x84, 0x00, 0x01, 0xA7, 0xFF, 0xF4, 0x1C, 0xAC,
];

// Two frames: at 2 one more local, an int; at 17 the same.
const MAPS: &[u8] = &[0x00, 0x02, 0xFC, 0x00, 0x02, 0x01, 0x0E];

fn name(rt: &HostRuntime, text: &str) -> Result<Name, Fail> {
    Ok(Name::read(rt.alloc(), text.as_bytes()).ok().ok_or("a name")?)
}

fn main(rt: HostRuntime) -> Result<(), Fail> {
    let alloc = rt.alloc();
    let made = name(&rt, "Made")?;
    let object = name(&rt, "java/lang/Object")?;
    // public, final, super
    let mut maker = ClassMaker::new(alloc, &made, &object, 0x0031).ok().ok_or("a class")?;
    maker.add_interface(alloc, &name(&rt, "java/io/Serializable")?).ok().ok_or("an interface")?;
    // public, static, final
    let (step, int) = (name(&rt, "STEP")?, name(&rt, "I")?);
    maker.add_field(alloc, 0x0019, &step, &int, Some(-7)).ok().ok_or("a field")?;
    let (limit, long) = (name(&rt, "LIMIT")?, name(&rt, "J")?);
    maker.add_field(alloc, 0x0019, &limit, &long, Some(5_000_000_000)).ok().ok_or("a field")?;
    let code = Code {
        max_stack: 2,
        max_locals: 3,
        bytes: Items::of(alloc, SUM)?,
        handlers: Items::new(alloc),
        maps: Some(Items::of(alloc, MAPS)?),
    };
    // public, static
    let (sum, desc) = (name(&rt, "sum")?, name(&rt, "(II)I")?);
    maker.add_method(alloc, 0x0009, &sum, &desc, Some(code)).ok().ok_or("a method")?;
    let class = maker.finish(alloc).ok().ok_or("its form")?;
    for byte in &write_class(alloc, &class).ok().ok_or("a file")? {
        print!(rt; "{byte:02x}")?;
    }
    Ok(println!(rt; "")?)
}
'''

STUB = '''public final class Made implements java.io.Serializable {
  public static final int STEP = Integer.parseInt("0");
  public static final long LIMIT = Long.parseLong("0");

  public static int sum(int from, int to) {
    return 0;
  }
}
'''

CALLER = '''public class Caller {
  public static void main(String[] words) {
    Class<?> made = Made.class;
    System.out.println(Made.sum(3, 10) + " " + Made.sum(-2, 2) + " " + Made.sum(5, 4) + " " + Made.sum(2147483646, 2147483646)
        + " " + Made.STEP + " " + Made.LIMIT + " " + made.getInterfaces()[0].getName() + " " + made.getDeclaredMethods().length);
  }
}
'''

# 3 + 4 + .. + 10; -2 + -1 + 0 + 1 + 2; nothing; one number; the constants; the interface; one method
WANTED = '52 0 0 2147483646 -7 5000000000 java.io.Serializable 1'

# Before the code stand max_stack, max_locals and the length of the code; before the frames their name's index, their
# length and their count.
SUM = bytes.fromhex('033d1a1ba3000d1c1a603d840001a7fff41cac')
MAPS = bytes.fromhex('0002fc0002010e')


def changed(made, at, byte):
    return made[:at] + bytes([byte]) + made[at + 1:]


def broken(made):
    """Classes that break a rule, and the rule."""
    code, maps, strict = made.index(SUM), made.index(MAPS), changed(made, 7, 51)
    yield 'a stack of one place for two ints', changed(made, code - 7, 1)
    yield 'two locals where three are used', changed(made, code - 5, 2)
    yield 'areturn of an int', changed(made, code + 18, 0xB0)
    yield 'version 51, a float in the first frame', changed(strict, maps + 5, 2)
    yield 'version 51, the second frame at 16', changed(strict, maps + 6, 0x0D)


def run_with(folder, made):
    """What java says where this is the class."""
    with open(os.path.join(folder, 'Made.class'), 'wb') as out:
        out.write(made)
    return subprocess.run(['java', '-cp', folder, 'Caller'], capture_output=True, text=True)


def prints_what_is_wanted(folder, what, made):
    run = run_with(folder, made)
    if run.returncode != 0 or run.stdout.strip() != WANTED:
        sys.exit('%s: java printed %r, not %r: %s' % (what, run.stdout, WANTED, run.stderr[-2000:]))
    print('%s: %s' % (what, WANTED))


def is_refused(folder, what, made):
    run = run_with(folder, made)
    if run.returncode == 0 or 'VerifyError' not in run.stderr:
        sys.exit('%s: java did not refuse it: %s' % (what, run.stderr[-2000:]))
    print('%s: refused, %s' % (what, run.stderr.split('VerifyError: ')[1].split('\n')[0]))


def main():
    for tool in ('java', 'javac', 'rt'):
        if not shutil.which(tool):
            print(tool + ' is missing: nothing was run')
            return
    lines = copied_crates.run('make_class', 'nr_base nr_prog nr_classmake nr_classwrite', PROGRAM, [])
    made = bytes.fromhex(next(line for line in lines if line.startswith('cafebabe')))
    with tempfile.TemporaryDirectory() as folder:
        for name, text in (('Made', STUB), ('Caller', CALLER)):
            with open(os.path.join(folder, name + '.java'), 'w') as out:
                out.write(text)
        subprocess.run(['javac', '--release', '8', '-Xlint:-options', '-d', folder, 'Made.java', 'Caller.java'], cwd=folder, check=True)
        prints_what_is_wanted(folder, 'the class of %d bytes' % len(made), made)
        prints_what_is_wanted(folder, 'version 51', changed(made, 7, 51))
        for rule, other in broken(made):
            is_refused(folder, rule, other)


main()
