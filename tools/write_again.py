#!/usr/bin/env python3
"""Writes the compiled examples again, and compares the files with the compiler's.

Usage: tools/write_again.py

The examples are compiled twice, with the attributes for debuggers and without them. Each class file is read and
written by a small program over nr_classwrite, which is built in a copy of the crates (`rt try`, nothing is proved).
What is written has to be read as the same parts, and to be, byte for byte, the file without the attributes that are
skipped; these are taken out here, by a parser of its own (JVM Specification 4). A class that is out of the profile is
named. Where ecj or rt is missing, it says so and ends well.
"""
import glob
import os
import re
import shutil
import struct
import subprocess
import sys
import tempfile

import copied_crates

PROGRAM = r'''//! Writes class files again.
#![tactic(auto)]

use nr_classread::read_class;
use nr_classwrite::write_class;
use nr_outside::{Folder, RealFolder};
use std::env;
use std::test::Fail;

fn put_again(rt: &HostRuntime, bytes: &[u8]) -> Result<(), Fail> {
    let class = match read_class(rt.alloc(), bytes) {
        Ok(class) => class,
        Err(fault) => return Ok(println!(rt; "refused {fault:?}")?),
    };
    let written = match write_class(rt.alloc(), &class) {
        Ok(written) => written,
        Err(fault) => return Ok(println!(rt; "unwritten {fault:?}")?),
    };
    match read_class(rt.alloc(), &written) {
        Ok(again) if again.parts() == class.parts() => print!(rt; "same ")?,
        _ => print!(rt; "other ")?,
    }
    for byte in &written {
        print!(rt; "{byte:02x}")?;
    }
    Ok(println!(rt; "")?)
}

fn main(rt: HostRuntime) -> Result<(), Fail> {
    let words = env::args(&rt)?;
    for path in words.skip(1) {
        let mut folder = RealFolder::new(rt.clone()?);
        let bytes = folder.read(rt.alloc(), "/", path.as_str(), 10_000_000).ok().ok_or("a file")?;
        if bytes.len() > 10_000_000 {
            return Err("a long file".into());
        }
        println!(rt; "file {path}")?;
        put_again(&rt, &bytes)?;
    }
    Ok(())
}
'''

# The faults of classes that keep the standard's form and not the profile's.
OUT_OF_PROFILE = re.compile(r'Form\((OutOfProfile|BadDesc)\(\d+\)\)$')

# The kinds of files.
SAME, SKIPPED, BEYOND, FAILED = 'byte for byte', 'without skipped attributes', 'out of the profile', 'failed'

# Where each attribute that is read stands.
READ = {'field': ['ConstantValue'], 'method': ['Code'], 'Code': ['StackMapTable'], 'class': []}


class Stripper:
    """Copies a class file without the attributes that are skipped, and keeps their names."""

    def __init__(self, data):
        self.data, self.at, self.texts, self.skipped = data, 0, {}, []

    def take(self, count):
        self.at += count
        assert self.at <= len(self.data)
        return self.data[self.at - count:self.at]

    def number(self, count):
        return int.from_bytes(self.take(count), 'big')

    def entries(self):
        """The constant pool (4.4), as it is."""
        start, count, index = self.at, self.number(2), 1
        while index < count:
            tag = self.number(1)
            if tag == 1:
                self.texts[index] = self.take(self.number(2))
            else:
                self.take({3: 4, 4: 4, 5: 8, 6: 8, 7: 2, 8: 2, 9: 4, 10: 4, 11: 4, 12: 4}[tag])
            index += 2 if tag in (5, 6) else 1
        return self.data[start:self.at]

    def attribute(self, place):
        """An attribute (4.7), or nothing."""
        head, length = self.take(2), self.number(4)
        end = self.at + length
        name = self.texts[int.from_bytes(head, 'big')].decode()
        if name not in READ[place]:
            self.skipped.append(name)
            self.take(length)
            return None
        contents = self.code() if name == 'Code' else self.take(length)
        assert self.at == end
        return head + struct.pack('>I', len(contents)) + contents

    def attributes(self, place):
        kept = [self.attribute(place) for _ in range(self.number(2))]
        kept = [attribute for attribute in kept if attribute is not None]
        return struct.pack('>H', len(kept)) + b''.join(kept)

    def code(self):
        """The contents of Code (4.7.3)."""
        front = self.take(4)
        length = self.take(4)
        code = self.take(int.from_bytes(length, 'big'))
        count = self.take(2)
        handlers = self.take(8 * int.from_bytes(count, 'big'))
        return front + length + code + count + handlers + self.attributes('Code')

    def members(self, place):
        """Fields (4.5) or methods (4.6)."""
        count = self.take(2)
        return count + b''.join(self.take(6) + self.attributes(place) for _ in range(int.from_bytes(count, 'big')))

    def file(self):
        """The class file (4.1)."""
        out = self.take(8) + self.entries() + self.take(6)
        count = self.take(2)
        out += count + self.take(2 * int.from_bytes(count, 'big'))
        out += self.members('field') + self.members('method') + self.attributes('class')
        assert self.at == len(self.data)
        return out


def compiled(folder, debug):
    """The class files of all examples, of those beyond the profile too."""
    examples = os.path.join(copied_crates.TOP, 'examples')
    subprocess.run([os.path.join(examples, 'compile.sh'), folder, debug], check=True)
    beyond = glob.glob(os.path.join(examples, 'beyond', '*.java'))
    subprocess.run(['ecj', '-source', '1.6', '-target', '1.6', '-nowarn', '-proc:none', debug, '-d', folder] + beyond, check=True)
    return sorted(glob.glob(os.path.join(folder, '**', '*.class'), recursive=True))


def batches(paths):
    """The paths in lists whose files together are short, since little may be printed at a time."""
    batch, length = [], 0
    for path in paths:
        if batch and length + os.path.getsize(path) > 400_000:
            yield batch
            batch, length = [], 0
        batch.append(path)
        length += os.path.getsize(path)
    yield batch


def written_again(paths):
    """What the program says of each file."""
    answers = {}
    for batch in batches(paths):
        path = None
        for line in copied_crates.run('write_files', 'nr_classread nr_classwrite nr_outside', PROGRAM, batch):
            if line.startswith('file '):
                path = line[5:]
            elif path is not None and path not in answers and line:
                answers[path] = line
    return answers


def told(names):
    return ', '.join('%d %s' % (names.count(name), name) for name in sorted(set(names)))


def compare(path, answer):
    """What to say of a file, and of which kind it is."""
    with open(path, 'rb') as file:
        data = file.read()
    word, rest = (answer or 'missing ').split(' ', 1)
    if word == 'refused' and OUT_OF_PROFILE.match(rest):
        return 'out of the profile, ' + rest, BEYOND
    if word == 'other':
        return 'read again with other parts', FAILED
    if word != 'same':
        return (answer or 'no answer')[:200], FAILED
    written, stripper = bytes.fromhex(rest), Stripper(data)
    if written != stripper.file():
        return 'not the file without its skipped attributes', FAILED
    if stripper.skipped:
        return '%d bytes, %d written, without %s' % (len(data), len(written), told(stripper.skipped)), SKIPPED
    return ('%d bytes, byte for byte' % len(data), SAME) if written == data else ('other bytes', FAILED)


def main():
    for tool in ('ecj', 'rt'):
        if not shutil.which(tool):
            print(tool + ' is missing: nothing was written')
            return
    kinds, left = {}, []
    with tempfile.TemporaryDirectory() as folder:
        files = [(debug, path) for debug in ('-g', '-g:none') for path in compiled(os.path.join(folder, debug), debug)]
        answers = written_again([path for _, path in files])
        for debug, path in files:
            name = debug + ' ' + os.path.relpath(path, os.path.join(folder, debug))
            said, kind = compare(path, answers.get(path))
            kinds.setdefault(kind, []).append(name)
            print('%s: %s' % (name, said))
            if debug == '-g:none' and kind == SKIPPED:
                left.append(name.split(' ')[1])
    print('-g:none leaves out what is for debuggers alone, so these still have skipped attributes: ' + ', '.join(left))
    print('%d files: %s' % (len(files), ', '.join('%d %s' % (len(kinds[kind]), kind) for kind in sorted(kinds))))
    if FAILED in kinds:
        sys.exit(1)


main()
