#!/usr/bin/env python3
"""Compares the verifier with java's, on class files whose code and frame maps were changed.

Usage: tools/compare_verifiers.py FOLDER [COUNT [SEED]]

FOLDER has the compiled examples: examples/compile.sh FOLDER. Of each class whose program can be linked, with what it names,
COUNT changed copies are made (20 where it isn't given), with one small change or two (class_mutants.py). A small program over
nr_link and nr_verify, which is built in a copy of the crates (`rt try`, nothing is proved), and `java -Xverify:all` each say
of the class itself and of each copy whether it is verified. Java gets them as version 51, since it verifies a class of
version 50 whose frame maps are wrong without them. Copies that aren't loaded or linked are counted alone. Where java, javac or
rt is missing, it says so and ends well; one difference is a failure.
"""
import collections
import os
import re
import shutil
import subprocess
import sys
import tempfile

import class_mutants
import copied_crates

PROGRAM = r'''//! Verifies the programs of class files: of each line of a list the first file's class, with the others.
#![tactic(auto)]

use nr_base::Items;
use nr_code::load_class;
use nr_link::link;
use nr_outside::{Folder, RealFolder};
use nr_prog::Loaded;
use nr_verify::verify;
use std::env;
use std::test::Fail;

fn file(rt: &HostRuntime, dir: &str, path: &str) -> Result<Vec<u8>, Fail> {
    let mut folder = RealFolder::new(rt.clone()?);
    Ok(folder.read(rt.alloc(), dir, path, 1_048_576).ok().ok_or("a file")?)
}

fn load(rt: &HostRuntime, dir: &str, files: &str) -> Result<Option<Items<Loaded>>, Fail> {
    let mut classes = Items::new(rt.alloc());
    for path in files.split(' ') {
        match load_class(rt.alloc(), &file(rt, dir, path)?) {
            Ok(loaded) => classes.push(loaded)?,
            Err(_) => return Ok(None),
        }
    }
    Ok(Some(classes))
}

fn answer(rt: &HostRuntime, dir: &str, files: &str) -> Result<(), Fail> {
    let Some(classes) = load(rt, dir, files)? else {
        return Ok(println!(rt; "unloaded {files}")?);
    };
    match link(rt.alloc(), classes) {
        Ok(program) => match verify(rt.alloc(), program) {
            Ok(_) => println!(rt; "verified {files}")?,
            Err(_) => println!(rt; "refused {files}")?,
        },
        Err(_) => println!(rt; "unlinked {files}")?,
    }
    Ok(())
}

fn main(rt: HostRuntime) -> Result<(), Fail> {
    let mut words = env::args(&rt)?.skip(1);
    let dir = words.next().ok_or("a folder")?;
    let list = String::from_utf8(file(&rt, dir.as_str(), "list.txt")?).ok().ok_or("text")?;
    for files in list.as_str().lines() {
        answer(&rt, dir.as_str(), files)?;
    }
    Ok(())
}
'''

JAVA = r'''import java.io.File;
import java.nio.file.Files;
import java.util.HashMap;
import java.util.Map;

public class VerifyEach {
  static final class Loader extends ClassLoader {
    final Map<String, byte[]> classes = new HashMap<>();

    @Override
    protected Class<?> findClass(String name) throws ClassNotFoundException {
      byte[] bytes = classes.get(name);
      if (bytes == null) throw new ClassNotFoundException(name);
      return defineClass(name, bytes, 0, bytes.length);
    }
  }

  // The names of the classes of a list's files stand before them, as NAME=FILE.
  public static void main(String[] words) throws Exception {
    for (String line : Files.readAllLines(new File(words[0], "java.txt").toPath())) {
      Loader loader = new Loader();
      String first = null;
      for (String word : line.split(" ")) {
        String[] parts = word.split("=");
        byte[] bytes = Files.readAllBytes(new File(words[0], parts[1]).toPath());
        bytes[7] = 51;
        if (first == null) first = parts[0];
        loader.classes.put(parts[0], bytes);
      }
      String answer = "verified";
      try {
        // (asking for methods links a class, and so verifies it)
        Class.forName(first, false, loader).getDeclaredMethods();
      } catch (VerifyError | ClassFormatError e) {
        answer = "refused";
      } catch (Throwable e) {
        answer = "thrown";
      }
      System.out.println(answer + " " + line);
    }
  }
}
'''


def built_ins():
    """The names of the built-in classes."""
    with open(os.path.join(copied_crates.TOP, 'crates/nr_linked/src/program/built_in.rt')) as source:
        return set(re.findall(r'=> b"([\w/]+)"', source.read()))


def named(data):
    """The names of the classes that a class file names."""
    names = set()
    for text in class_mutants.class_texts(data) + class_mutants.descriptors(data):
        if text.startswith(('[', '(', 'L')) and text.endswith(';') or '(' in text:
            names.update(re.findall(r'L([^;]+);', text))
        elif not text.startswith('['):
            names.add(text)
    return names


def programs(folder):
    """The class files below the folder by name, and for each class that can be linked those that it needs, itself first."""
    files = {}
    for place, _, paths in os.walk(folder):
        for path in paths:
            if path.endswith('.class'):
                full = os.path.join(place, path)
                with open(full, 'rb') as it:
                    data = bytearray(it.read())
                data[7] = 50
                files[os.path.relpath(full, folder)[:-6]] = bytes(data)
    known, found = built_ins(), {}
    for name in sorted(files):
        needed = [name]
        for one in needed:
            more = sorted(named(files[one]) - known) if one in files else []
            needed += [it for it in more if it not in needed]
        if all(it in files for it in needed):
            found[name] = needed
    return files, found


def write(room, files, found, count, seed):
    """Writes the class files and the lists of programs into the folder, and says how many programs there are."""
    numbers = {name: '%d.class' % n for n, name in enumerate(sorted(files))}
    for name, data in files.items():
        with open(os.path.join(room, numbers[name]), 'wb') as out:
            out.write(data)
    lists = []
    for name, needed in found.items():
        made = class_mutants.mutants(files[name], count, '%s %s' % (seed, name))
        lists.append((name, numbers[name], needed[1:]))
        for n, data in enumerate(made):
            path = '%s.%d.class' % (numbers[name][:-6], n)
            with open(os.path.join(room, path), 'wb') as out:
                out.write(data)
            lists.append((name, path, needed[1:]))
    with open(os.path.join(room, 'list.txt'), 'w') as ours, open(os.path.join(room, 'java.txt'), 'w') as theirs:
        for name, path, more in lists:
            ours.write(' '.join([path] + [numbers[it] for it in more]) + '\n')
            theirs.write(' '.join('%s=%s' % (it.replace('/', '.'), p) for it, p in [(name, path)] + [(it, numbers[it]) for it in more]) + '\n')
    return len(lists)


def from_java(room):
    """What java says of each file."""
    with open(os.path.join(room, 'VerifyEach.java'), 'w') as out:
        out.write(JAVA)
    stubs = [os.path.join(copied_crates.TOP, 'examples/stubs/nrmi', it) for it in os.listdir(os.path.join(copied_crates.TOP, 'examples/stubs/nrmi'))]
    subprocess.run(['javac', '-nowarn', '-d', room, os.path.join(room, 'VerifyEach.java')] + stubs, check=True)
    done = subprocess.run(['java', '-Xverify:all', '-cp', room, 'VerifyEach', room], capture_output=True, text=True, check=True)
    lines = [line.split(' ') for line in done.stdout.strip().split('\n')]
    return {line[1].split('=')[1]: line[0] for line in lines}


def main():
    if len(sys.argv) not in (2, 3, 4) or not os.path.isdir(sys.argv[1]):
        sys.exit(__doc__.split('\n\n')[1])
    for tool in ('java', 'javac', 'rt'):
        if not shutil.which(tool):
            print('%s is missing: nothing was compared' % tool)
            return
    count, seed = int((sys.argv + ['20', '20'])[2]), (sys.argv + ['1', '1', '1'])[3]
    with tempfile.TemporaryDirectory() as room:
        files, found = programs(sys.argv[1])
        expected = write(room, files, found, count, seed)
        theirs = from_java(room)
        needs = 'nr_base nr_prog nr_linked nr_linkrules nr_outside nr_code nr_link nr_verify'
        printed = copied_crates.run('verify_each', needs, PROGRAM, [room], seconds=3600)
        ours = dict(line.split(' ')[1::-1] for line in printed if re.match(r'(verified|refused|unloaded|unlinked) ', line))
        if len(ours) != expected or len(theirs) != expected:
            sys.exit('%d programs, of which %d and %d were told' % (expected, len(ours), len(theirs)))
        different = [path for path in ours if ours[path] in ('verified', 'refused') and ours[path] != theirs[path]]
        for path in different:
            kept = 'different.' + path
            shutil.copy(os.path.join(room, path), kept)
            print('%s here, %s by java: %s' % (ours[path], theirs[path], kept))
        counts = collections.Counter(ours.values())
    print('%d classes, %d programs: %s' % (len(found), expected, ', '.join('%d %s' % (n, it) for it, n in sorted(counts.items()))))
    if different or not counts['verified'] or not counts['refused']:
        sys.exit('%d differences' % len(different))


main()
