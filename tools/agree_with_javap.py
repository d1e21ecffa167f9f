#!/usr/bin/env python3
"""Compares decoded instructions with `javap -c`: codes, places and operands.

Usage: tools/agree_with_javap.py CLASS_FILE..

Compile the examples first: examples/compile.sh FOLDER. Each file is loaded by a small program over
nr_code, which is built in a copy of the crates (`rt try`, nothing is proved), and by javap. Where javap
is missing, it says so and ends well. No file, files without a method, and files that aren't loaded are failures.
"""
import os
import re
import shutil
import subprocess
import sys

import copied_crates

PROGRAM = r'''//! Prints the instructions of a class file.
#![tactic(auto)]

use nr_code::load_class;
use nr_outside::{Folder, RealFolder};
use nr_prog::{Args, Instr};
use std::env;
use std::test::Fail;

fn put_targets(rt: &HostRuntime, keys: &[i32], targets: &[u16], other: u16) -> Result<(), Fail> {
    for (key, target) in keys.iter().zip(targets) {
        print!(rt; " {key}:{target}")?;
    }
    println!(rt; " default:{other}")?;
    Ok(())
}

fn put(rt: &HostRuntime, instr: &Instr) -> Result<(), Fail> {
    let code = instr.row.code;
    print!(rt; "{} {code}", instr.at)?;
    match &instr.args {
        Args::Empty => println!(rt; "")?,
        Args::Local(n) => println!(rt; " {n}")?,
        Args::Num(n) => println!(rt; " {n}")?,
        Args::Pool(n) => println!(rt; " #{n}")?,
        Args::Branch(n) => println!(rt; " {n}")?,
        Args::Inc(n, by) => println!(rt; " {n} {by}")?,
        Args::Prim(n) => println!(rt; " prim {n}")?,
        Args::Dims(n, dims) => println!(rt; " #{n} {dims}")?,
        Args::Wide(code, n) => println!(rt; " {code} {n}")?,
        Args::WideInc(n, by) => println!(rt; " 132 {n} {by}")?,
        Args::Switch { other, low, targets } => {
            let mut keys = Vec::new(rt.alloc());
            for place in 0..targets.len() {
                keys.push(low.wrapping_add(i32::try_from(place).unwrap_or(0)))?;
            }
            put_targets(rt, &keys, targets.as_slice(), *other)?;
        }
        Args::Look { other, keys, targets } => {
            put_targets(rt, keys.as_slice(), targets.as_slice(), *other)?;
        }
    }
    Ok(())
}

fn list(rt: &HostRuntime) -> Result<(), Fail> {
    let words = env::args(rt)?;
    for path in words.skip(1) {
        let mut folder = RealFolder::new(rt.clone()?);
        let bytes = folder.read(rt.alloc(), "/", path.as_str(), 10_000_000).ok().ok_or("a file")?;
        println!(rt; "file {path}")?;
        if bytes.len() > 10_000_000 {
            return Err("a long file".into());
        }
        match load_class(rt.alloc(), &bytes) {
            Ok(loaded) => {
                for body in loaded.bodies.as_slice() {
                    if let Some(body) = body {
                        println!(rt; "method")?;
                        for instr in body.instrs.as_slice() {
                            put(rt, instr)?;
                        }
                    }
                }
            }
            Err(fault) => println!(rt; "refused {fault:?}")?,
        }
    }
    Ok(())
}

fn main(rt: HostRuntime) -> Result<(), Fail> {
    list(&rt)
}
'''

# The mnemonics of the profile, by the JVM Specification, chapter 7.
NAMES = '''0 nop 1 aconst_null 2 iconst_m1 3 iconst_0 4 iconst_1 5 iconst_2 6 iconst_3 7 iconst_4 8 iconst_5
9 lconst_0 10 lconst_1 16 bipush 17 sipush 18 ldc 19 ldc_w 20 ldc2_w 21 iload 22 lload 25 aload
26 iload_0 27 iload_1 28 iload_2 29 iload_3 30 lload_0 31 lload_1 32 lload_2 33 lload_3
42 aload_0 43 aload_1 44 aload_2 45 aload_3 46 iaload 47 laload 50 aaload 51 baload 52 caload 53 saload
54 istore 55 lstore 58 astore 59 istore_0 60 istore_1 61 istore_2 62 istore_3
63 lstore_0 64 lstore_1 65 lstore_2 66 lstore_3 75 astore_0 76 astore_1 77 astore_2 78 astore_3
79 iastore 80 lastore 83 aastore 84 bastore 85 castore 86 sastore 87 pop 88 pop2 89 dup 90 dup_x1
91 dup_x2 92 dup2 93 dup2_x1 94 dup2_x2 95 swap 96 iadd 97 ladd 100 isub 101 lsub 104 imul 105 lmul
108 idiv 109 ldiv 112 irem 113 lrem 116 ineg 117 lneg 120 ishl 121 lshl 122 ishr 123 lshr 124 iushr
125 lushr 126 iand 127 land 128 ior 129 lor 130 ixor 131 lxor 132 iinc 133 i2l 136 l2i 145 i2b 146 i2c
147 i2s 148 lcmp 153 ifeq 154 ifne 155 iflt 156 ifge 157 ifgt 158 ifle 159 if_icmpeq 160 if_icmpne
161 if_icmplt 162 if_icmpge 163 if_icmpgt 164 if_icmple 165 if_acmpeq 166 if_acmpne 167 goto
170 tableswitch 171 lookupswitch 172 ireturn 173 lreturn 176 areturn 177 return 180 getfield 181 putfield
182 invokevirtual 183 invokespecial 184 invokestatic 185 invokeinterface 187 new 188 newarray
189 anewarray 190 arraylength 191 athrow 192 checkcast 193 instanceof 196 wide 197 multianewarray
198 ifnull 199 ifnonnull 200 goto_w'''.split()
CODES = dict(zip(NAMES[1::2], map(int, NAMES[0::2])))
PRIMITIVES = {'boolean': 4, 'char': 5, 'byte': 8, 'short': 9, 'int': 10, 'long': 11}


def from_javap(path):
    """The methods of a class, each a list of (offset, code, operands), as javap prints them."""
    text = subprocess.run(['javap', '-c', '-p', path], capture_output=True, text=True, check=True).stdout
    methods, switch = [], None
    for line in text.split('\n'):
        if line.strip() == 'Code:':
            methods.append([])
            continue
        if switch is not None:
            if line.strip() == '}':
                methods[-1].append(switch)
                switch = None
                continue
            key, target = line.strip().split(':')
            switch[2].append('%s:%s' % (key.strip(), target.strip()))
            continue
        found = re.match(r'\s+(\d+): (\w+)\s*(.*)$', line)
        if not found or not methods:
            continue
        at, name, rest = int(found.group(1)), found.group(2), found.group(3).split('//')[0]
        if name in ('tableswitch', 'lookupswitch'):
            switch = (at, CODES[name], [])
            continue
        operands = [word.strip(',') for word in rest.split()]
        if name.endswith('_w') and name[:-2] in CODES and name not in CODES:
            operands = [str(CODES[name[:-2]])] + operands
            name = 'wide'
        if name == 'newarray':
            operands = ['prim', str(PRIMITIVES[operands[0]])]
        if name == 'invokeinterface':
            operands = operands[:1]
        methods[-1].append((at, CODES[name], operands))
    return methods


def from_program(lines):
    """The same by file, as the program prints them."""
    files, methods = {}, None
    for line in lines:
        words = line.split()
        if line.startswith('file '):
            methods = files[line[5:]] = []
        elif line.startswith('refused '):
            sys.exit('refused: ' + line)
        elif line == 'method':
            methods.append([])
        elif words:
            methods[-1].append((int(words[0]), int(words[1]), words[2:]))
    return files


def main():
    paths = [os.path.abspath(path) for path in sys.argv[1:]]
    if not paths:
        sys.exit('no class file is named: ' + __doc__.split('\n\n')[1])
    for path in paths:
        if not os.path.isfile(path):
            sys.exit('no file: ' + path)
    if not shutil.which('javap'):
        print('javap is missing: nothing was compared')
        return
    printed = copied_crates.run('list_code', 'nr_base nr_optable nr_prog nr_outside nr_code', PROGRAM, paths)
    told = from_program(line for line in printed if re.match(r'(file|refused|method|\d+ \d+)', line))
    methods = instructions = 0
    codes = set()
    for path in paths:
        want, got = from_javap(path), told.get(path)
        if want != got:
            for ours, theirs in zip(got or [], want):
                for a, b in zip(ours, theirs):
                    if a != b:
                        sys.exit('%s: decoded %s, javap %s' % (path, a, b))
            sys.exit('%s: other methods' % path)
        methods += len(want)
        instructions += sum(map(len, want))
        codes.update(i[1] for m in want for i in m)
    if not instructions:
        sys.exit('no instruction was compared')
    print('%d files, %d methods, %d instructions, %d codes: all agree' % (len(paths), methods, instructions, len(codes)))


main()
