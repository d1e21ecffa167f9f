#!/usr/bin/env python3
"""Makes class files that are costly for their size, runs the program on each, and prints what it took.

Usage: tools/hostile.py [PROGRAM [CASE..]]

A reader that looks at a name again for each use, or keeps a copy of it for each, takes time and memory that
grow with the product of two parts of the file. Each file here makes such a product large: none has more than
1,048,576 bytes, the most that the program reads. The rule is that each is read or refused within 10 seconds
and 1 GiB. PROGRAM is crates/nrmi/out/nrmi where none is given, which `rt run` builds in crates/nrmi; without a
program it is an error. One line is printed for each case: its name, the bytes of its file, processor seconds,
peak memory, and how the program ended. A case past the rule is marked, and the status is 1 then.
"""
import os
import resource
import struct
import sys
import tempfile

HERE = os.path.dirname(os.path.abspath(__file__))
PROGRAM = os.path.join(HERE, '..', 'crates', 'nrmi', 'out', 'nrmi')
LONG = 65535
SECONDS, BYTES = 10, 1 << 30
CEILING, PATIENCE = 8 << 30, 120  # what a program that keeps no rule may take before it is stopped

ABSTRACT, PUBLIC, STATIC = 0x0400, 0x0001, 0x0008
NOP, GET, CALL, CHECKCAST, INTERFACE_CALL, ARRAYS = 0, 180, 182, 192, 185, 197


def u2(n):
    return struct.pack('>H', n)


def u4(n):
    return struct.pack('>I', n)


class File:
    """A class file in the making: the class M over java/lang/Object."""

    def __init__(self):
        self.pool, self.kept = [], {}
        self.interfaces, self.fields, self.methods = [], [], []
        self.this, self.above = self.named('M'), self.named('java/lang/Object')

    def entry(self, data):
        self.pool.append(data)
        return len(self.pool)

    def text(self, text):
        data = text if isinstance(text, bytes) else text.encode()
        if data not in self.kept:
            self.kept[data] = self.entry(b'\x01' + u2(len(data)) + data)
        return self.kept[data]

    def named(self, text):
        return self.entry(b'\x07' + u2(self.text(text)))

    def field(self, name, desc):
        self.fields.append(u2(PUBLIC) + u2(self.text(name)) + u2(self.text(desc)) + u2(0))

    def abstract(self, name, desc):
        self.methods.append(u2(PUBLIC | ABSTRACT) + u2(self.text(name)) + u2(self.text(desc)) + u2(0))

    def method(self, name, desc, code, handlers=b'', maps=None):
        table = b'' if maps is None else u2(self.text('StackMapTable')) + u4(len(maps)) + maps
        body = u2(2) + u2(LONG) + u4(len(code)) + code + u2(len(handlers) // 8) + handlers
        body += u2(0 if maps is None else 1) + table
        head = u2(PUBLIC | STATIC) + u2(self.text(name)) + u2(self.text(desc)) + u2(1)
        self.methods.append(head + u2(self.text('Code')) + u4(len(body)) + body)

    def data(self):
        out = b'\xCA\xFE\xBA\xBE' + u2(0) + u2(50) + u2(len(self.pool) + 1) + b''.join(self.pool)
        out += u2(PUBLIC | ABSTRACT | 0x20) + u2(self.this) + u2(self.above)
        out += u2(len(self.interfaces)) + b''.join(map(u2, self.interfaces))
        out += u2(len(self.fields)) + b''.join(self.fields)
        out += u2(len(self.methods)) + b''.join(self.methods)
        return out + u2(0)


LONG_NAME = 'a' * LONG


def letters(n):
    """A short text of its own for each number."""
    text = ''
    while True:
        text, n = chr(ord('a') + n % 26) + text, n // 26
        if n == 0:
            return text


def filled(op, operands, size=LONG):
    """Code of an instruction over and over, and `nop`s to the end."""
    one = bytes([op]) + operands
    return one * (size // len(one)) + bytes([NOP]) * (size % len(one))


# ---- names that are used often

def interfaces(f):
    f.interfaces = [f.named(LONG_NAME)] * 65535


def class_entries(f):
    text = f.text(LONG_NAME)
    f.interfaces = [f.entry(b'\x07' + u2(text)) for _ in range(65000)]


def casts(f):
    index = f.named(LONG_NAME)
    for n in range(14):
        f.method(letters(n), '()V', filled(CHECKCAST, u2(index)))


def arrays(f):
    index = f.named('[L' + 'a' * (LONG - 3) + ';')
    for n in range(14):
        f.method(letters(n), '()V', filled(ARRAYS, u2(index) + b'\x01'))


def interface_calls(f):
    owner = f.named('I')
    desc = '(L' + 'a' * (LONG - 5) + ';)V'
    pair = f.entry(b'\x0C' + u2(f.text('m')) + u2(f.text(desc)))
    index = f.entry(b'\x0B' + u2(owner) + u2(pair))
    for n in range(14):
        f.method(letters(n), '()V', filled(INTERFACE_CALL, u2(index) + b'\x02\x00'))


def named_by_itself(f, text=LONG_NAME):
    """The class has this name: so all that the file names is there, and linking looks at all of it."""
    f.this = f.named(text)
    return f.this


def self_casts(f):
    index = named_by_itself(f)
    for n in range(14):
        f.method(letters(n), '()V', filled(CHECKCAST, u2(index)))


def self_arrays(f):
    named_by_itself(f, 'a' * (LONG - 3))
    index = f.named('[L' + 'a' * (LONG - 3) + ';')
    for n in range(13):
        f.method(letters(n), '()V', filled(CHECKCAST, u2(index)))


def self_interfaces(f):
    f.interfaces = [named_by_itself(f)] * 65535


def self_entries(f):
    """Very many entries of one name, each used once."""
    text = f.text(LONG_NAME)
    named_by_itself(f)
    indices = [f.entry(b'\x07' + u2(text)) for _ in range(65000)]
    for n in range(3):
        f.method(letters(n), '()V', b''.join(bytes([CHECKCAST]) + u2(i) for i in indices[n * 21000:(n + 1) * 21000]))


def self_handlers(f):
    index = named_by_itself(f)
    f.method('m', '()V', bytes(LONG), (u2(0) + u2(1) + u2(0) + u2(index)) * 65535)


def self_types(f):
    index = named_by_itself(f)
    f.method('m', '()V', bytes(1), maps=u2(1) + full(b'\x07' + u2(index), 16000))


def self_frames(f):
    """Each frame has the types of those before."""
    index = named_by_itself(f)
    f.method('m', '()V', bytes(8001), maps=u2(8001) + full(b'\x07' + u2(index), 2000) + bytes(8000))


def short_self_frames(f):
    """The same of a short name, as often as there is room."""
    f.method('m', '()V', bytes(8001), maps=u2(8001) + full(b'\x07' + u2(f.this), 2000) + bytes(8000))


def self_fields(f):
    name = 'a' * (LONG - 2)
    named_by_itself(f, name)
    for n in range(40000):
        f.field(letters(n), 'L' + name + ';')


def self_static_fields(f):
    name = 'a' * (LONG - 2)
    named_by_itself(f, name)
    for n in range(40000):
        f.fields.append(u2(PUBLIC | STATIC) + u2(f.text(letters(n))) + u2(f.text('L' + name + ';')) + u2(0))


def self_methods(f):
    """As many as may have so long a descriptor."""
    name = 'a' * (LONG - 5)
    named_by_itself(f, name)
    for n in range(4000):
        f.abstract(letters(n), '(L' + name + ';)V')


def self_parameters(f):
    named_by_itself(f, 'abc')
    desc = '(' + 'Labc;' * 254 + ')V'
    for n in range(60000):
        f.abstract(letters(n), desc)


# ---- members that are looked for

def digits(n):
    """Parameters of their own for each number."""
    return ''.join('IJZBCS'[n // 6 ** k % 6] for k in range(7))


def used(f, op, indices, rest=b'', times=1):
    """Methods whose code uses each of the entries."""
    code = b''.join(bytes([op]) + u2(i) + rest for i in indices)
    size = LONG // (3 + len(rest)) * (3 + len(rest))
    for n in range(times):
        for start in range(0, len(code), size):
            f.method('x' + letters(n) + 'y' + letters(start), '()V', code[start:start + size])


def calls_of_many_methods(f):
    """Many methods of one long name, each called by an entry of its own."""
    name = f.text('a' * 8000)
    indices = []
    for n in range(20000):
        desc = '(' + digits(n) + ')V'
        f.abstract('a' * 8000, desc)
        pair = f.entry(b'\x0C' + u2(name) + u2(f.text(desc)))
        indices.append(f.entry(b'\x0A' + u2(f.this) + u2(pair)))
    used(f, CALL, indices, times=4)


def calls_of_one_method(f):
    """The last of many methods, called again and again."""
    for n in range(30000):
        f.abstract('a', '(' + digits(n) + ')V')
    pair = f.entry(b'\x0C' + u2(f.text('a')) + u2(f.text('(' + digits(29999) + ')V')))
    used(f, CALL, [f.entry(b'\x0A' + u2(f.this) + u2(pair))] * 21000, times=4)


def gets_of_many_fields(f):
    indices = []
    for n in range(20000):
        f.field('a' + letters(n), 'LM;')
        pair = f.entry(b'\x0C' + u2(f.text('a' + letters(n))) + u2(f.text('LM;')))
        indices.append(f.entry(b'\x09' + u2(f.this) + u2(pair)))
    used(f, GET, indices, times=4)


def gets_of_one_field(f):
    for n in range(40000):
        f.field('a' + letters(n), 'LM;')
    pair = f.entry(b'\x0C' + u2(f.text('a' + letters(39999))) + u2(f.text('LM;')))
    used(f, GET, [f.entry(b'\x09' + u2(f.this) + u2(pair))] * 21000, times=3)


def methods_of_one_name(f):
    for n in range(40000):
        f.abstract(LONG_NAME, '(L' + letters(n) + ';)V')


def methods_of_one_descriptor(f):
    desc = '(L' + 'a' * (LONG - 5) + ';)V'
    for n in range(40000):
        f.abstract(letters(n), desc)


def fields_of_one_name(f):
    for n in range(40000):
        f.field(LONG_NAME, 'L' + letters(n) + ';')


def fields_of_one_descriptor(f):
    for n in range(40000):
        f.field(letters(n), 'L' + 'a' * (LONG - 2) + ';')


def texts_alike(f):
    """Long texts that differ at their ends alone, and many fields between them."""
    names = ['a' * 30000 + letters(n) for n in range(16)]
    for n in range(30000):
        f.field(names[n % 16], 'L' + letters(n) + ';')


# ---- exception handlers

def handlers(f):
    f.method('m', '()V', bytes(LONG), (u2(0) + u2(1) + u2(0) + u2(0)) * 65535)


def handlers_of_a_class(f):
    index = f.named(LONG_NAME)
    f.method('m', '()V', bytes(LONG), (u2(0) + u2(1) + u2(0) + u2(index)) * 65535)


# ---- frame maps

def full(local, count):
    return b'\xFF' + u2(0) + u2(count) + local * count + u2(0)


def types_of_a_class(f):
    index = f.named(LONG_NAME)
    f.method('m', '()V', bytes(1), maps=u2(1) + full(b'\x07' + u2(index), 16000))


def same_frames(f, places=8000, count=8000, name='m'):
    f.method(name, '()V', bytes(count + 1), maps=u2(count + 1) + full(b'\x01', places) + bytes(count))


def more_same_frames(f):
    same_frames(f, 8000, 65500)


def frames_in_methods(f):
    """So few in each method that only all together are too many."""
    for n in range(450):
        same_frames(f, 1000, 600, letters(n))


def chopped_frames(f):
    """Each frame is longer or shorter than the one before."""
    frames = (b'\xFA' + u2(0) + b'\xFC' + u2(0) + b'\x01') * 30000
    f.method('m', '()V', bytes(60001), maps=u2(60001) + full(b'\x01', 60000) + frames)


def frames_of_a_class(f):
    index = f.named(LONG_NAME)
    frames = (b'\x47' + b'\x07' + u2(index)) + (b'\x40' + b'\x07' + u2(index)) * 60000
    f.method('m', '()V', bytes(60009), maps=u2(60001) + frames)


def maps_of_one_descriptor(f):
    """The frame at the entry of each method has types with long names."""
    desc = '(L' + 'a' * (LONG - 5) + ';)V'
    for n in range(14000):
        f.method(letters(n), desc, bytes(1), maps=u2(1) + bytes(1))


def maps_of_many_parameters(f):
    desc = '(' + 'La;' * 254 + ')V'
    for n in range(18000):
        f.method(letters(n), desc, bytes(1), maps=u2(1) + bytes(1))


# ---- much of one thing

def instructions(f):
    for n in range(15):
        f.method(letters(n), '()V', bytes(LONG))


def small_methods(f):
    for n in range(30000):
        f.method(letters(n), '()V', bytes(1))


def descriptors(f):
    """Texts that are descriptors of methods, which none has."""
    for n in range(3000):
        f.text('(' + 'I' * 250 + ')L' + letters(n) + ';')


CASES = [
    interfaces, class_entries, casts, arrays, interface_calls,
    self_casts, self_arrays, self_interfaces, self_entries, self_handlers, self_types, self_frames, short_self_frames,
    self_fields, self_static_fields, self_methods, self_parameters,
    calls_of_many_methods, calls_of_one_method, gets_of_many_fields, gets_of_one_field,
    methods_of_one_name, methods_of_one_descriptor, fields_of_one_name, fields_of_one_descriptor, texts_alike,
    handlers, handlers_of_a_class,
    types_of_a_class, same_frames, more_same_frames, frames_in_methods, chopped_frames, frames_of_a_class,
    maps_of_one_descriptor, maps_of_many_parameters,
    instructions, small_methods, descriptors,
]


def limit():
    resource.setrlimit(resource.RLIMIT_AS, (CEILING, CEILING))
    resource.setrlimit(resource.RLIMIT_CPU, (PATIENCE, PATIENCE))


def run(program, folder):
    """Processor seconds, peak bytes, and how the program ended on the class of the folder."""
    out = os.path.join(folder, 'out')
    child = os.fork()
    if child == 0:
        try:
            limit()
            for sink in (1, 2):
                os.dup2(os.open(out, os.O_CREAT | os.O_WRONLY | os.O_APPEND), sink)
            os.execv(program, [program, 'run', os.path.join(folder, 'd'), 'M', '4'])
        finally:
            os._exit(126)
    _, status, usage = os.wait4(child, 0)
    with open(out, errors='replace') as told:
        said = told.read().strip().replace('\n', ' / ')
    end = f'signal {os.WTERMSIG(status)}' if os.WIFSIGNALED(status) else f'status {os.WEXITSTATUS(status)}'
    return usage.ru_utime + usage.ru_stime, usage.ru_maxrss * 1024, f'{end}: {said[:90]}'


def tried(program, case):
    """Whether the program kept the rule on the file of a case."""
    f = File()
    case(f)
    data = f.data()
    assert len(f.pool) < 65535 and len(data) <= 1048576, (case.__name__, len(f.pool), len(data))
    with tempfile.TemporaryDirectory() as folder:
        os.mkdir(os.path.join(folder, 'd'))
        with open(os.path.join(folder, 'd', 'M.class'), 'wb') as out:
            out.write(data)
        seconds, peak, end = run(program, folder)
    kept = seconds <= SECONDS and peak <= BYTES
    mark = '' if kept else '  TOO MUCH'
    print(f'{case.__name__:28}{len(data):9} bytes{seconds:8.2f} s{peak / (1 << 20):8.0f} MiB  {end}{mark}', flush=True)
    return kept


def main():
    program = sys.argv[1] if len(sys.argv) > 1 else PROGRAM
    names = sys.argv[2:]
    unknown = [name for name in names if name not in [case.__name__ for case in CASES]]
    if not os.access(program, os.X_OK):
        sys.exit(f'hostile: no program at {program}')
    if unknown:
        sys.exit(f'hostile: no case {unknown[0]}')
    chosen = [case for case in CASES if not names or case.__name__ in names]
    if not all([tried(program, case) for case in chosen]):
        sys.exit(1)


if __name__ == '__main__':
    main()
