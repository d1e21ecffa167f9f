"""What a random Java program is made of: its classes, what code at a place can use, and chosen names and types."""

import random

PRIMITIVES = ['int', 'long', 'byte', 'short', 'char', 'boolean']
NARROW = ['byte', 'short', 'char']
NUMBERS = [0, 1, -1, 2, 3, 5, 7, 8, 10, 31, 32, 33, 63, 64, 100, 127, 128, -128, -129, 255, 256, 32767, 32768, -32768, -32769,
           65535, 65536, 1000003, -77777, 0x55555555, 2147483647, -2147483648, -2147483647]
LONGS = NUMBERS + [4294967295, 4294967296, -4294967297, 2147483648, 1 << 62, -(1 << 62), (1 << 63) - 1, -(1 << 63), 0x123456789ABCDEF]
THROWABLES = {
    'Throwable': None, 'Exception': 'Throwable', 'Error': 'Throwable', 'RuntimeException': 'Exception',
    'ArithmeticException': 'RuntimeException', 'ArrayStoreException': 'RuntimeException', 'ClassCastException': 'RuntimeException',
    'IllegalArgumentException': 'RuntimeException', 'IllegalStateException': 'RuntimeException',
    'IndexOutOfBoundsException': 'RuntimeException', 'NegativeArraySizeException': 'RuntimeException',
    'NullPointerException': 'RuntimeException', 'ArrayIndexOutOfBoundsException': 'IndexOutOfBoundsException',
    'LinkageError': 'Error', 'IncompatibleClassChangeError': 'LinkageError', 'AbstractMethodError': 'IncompatibleClassChangeError',
    'Fault': 'RuntimeException', 'Worse': 'Fault', 'Checked': 'Exception', 'nrmi.RemoteFault': 'RuntimeException',
}


def is_below(name, above):
    """Whether a throwable class is another one or below it."""
    while name is not None and name != above:
        name = THROWABLES[name]
    return name is not None


class Method:
    """A method that can be called: of a class or an interface (`owner`), or static."""

    def __init__(self, owner, name, result, params, kind, throws=False, last=False):
        self.owner, self.name, self.result, self.params = owner, name, result, params
        self.kind, self.throws = kind, throws  # kind: 'virtual', 'private' or 'static'
        self.last = last  # do its own parameters stand first


class Class:
    """A class or an interface of the program."""

    def __init__(self, name, above=None, interface=False):
        self.name, self.above, self.is_interface = name, above, interface
        self.interfaces, self.fields, self.methods = [], [], []
        self.is_abstract, self.inner, self.constants = interface, None, []
        self.bodies = set()  # the names of the methods that have a body here

    def line(self):
        """The class and its superclasses, itself first."""
        at, found = self, []
        while at is not None:
            found.append(at)
            at = at.above
        return found

    def all_interfaces(self):
        found, todo = [], [i for c in self.line() for i in c.interfaces]
        for one in todo:
            if one not in found:
                found.append(one)
                todo += one.interfaces
        return found

    def is_below(self, other):
        return other is self or other in self.line() or other in self.all_interfaces()

    def callable(self):
        """The virtual methods that can be called on it, by name, the nearest declaration of each."""
        found = {}
        for one in self.line() + self.all_interfaces():
            for method in one.methods:
                if method.kind == 'virtual':
                    found.setdefault(method.name, method)
        return found

    def has_body(self, name):
        return any(name in one.bodies for one in self.line())

    def all_fields(self):
        return [(one, field) for one in self.line() for field in one.fields]


class Scope:
    """What code at a place can use: local variables, the class of `this` if there is one, labels and the like."""

    def __init__(self, this=None, outer=None, throws=False, env='e', depth='d + 1'):
        self.locals = []  # (name, type, may it be assigned)
        self.this, self.outer, self.throws, self.env, self.depth = this, outer, throws, env, depth
        self.labels, self.breakable, self.loop = [], False, False
        self.result, self.is_main = None, False

    def inside(self):
        other = Scope(self.this, self.outer, self.throws, self.env, self.depth)
        other.locals = list(self.locals)
        other.labels, other.breakable, other.loop = list(self.labels), self.breakable, self.loop
        other.result, other.is_main = self.result, self.is_main
        return other


class Choices:
    """Choices of names and types for a program, whose `r` is what chooses."""

    def __init__(self, seed):
        self.r, self.count = random.Random(seed), 0
        self.size = self.r.choice([.3, .6, 1])
        self.classes, self.interfaces, self.statics = [], [], []

    def name(self, prefix):
        self.count += 1
        return '%s%d' % (prefix, self.count)

    def some(self, *counts):
        """One of the counts, or less in a small program."""
        return max(1, round(self.r.choice(counts) * self.size))

    def chance(self, p):
        return self.r.random() < p

    def pick(self, *weighted):
        """One of (what, weight)."""
        return self.r.choices([it[0] for it in weighted], [it[1] for it in weighted])[0]

    def known(self):
        return {it.name: it for it in self.classes + self.interfaces}

    def element_type(self):
        return self.pick((self.r.choice(PRIMITIVES), 8), (self.reference_type(), 3))

    def reference_type(self):
        named = [it.name for it in self.classes + self.interfaces]
        return self.r.choice(named + ['Object']) if named else 'Object'

    def array_type(self):
        return self.element_type() + self.pick(('[]', 10), ('[][]', 3), ('[][][]', 1))

    def any_type(self):
        return self.pick(('int', 5), ('long', 4), (self.r.choice(PRIMITIVES), 4), (self.reference_type(), 3), (self.array_type(), 3))

    @staticmethod
    def is_reference(t):
        return t not in PRIMITIVES
