"""Random Java programs of the profile, each one source with a few classes and interfaces, for tools/agree_with_java.py.

A program ends within some 100,000 steps: each call and each turn of a loop takes one of `Env.fuel`, where none is left
calls return at once and loops end, and calls nest no deeper than DEPTH. Its objects are small, so its heap stays within
the limit. It uses neither strings nor anything else that the profile leaves out.
"""
from random_scopes import Class, Method, NUMBERS, PRIMITIVES, Scope, THROWABLES
from random_statements import Statements

DEPTH = 7

ENV = '''
/** What is left of the program's turns, what it has seen, and how often it has printed. */
final class Env {
  int fuel;
  int prints;
  long seen;

  Env(int fuel) {
    this.fuel = fuel;
  }

  boolean mayPrint() {
    return ++prints <= 120;
  }

  int see(long what) {
    seen = seen * 31 + what;
    return (int) (seen >>> 7);
  }

  int caught(Throwable t) {
    int code = %(chain)s;
    if (mayPrint()) {
      Out.print('!');
      Out.print(code);
      if (t instanceof Fault) {
        Out.print(':');
        Out.print(((Fault) t).code);
      }
      Out.line();
    }
    return see(code);
  }
}

class Fault extends RuntimeException {
  int code;

  Fault(int code) {
    this.code = code;
  }
}

class Worse extends Fault {
  long more;

  Worse(long more) {
    super(more > 9 ? (int) more : 9);
    this.more = more;
  }
}

class Checked extends Exception {
  byte code;

  Checked(int code) {
    super();
    this.code = (byte) code;
  }
}

/** A type with a parameter, which is erased: its methods have a bridge each, which casts. */
interface Taker<T> {
  int take(Env e, int d, T what);
}
'''


class Program(Statements):
    """A random program; `text` is its source, `ints` the numbers that its main is given."""

    def __init__(self, package, seed):
        super().__init__('%s %s' % (seed, package))
        self.package = package
        self.skeletons()
        self.ints = [self.r.choice(NUMBERS + [4, 6, 9, 12]) for _ in range(self.r.choice([0, 1, 2, 3]))]
        self.text = self.source()

    def skeletons(self):
        r = self.r
        for n in range(r.choice([1, 2, 2])):
            one = Class('I%d' % n, interface=True)
            if n and self.chance(.4):
                one.interfaces.append(self.interfaces[0])
            if self.chance(.5):
                one.constants.append((self.r.choice(PRIMITIVES), self.name('K')))
            self.interfaces.append(one)
        for n in range(1 + self.some(1, 2, 2, 3)):
            above = r.choice(self.classes) if self.classes and self.chance(.75) else None
            one = Class('C%d' % n, above)
            one.is_abstract = n == 0 and self.chance(.35)
            one.interfaces = [i for i in self.interfaces if self.chance(.35)]
            self.classes.append(one)
        for one in self.classes:
            if one.is_abstract and not any(it is not one and it.is_below(one) for it in self.classes):
                one.is_abstract = False
        for one in self.interfaces:
            for _ in range(r.choice([1, 1, 2])):
                one.methods.append(Method(one, self.name('m'), self.result_type(), self.params(), 'virtual'))
        for one in self.classes:
            self.members(one)
        for _ in range(1 + self.some(2, 3, 4)):
            self.statics.append(Method(None, self.name('s'), self.result_type(), self.params(), 'static', self.chance(.15), self.chance(.5)))

    def result_type(self):
        return self.pick(('int', 6), ('long', 4), (self.r.choice(PRIMITIVES), 4), (self.any_type(), 3), ('void', 1))

    def params(self):
        return [self.any_type() for _ in range(self.r.choice([0, 1, 1, 2, 2, 3]))]

    def members(self, one):
        r = self.r
        for _ in range(r.choice([2, 3, 4])):
            one.fields.append((self.name('f'), self.any_type()))
        if one.above is not None and self.chance(.3):  # a field that hides another
            hidden = r.choice(one.above.fields)[0]
            one.fields.append((hidden, self.any_type()))
        for _ in range(r.choice([1, 2])):
            method = Method(one, self.name('v'), self.result_type(), self.params(), 'virtual')
            one.methods.append(method)
            if not (one.is_abstract and self.chance(.5)):
                one.bodies.add(method.name)
        for name, method in sorted(one.callable().items()):
            declared_here = any(it.name == name for it in one.methods)
            needed = not one.is_abstract and not one.has_body(name)
            if not declared_here and (needed or self.chance(.45) and method.owner is not one):
                result = method.result
                if result in self.known() and self.chance(.5):  # a result of a class below, which needs a bridge
                    result = r.choice([it.name for it in self.classes + self.interfaces if it.is_below(self.known()[result])])
                one.methods.append(Method(one, name, result, method.params, 'virtual'))
                one.bodies.add(name)
        if self.chance(.6):
            above = [it for c in one.line()[1:] for it in c.methods if it.kind == 'private']
            if above and self.chance(.5):  # not an override: a private method is called as its own class declares it
                it = r.choice(above)
                one.methods.append(Method(one, it.name, it.result, it.params, 'private'))
            elif not above:
                one.methods.append(Method(one, self.name('p'), self.result_type(), self.params(), 'private'))
        if self.chance(.4):
            one.methods.append(Method(one, self.name('t'), self.result_type(), self.params(), 'static'))
        if self.chance(.3):
            one.inner = self.name('N')

    @staticmethod
    def default(t):
        return {'void': '', 'boolean': ' false', 'long': ' 0L'}.get(t, ' 0' if t in PRIMITIVES else ' null')

    def method(self, method, scope, flags, k):
        """A method with a body."""
        params = [(self.name('b'), it) for it in method.params]
        scope.locals += [(name, t, True) for name, t in params]
        scope.result, scope.throws = method.result, method.throws
        words = ['%s %s' % (t, n) for n, t in params]
        words = words + ['Env e', 'int d'] if method.last else ['Env e', 'int d'] + words
        head = '%s%s %s(%s)%s {' % (flags, method.result, method.name, ', '.join(words),
                                    ' throws Checked' if method.throws else '')
        lines = [head, '  if (d > %d || --e.fuel < 0) {' % DEPTH, '    return%s;' % self.default(method.result), '  }']
        inner, completes = scope.inside(), True
        for _ in range(self.some(2, 3, 4, 5)):
            more, completes = self.statement(inner, max(k, 0))
            lines += ['  ' + it for it in more]
            if not completes:
                break
        if completes and method.result != 'void':
            lines.append('  ' + self.returned(inner))
        return lines + ['}', '']

    def constructors(self, one):
        """Two initialisers: one that does the work, and one that calls it or another one."""
        s = Scope(one)
        s.locals = [('x', 'int', True)]
        s.result = 'void'
        # (what stands before the test of the depth calls nothing)
        given = self.r.choice(['x', 'x > 3 ? %s : x' % self.literal('int'), 'x++ ^ x', '(x & 7) == 0 ? -x : x >> %d' % self.r.randint(1, 9), 'd / (x | 1)'])
        lines = ['%s(Env e, int d, int x) {' % one.name]
        if one.above is not None:
            lines.append('  super(e, d + 1, %s);' % given)
        lines += ['  if (d > %d || --e.fuel < 0) {' % DEPTH, '    return;', '  }']
        for name, t in one.fields:
            if self.chance(.85 if self.is_reference(t) else .5):
                lines.append('  this.%s = %s;' % (name, self.expr(t, s, 1)))
        if self.chance(.25):
            more, _ = self.statement(s.inside(), 1)
            lines += ['  ' + it for it in more]
        lines += ['}', '', '%s(Env e, int d) {' % one.name]
        if one.above is not None and self.chance(.5):
            lines.append('  super(e, d);')
        else:
            lines.append('  this(e, d, %s);' % self.literal('int'))
        return lines + ['}', '']

    def inner(self, one):
        """A class within, each of whose objects has one of the class around it."""
        inner = Class(one.inner)
        inner.fields = [(self.name('f'), self.any_type()) for _ in range(2)]
        s = Scope(inner, one)
        lines = ['class %s {' % one.inner, '  private int w;']
        lines += ['  %s %s;' % (t, n) for n, t in inner.fields]
        start = Scope(inner, one)
        start.locals = [('x', 'int', True)]
        lines += ['', '  %s(Env e, int d, int x) {' % one.inner, '    w = x;']
        lines += ['    this.%s = %s;' % (n, self.expr(t, start, 1)) for n, t in inner.fields]
        lines += ['  }', '']
        method = Method(inner, 'get', 'int', [], 'virtual')
        return lines + ['  ' + it for it in self.method(method, s, 'private ' if self.chance(.5) else '', 1)] + ['}', '']

    def class_text(self, one):
        if one.is_interface:
            above = ' extends ' + ', '.join(it.name for it in one.interfaces) if one.interfaces else ''
            lines = ['interface %s%s {' % (one.name, above)]
            for t, name in one.constants:
                value = 'true' if t == 'boolean' else '(%s) %s' % (t, self.literal(t))
                lines.append('  %s %s = %s;' % (t, name, value))
            for it in one.methods:
                words = ['Env e', 'int d'] + ['%s a%d' % (t, n) for n, t in enumerate(it.params)]
                lines.append('  %s %s(%s);' % (it.result, it.name, ', '.join(words)))
            return lines + ['}', '']
        is_leaf = not any(it is not one and it.is_below(one) for it in self.classes)
        flags = 'abstract ' if one.is_abstract else 'final ' if is_leaf and self.chance(.3) else ''
        names = [it.name for it in one.interfaces] + (['nrmi.Restorable'] if self.chance(.15) else [])
        head = '%sclass %s%s%s {' % (flags, one.name, ' extends ' + one.above.name if one.above else '',
                                     ' implements ' + ', '.join(names) if names else '')
        lines = [head]
        for name, t in one.fields:
            value = ''
            if t in ('int', 'long') and self.chance(.3):
                value = ' = ' + self.literal(t)
            if t.endswith('[]') and t.count('[]') == 1 and self.chance(.6):
                value = ' = new %s[%d]' % (t[:-2], self.r.randint(1, 5))
            lines.append('  %s %s%s;' % (t, name, value))
        lines.append('')
        body = self.constructors(one)
        for it in one.methods:
            if it.kind == 'virtual' and it.name not in one.bodies:
                words = ['Env e', 'int d'] + ['%s a%d' % (t, n) for n, t in enumerate(it.params)]
                body += ['%s %s %s(%s);' % ('public abstract', it.result, it.name, ', '.join(words)), '']
                continue
            final = 'final ' if is_leaf and it.kind == 'virtual' and self.chance(.2) else ''
            scope = Scope(None if it.kind == 'static' else one)
            flags = {'virtual': 'public ' + final, 'private': 'private ', 'static': 'static '}[it.kind]
            body += self.method(it, scope, flags, 2)
        if one.inner:
            body += self.inner(one)
        return lines + ['  ' + it if it else '' for it in body] + ['}', '']

    def wide_method(self):
        """A method with more than 256 places of local variables and more than 256 constants."""
        name = self.name('w')
        longs = ['l%d' % n for n in range(132)]
        lines = ['static long %s(Env e, int d, int n) {' % name]
        lines += ['  long %s = n + %dL;' % (it, 100000 + 7 * place) for place, it in enumerate(longs)]
        lines += ['  int i = n;', '  Object o = e;', '  for (i = 0; i < 700; i++) {', '    l131 += i * %s;' % self.literal('int'), '    i += 300;', '    i -= 1;', '    if (o == null) {',
                  '      o = new int[1];', '    } else if ((i & 1) == 0) {', '      o = null;', '    }', '  }', '  i ^= 123456789;']
        lines += ['  l130 ^= %d * (long) i;' % self.r.randint(40000, 2000000000) for _ in range(130)]
        return name, lines + ['  return l0 + l64 * l130 ^ l131 + i + (o == null ? 1 : 0);', '}', '']

    def far_method(self):
        """A loop with a body of more than 32,767 bytes."""
        name = self.name('w')
        lines = ['static long %s(Env e, int d, int n) {' % name, '  int x = n;', '  for (int i = 0; i < 2; i++) {']
        lines += ['    x = x * 31 + n * 7 + x / 3 + (x ^ 12345) - (n & %d);' % self.r.randint(70000, 77777) for _ in range(1000)]
        return name, lines + ['    if (x == 77) {', '      break;', '    }', '  }', '  return x;', '}', '']

    def main(self):
        """The class Main: static methods, and a main of some calls, most of which are guarded."""
        lines = ['public class Main {']
        body, extra = [], []
        if self.chance(.04):
            name, more = self.wide_method()
            extra.append(name)
            body += more
        if self.chance(.008):
            name, more = self.far_method()
            extra.append(name)
            body += more
        for it in self.statics:
            body += self.method(it, Scope(), 'static ', 3)
        body += ['public static int main(int[] args) {', '  Env e = new Env(0);', '  int got = args.length;']
        s = Scope(env='e', depth='1')
        s.is_main = True
        s.locals = [('args', 'int[]', False), ('got', 'int', True)]
        for name in extra:
            body.append('  e.see(%s(e, 1, got + 3));' % name)
        for _ in range(self.r.choice([4, 5, 6, 7])):
            body.append('  e.fuel = %d;' % self.r.choice([40, 80, 120, 150]))
            if self.chance(.4):
                body += ['  ' + it for it in self.start_of_phase(s)]
            body += ['  ' + it for it in self.phase(s.inside())]
        body += ['  Out.print(e.seen);', '  Out.line();', '  Out.print(e.prints);', '  Out.line();', '  return got;', '}']
        return lines + ['  ' + it if it else '' for it in body] + ['}']

    def start_of_phase(self, s):
        """A local variable of main that the later ones can use."""
        t, name = self.any_type(), self.name('y')
        lines = ['%s %s =%s;' % (t, name, self.default(t)), 'try {', '  %s = %s;' % (name, self.expr(t, s, 3))]
        s.locals.append((name, t, True))
        return lines + ['} catch (RuntimeException t) {', '  got += e.caught(t);', '}']

    def phase(self, s):
        """Some statements of main; what they throw is caught, but seldom isn't."""
        guarded = self.chance(.93)
        s.throws = guarded
        lines = []
        for _ in range(self.some(1, 2, 3)):
            more, completes = self.statement(s, 2)
            lines += more
            if not completes:
                break
        else:
            call = self.call(self.r.choice(['int', 'int', 'long', 'short', 'byte', 'char']), s, 3)
            if call:
                lines.append('got = got * 31 + e.see(%s);' % call)
        lines = ['  ' + it for it in lines]
        if not guarded:
            return ['if (e.fuel > 0) {'] + lines + ['}']
        return ['try {'] + lines + ['} catch (%s t) {' % ('Throwable' if self.chance(.9) else 'Exception'), '  got += e.caught(t);', '}']

    def source(self):
        named = sorted((it for it in THROWABLES if it not in ('Throwable',)), key=self.order)
        chain = ' : '.join('t instanceof %s ? %d' % (it, n + 1) for n, it in enumerate(named)) + ' : 0'
        text = ['package %s;' % self.package, '', 'import nrmi.Out;', (ENV % {'chain': chain}).rstrip('\n'), '']
        for one in self.interfaces + self.classes:
            text += self.class_text(one)
        return '\n'.join(text + self.main()) + '\n'

    @staticmethod
    def order(name):
        """The deepest classes first."""
        depth, at = 0, name
        while at is not None:
            depth, at = depth + 1, THROWABLES[at]
        return -depth, name
