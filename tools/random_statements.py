"""Statements of random Java programs: each is its lines, and whether it can complete normally (Java Language Specification 14.21)."""
from random_expressions import Expressions
from random_scopes import NUMBERS, PRIMITIVES, Scope, THROWABLES, is_below


class Statements(Expressions):
    """Makes statements in a scope; k bounds how deep they nest."""

    def block(self, s, k, n=None, may_jump=True):
        """Statements in a scope of their own."""
        s, lines = s.inside(), []
        for _ in range(n if n is not None else self.some(1, 2, 2, 3, 4)):
            more, completes = self.statement(s, k)
            lines += more
            if not completes:
                return lines, False
        if may_jump and self.chance(.12):
            jump = self.jump(s)
            if jump:
                return lines + jump, False
        return lines, True

    def jump(self, s):
        """A statement that can't complete normally, if one fits here."""
        ways = [('throw', 1.5)]
        if s.result is not None:
            ways.append(('return', 2))
        if s.breakable:
            ways.append(('break', 2))
        if s.loop:
            ways.append(('continue', 2))
        if s.labels:
            ways += [('break ' + self.r.choice(s.labels), 1), ('continue ' + self.r.choice(s.labels), 1)]
        way = self.pick(*ways)
        if way == 'throw':
            return [self.throw(s)]
        if way == 'return':
            return [self.returned(s)]
        return [way + ';']

    def returned(self, s):
        return 'return;' if s.result == 'void' else 'return %s;' % self.expr(s.result, s, 2)

    def throw(self, s):
        names = [n for n, t, _ in s.locals if t in THROWABLES and is_below(t, 'RuntimeException')]
        if names and self.chance(.4):
            return 'throw %s;' % self.r.choice(names)
        if self.chance(.05):
            return 'throw (RuntimeException) null;'
        kinds = [it for it in THROWABLES if s.throws or is_below(it, 'RuntimeException') or is_below(it, 'Error')]
        kind = self.r.choice(kinds) if self.chance(.6) else self.r.choice(['Fault', 'Worse'])
        given = {'Fault': self.int_(s, 1), 'Worse': self.long_(s, 1), 'Checked': self.int_(s, 1)}.get(kind, '')
        if kind == 'Checked' and not s.throws:
            kind, given = 'Fault', '3'
        if kind in ('Throwable', 'Exception'):
            kind, given = 'Checked', '4'
        if kind == 'Checked' and not s.throws:
            kind = 'Fault'
        return 'throw new %s(%s);' % (kind, given)

    def statement(self, s, k):
        way = self.pick(('local', 5), ('assign', 5), ('step', 2), ('call', 3), ('if', 3 if k else 0), ('loop', 3 if k else 0),
                        ('switch', 2 if k else 0), ('try', 2.5 if k else 0), ('print', 2), ('see', 2), ('later', .7), ('jump', 1),
                        ('store', .7), ('anonymous', .6 if k else 0), ('taker', .25), ('inner', 1), ('block', .2 if k else 0),
                        ('grid', .6 if k else 0))
        return getattr(self, 'do_' + way)(s, k)

    def do_local(self, s, k):
        t = self.any_type()
        value = self.expr(t, s, 3 if self.chance(.3) else 2)
        name = self.name('x')
        s.locals.append((name, t, True))
        return ['%s %s = %s;' % (t, name, value)], True

    def do_later(self, s, k):
        t, name = self.any_type(), self.name('x')
        lines = ['%s %s;' % (t, name), 'if (%s) {' % self.bool_(s, 2), '  %s = %s;' % (name, self.expr(t, s, 2)), '} else {',
                 '  %s = %s;' % (name, self.expr(t, s, 2)), '}']
        s.locals.append((name, t, True))
        return lines, True

    def do_assign(self, s, k):
        for _ in range(4):
            t = self.any_type()
            place = self.place(t, s, 2)
            if place:
                if t == 'boolean' or self.is_reference(t) or self.chance(.5):
                    return ['%s = %s;' % (place, self.expr(t, s, 3 if self.chance(.3) else 2))], True
                op = self.r.choice(['+=', '-=', '*=', '&=', '|=', '^=', '<<=', '>>=', '>>>='])
                return ['%s %s %s;' % (place, op, self.number(s, 2))], True
        return self.do_local(s, k)

    def do_step(self, s, k):
        place = self.place(self.r.choice(['int', 'int', 'long', 'byte', 'short', 'char']), s, 1)
        if place is None:
            return self.do_local(s, k)
        return [self.r.choice(['%s++;', '%s--;', '++%s;', '%s += 300;', '%s += 7;', '%s -= 5;']) % place], True

    def do_call(self, s, k):
        text = self.call(self.r.choice(['int', 'long', 'void', 'int', 'boolean', self.any_type()]), s, 2)
        return ([text + ';'], True) if text else self.do_see(s, k)

    def do_see(self, s, k):
        return ['%s.see(%s);' % (s.env, self.number(s, 2))], True

    def do_print(self, s, k):
        t = self.r.choice(['int', 'int', 'long', 'char', 'byte', 'short', 'char[]'])
        text = self.expr(t, s, 2)
        lines = ['if (%s.mayPrint()) {' % s.env, '  Out.print(%s);' % text]
        lines.append('  Out.line();' if self.chance(.5) else "  Out.print(' ');")
        return lines + ['}'], True

    def do_jump(self, s, k):
        jump = self.jump(s)
        if not jump:
            return self.do_see(s, k)
        return ['if (%s) {' % self.rare(s)] + ['  ' + it for it in jump] + ['}'], True

    def rare(self, s):
        """A test that seldom holds."""
        return '(%s & %d) == %d' % (self.int_(s, 2), self.r.choice([3, 7, 15]), self.r.choice([1, 2, 3]))

    def do_if(self, s, k):
        first, a = self.block(s, k - 1)
        lines = ['if (%s) {' % self.bool_(s, 3)] + ['  ' + it for it in first]
        if self.chance(.5):
            return lines + ['}'], True
        second, b = self.block(s, k - 1)
        if not a and not b:
            second, b = [], True
        return lines + ['} else {'] + ['  ' + it for it in second] + ['}'], a or b

    def do_block(self, s, k):
        lines, completes = self.block(s, k - 1, may_jump=False)
        return ['{'] + ['  ' + it for it in lines] + ['}'], completes

    def do_loop(self, s, k):
        inner = s.inside()
        inner.breakable = inner.loop = True
        label = ''
        if self.chance(.25):
            label = self.name('l')
            inner.labels.append(label)
            label += ': '
        fuel, i = '--%s.fuel >= 0' % s.env, self.name('i')
        way = self.pick(('for', 4), ('while', 1.5), ('do', 1), ('each', 1.5), ('long', .7))
        if way in ('for', 'long'):
            t, last = ('int', '%d' % self.r.randint(1, 9)) if way == 'for' else ('long', '%dL' % self.r.randint(1, 9))
            inner.locals.append((i, t, False))
            body, _ = self.block(inner, k - 1)
            if self.chance(.7):
                head = 'for (%s %s = 0; %s < %s && %s; %s++)' % (t, i, i, last, fuel, i)
            else:
                head = 'for (%s %s = %s; %s > 0 && %s; %s -= %d)' % (t, i, last, i, fuel, i, self.r.randint(1, 3))
            return [label + head + ' {'] + ['  ' + it for it in body] + ['}'], True
        if way == 'each':
            t = self.element_type()
            arrays = self.arrays_of(t, s)
            array = self.r.choice(arrays) if arrays else self.array(t + '[]', s, 1)
            inner.locals.append((i, t, True))
            body, _ = self.block(inner, k - 1)
            return [label + 'for (%s %s : %s) {' % (t, i, array), '  if (--%s.fuel < 0) {' % s.env, '    break;', '  }'] + ['  ' + it for it in body] + ['}'], True
        test = self.bool_(s, 2)
        if way == 'while':
            body, _ = self.block(inner, k - 1)
            return [label + 'while (%s && %s) {' % (fuel, test)] + ['  ' + it for it in body] + ['}'], True
        body, completes = self.block(inner, k - 1, may_jump=False)
        if not completes:
            body, completes = ['%s.see(1);' % s.env], True
        return [label + 'do {'] + ['  ' + it for it in body] + ['} while (%s && %s);' % (fuel, test)], True

    def do_switch(self, s, k):
        inner = s.inside()
        inner.breakable = True
        n = self.r.choice([0, 1, 2, 3, 4, 5, 7])
        if self.chance(.55):
            low = self.r.choice([0, 0, -2, 1, 100, 2147483640, -2147483648])
            keys = [low + it for it in self.r.sample(range(8), min(n, 8))]
            what = '(%s & 7) + %s' % (self.int_(s, 2), '(%d)' % low) if self.chance(.8) else self.int_(s, 2)
        else:
            keys = self.r.sample(NUMBERS, n)
            what = self.pick((self.int_(s, 2), 1), ('(%s & 255) - 1' % self.int_(s, 1), 2), (self.r.choice(['%d', '(%d)']) % self.r.choice(keys) if keys else '3', 1))
        lines = ['switch ((int) (%s)) {' % what]
        cases = ['case %d:' % it for it in keys]
        if self.chance(.7):
            cases.insert(self.r.randint(0, len(cases)), 'default:')
        for case in cases:
            lines.append('  ' + case)
            if self.chance(.15):
                continue
            body, completes = self.block(inner, k - 1, self.r.choice([1, 1, 2]), may_jump=False)
            lines.append('  {')
            lines += ['    ' + it for it in body] + ['  }']
            if completes and self.chance(.6):
                lines.append('    break;')
        if cases:  # at the end, so that the switch completes whatever its cases do
            lines += ['  case %d:' % self.r.choice([it for it in range(4242, 4300) if it not in keys]), '    break;']
        return lines + ['}'], True

    def do_try(self, s, k):
        inner = s.inside()
        checked = self.chance(.25)
        inner.throws = inner.throws or checked
        body, completes = self.block(inner, k - 1, self.some(2, 3, 4))
        if checked and completes:
            body += ['if (%s) {' % self.rare(inner), '  throw new Checked(%s);' % self.leaf('int', s), '}']
        lines = ['try {'] + ['  ' + it for it in body]
        caught, kinds = [], [it for it in THROWABLES if it != 'Checked']
        chosen = [self.r.choice(kinds) for _ in range(self.r.choice([0, 1, 1, 2, 3]))]
        if self.chance(.6):
            chosen.append(self.r.choice(['RuntimeException', 'Exception', 'Throwable']))
        if checked:
            chosen.append(self.r.choice(['Exception', 'Throwable']))
        last = self.chance(.4) or not chosen
        for kind in chosen:
            if any(is_below(kind, it) for it in caught):
                continue
            caught.append(kind)
            handler, name = s.inside(), self.name('t')
            handler.locals.append((name, kind, False))
            more, done = self.block(handler, k - 1, self.r.choice([0, 1, 2]))
            completes = completes or done
            lines += ['} catch (%s %s) {' % (kind, name), '  %s.caught(%s);' % (s.env, name)] + ['  ' + it for it in more]
        if last:
            outer = s.inside()
            more, done = self.block(outer, k - 1, self.r.choice([1, 2]), may_jump=False)
            if not done:
                more = ['%s.see(2);' % s.env]
            lines += ['} finally {'] + ['  ' + it for it in more]
        return lines + ['}'], completes

    def do_store(self, s, k):
        """A store into an array whose elements may be of a class below that of its type, and other throws that the machine makes."""
        way = self.pick(('store', 4), ('size', 1), ('null', 1), ('cast', 1.5), ('index', 1), ('zero', 1))
        name = self.name('x')
        if way == 'store':
            made = self.r.choice([it.name for it in self.classes] + ['Object', 'int[]'])
            value = self.ref(self.reference_type(), s, 1) if made != 'int[]' or self.chance(.5) else 'new int[2]'
            size = '[3][]' if made == 'int[]' else '[3]'
            return ['Object[] %s = new %s%s;' % (name, made.replace('[]', ''), size), '%s[%s & 1] = %s;' % (name, self.int_(s, 1), value)], True
        if way == 'size':
            t = self.r.choice(PRIMITIVES + [it.name for it in self.classes])
            dims = self.r.choice(['[%s]', '[2][%s]', '[%s][1]', '[0][%s]'])
            return ['Object %s = new %s%s;' % (name, t, dims % '(%s %% 4)' % self.int_(s, 1))], True
        if way == 'null':
            t = self.r.choice(PRIMITIVES) + '[]'
            return ['%s %s = %s ? null : %s;' % (t, name, self.rare(s), self.array(t, s, 1)), '%s.see(%s.length);' % (s.env, name)], True
        if way == 'cast':
            t = self.tested_type()
            return ['Object %s = (%s) (Object) %s;' % (name, t, self.some_ref(s))], True
        if way == 'zero':
            return ['%s.see(%s / (%s & 3));' % (s.env, self.number(s, 1), self.number(s, 1))], True
        t = self.r.choice(PRIMITIVES)
        return ['%s[] %s = new %s[3];' % (t, name, t), '%s[%s & 3] = %s;' % (name, self.int_(s, 1), self.expr(t, s, 1))], True

    def do_grid(self, s, k):
        """An array of arrays that is filled and read in loops."""
        t, name, i, j = self.r.choice(PRIMITIVES), self.name('g'), self.name('i'), self.name('i')
        lines = ['%s[][] %s = new %s[%d][%d];' % (t, name, t, self.r.randint(1, 4), self.r.randint(1, 4))]
        inner = s.inside()
        inner.locals += [(i, 'int', False), (j, 'int', False), (name, t + '[][]', False)]
        lines += ['for (int %s = 0; %s < %s.length; %s++) {' % (i, i, name, i), '  for (int %s = 0; %s < %s[%s].length; %s++) {' % (j, j, name, i, j),
                  '    %s[%s][%s] = %s;' % (name, i, j, self.expr(t, inner, 2))]
        if t not in ('boolean',):
            lines.append('    %s[%s][%s] += %s[%s][%s] ^ %s;' % (name, i, j, name, i, j, self.int_(inner, 1)))
        s.locals.append((name, t + '[][]', True))
        return lines + ['  }', '}'], True

    def do_anonymous(self, s, k):
        """An object of a class without a name, which keeps a local variable and may use the object around it."""
        one = self.r.choice(self.interfaces)
        t, kept, name, field = self.any_type(), self.name('q'), self.name('a'), self.name('z')
        lines = ['final %s %s = %s;' % (t, kept, self.expr(t, s, 2)), '%s %s = new %s() {' % (one.name, name, one.name)]
        lines.append('  long %s = %s;' % (field, '%s' % kept if t in ('int', 'long', 'byte', 'short', 'char') else self.literal('long')))
        for method in one.callable().values():
            inner = Scope(outer=s.this if s.this is not None and s.this in self.classes else None)
            inner.locals = [(kept, t, False), (field, 'long', True)]
            lines += ['  ' + it for it in self.method(method, inner, 'public ', k - 1)]
        s.locals.append((name, one.name, True))
        return lines + ['};'], True

    def do_taker(self, s, k):
        """A bridge that casts: what is taken may be of another class."""
        one, name = self.r.choice(self.classes).name, self.name('a')
        lines = ['Taker %s = new Taker<%s>() {' % (name, one), '  public int take(Env e, int d, %s what) {' % one,
                 '    return what == null ? %s : e.see(7);' % self.literal('int'), '  }', '};',
                 '%s.see(%s.take(%s, %s, %s));' % (s.env, name, s.env, s.depth, self.ref(one, s, 1) if self.chance(.85) else 'new Object()')]
        return lines, True

    def do_inner(self, s, k):
        if s.this is None or s.this.inner is None or s.this not in self.classes:
            return self.do_assign(s, k)
        name = self.name('n')
        return ['%s %s = new %s(%s, %s, %s);' % (s.this.inner, name, s.this.inner, s.env, s.depth, self.int_(s, 1)),
                '%s.see(%s.get(%s, %s) + (%s.w++) + %s.w);' % (s.env, name, s.env, s.depth, name, name)], True
