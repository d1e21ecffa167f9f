"""Expressions of random Java programs: each is text of just the type that was asked for."""
from random_scopes import Choices, LONGS, NARROW, NUMBERS, PRIMITIVES


class Expressions(Choices):
    """Makes expressions of a scope; k bounds how deep they are."""

    def expr(self, t, s, k=2):
        if t == 'int':
            return self.int_(s, k)
        if t == 'long':
            return self.long_(s, k)
        if t == 'boolean':
            return self.bool_(s, k)
        if t in NARROW:
            return self.narrow(t, s, k)
        return self.ref(t, s, k)

    def of_type(self, t, s, assigned=False):
        """The local variables, elements and fields that can be read without an effect, of just the type."""
        return [name for name, it, free in s.locals if it == t and (free or not assigned)]

    def fields(self, t, s, assigned=False):
        """Texts of fields of the type: of `this`, of an outer object and of local variables."""
        found = []
        if s.this is not None:
            for n, (_, (name, it)) in enumerate(s.this.all_fields()):
                if it == t and name not in [f[0] for _, f in s.this.all_fields()[:n]]:
                    found.append(name if name not in [l[0] for l in s.locals] else 'this.' + name)
        if s.outer is not None:
            found += ['%s.this.%s' % (s.outer.name, name) for name, it in s.outer.fields if it == t]
        known = self.known()
        for name, it, _ in s.locals:
            if it in known and not known[it].is_interface:
                for owner in known[it].line():
                    for field, its in owner.fields:
                        if its == t:
                            found.append('%s.%s' % (name if owner.name == it else '((%s) %s)' % (owner.name, name), field))
        return found

    def place(self, t, s, k):
        """A text that can be assigned and read, of the type: a local variable, a field or an element."""
        ways = []
        names = self.of_type(t, s, True)
        if names:
            ways.append((lambda: self.r.choice(names), 4))
        fields = self.fields(t, s, True)
        if fields:
            ways.append((lambda: self.r.choice(fields), 4))
        arrays = self.arrays_of(t, s)
        if arrays:
            ways.append((lambda: self.element(self.r.choice(arrays), s, k), 4))
        return self.pick(*ways)() if ways else None

    def arrays_of(self, t, s):
        return self.of_type(t + '[]', s) + self.fields(t + '[]', s)

    def element(self, array, s, k):
        index = self.int_(s, min(k, 1) - 1)
        if self.chance(.06):
            return '%s[%s]' % (array, index)
        return '%s[(%s & 2147483647) %% %s.length]' % (array, index, array)

    def literal(self, t):
        if t == 'long':
            n = self.r.choice(LONGS)
            return '(%dL)' % n if n < 0 else '%dL' % n
        n = self.r.choice(NUMBERS)
        return '(%d)' % n if n < 0 else '%d' % n

    def leaf(self, t, s):
        """A number or truth value without an effect."""
        names = self.of_type(t, s)
        fields = self.fields(t, s)
        if names and self.chance(.6):
            return self.r.choice(names)
        if fields and self.chance(.6):
            return self.r.choice(fields)
        if t == 'boolean':
            return self.r.choice(['true', 'false'])
        if t == 'char':
            return self.r.choice(["'a'", "'\\u20ac'", "'\\ud83d'", '((char) %s)' % self.leaf('int', s)])
        if t in NARROW:
            return '((%s) %s)' % (t, self.leaf('int', s))
        if t == 'int':
            if s.is_main and self.chance(.3):
                return '(args.length > 1 ? args[1] : args.length)'
            known = [name for i in self.interfaces for it, name in i.constants if it not in ('long', 'boolean')]
            if known and self.chance(.1):
                return self.r.choice(['%s.%s' % (i.name, n) for i in self.interfaces for it, n in i.constants if n in known])
            small = [n for it in NARROW for n in self.of_type(it, s)]
            if small and self.chance(.4):
                return self.r.choice(small)
        return self.literal(t)

    def call(self, t, s, k):
        """A call with a result of the type, if there is one that can be made here."""
        known = self.known()
        ways = []
        for it in self.statics:
            if it.result == t and (s.throws or not it.throws):
                ways.append(('Main.' if s.this or s.outer or not s.is_main else '', it))
        for one in self.classes:
            ways += [(one.name + '.', it) for it in one.methods if it.kind == 'static' and it.result == t]
        if s.this is not None:
            for it in s.this.callable().values():
                if it.result == t:
                    ways += [('', it), ('this.', it)]
                    above = s.this.above
                    if above is not None and above.has_body(it.name) and above.callable()[it.name].result == t:
                        ways += [('super.', it)] * 3
            ways += [('', it) for it in s.this.methods if it.kind == 'private' and it.result == t] * 3
        if s.outer is not None:
            ways += [(s.outer.name + '.this.', it) for it in s.outer.methods if it.kind != 'static' and it.result == t]
        for name, its, _ in s.locals:
            if its in known:
                ways += [(name + '.', it) for it in known[its].callable().values() if it.result == t] * 2
        if not ways:
            if k > 0 and self.chance(.3):
                owners = [it for it in self.classes + self.interfaces if any(m.result == t for m in it.callable().values())]
                if owners:
                    owner = self.r.choice(owners)
                    method = self.r.choice([m for m in owner.callable().values() if m.result == t])
                    return self.called('%s.' % self.ref(owner.name, s, k - 1), method, s, k)
            return None
        before, method = self.r.choice(ways)
        return self.called(before, method, s, k)

    def called(self, before, method, s, k):
        words = [self.expr(it, s, k - 1) for it in method.params]
        words = words + [s.env, s.depth] if method.last else [s.env, s.depth] + words
        return '%s%s(%s)' % (before, method.name, ', '.join(words))

    def effect(self, t, s, k):
        """An assignment or a step that is an expression of the type."""
        place = self.place(t, s, k - 1)
        if place is None:
            return None
        if t == 'boolean':
            return '(%s %s %s)' % (place, self.r.choice(['=', '&=', '|=', '^=']), self.bool_(s, k - 1))
        if self.is_reference(t):
            return '(%s = %s)' % (place, self.ref(t, s, k - 1))
        if self.chance(.45):
            return self.r.choice(['%s++', '%s--', '(++%s)', '(--%s)']) % place if self.chance(.5) else '(%s++)' % place
        op = self.r.choice(['=', '+=', '-=', '*=', '&=', '|=', '^=', '<<=', '>>=', '>>>=', '/=', '%='])
        if op == '=':
            return '(%s = %s)' % (place, self.expr(t, s, k - 1))
        value = self.number(s, k - 1)
        if op in ('/=', '%='):
            value = self.divisor(value)
        return '(%s %s %s)' % (place, op, value)

    def number(self, s, k):
        return self.long_(s, k) if self.chance(.3) else self.int_(s, k)

    def divisor(self, text):
        return text if self.chance(.1) else '(%s | 1)' % text

    def int_(self, s, k):
        if k <= 0:
            return self.leaf('int', s)
        way = self.pick(('two', 6), ('divide', 2), ('shift', 2), ('one', 1), ('cast', 2), ('if', 1), ('element', 2), ('length', .7),
                        ('call', 2.5), ('effect', 2), ('truth', .6), ('leaf', 2), ('compare', .3))
        if way == 'two':
            return '(%s %s %s)' % (self.int_(s, k - 1), self.r.choice('+-*&|^'), self.int_(s, k - 1))
        if way == 'divide':
            return '(%s %s %s)' % (self.int_(s, k - 1), self.r.choice('/%'), self.divisor(self.int_(s, k - 1)))
        if way == 'shift':
            return '(%s %s %s)' % (self.int_(s, k - 1), self.r.choice(['<<', '>>', '>>>']), self.number(s, k - 1))
        if way == 'one':
            return '(%s %s)' % (self.r.choice('-~+'), self.int_(s, k - 1))
        if way == 'cast':
            if self.chance(.5):
                return '((int) %s)' % self.long_(s, k - 1)
            return self.narrow(self.r.choice(NARROW), s, k - 1)
        if way == 'if':
            return '(%s ? %s : %s)' % (self.bool_(s, k - 1), self.int_(s, k - 1), self.int_(s, k - 1))
        if way == 'truth':
            return '(%s ? 1 : 0)' % self.bool_(s, k - 1)
        if way == 'compare':
            a, b = self.long_(s, k - 1), self.long_(s, k - 1)
            return '(%s < %s ? -1 : 1)' % (a, b)
        if way == 'length':
            arrays = [n for n, t, _ in s.locals if t.endswith('[]')]
            return '%s.length' % self.r.choice(arrays) if arrays else '%s.length' % self.ref('long[]', s, k - 1)
        return self.other(way, 'int', s, k) or self.leaf('int', s)

    def other(self, way, t, s, k):
        """An element, a call or an assignment of the type, if there is one."""
        if way == 'element':
            arrays = self.arrays_of(t, s)
            if arrays:
                return self.element(self.r.choice(arrays), s, k)
            if t in PRIMITIVES and k > 1 and self.chance(.3):
                return '%s[%s & 1]' % (self.ref(t + '[]', s, k - 1), self.int_(s, k - 2))
        if way == 'call':
            return self.call(t, s, k)
        if way == 'effect':
            return self.effect(t, s, k)
        return None

    def long_(self, s, k):
        if k <= 0:
            return self.leaf('long', s)
        way = self.pick(('two', 6), ('divide', 2), ('shift', 2), ('one', 1), ('cast', 2.5), ('if', .8), ('element', 2), ('call', 2.5),
                        ('effect', 2), ('leaf', 2))
        if way == 'two':
            other = self.long_(s, k - 1) if self.chance(.7) else self.int_(s, k - 1)
            return '(%s %s %s)' % (self.long_(s, k - 1), self.r.choice('+-*&|^'), other)
        if way == 'divide':
            return '(%s %s %s)' % (self.long_(s, k - 1), self.r.choice('/%'), self.divisor(self.number(s, k - 1)))
        if way == 'shift':
            return '(%s %s %s)' % (self.long_(s, k - 1), self.r.choice(['<<', '>>', '>>>']), self.number(s, k - 1))
        if way == 'one':
            return '(%s %s)' % (self.r.choice('-~'), self.long_(s, k - 1))
        if way == 'cast':
            return '((long) %s)' % self.int_(s, k - 1)
        if way == 'if':
            return '(%s ? %s : %s)' % (self.bool_(s, k - 1), self.long_(s, k - 1), self.long_(s, k - 1))
        return self.other(way, 'long', s, k) or self.leaf('long', s)

    def narrow(self, t, s, k):
        if k <= 0:
            return self.leaf(t, s)
        way = self.pick(('cast', 5), ('element', 3), ('call', 2), ('effect', 2), ('leaf', 3))
        if way == 'cast':
            return '((%s) %s)' % (t, self.number(s, k - 1))
        return self.other(way, t, s, k) or self.leaf(t, s)

    def bool_(self, s, k):
        if k <= 0:
            return self.leaf('boolean', s)
        way = self.pick(('int', 5), ('long', 3), ('and', 2), ('bits', 1), ('not', 1), ('same', 1), ('null', .7), ('instance', 1.5),
                        ('element', 1), ('call', 1), ('effect', 1), ('leaf', 1))
        if way == 'int':
            return '(%s %s %s)' % (self.int_(s, k - 1), self.comparison(), self.pick(('0', 1), (self.int_(s, k - 1), 2)))
        if way == 'long':
            return '(%s %s %s)' % (self.long_(s, k - 1), self.comparison(), self.number(s, k - 1))
        if way == 'and':
            return '(%s %s %s)' % (self.bool_(s, k - 1), self.r.choice(['&&', '||']), self.bool_(s, k - 1))
        if way == 'bits':
            return '(%s %s %s)' % (self.bool_(s, k - 1), self.r.choice('&|^'), self.bool_(s, k - 1))
        if way == 'not':
            return '(!%s)' % self.bool_(s, k - 1)
        if way == 'same':
            return '((Object) %s %s (Object) %s)' % (self.some_ref(s), self.r.choice(['==', '!=']), self.some_ref(s))
        if way == 'null':
            return '(%s %s null)' % (self.some_ref(s), self.r.choice(['==', '!=']))
        if way == 'instance':
            return '((Object) %s instanceof %s)' % (self.some_ref(s), self.tested_type())
        return self.other(way, 'boolean', s, k) or self.leaf('boolean', s)

    def comparison(self):
        return self.r.choice(['<', '<=', '>', '>=', '==', '!='])

    def tested_type(self):
        return self.pick((self.reference_type(), 5), (self.array_type(), 3),
                         (self.r.choice(['Object[]', 'Cloneable', 'java.io.Serializable', 'Throwable', 'nrmi.Restorable']), 1))

    def some_ref(self, s):
        """A reference of any type without an effect, but for a new object."""
        names = [n for n, t, _ in s.locals if self.is_reference(t)]
        if s.this is not None:
            names.append('this')
            nearest = {}
            for _, (name, t) in s.this.all_fields():
                nearest.setdefault(name, t)
            names += [name for name, t in nearest.items() if self.is_reference(t)]
        return self.r.choice(names) if names and self.chance(.9) else self.ref(self.reference_type(), s, 0)

    def ref(self, t, s, k):
        """A reference of a class, an interface or an array type. It is seldom null."""
        if t.endswith('[]'):
            return self.array(t, s, k)
        known = self.known()
        names = [n for n, it, _ in s.locals if it == t or t == 'Object' and self.is_reference(it)
                 or it in known and t in known and known[it].is_below(known[t])]
        if s.this is not None and (t == 'Object' or t in known and s.this.is_below(known[t])):
            names.append('this')
        if self.chance(.03):
            return '((%s) null)' % t
        if names and self.chance(.55):
            it = self.r.choice(names)
            return it if t != 'Object' or self.chance(.6) else '((Object) %s)' % it
        fields = self.fields(t, s)
        if fields and self.chance(.4):
            return self.r.choice(fields)
        if k > 0:
            way = self.pick(('call', 2), ('cast', 2), ('if', 1), ('element', 2), ('effect', 1), ('new', 4))
            if way == 'cast':
                value = self.ref(t, s, k - 1) if self.chance(.93) else self.some_ref(s)
                return '((%s) (Object) %s)' % (t, value)
            if way == 'if':
                return '(%s ? %s : %s)' % (self.bool_(s, k - 1), self.cast(t, self.ref(t, s, k - 1)), self.cast(t, self.ref(t, s, k - 1)))
            found = self.other(way, t, s, k)
            if found:
                return found
        return self.new(t, s, k)

    @staticmethod
    def cast(t, text):
        return '(%s) %s' % (t, text)

    def new(self, t, s, k):
        known = self.known()
        if t == 'Object':
            if self.chance(.4):
                return 'new Object()'
            t = self.r.choice(self.classes).name if self.chance(.5) else self.array_type()
            return '((Object) %s)' % self.ref(t, s, k - 1) if k > 0 else 'new Object()'
        made = [it for it in self.classes if not it.is_abstract and it.is_below(known[t])]
        if not made:
            return '((%s) null)' % t
        if k <= 0 and self.chance(.5):
            return '((%s) new %s(%s, %s))' % (t, self.r.choice(made).name, s.env, s.depth)
        return '((%s) new %s(%s, %s, %s))' % (t, self.r.choice(made).name, s.env, s.depth, self.int_(s, min(k, 1) - 1))

    def array(self, t, s, k):
        names = self.of_type(t, s)
        if names and self.chance(.5):
            return self.r.choice(names)
        fields = self.fields(t, s)
        if fields and self.chance(.3):
            return self.r.choice(fields)
        element = t[:-2]
        if k > 0:
            way = self.pick(('call', 2), ('cast', 1), ('element', 2), ('effect', 1), ('list', 3), ('new', 3))
            if way == 'cast':
                value = self.array(t, s, k - 1) if self.chance(.93) else self.some_ref(s)
                return '((%s) (Object) %s)' % (t, value)
            if way == 'list':
                values = [self.expr(element, s, min(k - 1, 1)) for _ in range(self.r.choice([0, 1, 2, 3, 4, 5]))]
                return 'new %s {%s}' % (t, ', '.join(values))
            found = self.other(way, t, s, k)
            if found:
                return found
        return self.new_array(t, s, k)

    def new_array(self, t, s, k):
        base, dims = t.replace('[]', ''), t.count('[]')
        most = {1: 8, 2: 4, 3: 3}.get(dims, 2)

        def count():
            if self.chance(.02):
                return self.int_(s, 1) + ' % 20'
            if self.chance(.5):
                return '%d' % self.r.randint(0 if self.chance(.1) else 1, most)
            return '(%s & %d) + 1' % (self.int_(s, min(k, 1) - 1), self.r.choice([1, most // 2, most - 1]) & 3)

        given = self.r.randint(1, dims)
        made = 'new %s%s%s' % (base, ''.join('[%s]' % count() for _ in range(given)), '[]' * (dims - given))
        return '((%s) %s)' % (t, made)
