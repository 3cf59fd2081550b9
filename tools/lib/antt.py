"""Runs the definitions of specs/: each is compiled to a Python function when it is used first, and evaluated lazily. Nothing of the toolchain is used.

Types are read over. Naturals and integers are Python's int, records are dicts, constructors tuples that begin with their name, lists `Cons` and `NIL`; what isn't
evaluated yet is a `T`, which `F` evaluates. Names of the standard library stand for the functions of NAT. `get(module, name)` gives a definition, `ap(f, ..)` applies it.
Texts of some length want a thread with a large stack.
"""

import os
import re
import sys

ROOT = os.path.join(os.path.dirname(os.path.dirname(os.path.dirname(os.path.realpath(__file__)))), "crates")
sys.setrecursionlimit(1000000)

# ---------------------------------------------------------------- values
class T:
    __slots__ = ('f', 'v')
    def __init__(self, f): self.f = f
def F(x):
    while x.__class__ is T:
        if x.f is not None:
            f = x.f
            x.v = F(f())
            x.f = None
        x = x.v
    return x
class Cons:
    __slots__ = ('h', 't')
    def __init__(self, h, t): self.h = h; self.t = t
NIL = ('[]',)
class Fn:
    __slots__ = ('n', 'f')
    def __init__(self, n, f): self.n = n; self.f = f
def ap(f, *args):
    f = F(f)
    while True:
        k = len(args)
        if f.__class__ is not Fn: raise TypeError('applied: %r' % (f,))
        if f.n == k: return f.f(*args)
        if f.n > k:
            g = f
            return Fn(f.n - k, lambda *more: g.f(*args, *more))
        f, args = F(f.f(*args[:f.n])), args[f.n:]
def plist(x):
    out = []
    x = F(x)
    while x is not NIL and x.__class__ is Cons:
        out.append(x.h); x = F(x.t)
    return out
def alist(xs):
    r = NIL
    for x in reversed(xs): r = Cons(x, r)
    return r
def codes(s): return alist([ord(c) for c in s])
def deep(x):
    x = F(x)
    if x.__class__ is Cons or x is NIL: return tuple(['L'] + [deep(y) for y in plist(x)])
    if isinstance(x, dict): return ('R',) + tuple((k, deep(v)) for k, v in sorted(x.items()))
    if isinstance(x, tuple): return (x[0],) + tuple(deep(y) for y in x[1:])
    return x

# ---------------------------------------------------------------- natives
def some(x): return ('Some', x)
NONE = ('None',)
def n_map(f, xs):
    xs = F(xs)
    if xs is NIL: return NIL
    h, t = xs.h, xs.t
    return Cons(T(lambda: ap(f, h)), T(lambda: n_map(f, t)))
def n_filter(f, xs):
    return alist([x for x in plist(xs) if F(ap(f, x))])
def n_append(a, b):
    a = plist(a)
    r = b
    if not a: return F(b)
    for x in reversed(a): r = Cons(x, r)
    return r
def n_any(f, xs):
    for x in plist(xs):
        if F(ap(f, x)): return True
    return False
def n_all(f, xs):
    for x in plist(xs):
        if not F(ap(f, x)): return False
    return True
# lists that were indexed, by their identity, as Python's lists
INDEX = {}
def nth_or(xs, n, d):
    n = F(n); xs = F(xs)
    if xs is NIL: return F(d)
    c = INDEX.get(id(xs))
    if c is None or c[0] is not xs:
        c = (xs, plist(xs)); INDEX[id(xs)] = c
        if len(INDEX) > 20000: INDEX.clear()
    return F(c[1][n]) if n < len(c[1]) else F(d)
def slice_get(xs, n):
    l = plist(xs); n = F(n)
    return some(l[n]) if n < len(l) else NONE
def n_take(n, xs): return alist(plist(xs)[:F(n)])
def n_drop(n, xs):
    n = F(n); xs = F(xs)
    while n and xs is not NIL: n -= 1; xs = F(xs.t)
    return xs
def eqv(a, b): return deep(a) == deep(b)
def tdiv(a, b):
    a, b = F(a), F(b)
    if b == 0: return 0
    q = abs(a) // abs(b)
    return q if (a < 0) == (b < 0) else -q
def trem(a, b):
    a, b = F(a), F(b)
    return a - b * tdiv(a, b) if b else a
def is_utf8(xs):
    try: bytes(xs).decode('utf-8'); return True
    except Exception: return False
def opt_map(f, o):
    o = F(o)
    return NONE if o[0] == 'None' else some(T(lambda: ap(f, o[1])))
def flat_map(f, xs):
    out = []
    for x in plist(xs): out += plist(ap(f, x))
    return alist(out)
def join_with(c, xs):
    out = []
    for i, x in enumerate(plist(xs)): out += ([c] if i else []) + plist(x)
    return alist(out)
def digit_glyph(upper, d):
    d = F(d)
    return 48 + d if d < 10 else (55 + d if F(upper) else 87 + d)
def position(f, xs):
    for i, x in enumerate(plist(xs)):
        if F(ap(f, x)): return some(i)
    return NONE
NAT = {
 'zero': 0, 'true': True, 'false': False, '[]': NIL, 'None': NONE,
 'suc': Fn(1, lambda x: F(x) + 1), 'pos': Fn(1, lambda x: F(x)), 'negsuc': Fn(1, lambda x: -F(x) - 1),
 'Some': Fn(1, lambda x: ('Some', x)), 'Ok': Fn(1, lambda x: ('Ok', x)), 'Err': Fn(1, lambda x: ('Err', x)),
 'map': Fn(2, n_map), 'filter': Fn(2, n_filter), '◌++◌': Fn(2, n_append), 'list_any': Fn(2, n_any), 'list_all': Fn(2, n_all),
 'length': Fn(1, lambda xs: len(plist(xs))), 'slice_index_or': Fn(3, nth_or), 'get_or': Fn(3, nth_or), 'slice_get': Fn(2, slice_get), 'slice_index': Fn(2, slice_get),
 'take': Fn(2, n_take), 'drop': Fn(2, n_drop), 'not': Fn(1, lambda b: not F(b)),
 '◌&&◌': Fn(2, lambda a, b: F(b) if F(a) else False), '◌||◌': Fn(2, lambda a, b: True if F(a) else F(b)),
 '◌==◌': Fn(2, lambda a, b: F(a) == F(b)), 'nat_eq': Fn(2, lambda a, b: F(a) == F(b)), 'nat_lt': Fn(2, lambda a, b: F(a) < F(b)), 'nat_le': Fn(2, lambda a, b: F(a) <= F(b)),
 'int_le': Fn(2, lambda a, b: F(a) <= F(b)), 'int_lt': Fn(2, lambda a, b: F(a) < F(b)), 'int_eq': Fn(2, lambda a, b: F(a) == F(b)),
 '◌+◌': Fn(2, lambda a, b: F(a) + F(b)), '◌-◌': Fn(2, lambda a, b: max(F(a) - F(b), 0)), '◌*◌': Fn(2, lambda a, b: F(a) * F(b)), '◌^◌': Fn(2, lambda a, b: F(a) ** F(b)),
 '◌/◌': Fn(2, lambda a, b: F(a) // F(b) if F(b) else 0), '◌%◌': Fn(2, lambda a, b: F(a) % F(b) if F(b) else F(a)),
 '◌+ℤ◌': Fn(2, lambda a, b: F(a) + F(b)), '◌-ℤ◌': Fn(2, lambda a, b: F(a) - F(b)), '◌*ℤ◌': Fn(2, lambda a, b: F(a) * F(b)), 'neg_ℤ': Fn(1, lambda a: -F(a)),
 'int_div': Fn(2, tdiv), 'int_rem': Fn(2, trem), 'int_rem_euclid': Fn(2, lambda a, b: F(a) % abs(F(b)) if F(b) else F(a)), 'unsigned_abs': Fn(1, lambda a: abs(F(a))), 'nat_abs': Fn(1, lambda a: abs(F(a))),
 'int_pow': Fn(2, lambda a, b: F(a) ** F(b)),
 'min': Fn(2, lambda a, b: min(F(a), F(b))), 'max': Fn(2, lambda a, b: max(F(a), F(b))),
 'bytes_eq': Fn(2, lambda a, b: [F(x) for x in plist(a)] == [F(x) for x in plist(b)]),
 'is_some': Fn(1, lambda o: F(o)[0] == 'Some'), 'is_none': Fn(1, lambda o: F(o)[0] == 'None'), 'is_ok': Fn(1, lambda o: F(o)[0] == 'Ok'), 'is_err': Fn(1, lambda o: F(o)[0] == 'Err'),
 'option_map': Fn(2, opt_map), 'option_to_list': Fn(1, lambda o: NIL if F(o)[0] == 'None' else Cons(F(o)[1], NIL)),
 'unwrap_or': Fn(2, lambda o, d: F(F(o)[1]) if F(o)[0] == 'Some' else F(d)), 'option_or': Fn(2, lambda o, d: F(o) if F(o)[0] == 'Some' else F(d)),
 'option_and_then': Fn(2, lambda o, f: ap(f, F(o)[1]) if F(o)[0] == 'Some' else NONE),
 'flat_map': Fn(2, flat_map), 'reverse': Fn(1, lambda xs: alist(plist(xs)[::-1])), 'position': Fn(2, position),
 'set': Fn(3, lambda xs, n, y: alist([y if i == F(n) else x for i, x in enumerate(plist(xs))])), 'replicate': Fn(2, lambda n, x: alist([x] * F(n))),
 'slice_set': Fn(3, lambda xs, n, y: alist([y if i == F(n) else x for i, x in enumerate(plist(xs))])), 'join_with_byte': Fn(2, join_with), 'digit_glyph': Fn(2, digit_glyph),
 'is_utf8': Fn(1, lambda xs: is_utf8([F(x) for x in plist(xs)])),
 'filter_map': Fn(2, lambda f, xs: alist([F(o[1]) for o in (F(ap(f, x)) for x in plist(xs)) if o[0] == 'Some'])),
 'str_to_ascii_lowercase': Fn(1, lambda xs: alist([(lambda c: c + 32 if 65 <= c <= 90 else c)(F(x)) for x in plist(xs)])), 'str_eq_ignore_ascii_case': Fn(2, lambda a, b: bytes(F(x) for x in plist(a)).lower() == bytes(F(x) for x in plist(b)).lower()),
 'decimal': Fn(1, lambda n: codes(str(F(n)))), 'signed_decimal': Fn(1, lambda n: codes(str(F(n)))),
 'beq': Fn(2, lambda a, b: F(a) == F(b)),
 'refl': ('refl',), 'ℕ': ('type',), 'Bool': ('type',), 'List': ('type',), 'Option': ('type',),
}

# ---------------------------------------------------------------- reading
TOK = re.compile(r'\s+|--[^\n]*|"(?:[^"\\]|\\.)*"|[(){},;]|\[\]|[\[\]]|λ|\.(?=\s)|[^\s(){},;"\[\]]+')
def tokens(s):
    out = []; i = 0
    while i < len(s):
        m = TOK.match(s, i)
        if not m: raise SyntaxError(s[i:i+40])
        t = m.group(0); j = m.end()
        if not t.isspace() and not t.startswith('--'):
            # a dot that ends binders
            if t[0] not in '"(){},;' and t != 'λ' and t.endswith('.') and len(t) > 1:
                out.append((t[:-1], i)); out.append(('.', j - 1))
            elif t.startswith('λ') and len(t) > 1:
                out.append(('λ', i)); out.append((t[1:], i + 1))
            else: out.append((t, i))
        i = j
    return out
OPS = {'∷': (60, 'r'), '++': (60, 'r'), '+': (65, 'l'), '-': (65, 'l'), '*': (70, 'l'), '/': (70, 'l'), '%': (70, 'l'), '^': (75, 'r'), '+ℤ': (65, 'l'), '-ℤ': (65, 'l'), '*ℤ': (70, 'l'),
       '==': (50, 'n'), '&&': (40, 'r'), '||': (35, 'r'), '>>=': (20, 'l'), '≡': (45, 'n'), '≤': (45, 'n'), '<': (45, 'n'), '×': (30, 'r'), '⊎': (28, 'r'), '→': (10, 'r'), '↔': (25, 'n'), '≢': (45, 'n'), '≤ℤ': (45, 'n'), '<ℤ': (45, 'n')}
class Parser:
    def __init__(self, text): self.text = text; self.t = tokens(text); self.i = 0
    def peek(self, k=0): return self.t[self.i + k][0] if self.i + k < len(self.t) else None
    def next(self):
        if self.i >= len(self.t): raise SyntaxError('ends early: %r' % self.text[:300])
        x = self.t[self.i][0]; self.i += 1; return x
    def expect(self, x):
        y = self.next()
        if y != x: raise SyntaxError('expected %r, got %r in %r' % (x, y, self.text[:200]))
    def expr(self, p=0):
        left = self.unary()
        while True:
            op = self.peek()
            if op not in OPS: return left
            q, assoc = OPS[op]
            if q < p: return left
            self.next()
            right = self.expr(q if assoc == 'r' else q + 1)
            left = ('op', op, left, right)
    def unary(self):
        t = self.peek()
        if t == 'λ':
            self.next(); ps = []
            while self.peek() != '.': ps.append(self.binder())
            self.next()
            return ('lam', ps, self.expr())
        if t == 'elim':
            self.next(); e = self.expr()
            if self.peek() == 'as': self.next(); self.atom()
            self.expect('['); cs = []
            while self.peek() != ']':
                if self.peek() == '|': self.next()
                ps = self.pattern_until(); self.expect('↦'); cs.append((ps, self.expr()))
            self.expect(']')
            return ('elim', e, cs)
        if t == 'let':
            self.next(); name = self.pattern_atom()
            if self.peek() == ':':
                self.next(); self.skip_type_until('=')
            self.expect('='); e = self.expr(); self.expect('in')
            return ('let', name, e, self.expr())
        if t == 'if':
            self.next(); c = self.expr(); self.expect('then'); a = self.expr(); self.expect('else')
            return ('if', c, a, self.expr())
        return self.app()
    def skip_type_until(self, stop):
        d = 0
        while not (d == 0 and self.peek() == stop):
            x = self.next()
            if x in '({': d += 1
            if x in ')}': d -= 1
    def binder(self):
        if self.peek() == '(':
            # typed, or a tuple
            save = self.i
            self.next(); p = self.next()
            names = [p]
            while self.peek() not in (':', ')', ','): names.append(self.next())
            if self.peek() == ':':
                self.skip_type_until(')'); self.next()
                return ('pv', p)
            self.i = save
            return self.pattern_atom()
        return self.pattern_atom()
    def app(self):
        f = self.atom()
        args = []
        while True:
            t = self.peek()
            if t is None or t in OPS or t in (')', '}', ',', ';', 'then', 'else', 'in', '=', ':', '.', '|', '↦', '[', ']', 'as'): break
            if t in ('λ', 'let', 'if', 'elim'): 
                args.append(self.unary()); break
            if t == '{':
                self.skip_braces(); continue
            args.append(self.atom())
        return ('app', f, args) if args else f
    def skip_braces(self):
        d = 0
        while True:
            x = self.next()
            if x == '{': d += 1
            if x == '}':
                d -= 1
                if d == 0: return
    def atom(self):
        t = self.next(); pos = self.t[self.i - 1][1]
        if t == '(':
            if self.peek() == ')': self.next(); return ('unit',)
            es = [self.expr()]
            while self.peek() == ',': self.next(); es.append(self.expr())
            self.expect(')')
            e = es[0] if len(es) == 1 else ('tuple', es)
        elif t == 'record':
            base = None
            if self.peek() != '{': base = self.atom()
            self.expect('{'); fs = []
            while self.peek() != '}':
                n = self.next(); self.expect('='); fs.append((n, self.expr()))
                if self.peek() == ';': self.next()
            self.expect('}')
            e = ('record', base, fs)
        elif t.startswith('"'): e = ('str', re.sub(r'\\(.)', lambda g: {'n': '\n', 't': '\t'}.get(g.group(1), g.group(1)), t[1:-1]))
        elif t == '[]': e = ('name', '[]')
        elif t.isdigit(): e = ('num', int(t))
        elif t[0] == '.' and len(t) > 1: raise SyntaxError('stray projection')
        else: e = ('name', t)
        # projections that stand right behind a bracket
        while self.i < len(self.t) and self.t[self.i][0].startswith('.') and len(self.t[self.i][0]) > 1 and self.t[self.i][1] == self.end(self.i - 1):
            for f in self.next()[1:].split('.'): e = ('proj', e, f)
        return e
    def end(self, i): return self.t[i][1] + len(self.t[i][0])
    def pattern_atom(self):
        t = self.next()
        if t == '(':
            p = self.pattern()
            if self.peek() == ',':
                ps = [p]
                while self.peek() == ',': self.next(); ps.append(self.pattern())
                self.expect(')')
                return ('ptuple', ps)
            if self.peek() == ':': self.skip_type_until(')')
            self.expect(')')
            return p
        if t == '{':
            self.i -= 1; self.skip_braces(); return None
        if t.isdigit(): return ('pn', int(t))
        return ('pv', t)
    def pattern_until(self): return self.pattern()
    def pattern(self):
        head = self.pattern_atom()
        args = []
        while self.peek() not in ('∷', ')', ',', '=', None, ':', '↦'):
            a = self.pattern_atom()
            if a is not None: args.append(a)
        p = ('pc', head[1], args) if args else head
        if self.peek() == '∷':
            self.next(); return ('pcons', p, self.pattern())
        return p

class Def:
    def __init__(self, mod, name): self.mod, self.name, self.clauses, self.compiled, self.value = mod, name, [], None, None; self.is_con = False; self.ncon = 0; self.params = None
class Module:
    def __init__(self, path): self.path, self.defs, self.scope, self.alias = path, {}, {}, {}
MODS = {}
def rust_file(crate, parts):
    base = f'{ROOT}/{crate}/src/' + '/'.join(parts)
    for f in (base + '.rt', base + '/mod.rt'):
        if os.path.exists(f): return f
def load(path):
    if path in MODS: return MODS[path]
    m = Module(path); MODS[path] = m
    ps = path.split('.')
    if ps[0] == 'Rattle' and ps[1].startswith('vd_') and ps[2] == 'specs' and ps[3] != 'declared':
        f = f'{ROOT}/{ps[1]}/specs/' + '/'.join(ps[3:]) + '.antt'
        if os.path.exists(f): read_module(m, open(f).read()); m.real = True
        else: m.real = False
    else: m.real = False
    return m
BLOCKS = [0]
def items(text):
    text = re.sub(r'(?m)^\s*--.*$', '', text)
    lines = text.split('\n'); out = []; cur = None; block = False; params = None; deep_block = False
    for l in lines:
        if not l.strip(): continue
        ind = len(l) - len(l.lstrip(' '))
        if ind == 0 and l[0] in '})]':
            cur.append(l); continue
        if ind == 0:
            if re.match(r'(abbrev )?(pub )?mutual\b', l.strip()): block = True; cur = None; params = None; continue
            g = re.match(r'(?:pub )?module _ (.*?)where\s*$', l)
            if g:
                block = True; cur = None; BLOCKS[0] += 1
                params = (BLOCKS[0], [n for gg in re.findall(r'\(([^:()]+):', g.group(1)) for n in gg.split()]); continue
            block = False; params = None
            cur = [l]; out.append((cur, None))
        elif block and ind == 2:
            if re.match(r'(abbrev )?(pub )?mutual\b', l.strip()): deep_block = True; cur = None; continue
            deep_block = False
            cur = [l[2:]]; out.append((cur, params))
        elif block and ind == 4 and deep_block:
            cur = [l[4:]]; out.append((cur, params))
        elif cur is not None: cur.append(l[4:] if block and deep_block and params is not None else l[2:] if block else l)
    return [('\n'.join(x), p) for x, p in out]
def split_names(s):
    return [x.strip() for x in re.split(r',(?![^{]*\})', s) if x.strip()]
def read_module(m, text):
    for it, params in items(text):
        first = it.split('\n')[0]
        w = first.split()
        if w[0] in ('use', 'pub') and 'use' in w[:2]:
            s = it[it.index('use') + 3:].strip().replace('\n', ' ')
            g = re.match(r'([^\s{]+?)\.\{(.*)\}$', s)
            if g:
                for n in split_names(g.group(2)):
                    a = re.split(r'\s+as\s+', n)
                    m.scope[a[-1]] = (g.group(1), a[0])
            else:
                a = re.split(r'\s+as\s+', s)
                m.alias[a[1] if len(a) > 1 else a[0].split('.')[-1]] = a[0]
                if len(a) == 1: m.scope[a[0].split('.')[-1]] = (a[0].rsplit('.', 1)[0], a[0].split('.')[-1])
            continue
        if w[0] in ('mod', 'infixl', 'infixr', 'infix') or first.startswith('pub mod') or w[0] == 'syntax': continue
        g = re.match(r'(?:abbrev )?(?:pub )?(?:abbrev )?(?:pub )?(record|data)\s+(\S+)', first)
        if g:
            if g.group(1) == 'data':
                for l in it.split('\n')[1:]:
                    c = re.match(r'\s+(?:pub )?(\S+)\s*:(.*)$', l)
                    if c and re.match(r'  \S', l):
                        d = Def(m, c.group(1)); d.is_con = True; d.ncon = con_args(c.group(2)); m.defs[c.group(1)] = d
            continue
        g = re.match(r'(?:(?:abbrev|pub|unfoldable|opaque) )*(\S+)\s+:\s', it)
        if g:
            m.defs.setdefault(g.group(1), Def(m, g.group(1))).params = params
            continue
        name = w[0]
        d = m.defs.get(name)
        if d is not None: d.clauses.append(it)
def con_args(ty):
    # the explicit arguments of a constructor's type
    n = 0; d = 0; s = ty.strip()
    parts = []; cur = ''
    for ch in s:
        if ch in '({': d += 1
        if ch in ')}': d -= 1
        if ch == '→' and d == 0: parts.append(cur); cur = ''
        else: cur += ch
    for p in parts:
        p = p.strip()
        groups = re.findall(r'\(([^()]*(?:\([^()]*\)[^()]*)*)\s*:\s', p)
        if p.startswith('{'): continue
        if p.startswith('(') and ':' in p:
            for gg in re.findall(r'\(([^:()]+):', p): n += len(gg.split())
        else: n += 1
    return n
ENUMS = {}
def rust_variants(crate, modpath, typ):
    key = (crate, tuple(modpath), typ)
    if key in ENUMS: return ENUMS[key]
    f = rust_file(crate, modpath); out = {}
    if f:
        s = re.sub(r'//.*', '', open(f).read())
        g = re.search(r'enum\s+' + typ + r'\b[^{]*\{', s)
        if g:
            i = g.end(); d = 1; j = i
            while d:
                if s[j] == '{': d += 1
                if s[j] == '}': d -= 1
                j += 1
            body = s[i:j-1]
            # split by commas at depth 0
            d = 0; cur = ''; vs = []
            for ch in body:
                if ch in '({[<': d += 1
                if ch in ')}]>': d -= 1
                if ch == ',' and d == 0: vs.append(cur); cur = ''
                else: cur += ch
            vs.append(cur)
            for v in vs:
                v = re.sub(r'#\[[^\]]*\]', '', v).strip()
                if not v: continue
                n = re.match(r'\w+', v).group(0); rest = v[len(n):].strip()
                if rest.startswith('('): k = len([x for x in re.split(r',(?![^<(]*[>)])', rest[1:-1]) if x.strip()])
                elif rest.startswith('{'): k = len([x for x in re.split(r',(?![^<(]*[>)])', rest[1:-1]) if x.strip()])
                else: k = 0
                out[n] = k
    ENUMS[key] = out
    return out
CONSTS = {}
def rust_const(crate, modpath, name):
    f = rust_file(crate, modpath)
    key = f
    if key not in CONSTS:
        s = re.sub(r'//.*', '', open(f).read()); c = {}
        for g in re.finditer(r'const\s+(\w+)\s*:\s*[^=]+=\s*([^;]+);', s): c[g.group(1)] = g.group(2).strip()
        CONSTS[key] = c
    e = CONSTS[key][name]
    def ev(e):
        e = e.strip()
        if re.match(r'^[\d_]+(u\d+|usize)?$', e): return int(re.sub(r'(u\d+|usize)$', '', e).replace('_', ''))
        if e in CONSTS[key]: return ev(CONSTS[key][e])
        return eval(re.sub(r'\b([A-Z][A-Z_0-9]*)\b', lambda g: str(ev(CONSTS[key][g.group(1)])), e))
    return ev(e)
def con_value(name, k):
    if name in ('None',): return NONE
    if k == 0: return (name,)
    return Fn(k, lambda *a: (name,) + a)
RESOLVED = {}
def resolve(path, name):
    """The object that a module's item is: ('def', Def), ('con', name, k), ('val', v) or None."""
    key = (path, name)
    if key in RESOLVED: return RESOLVED[key]
    r = resolve_(path, name); RESOLVED[key] = r
    return r
def resolve_(path, name):
    ps = path.split('.')
    if ps[0] == 'Rattle' and ps[1].startswith('vd_'):
        if len(ps) > 3 and ps[3] == 'declared':
            if ps[-1] == 'TheVariants':
                v = rust_variants(ps[1], ps[4:-2], ps[-2])
                if name in v: return ('con', name, v[name])
                return None
            if ps[-1] == 'TheConstants':
                return ('val', rust_const(ps[1], ps[4:-1], name))
            return ('type',)
        m = load(path)
        if name in m.defs:
            d = m.defs[name]
            return ('con', name, d.ncon) if d.is_con else ('def', d)
        if name in m.scope: return resolve(*m.scope[name])
        return None
    if name in ('Some', 'Ok', 'Err', 'None', 'true', 'false', 'zero', 'suc', 'pos', 'negsuc', '[]', 'Less', 'Equal', 'Greater'):
        return ('con', name, 1 if name in ('Some', 'Ok', 'Err', 'suc', 'pos', 'negsuc') else 0)
    if name in NAT: return ('val', NAT[name])
    return ('missing', path, name)

# ---------------------------------------------------------------- compiling
COUNT = [0]
def fresh(n):
    COUNT[0] += 1
    return 'v%d_%s' % (COUNT[0], re.sub(r'[^A-Za-z0-9]', '_', n))
GLOBALS = {'F': F, 'T': T, 'Cons': Cons, 'NIL': NIL, 'Fn': Fn, 'ap': ap, 'codes': codes, 'NONE': NONE, 'plist': plist}
def gname(obj, hint):
    COUNT[0] += 1
    n = 'g%d_%s' % (COUNT[0], re.sub(r'[^A-Za-z0-9]', '_', hint))
    GLOBALS[n] = obj
    return n
class Ctx:
    def __init__(self, mod, params=None, names=()): self.mod = mod; self.params = params; self.names = names
    def look(self, name):
        m = self.mod
        if name in m.defs:
            d = m.defs[name]
            return ('con', name, d.ncon) if d.is_con else ('def', d)
        if name in m.scope: return resolve(*m.scope[name])
        if name in ('[]',): return ('con', '[]', 0)
        if name == 'tt': return ('val', ('tt',))
        if '.' in name:
            a, b = name.split('.', 1)
            if a in m.alias:
                path = m.alias[a]
                if '.' not in b: return resolve(path, b)
            if a == 'Rattle':
                p, n = name.rsplit('.', 1)
                return resolve(p, n)
        return None
    # names
    def name_expr(self, name, env):
        """python expression for a name (lazy), and fields projected from it."""
        if name in env: return env[name], []
        if '.' in name:
            parts = name.split('.')
            if parts[0] in env: return env[parts[0]], parts[1:]
            # longest prefix that is a global
            for k in range(len(parts), 0, -1):
                pre = '.'.join(parts[:k])
                r = self.look(pre)
                if r is not None: return self.global_expr(r, pre), parts[k:]
        r = self.look(name)
        if r is None: raise NameError(name + ' in ' + self.mod.path)
        return self.global_expr(r, name), []
    def global_expr(self, r, name):
        if r[0] == 'con':
            v = NAT.get(r[1]) if r[1] in ('Some', 'Ok', 'Err', 'suc', 'pos', 'negsuc', 'zero', 'true', 'false', '[]', 'None') else con_value(r[1], r[2])
            if r[1] == 'None' and r[2] == 0: v = NONE
            return gname(v, name)
        if r[0] == 'val': return gname(r[1], name)
        if r[0] == 'def':
            g = gname(def_value(r[1]), name)
            if r[1].params is not None and self.params is not None and r[1].params[0] == self.params[0]:
                return 'T(lambda: ap(%s,%s))' % (g, ','.join(self.names))
            return g
        if r[0] == 'missing':
            def bad(): raise NameError('no native %s.%s' % (r[1], r[2]))
            return gname(T(bad), name)
        return gname(('type',), name)
    def project(self, e, fields):
        for f in fields:
            e = "F(%s)[%s]" % (e, (int(f) + 1) if f.isdigit() else repr(f))
        return e
    def strict(self, e, env):
        k = e[0]
        if k == 'num': return str(e[1])
        if k == 'str': return 'codes(%r)' % e[1]
        if k == 'unit': return "('()',)"
        if k == 'name':
            x, fs = self.name_expr(e[1], env)
            return 'F(%s)' % self.project(x, fs)
        if k == 'proj': return 'F(%s)' % self.project(self.strict(e[1], env), [e[2]])
        if k == 'tuple': return "('p',%s)" % ','.join(self.lazy(x, env) for x in e[1])
        if k == 'record':
            fs = ','.join('%r:%s' % (n, self.lazy(x, env)) for n, x in e[2])
            if e[1] is None: return '{%s}' % fs
            return '{**%s,%s}' % (self.strict(e[1], env), fs)
        if k == 'lam':
            env2 = dict(env); ps = []; pre = []
            for p in e[1]:
                if p[0] == 'pv':
                    v = fresh(p[1]); ps.append(v)
                    if p[1] != '_': env2[p[1]] = v
                else:
                    v = fresh('t'); ps.append(v)
                    for i, q in enumerate(p[1]): env2[q[1]] = 'F(%s)[%d]' % (v, i + 1)
            return 'Fn(%d,lambda %s: %s)' % (len(ps), ','.join(ps), self.strict(e[2], env2))
        if k == 'let':
            p = e[1]; v = fresh(p[1] if p[0] == 'pv' else 't'); env2 = dict(env)
            if p[0] == 'pv': env2[p[1]] = v
            else:
                for i, q in enumerate(p[1]): env2[q[1]] = 'F(%s)[%d]' % (v, i + 1)
            return '(lambda %s: %s)(%s)' % (v, self.strict(e[3], env2), self.lazy(e[2], env))
        if k == 'elim':
            names = list(env); caps = [fresh(n) for n in names]; env0 = dict(zip(names, caps))
            fname = fresh('elim'); lines = ['def %s(%s):' % (fname, ','.join(['scrut'] + caps + list(self.names)))]
            for p, x in e[2]:
                env2 = dict(env0); tests = []; self.match(p, 'scrut', env2, tests); ind = '    '
                for t in tests:
                    if isinstance(t, tuple): lines.append('%s%s = %s' % (ind, t[1], t[2]))
                    else:
                        lines.append('%sif %s:' % (ind, t)); ind += '    '
                lines.append('%sreturn %s' % (ind, self.strict(x, env2)))
            lines.append('    raise ValueError("no case")')
            loc = {}
            exec('\n'.join(lines), GLOBALS, loc)
            return '%s(%s)' % (gname(loc[fname], 'elim'), ','.join([self.lazy(e[1], env)] + [env[n] for n in names] + list(self.names)))
        if k == 'if': return '(%s if %s else %s)' % (self.strict(e[2], env), self.strict(e[1], env), self.strict(e[3], env))
        if k == 'op':
            op = e[1]
            if op == '∷': return 'Cons(%s,%s)' % (self.lazy(e[2], env), self.lazy(e[3], env))
            if op == '&&': return '(%s and %s)' % (self.strict(e[2], env), self.strict(e[3], env))
            if op == '||': return '(%s or %s)' % (self.strict(e[2], env), self.strict(e[3], env))
            if op == '==': return '(%s == %s)' % (self.strict(e[2], env), self.strict(e[3], env))
            if op in ('+', '+ℤ'): return '(%s + %s)' % (self.strict(e[2], env), self.strict(e[3], env))
            if op in ('-ℤ',): return '(%s - %s)' % (self.strict(e[2], env), self.strict(e[3], env))
            if op in ('→', '≡', '≤', '<', '⊎', '↔', '≢', '×'): return "('type',)"
            x, _ = self.name_expr('◌%s◌' % op, env)
            return 'F(ap(%s,%s,%s))' % (x, self.lazy(e[2], env), self.lazy(e[3], env))
        if k == 'app':
            f, args = e[1], e[2]
            if f[0] == 'name' and f[1] == 'codes' and args[0][0] == 'str': return 'codes(%r)' % args[0][1]
            if f[0] == 'name' and f[1].startswith('if◌'): 
                return '(%s if %s else %s)' % (self.strict(args[1], env), self.strict(args[0], env), self.strict(args[2], env))
            a = [self.lazy(x, env) for x in args]
            if f[0] == 'name' and f[1] not in env and f[1].split('.')[0] not in env:
                r = self.look(f[1])
                if r is not None and r[0] == 'con' and r[2] == len(a) and r[1] not in ('suc', 'pos', 'negsuc'): return '(%r,%s)' % (r[1], ','.join(a))
                if r is not None and r[0] == 'con' and r[1] == 'suc': return '(%s + 1)' % self.strict(args[0], env)
                if r is not None and r[0] == 'con' and r[1] == 'pos': return self.strict(args[0], env)
                if r is not None and r[0] == 'con' and r[1] == 'negsuc': return '(-%s - 1)' % self.strict(args[0], env)
            return 'F(ap(%s,%s))' % (self.lazy(f, env), ','.join(a))
        raise SyntaxError(k)
    def lazy(self, e, env):
        k = e[0]
        if k in ('num', 'str', 'unit', 'lam', 'tuple'): return self.strict(e, env)
        if k == 'record' and e[1] is None: return self.strict(e, env)
        if k == 'name':
            x, fs = self.name_expr(e[1], env)
            if not fs: return x
        if k == 'op' and e[1] == '∷': return self.strict(e, env)
        if k == 'app' and e[1][0] == 'name' and e[1][1] not in env and e[1][1].split('.')[0] not in env:
            r = self.look(e[1][1])
            if r is not None and r[0] == 'con' and r[2] == len(e[2]) and r[1] not in ('suc', 'pos', 'negsuc'): return self.strict(e, env)
        return 'T(lambda: %s)' % self.strict(e, env)
    # patterns: conditions and bindings
    def match(self, p, x, env, tests):
        """tests: list of python conditions, in order; x a python expression (lazy)."""
        k = p[0]
        if k == 'pn': tests.append('F(%s) == %d' % (x, p[1])); return
        if k == 'pv':
            n = p[1]
            if n == '_': return
            r = self.look(n)
            if r is not None and r[0] == 'con':
                self.match_con(r, [], x, env, tests); return
            v = fresh(n); tests.append(('bind', v, x)); env[n] = v; return
        if k == 'pcons':
            v = fresh('c'); tests.append(('bind', v, 'F(%s)' % x)); tests.append('%s is not NIL' % v)
            self.match(p[1], v + '.h', env, tests); self.match(p[2], v + '.t', env, tests); return
        if k == 'ptuple':
            v = fresh('c'); tests.append(('bind', v, 'F(%s)' % x))
            for i, q in enumerate(p[1]): self.match(q, '%s[%d]' % (v, i + 1), env, tests)
            return
        if k == 'pc':
            r = self.look(p[1])
            if r is None or r[0] != 'con': raise NameError('constructor %s in %s' % (p[1], self.mod.path))
            self.match_con(r, p[2], x, env, tests); return
        raise SyntaxError(k)
    def match_con(self, r, args, x, env, tests):
        n = r[1]
        if n == '[]': tests.append('F(%s) is NIL' % x); return
        if n == 'true': tests.append('F(%s) is True' % x); return
        if n == 'false': tests.append('F(%s) is False' % x); return
        if n == 'zero': tests.append('F(%s) == 0' % x); return
        if n in ('suc', 'pos', 'negsuc'):
            v = fresh('c'); tests.append(('bind', v, 'F(%s)' % x))
            if n == 'suc': tests.append('%s > 0' % v); self.match(args[0], '(%s-1)' % v, env, tests)
            if n == 'pos': tests.append('%s >= 0' % v); self.match(args[0], v, env, tests)
            if n == 'negsuc': tests.append('%s < 0' % v); self.match(args[0], '(-%s-1)' % v, env, tests)
            return
        v = fresh('c'); tests.append(('bind', v, 'F(%s)' % x)); tests.append('%s[0] == %r' % (v, n))
        if len(args) != r[2]: raise SyntaxError('%s has %d arguments, not %d, in %s' % (n, r[2], len(args), self.mod.path))
        for i, q in enumerate(args): self.match(q, '%s[%d]' % (v, i + 1), env, tests)

MEMO = {}
OVERRIDE = {}
def def_value(d):
    if d.value is not None: return d.value
    key = (d.mod.path, d.name)
    if key in OVERRIDE: d.value = OVERRIDE[key]; return d.value
    if not d.clauses:
        d.value = T(lambda: (_ for _ in ()).throw(NameError('no clauses: %s.%s' % key)))
        return d.value
    parsed = []
    for c in d.clauses:
        p = Parser(c); p.next(); ps = []
        while p.peek() != '=':
            a = p.pattern_atom()
            if a is not None: ps.append(a)
        p.next()
        parsed.append((ps, p))
    extra = d.params[1] if d.params else []
    n = len(parsed[0][0]) + len(extra)
    if n == 0:
        def make():
            e = parsed[0][1].expr()
            src = Ctx(d.mod).strict(e, {})
            return eval(src, GLOBALS)
        d.value = T(make)
        return d.value
    state = {}
    def compiled():
        if 'f' in state: return state['f']
        lines = []; args = ['a%d' % i for i in range(n)]
        ctx = Ctx(d.mod, d.params, args[:len(extra)])
        fname = 'f_' + re.sub(r'[^A-Za-z0-9]', '_', d.name)
        lines.append('def %s(%s):' % (fname, ','.join(args)))
        for ps, p in parsed:
            env = dict(zip(extra, args)); tests = []
            for q, a in zip(ps, args[len(extra):]): ctx.match(q, a, env, tests)
            ind = '    '
            for t in tests:
                if isinstance(t, tuple): lines.append('%s%s = %s' % (ind, t[1], t[2]))
                else:
                    lines.append('%sif %s:' % (ind, t)); ind += '    '
            e = p.expr()
            if p.i != len(p.t): raise SyntaxError('left over %r in %s' % (p.peek(), d.name))
            lines.append('%sreturn %s' % (ind, ctx.strict(e, env)))
        lines.append('    raise ValueError(%r)' % ('no clause of %s' % d.name))
        loc = {}
        exec(compile('\n'.join(lines), '<%s.%s>' % (d.mod.path, d.name), 'exec'), GLOBALS, loc)
        f = loc[fname]
        if key in MEMO:
            f = MEMO[key](f)
        state['f'] = f
        return f
    def stub(*a): 
        f = compiled()
        d.value.f = f
        return f(*a)
    d.value = Fn(n, stub)
    return d.value
def get(path, name):
    r = resolve(path, name)
    assert r[0] == 'def', r
    return def_value(r[1])
