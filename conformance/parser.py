"""The text of a definition as a tree: tokens, expressions and patterns."""
import re
from typing import Any

from values import CannotEvaluate

# an expression or a pattern: its kind and its parts
Tree = Any


TOK = re.compile(r'''\s+|--[^\n]*|(?P<str>"[^"]*")|(?P<num>\d+)'''
                 r'''|(?P<id>[A-Za-z_ℕ][A-Za-z0-9_']*(?:\.[A-Za-z0-9_]+)*)'''
                 r'''|(?P<fld>\.[A-Za-z0-9_]+)|(?P<sym>\[\]|λ|[()\[\]{}.,;]|[^\sA-Za-z0-9_'"()\[\]{}.,;λ]+)''')


class Token:
    __slots__ = ('k', 'v', 'line', 'col', 'first', 'glue')

    def __init__(self, k: str, v: str, line: int, col: int, first: bool, glue: bool) -> None:
        self.k, self.v, self.line, self.col, self.first, self.glue = k, v, line, col, first, glue

    def __repr__(self) -> str:
        return '%s (line %d)' % (self.v, self.line)


def tokens(text: str, line: int) -> list[Token]:
    out: list[Token] = []
    pos, start, last, glue = 0, 0, -1, False
    while pos < len(text):
        m = TOK.match(text, pos)
        if not m:
            raise CannotEvaluate('line %d: %r' % (line, text[pos:pos + 20]))
        s, k = m.group(0), m.lastgroup
        if k:
            out.append(Token(k, s, line, pos - start, line != last, glue))
            last, glue = line, True
        else:
            glue = False
            for i, ch in enumerate(s):
                if ch == '\n':
                    line, start = line + 1, pos + i + 1
        pos = m.end()
    return out


KEYWORDS = ('then', 'else', 'in', 'where')


class Parser:
    def __init__(self, toks: list[Token], prec: dict[str, tuple[int, str]]) -> None:
        self.t, self.i, self.prec = toks, 0, prec
        self.do: list[int] = []
        self.start: int | None = None

    def peek(self) -> Token | None:
        if self.i >= len(self.t):
            return None
        t = self.t[self.i]
        if self.do and t.first and t.col <= self.do[-1] and self.start != self.i:
            return None
        return t

    def next(self) -> Token:
        t = self.peek()
        if t is None:
            raise CannotEvaluate('the text ends too early')
        self.i += 1
        return t

    def eat(self, v: str) -> Token:
        t = self.next()
        if t.v != v:
            raise CannotEvaluate('%s is wanted, not %r' % (v, t))
        return t

    def at(self, v: str) -> bool:
        t = self.peek()
        return t is not None and t.v == v

    def expr(self, least: int = 0) -> Tree:
        t = self.peek()
        if t is None:
            raise CannotEvaluate('the text ends too early')
        if t.v == 'λ':
            return self.lam()
        if t.k == 'id' and t.v == 'let':
            return self.let()
        if t.k == 'id' and t.v == 'if':
            return self.ite()
        left = self.app()
        while True:
            t = self.peek()
            if t is None or t.k != 'sym' or t.v not in self.prec:
                break
            p, side = self.prec[t.v]
            if p < least:
                break
            self.next()
            n = self.peek()
            if n is not None and (n.v == 'λ' or n.k == 'id' and n.v in ('let', 'if')):
                right = self.expr(0)
            else:
                right = self.expr(p if side == 'r' else p + 1)
            left = ('op', t.v, left, right)
        return left

    def lam(self) -> Tree:
        self.eat('λ')
        names = []
        while not self.at('.'):
            t = self.next()
            if t.v == '(':
                while not self.at(':'):
                    names.append(self.next().v)
                self.next()
                self.expr()
                self.eat(')')
            elif t.k == 'id' and '.' not in t.v:
                names.append(t.v)
            else:
                raise CannotEvaluate('a lambda over %r' % t)
        self.eat('.')
        return ('lam', names, self.expr())

    def let(self) -> Tree:
        self.eat('let')
        n = self.next().v
        if self.at(':'):
            self.next()
            self.expr()
        self.eat('=')
        e = self.expr()
        self.eat('in')
        return ('let', n, e, self.expr())

    def ite(self) -> Tree:
        self.eat('if')
        c = self.expr()
        self.eat('then')
        a = self.expr()
        self.eat('else')
        return ('if', c, a, self.expr())

    def app(self) -> Tree:
        f = self.atom()
        if f is None:
            raise CannotEvaluate('an expression is wanted at %r' % self.peek())
        args = []
        while True:
            t = self.peek()
            if t is not None and t.v == '{':        # an implicit argument
                self.skip_braces()
                continue
            a = self.atom()
            if a is None:
                break
            args.append(a)
        return ('app', f, args) if args else f

    def skip_braces(self) -> None:
        depth = 0
        while True:
            v = self.next().v
            depth += (v == '{') - (v == '}')
            if depth == 0:
                return

    def atom(self) -> Tree:
        t = self.peek()
        if t is None:
            return None
        if t.k == 'num':
            self.next()
            e = ('num', int(t.v))
        elif t.k == 'str':
            self.next()
            e = ('str', t.v[1:-1].replace('\\n', '\n'))
        elif t.k == 'id':
            if t.v in KEYWORDS or t.v in ('let', 'if'):
                return None
            if t.v == 'record':
                return self.fields(self.rec())
            if t.v == 'do':
                return self.doblock()
            self.next()
            e = ('name', t.v, t.line)
        elif t.v == '[]':
            self.next()
            e = ('nil',)
        elif t.v in ('⊥', '⊤'):
            self.next()
            e = ('type',)
        elif t.v == '(':
            self.next()
            save, self.do = self.do, []
            es = [self.expr()]
            if self.at(':'):
                self.next()
                self.expr()
                es = [('type',)]
            while self.at(','):
                self.next()
                es.append(self.expr())
            self.eat(')')
            self.do = save
            e = es[-1]
            for x in reversed(es[:-1]):
                e = ('pair', x, e)
        else:
            return None
        return self.fields(e)

    def fields(self, e: Tree) -> Tree:
        while self.i < len(self.t) and self.t[self.i].k == 'fld' and self.t[self.i].glue:
            e = ('field', e, self.t[self.i].v[1:])
            self.i += 1
        return e

    def rec(self) -> Tree:
        self.eat('record')
        base = None if self.at('{') else self.atom()
        save, self.do = self.do, []
        self.eat('{')
        fs = []
        while not self.at('}'):
            n = self.next().v
            self.eat('=')
            fs.append((n, self.expr()))
            if self.at(';'):
                self.next()
        self.eat('}')
        self.do = save
        return ('rec', base, fs)

    def doblock(self) -> Tree:
        self.next()
        if self.i >= len(self.t):
            raise CannotEvaluate('do without a line')
        col = self.t[self.i].col
        steps: list[Tree] = []
        while self.i < len(self.t):
            t = self.t[self.i]
            if t.col != col or not (t.first or not steps):
                break
            self.do.append(col)
            self.start = self.i
            if self.i + 1 < len(self.t) and self.t[self.i + 1].v == '←':
                n = self.next().v
                self.next()
                self.start = None
                steps.append((n, self.expr()))
            else:
                e = self.expr()
                steps.append((None, e))
            self.start = None
            self.do.pop()
        e = steps[-1][1]
        for n, x in reversed(steps[:-1]):
            e = ('op', '>>=', x, ('lam', [n or '_'], e))
        return e

    # patterns
    def pats(self, stop: str) -> list[Tree]:
        out = []
        while not self.at(stop):
            if self.at('{'):
                self.skip_braces()
                continue
            out.append(self.pat(True))
        return out

    def pat(self, atomic: bool = False) -> Tree:
        t = self.next()
        if t.v == '(':
            ps = [self.pat()]
            while self.at(','):
                self.next()
                ps.append(self.pat())
            self.eat(')')
            p = ps[-1]
            for q in reversed(ps[:-1]):
                p = ('ppair', q, p)
        elif t.v == '[]':
            p = ('pnil',)
        elif t.k == 'num':
            p = ('pnum', int(t.v))
        elif t.k == 'id':
            args = []
            if not atomic:
                while self.peek() is not None and (self.peek().k in ('id', 'num') or self.peek().v in ('(', '[]')):
                    args.append(self.pat(True))
            p = ('pname', t.v, args)
        else:
            raise CannotEvaluate('a pattern is wanted at %r' % t)
        if not atomic and self.at('∷'):
            self.next()
            return ('pcons', p, self.pat())
        return p
