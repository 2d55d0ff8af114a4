"""Values of the evaluator: numbers, True and False, lists, tuples for pairs, dicts for records, Con for constructors."""
import sys
import threading
from collections.abc import Callable, Iterable
from typing import Any

Value = Any


class CannotEvaluate(Exception):
    """The text isn't there, can't be parsed, or is no value that this interpreter knows."""


class Con:
    """A constructor with its fields."""
    __slots__ = ('n', 'a')

    def __init__(self, n: str, *a: Value) -> None:
        self.n, self.a = n, a

    def __eq__(self, other: object) -> bool:
        return isinstance(other, Con) and self.n == other.n and self.a == other.a

    def __hash__(self) -> int:
        return hash(self.n)

    def __repr__(self) -> str:
        return self.n if not self.a else '(%s %s)' % (self.n, ' '.join(map(show, self.a)))


class Fn:
    """A function of `ar` arguments, of which some may be given."""
    __slots__ = ('ar', 'f', 'args')

    def __init__(self, ar: int, f: Callable[..., Value], args: tuple[Value, ...] = ()) -> None:
        self.ar, self.f, self.args = ar, f, args

    def __eq__(self, other: object) -> bool:
        raise CannotEvaluate('two functions are compared')

    __hash__ = None  # type: ignore[assignment]


class Unknown:
    """A field that could not be evaluated."""
    __slots__ = ('why',)

    def __init__(self, why: str) -> None:
        self.why = why

    def __eq__(self, other: object) -> bool:
        raise CannotEvaluate(self.why)

    __hash__ = None  # type: ignore[assignment]


NONE, TT = Con('None'), Con('tt')


def some(x: Value) -> Con:
    return Con('Some', x)


def show(v: Value) -> str:
    """A value as text; lists of bytes in hexadecimal."""
    if isinstance(v, list):
        if v and all(isinstance(x, int) and not isinstance(x, bool) and 0 <= x < 256 for x in v):
            return 'x' + bytes(v).hex()
        return '[%s]' % ', '.join(map(show, v))
    if isinstance(v, dict):
        return '{%s}' % '; '.join('%s = %s' % (k, show(x)) for k, x in v.items())
    if isinstance(v, tuple):
        return '(%s)' % ', '.join(map(show, v))
    if isinstance(v, Fn):
        return 'a function'
    if isinstance(v, Unknown):
        return 'unknown (%s)' % v.why
    return repr(v)


def apply(f: Value, given: Iterable[Value]) -> Value:
    args = list(given)
    while args:
        if not isinstance(f, Fn):
            raise CannotEvaluate('%s is applied to an argument, and is no function' % show(f)[:200])
        have = list(f.args) + args
        if len(have) < f.ar:
            return Fn(f.ar, f.f, tuple(have))
        args = have[f.ar:]
        f = f.f(*have[:f.ar])
    return f


def call(f: Value, *args: Value) -> Value:
    return apply(f, args)


def field(v: Value, name: str) -> Value:
    if isinstance(v, tuple):
        # Pairs nest to the right, and a triple is flat: its third part is the second of its rest, and a field of the
        # rest is one of its second part.
        if name.isdigit():
            return v[int(name)] if int(name) < 2 else field(v[1], str(int(name) - 1))
        return field(v[0], name)
    if isinstance(v, dict):
        if name in v:
            x = v[name]
            if isinstance(x, Unknown):
                raise CannotEvaluate(x.why)
            return x
        raise CannotEvaluate('no field %s in a record with %s' % (name, ', '.join(map(str, v))))
    raise CannotEvaluate('field %s of %s' % (name, show(v)[:200]))


def number(x: Value) -> int:
    if isinstance(x, bool) or not isinstance(x, int):
        raise CannotEvaluate('a number is wanted, not %s' % show(x)[:200])
    return x


def listed(x: Value) -> list[Value]:
    if not isinstance(x, list):
        raise CannotEvaluate('a list is wanted, not %s' % show(x)[:200])
    return x


def truth(x: Value) -> bool:
    if x is True or x is False:
        return x
    raise CannotEvaluate('true or false is wanted, not %s' % show(x)[:200])


def deeply(f: Callable[..., Value], *args: Value) -> Value:
    """Runs f in a thread in which calls may nest deeply."""
    out: list[tuple[bool, Value]] = []

    def body() -> None:
        try:
            out.append((True, f(*args)))
        except BaseException as e:
            out.append((False, e))
    sys.setrecursionlimit(400000)
    old = threading.stack_size(512 * 1024 * 1024)
    t = threading.Thread(target=body)
    t.start()
    t.join()
    threading.stack_size(old)
    ok, x = out[0]
    if not ok:
        raise x
    return x
