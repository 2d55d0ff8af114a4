"""The functions of std that definitions cite, as a table. `-` stops at 0, and what is divided by 0 is 0."""
from collections.abc import Callable

from values import NONE, TT, CannotEvaluate, Con, Fn, Value, call, listed, number, some, truth


def _find(p: Value, xs: list[Value]) -> Value:
    for x in xs:
        if truth(call(p, x)):
            return some(x)
    return NONE


def _fold(f: Value, a: Value, xs: list[Value]) -> Value:
    for x in xs:
        a = call(f, a, x)
    return a


def _get(xs: list[Value], i: int) -> Value:
    return some(xs[i]) if i < len(xs) else NONE


def _position(p: Value, xs: list[Value]) -> Value:
    for i, x in enumerate(xs):
        if truth(call(p, x)):
            return some(i)
    return NONE


def _while(p: Value, xs: list[Value]) -> list[Value]:
    out = []
    for x in xs:
        if not truth(call(p, x)):
            break
        out.append(x)
    return out


def _filter_map(f: Value, xs: list[Value]) -> list[Value]:
    out = []
    for x in xs:
        y = call(f, x)
        if y.n == 'Some':
            out.append(y.a[0])
    return out


def _starts_with(eq: Value, xs: list[Value], ys: list[Value]) -> bool:
    return len(ys) <= len(xs) and all(truth(call(eq, x, y)) for x, y in zip(xs, ys))


def _split(is_separator: Value, xs: list[Value]) -> list[list[Value]]:
    parts: list[list[Value]] = [[]]
    for x in xs:
        if truth(call(is_separator, x)):
            parts.append([])
        else:
            parts[-1].append(x)
    return parts


def _digits(base: int, digits: list[int]) -> int:
    value = 0
    for d in digits:
        value = value * base + int(chr(d), base)
    return value


def _decoded(digits: list[int]) -> Value:
    text = bytes(digits).decode('latin-1')
    if len(text) % 2 or any(c not in '0123456789abcdefABCDEF' for c in text):
        return Con('Err', TT)
    return Con('Ok', list(bytes.fromhex(text)))


def _set(xs: list[Value], i: int, x: Value) -> list[Value]:
    return xs[:i] + [x] + xs[i + 1:] if i < len(xs) else xs


def _pointwise(f: Value, xs: list[Value], ys: list[Value]) -> bool:
    return len(xs) == len(ys) and all(truth(call(f, x, y)) for x, y in zip(xs, ys))


STD: dict[str, Value] = {
    'true': True, 'false': False, 'zero': 0, 'tt': TT, '[]': [], 'None': NONE,
    'Some': Fn(1, some), 'Ok': Fn(1, lambda x: Con('Ok', x)), 'Err': Fn(1, lambda x: Con('Err', x)),
    'suc': Fn(1, lambda n: number(n) + 1),
    'not': Fn(1, lambda x: not truth(x)),
    'nat_lt': Fn(2, lambda a, b: number(a) < number(b)),
    'nat_le': Fn(2, lambda a, b: number(a) <= number(b)),
    'nat_eq': Fn(2, lambda a, b: number(a) == number(b)),
    'min': Fn(2, lambda a, b: min(number(a), number(b))),
    'max': Fn(2, lambda a, b: max(number(a), number(b))),
    'bytes_eq': Fn(2, lambda a, b: listed(a) == listed(b)),
    'length': Fn(1, lambda x: len(listed(x))),
    'take': Fn(2, lambda n, x: listed(x)[:number(n)]),
    'drop': Fn(2, lambda n, x: listed(x)[number(n):]),
    'map': Fn(2, lambda f, x: [call(f, y) for y in listed(x)]),
    'filter': Fn(2, lambda f, x: [y for y in listed(x) if truth(call(f, y))]),
    'filter_map': Fn(2, _filter_map),
    'find': Fn(2, _find),
    'position': Fn(2, _position),
    'take_while': Fn(2, _while),
    'flat_map': Fn(2, lambda f, x: [z for y in listed(x) for z in listed(call(f, y))]),
    'concat': Fn(1, lambda x: [z for y in listed(x) for z in listed(y)]),
    'reverse': Fn(1, lambda x: listed(x)[::-1]),
    'zip': Fn(2, lambda x, y: list(zip(listed(x), listed(y)))),
    'list_any': Fn(2, lambda f, x: any(truth(call(f, y)) for y in listed(x))),
    'list_all': Fn(2, lambda f, x: all(truth(call(f, y)) for y in listed(x))),
    'fold': Fn(3, _fold),
    'bit_and': Fn(2, lambda a, b: number(a) & number(b)),
    'replicate': Fn(2, lambda n, x: [x] * number(n)),
    'sum': Fn(1, lambda x: sum(map(number, listed(x)))),
    'sum_by': Fn(2, lambda f, x: sum(number(call(f, y)) for y in listed(x))),
    'count_by': Fn(2, lambda f, x: sum(1 for y in listed(x) if truth(call(f, y)))),
    'range_with_len': Fn(2, lambda a, n: list(range(number(a), a + number(n)))),
    'slice_get': Fn(2, _get),
    'slice_index': Fn(2, lambda x, i: x[i] if i < len(x) else 0),
    'slice_index_or': Fn(3, lambda x, i, d: x[i] if i < len(x) else d),
    'get_or': Fn(3, lambda x, i, d: x[i] if i < len(x) else d),
    'starts_with': Fn(3, _starts_with),
    'is_some': Fn(1, lambda o: o.n == 'Some'), 'is_none': Fn(1, lambda o: o.n == 'None'),
    'is_ok': Fn(1, lambda o: o.n == 'Ok'), 'is_err': Fn(1, lambda o: o.n == 'Err'),
    'unwrap_or': Fn(2, lambda o, d: o.a[0] if o.n == 'Some' else d),
    'option_map': Fn(2, lambda f, o: some(call(f, o.a[0])) if o.n == 'Some' else o),
    'option_map_or': Fn(3, lambda f, o, d: call(f, o.a[0]) if o.n == 'Some' else d),
    'option_and_then': Fn(2, lambda f, o: call(f, o.a[0]) if o.n == 'Some' else o),
    'result_unwrap_or': Fn(2, lambda o, d: o.a[0] if o.n == 'Ok' else d),
    'pointwise': Fn(3, _pointwise), 'slice_set': Fn(3, _set),
    'decimal': Fn(1, lambda n: [ord(c) for c in str(number(n))]),
    'encode_lower': Fn(1, lambda xs: [ord(c) for c in bytes(listed(xs)).hex()]),
    'slice_split': Fn(2, _split), 'digits_value': Fn(2, _digits), 'decode_of': Fn(1, _decoded),
    'codes': Fn(1, lambda s: [ord(c) for c in s]),
    # finite maps, as lists of a key and its value, by rising keys
    'empty': [],
    'get': Fn(2, lambda m, k: next((some(v) for key, v in m if key == k), NONE)),
    'insert': Fn(3, lambda m, k, v: sorted([e for e in m if e[0] != k] + [(k, v)], key=lambda e: e[0])),
    'remove': Fn(2, lambda m, k: [e for e in m if e[0] != k]),
    'w8': 1, 'w16': 2, 'w32': 4, 'w64': 8,
    'to_be_bytes': Fn(2, lambda w, n: list((n % 256 ** w).to_bytes(w, 'big'))),
    'from_be_bytes': Fn(2, lambda w, x: int.from_bytes(bytes(x[:w]).rjust(w, b'\0'), 'big')),
}
STD_CONS: dict[str, int] = {'Some': 1, 'None': 0, 'Ok': 1, 'Err': 1}


def _power(x: Value, y: Value) -> int:
    if number(y) > 4096:
        raise CannotEvaluate('a power of %d' % y)
    return number(x) ** y


STD_OPS: dict[str, Callable[[Value, Value], Value]] = {
    '++': lambda x, y: listed(x) + listed(y),
    '∷': lambda x, y: [x] + listed(y),
    '+': lambda x, y: number(x) + number(y),
    '-': lambda x, y: max(0, number(x) - number(y)),
    '*': lambda x, y: number(x) * number(y),
    '/': lambda x, y: number(x) // number(y) if y else 0,
    '%': lambda x, y: number(x) % number(y) if y else x,
    '^': _power,
    '==': lambda x, y: x == y,
}
# of each operator how tightly it binds, and to which side
PREC: dict[str, tuple[int, str]] = {'||': (30, 'l'), '&&': (35, 'l'), '==': (50, 'n'), '++': (60, 'r'), '∷': (60, 'r'), '+': (65, 'l'), '-': (65, 'l'),
        '*': (70, 'l'), '/': (70, 'l'), '%': (70, 'l'), '^': (75, 'r'), '≡': (4, 'n'), '≢': (4, 'n'), '≤': (40, 'n'),
        '<': (40, 'n'), '×': (2, 'r'), '→': (0, 'r'), '⊎': (1, 'r'), '↔': (0, 'n')}
