"""Computes what a server answers to calls of numbered clients, by the definitions of `nr_plain`.

    python3 conformance/check_numbered.py [--random N]

The calls are those of the table in `nr_plain_tests` (`numbered.rt`), each of which says what it has to get, and N lists of random calls (20), with
the rule on old and kept calls written a second time here. What is compared: whether a call is kept, old or new, its place, its reply and the
length of the journal after it. Exit status: 0 all agree, 1 some differ."""
import argparse
import os
import random
import re
import sys
from typing import Any

from antt import ROOT, Project
from values import Value, call

TABLE = os.path.join(ROOT, 'crates', 'nr_plain_tests', 'src', 'numbered.rt')
NAMED = {'CREATE': 8, 'MKDIR': 9}
USES = ('tree.specs.Roots.{root_only}', 'plain.specs.Journal.{state_of}', 'plain.specs.Replies.{plain_answer}',
        'plain.specs.History.{entries_added, xid_in}', 'reduce.specs.NumberedJournal.{entries_alone}', 'plain.specs.Numbered.{finding}')
Row = tuple[int, int, str, str, list[int]]


def rows() -> list[Row]:
    """The rows: the client, the xid, the call, and what it gets."""
    with open(TABLE, encoding='utf-8') as h:
        text = h.read()
    texts = dict(re.findall(r'const (\w+): &str = "(.*?)";', text))
    found = re.findall(r'\(([0-9a-fx_]+), (\d+), (\w+), (\w+)\(([\d, ]+)\)\)', text)
    return [(int(c, 0), int(x), texts[t], w, [int(n) for n in of.split(', ')]) for c, x, t, w, of in found]


def payload_of(xid: int, text: str) -> list[int]:
    """The bytes of a call of NFS version 3 with a credential of AUTH_SYS (RFC 5531 sections 9 and appendix A), as the tests write it."""
    uid, proc, *words = text.split()
    tokens = ['0', '2', '186a3', '3', '%x' % NAMED[proc] if proc in NAMED else proc, '1', '14', '0', '0', uid, uid, '0', '0', '0', *words]
    numbers = [xid]
    for token in tokens:
        one, _, times = token.partition('*')
        numbers += [int(one, 16)] * int(times or 1)
    return list(b''.join(n.to_bytes(4, 'big') for n in numbers))


class Server:
    """A journal of tagged entries, and what the definitions say of a call after it."""

    def __init__(self) -> None:
        project = Project(ROOT)
        module = project.load('Rattle.nr_plain.specs.Numbered')
        self.names: dict[str, Value] = {}
        for text in USES:
            project.use(module, 'use Rattle.nr_' + text)
            for name in text.split('{')[1].rstrip('}').split(', '):
                self.names[name] = project.value_in(module, name)
        self.parameters = {'capacity': 10 ** 6, 'verifier': {'number': 1}, 'export': list(b'/')}
        self.setup = {'tree': self.of('root_only', {'seconds': 0, 'nanoseconds': 0}), 'parameters': self.parameters}
        self.journal: list[Value] = []

    def of(self, name: str, *given: Value) -> Any:
        return call(self.names[name], *given)

    def answer(self, client: int, payload: list[int]) -> tuple[str, list[Any]]:
        """Whether the call is new, kept or old; and the place and the reply, or the largest xid."""
        finding = self.of('finding', self.setup, self.journal, client, self.of('xid_in', payload))
        if finding.n != 'NewCall':
            return finding.n, list(finding.a)
        moment = {'seconds': 7, 'nanos': 5}
        state = self.of('state_of', self.setup, self.of('entries_alone', self.journal))
        answer = self.of('plain_answer', self.parameters, state, moment, payload).a[0]
        place = len(self.journal)
        self.journal = self.journal + list(self.of('entries_added', client, moment, payload, answer['reply']))
        return 'NewCall', [place, answer['reply']]


def table_differs() -> int:
    """How many rows of the table get something else."""
    server, replies, wrong = Server(), [], 0
    table = rows()
    for at, (client, xid, text, want, of) in enumerate(table):
        what, got = server.answer(client, payload_of(xid, text))
        replies.append(got[1] if len(got) > 1 else None)
        wanted = {'Executed': lambda: ('NewCall', [of[0], replies[at]], of[-1]),
                  'Again': lambda: ('KeptCall', [of[1], replies[of[0]]], len(server.journal)),
                  'Old': lambda: ('OldCall', of, len(server.journal))}[want]()
        if (what, got, len(server.journal)) != wanted:
            wrong += 1
            print('row %d: %s %s, %d entries; not %s' % (at, what, got[:1], len(server.journal), wanted[0]))
    print('%d calls of the table, %d differ' % (len(table), wrong))
    return wrong if table else 1


def random_differs(seed: int, texts: list[str]) -> int:
    """How many of 40 random calls of three clients get something else."""
    draw, server, wrong = random.Random(seed), Server(), 0
    kept: dict[tuple[int, int], list[Any]] = {}
    for _ in range(40):
        client, xid = draw.choice((0, 5, 9)), draw.choice((0, 1, 2, 63, 64, 65, 66, 127, 128, 129, draw.randrange(200)))
        payload, place = payload_of(xid, draw.choice(texts)), len(server.journal)
        top = max((x for c, x in kept if c == client), default=0)
        what, got = server.answer(client, payload)
        if client and xid + 64 <= top:
            wanted: Any = ('OldCall', [top])
        elif (client, xid) in kept:
            wanted = ('KeptCall', kept[client, xid])
        else:
            wanted = ('NewCall', [place, got[-1]])
            if client and len(server.journal) > place:
                kept[client, xid] = got
        wrong += (what, got) != wanted
    return wrong


def main(argv: list[str]) -> int:
    p = argparse.ArgumentParser(description='Computes what a server answers to calls of numbered clients.')
    p.add_argument('--random', type=int, default=20, help='how many lists of random calls')
    a = p.parse_args(argv)
    texts = sorted({text for _, _, text, _, _ in rows()})
    wrong = table_differs()
    lists = sum(random_differs(seed, texts) for seed in range(a.random))
    print('%d lists of random calls, %d calls differ' % (a.random, lists))
    return 1 if wrong or lists else 0


if __name__ == '__main__':
    sys.exit(main(sys.argv[1:]))
