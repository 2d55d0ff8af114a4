"""Makes random scripts of clients that go on over further links, and compares what the drill prints of them with the definitions.

    python3 conformance/random_rejoins.py [--seed N] [--scripts N] [--lines N] [--program NFSRDMA] [--unproved] [--kept FILE] [--jobs N]

The clients of each script have numbers. They make calls in each form, forget them and take their memory back; bytes arrive in pieces, calls are
executed, servers grant other credits, links are dropped and left, and some peers keep to no rule. What is printed of a script is computed by the
definitions of nr_drill, the replies by those of nr_plain over the tree of a drill: no program is asked. Then the built nfsrdma runs the
scripts; with --unproved nr_cases runs them by `rt try`. With --kept what the definitions say is written to this file, or read if the file is
there. Exit status: 0 all agree, 1 some differ, 2 nothing could be run."""
import argparse
import gzip
import json
import multiprocessing
import os
import random
import sys
from multiprocessing.pool import ThreadPool
from typing import Any

from antt import ROOT
from check_definitions import Recorded
from check_drills import Drills
from compare_scripts import PROGRAM, difference
from random_drills import Maker, opaque, words
from run_scripts import compared
from values import CannotEvaluate, Value, call, deeply

USES = (
    'use Rattle.nr_drill.specs.DrillSetup.{drill_setup, server_of}',
    'use Rattle.nr_tree.specs.Drill.{drill_node, hello_node, link_node, many_node, mode_666, mode_777, root_entries}',
    'use Rattle.nr_tree.specs.declared.node.Content.TheVariants.{Regular, Directory}',
)
FILES = 100
KINDS = {'call': 40, 'up': 40, 'work': 40, 'down': 40, 'rejoin': 20, 'drop': 5, 'forget': 5, 'revoke': 5, 'grant': 5, 'raw': 6, 'tick': 2, 'drain': 8}
STATE: dict[str, Any] = {}


class Script(Maker):
    """Makes a script from a seed: a first line, first calls and a drain in most, at most this many random lines, and in most a drain at the end."""

    def __init__(self, seed: int, lines: int) -> None:
        r = self.rng = random.Random(seed)
        self.clients, self.credits = r.randint(1, 3), r.choice((1, 2, 4, 16, 64))
        self.numbers = dict.fromkeys(range(1, self.clients + 1), 0)
        self.creds, self.calls, self.hostile = dict.fromkeys(self.numbers, b''), [], []
        self.raws = [c for c in self.numbers if r.random() < 0.3]
        first = 'clients %d credits %d' % (self.clients, self.credits)
        first += ' capacity %d' % r.randint(0, 1200) if r.random() < 0.15 else ''
        first += ' sizes %d %d' % (r.randint(1, 16), r.randint(1, 16)) if r.random() < 0.2 else ''
        self.lines = [first + ' numbered' + r.choice(('', '', '', ' invalidate'))]
        first_calls = [self.first(c) for c in self.numbers] if r.random() < 0.7 else []
        self.lines += first_calls + ['drain'] * bool(first_calls)
        rest = [self.line() for _ in range(r.randint(1, lines))]
        if not any(it.startswith('rejoin') for it in rest):
            rest.insert(r.randint(0, len(rest)), 'rejoin %d' % r.randint(1, self.clients))
        self.lines += rest + ['drain'] * (r.random() < 0.7)

    def first(self, c: int) -> str:
        """A call whose reply grants the credits of the first line."""
        self.numbers[c] += 1
        return self.call_line(c, 'auto', 'nfs', 0, b'')

    def line(self) -> str:
        r = self.rng
        c = r.randint(1, self.clients)
        kind = r.choices(list(KINDS), KINDS.values())[0]
        if kind == 'raw' and c in self.raws:
            return 'raw %d %s %s' % (c, r.choice(('up', 'down')), self.raw().hex())
        if kind in ('forget', 'revoke') and self.numbers[c]:
            return '%s %d %d' % (kind, c, r.randint(1, self.numbers[c]))
        if kind in ('call', 'forget', 'revoke', 'raw'):
            self.numbers[c] += 1
            return self.change(c) if r.random() < 0.5 else self.call(c)
        if kind in ('up', 'down'):
            return '%s %d %d' % (kind, c, r.choice((1, 19, 92, 200, 1000, *[4294967295] * 5)))
        return {'grant': 'grant %d %d' % (c, r.randint(1, self.credits)), 'tick': 'tick %d' % r.randint(1, 9), 'drain': 'drain'}.get(kind, '%s %d' % (kind, c))

    def change(self, c: int) -> str:
        """A call that adds an entry if there is room: a WRITE of the file `hello`, or a CREATE."""
        r = self.rng
        form = r.choice(('auto', 'auto', 'inline', 'chunk', 'long'))
        if r.random() < 0.5:
            data = r.randbytes(r.choice((1, 5, 30)))
            return self.call_line(c, form, 'nfs', 7, opaque((2).to_bytes(8, 'big')) + words(0, 0, len(data), r.randint(0, 2)) + opaque(data))
        name = opaque(b'new%d' % r.randint(0, 9))
        return self.call_line(c, form, 'nfs', 8, opaque((1).to_bytes(8, 'big')) + name + words(*[0] * 7))


class Definitions:
    """What is printed of a script, by the definitions alone."""

    def __init__(self, root: str) -> None:
        self.drills = Drills(root)
        project = self.drills.project
        module = project.read('setups', '')
        for u in USES:
            project.use(module, u)

        def value(text: str) -> Value:
            return project.expression(module, text)

        nodes = [value('drill_node mode_777 3 1 (Directory (record { next_cookie = 4; list = root_entries }))'), value('hello_node'), value('link_node'),
                 call(value('λ count. many_node count'), FILES)]
        nodes += [value('drill_node mode_666 1 4 (Regular [])')] * FILES
        self.tree = {'next': len(nodes) + 1, 'nodes': list(enumerate(nodes, 1))}
        self.server_of = value('λ tree opening. server_of (drill_setup tree opening)')

    def reply_to(self, journal: list[Value], moment: Value, payload: list[int]) -> Value:
        return call(self.server['reply_to'], journal, moment, payload)

    def printed(self, text: str) -> str:
        read = self.drills.read(text)
        if read.n != 'Ok':
            raise CannotEvaluate('it is no script, at line %d' % read.a[0])
        self.server = call(self.server_of, self.tree, read.a[0]['opening'])
        return self.drills.printed(read.a[0], self)[0]


def prepare(root: str) -> None:
    STATE['definitions'] = deeply(Definitions, root)


def recorded(job: tuple[int, int]) -> Recorded:
    """The script of a seed, with what the definitions say that is printed, or why they can't."""
    seed, lines = job
    script = {'name': 'seed_%d' % seed, 'script': ''.join(it + '\n' for it in Script(seed, lines).lines), 'status': 0, 'stdout': '', 'stderr': ''}
    try:
        return script | {'stdout': deeply(STATE['definitions'].printed, script['script'])}
    except CannotEvaluate as e:
        return script | {'problem': str(e)}


def evaluated(root: str, jobs: int, asked: list[tuple[int, int]], kept: str | None) -> list[Recorded]:
    """The scripts with what is printed of them."""
    if kept is not None and os.path.exists(kept):
        with gzip.open(kept, 'rt', encoding='utf-8') as h:
            return json.load(h)
    with multiprocessing.Pool(max(1, jobs), prepare, (root,)) as pool:
        scripts = list(pool.imap(recorded, asked))
    if kept is not None:
        with gzip.GzipFile(kept, 'wb', mtime=0) as f:
            f.write(json.dumps(scripts, separators=(',', ':')).encode())
    return scripts


def main(argv: list[str]) -> int:
    p = argparse.ArgumentParser(description='Compares the drill with the definitions on random scripts of clients that go on over further links.')
    p.add_argument('--seed', type=int, default=1)
    p.add_argument('--scripts', type=int, default=1000)
    p.add_argument('--lines', type=int, default=30, help='the most lines of a script after its first')
    p.add_argument('--program', default=PROGRAM, help='the built program nfsrdma')
    p.add_argument('--unproved', action='store_true', help='run nr_cases by `rt try`, and no built program')
    p.add_argument('--kept', help='the file of what the definitions say')
    p.add_argument('--project', default=ROOT, help='the folder that has the folder crates')
    p.add_argument('--jobs', type=int, default=os.cpu_count() or 1)
    a = p.parse_args(argv)
    scripts = evaluated(a.project, a.jobs, [(seed, a.lines) for seed in range(a.seed, a.seed + a.scripts)], a.kept)
    problems = [s for s in scripts if 'problem' in s]
    for s in problems:
        print("%s: can't be evaluated: %s" % (s['name'], s['problem']))
    if problems or not scripts:
        return 2
    if a.unproved:
        return compared(scripts)
    if not os.path.exists(a.program):
        print('no program at %s' % a.program)
        return 2
    with ThreadPool(max(1, a.jobs)) as pool:
        found = [d for d in pool.imap(lambda s: difference(a.program, s), scripts) if d is not None]
    print('\n'.join(found + ['%d scripts, %d differ' % (len(scripts), len(found))]))
    return 1 if found else 0


if __name__ == '__main__':
    sys.exit(main(sys.argv[1:]))
