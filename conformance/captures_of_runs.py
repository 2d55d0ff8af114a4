"""Writes the recorded runs as captures, and evaluates the grammar and the text of captures on them.

    python3 conformance/captures_of_runs.py [--only WORD] [--most BYTES] [--jobs N] [--show NAME]

A run can be a capture if its links have the numbers from 1 on, both first numbers are 1, the credits that all ends were
opened with are the same, also while a server is busy, so are the units of all clients and those of all servers, and no
client has a number. The text of each run that can be is written by this script alone. `capture_of` has to read it,
`capture_text` has to give it back, and the definition of the capture of a run (`captured`) has to give what was read.
Exit status: 0 all agree, 1 some differ, 2 nothing could be run."""
import argparse
import collections
import gzip
import json
import multiprocessing
import os
import sys
from typing import Any

from antt import ROOT, Project
from check_definitions import HERE, NAMES, RUNS, Names, Recorded
from values import CannotEvaluate, call, deeply, field, show

FILES = ('named', 'random', 'hostile', 'aimed', 'cut', 'sizes', 'grants', 'invalidate', 'invalidate_aimed')
DEFAULT_CAPACITY = 1 << 40
STATE: dict[str, Any] = {}


def invalidates(o: Recorded) -> tuple[bool, bool]:
    """Whether the client of a link and its server make or take Sends with Invalidate."""
    both = o.get('invalidates', False)
    return o.get('client_invalidates', both), o.get('server_invalidates', both)


def why_not(run: Recorded) -> str | None:
    """Why a run can't be a capture, or None."""
    opened = run['opened']
    if sorted(o['link'] for o in opened) != list(range(1, len(opened) + 1)) or not 1 <= len(opened) <= 16:
        return 'links'
    if any(o['first_xid'] != 1 or o['first_stag'] != 1 for o in opened):
        return 'first numbers'
    if len({c for o in opened for c in (o['wished'], o['granted'], o.get('low', o['granted']))}) != 1:
        return 'credits'
    if len({(o['client_units'], o['server_units']) for o in opened}) != 1:
        return 'units'
    if len({side for o in opened for side in invalidates(o)}) != 1:
        return 'a side alone that invalidates'
    if any(o['number'] != 0 for o in opened):
        return 'numbers of clients'
    for m in run['marks']:
        if m['mark'] == 'Execute' and m['nanos'] != 0:
            return 'nanoseconds'
        if m['mark'] == 'Submit' and m['answer']['kind'] == 'Accepted':
            cred = m['call']['cred']
            if cred['kind'] == 'Sys' and (cred['stamp'], cred['machine'], cred['gids']) != (0, b'drill'.hex(), []):
                return 'credential'
    return None


def lengths(part: list[int]) -> str:
    return ','.join(map(str, part))


def form(f: Recorded) -> str:
    if f['kind'] != 'Given':
        return f['kind'].lower()
    parts = []
    if f['read'] is not None:
        parts.append('read@%d=%s' % (f['read_at'], lengths(f['read'])))
    if f['write'] is not None:
        parts.append('write=' + lengths(f['write']))
    if f['reply'] is not None:
        parts.append('reply=' + lengths(f['reply']))
    return 'given:' + ';'.join(parts)


def first_line(run: Recorded, capacity: int) -> str:
    opened = run['opened']
    units = (opened[0]['client_units'], opened[0]['server_units'])
    line = 'clients %d credits %d' % (len(opened), opened[0]['granted'])
    line += '' if capacity == DEFAULT_CAPACITY else ' capacity %d' % capacity
    line += '' if units == (1, 1) else ' sizes %d %d' % units
    return line + (' invalidate' if all(invalidates(opened[0])) else '')


def submit(m: Recorded) -> str | None:
    if m['answer']['kind'] != 'Accepted':
        return None
    c = m['call']
    cred = 'none' if c['cred']['kind'] == 'None' else '%d.%d' % (c['cred']['uid'], c['cred']['gid'])
    words = (m['link'], m['answer']['xid'], form(m['form']), c['prog'], c['vers'], c['proc'], cred, c['args'] or '-')
    return 'submit %d %d %s %d.%d %d %s %s' % words


def outcome(o: Recorded) -> str:
    if o['kind'] == 'Reply':
        return 'reply ' + (o['payload'] or '-')
    return 'chunk' if o['kind'] == 'Chunk' else 'version %d %d' % (o['low'], o['high'])


def line(m: Recorded) -> str | None:
    """The line of a mark, if it has one."""
    kind, link = m['mark'], m['link']
    if kind == 'Submit':
        return submit(m)
    if kind in ('Wrote', 'Fed'):
        return '%s %d %s %s' % ('out' if kind == 'Wrote' else 'in', link, m['side'], m['bytes']) if m['bytes'] else None
    if kind == 'Execute':
        return 'exec %d %d %d' % (link, m['xid'], m['seconds'])
    if kind == 'Done':
        return 'done %d %d %s' % (link, m['xid'], outcome(m['outcome']))
    if kind == 'Grant':
        return 'grant %d %d' % (link, m['credits'])
    return 'drop %d' % link if kind == 'Drop' else '%s %d %d' % (kind.lower(), link, m['xid'])


def text_of(run: Recorded, capacity: int = DEFAULT_CAPACITY) -> str:
    """The text of a run's capture."""
    marks = [x for x in map(line, run['marks']) if x is not None]
    return ''.join(x + '\n' for x in [first_line(run, capacity), *marks])


def prepare(project: str) -> None:
    made = Project(project)
    STATE['capture_of'] = deeply(lambda: made.value('Rattle.nr_capture.specs.Capture', 'capture_of'))
    STATE['capture_text'] = deeply(lambda: made.value('Rattle.nr_capture.specs.Texts', 'capture_text'))
    STATE['captured'] = deeply(lambda: made.value('Rattle.nr_capture.specs.Captured', 'captured'))
    with open(NAMES, encoding='utf-8') as h:
        STATE['names'] = deeply(Names, project, json.load(h))


def difference(it: tuple[Recorded, str]) -> str | None:
    """What the definitions make of a run and its text, if it is not the same."""
    run, text = it
    try:
        read = deeply(call, STATE['capture_of'], list(text.encode()))
        if read.n != 'Ok':
            return '%s: bad line %d' % (run['name'], read.a[0])
        back = bytes(deeply(call, STATE['capture_text'], read.a[0])).decode()
        if back != text:
            return '%s: written: %s' % (run['name'], back[:200])
        marks = [STATE['names'].mark(m) for m in run['marks']]
        made = deeply(call, STATE['captured'], field(read.a[0], 'opening'), marks)
    except CannotEvaluate as e:
        return "%s: can't be evaluated: %s" % (run['name'], e)
    return None if made == read.a[0] else '%s: captured: %s' % (run['name'], show(made)[:200])


def captures(only: str, most: int) -> list[tuple[Recorded, str]]:
    """The runs that can be captures, with their texts; prints how many are left out."""
    left: collections.Counter[str] = collections.Counter()
    with gzip.open(os.path.join(HERE, 'plain.json.gz'), 'rt', encoding='utf-8') as h:
        plain = json.load(h)
    out = []
    for name in FILES:
        with gzip.open(os.path.join(RUNS, name + '.json.gz'), 'rt', encoding='utf-8') as h:
            for run in json.load(h):
                why = why_not(run)
                if why:
                    left[why] += 1
                else:
                    out.append((run, text_of(run, plain.get(run['name'], {}).get('capacity', DEFAULT_CAPACITY))))
    print('%d runs can be captures; left out: %s' % (len(out), ', '.join('%s %d' % x for x in sorted(left.items()))))
    return [x for x in out if only in x[0]['name'] and len(x[1]) <= most]


def main(argv: list[str]) -> int:
    p = argparse.ArgumentParser(description='Evaluates the grammar and the text of captures on the recorded runs.')
    p.add_argument('--project', default=ROOT, help='the folder that has the folder crates')
    p.add_argument('--only', default='', help='runs whose name has this word')
    p.add_argument('--most', type=int, default=1 << 30, help='leave out captures that are longer')
    p.add_argument('--jobs', type=int, default=os.cpu_count() or 1)
    p.add_argument('--show', default='', help='print the capture of the run of this name, and end')
    a = p.parse_args(argv)
    chosen = captures(a.show or a.only, a.most)
    if a.show:
        print(''.join(text for run, text in chosen if run['name'] == a.show), end='')
        return 0
    try:
        prepare(a.project)
    except CannotEvaluate as e:
        print("can't be evaluated: %s" % e)
        return 2
    if not chosen:
        print('no run is chosen')
        return 2
    with multiprocessing.Pool(max(1, a.jobs), prepare, (a.project,)) as pool:
        found = [d for d in pool.imap(difference, chosen, 8) if d is not None]
    print('\n'.join(found + ['%d captures, %d differ' % (len(chosen), len(found))]))
    return 1 if found else 0


if __name__ == '__main__':
    sys.exit(main(sys.argv[1:]))
