"""Runs the drill with --log on the recorded scripts, and compares what it prints with the captures of their runs.

    python3 conformance/compare_logs.py [PROGRAM] [--only WORD] [--most LINES] [--jobs N] [--show NAME]

PROGRAM is the built program nfsrdma, by default the one that `rt run` leaves in crates/nfsrdma. The marks of a script are those
that the definitions of a drill make (as in check_drills.py), and the text of their capture is that of captures_of_runs.py, which
knows none of the project's definitions. A script that was generated is run from its seed too. Of a text that is no script the
status and standard error have to be those that were recorded, and nothing is printed. With --show the capture of one script is
printed, and no program is run. Exit status: 0 all agree, 1 some differ, 2 there is no program or no script is chosen."""
import argparse
import gzip
import json
import multiprocessing
import os
import subprocess
import sys
from typing import Any

from antt import ROOT
from captures_of_runs import first_line, line
from check_definitions import Recorded
from check_drills import DRILLS, PLAIN, Answers, Drills, first_difference
from compare_scripts import PROGRAM, SCRIPTS
from values import CannotEvaluate, Value, deeply

SIDES = {'Initiator': 'client', 'Responder': 'server'}
STATE: dict[str, Any] = {}


def digits(data: list[int]) -> str:
    return bytes(data).hex()


def part(value: Value) -> list[int] | None:
    """The lengths of a list of an offer, if it is offered."""
    return value.a[0] if value.n == 'Some' else None


def recorded_form(form: Value) -> Recorded:
    if form.n != 'Given':
        return {'kind': form.n}
    offer = form.a[0]
    return {'kind': 'Given', 'read_at': offer['read_at'], **{name: part(offer[name]) for name in ('read', 'write', 'reply')}}


def recorded_call(made: Value) -> Recorded:
    cred = made['cred']
    kind = {'kind': cred.n} if cred.n != 'Sys' else {'kind': 'Sys', 'uid': cred.a[2], 'gid': cred.a[3]}
    return {**{name: made[name] for name in ('prog', 'vers', 'proc')}, 'cred': kind, 'args': digits(made['args'])}


def recorded_outcome(outcome: Value) -> Recorded:
    if outcome.n == 'Reply':
        return {'kind': 'Reply', 'payload': digits(outcome.a[0])}
    return {'kind': outcome.n, **dict(zip(('low', 'high'), outcome.a))}


def recorded(mark: Value) -> Recorded:
    """A mark of the definitions as the recorded runs write it."""
    kind, link = mark.n, mark.a[0]
    if kind == 'Submit':
        answer = {'kind': mark.a[3].n, 'xid': mark.a[3].a[0] if mark.a[3].n == 'Accepted' else None}
        return {'mark': kind, 'link': link, 'call': recorded_call(mark.a[1]), 'form': recorded_form(mark.a[2]), 'answer': answer}
    if kind in ('Wrote', 'Fed'):
        return {'mark': kind, 'link': link, 'side': SIDES[mark.a[1].n], 'bytes': digits(mark.a[2])}
    if kind == 'Execute':
        return {'mark': kind, 'link': link, 'xid': mark.a[1], 'seconds': mark.a[2]['seconds']}
    if kind == 'Done':
        return {'mark': kind, 'link': link, 'xid': mark.a[1], 'outcome': recorded_outcome(mark.a[2])}
    if kind == 'Told':
        return {'mark': 'Grant', 'link': link, 'credits': mark.a[1].a[0]}
    return {'mark': kind, 'link': link, **({'xid': mark.a[1]} if kind != 'Drop' else {})}


def opened(opening: Value) -> list[Recorded]:
    """What the ends of each link are opened with, as the recorded runs write it."""
    one = {'granted': opening['credits'], 'client_units': opening['client_units'], 'server_units': opening['server_units'],
           'invalidates': opening['invalidates']}
    return [one] * opening['clients']


def capture(drills: Drills, script: Recorded, answers: dict[str, str]) -> str:
    """The text of the capture of a script's run."""
    read = drills.ask('script_of', list(script['script'].encode('latin-1'))).a[0]
    opening = read['opening']
    drill = drills.made(read, Answers(answers, None, opening['capacity']))[1]
    lines = [x for x in (line(recorded(m)) for m in drill['marks'] if m.n != 'Lost') if x is not None]
    return ''.join(x + '\n' for x in [first_line({'opened': opened(opening)}, opening['capacity']), *lines])


def run(program: str, words: list[str], text: str) -> Recorded:
    done = subprocess.run([program, 'drill', '--log', *words], input=text.encode('latin-1'), stdout=subprocess.PIPE, stderr=subprocess.PIPE, check=False)
    return {'status': done.returncode, 'stdout': done.stdout.decode('latin-1'), 'stderr': done.stderr.decode('latin-1')}


def unlike(printed: Recorded, status: int, stdout: str, stderr: str) -> str | None:
    if (printed['status'], printed['stderr']) != (status, stderr):
        return 'wanted status %d and %r, ended with %d and %r' % (status, stderr, printed['status'], printed['stderr'])
    return first_difference(printed['stdout'], stdout)


def compared(script: Recorded) -> str | None:
    program = STATE['program']
    if script['status'] != 0:
        return unlike(run(program, [], script['script']), script['status'], '', script['stderr'])
    text = capture(STATE['drills'], script, dict(STATE['plain'].get(script['name'], {})))
    found = unlike(run(program, [], script['script']), 0, text, '')
    if found is None and 'seed' in script:
        words = [w for name in ('seed', 'clients', 'calls') for w in ('--' + name, str(script[name]))]
        seeded = unlike(run(program, words, ''), 0, text, '')
        return None if seeded is None else 'from its seed: ' + seeded
    return found


def check(script: Recorded) -> str | None:
    try:
        found = deeply(compared, script)
    except CannotEvaluate as e:
        found = "can't be evaluated: %s" % e
    return None if found is None else '%s: %s' % (script['name'], found)


def prepare(project: str, plain: dict[str, dict[str, str]], program: str) -> None:
    STATE.update(drills=deeply(Drills, project), plain=plain, program=program)


def loaded(path: str) -> Any:
    with gzip.open(path, 'rt', encoding='utf-8') as h:
        return json.load(h)


def main(argv: list[str]) -> int:
    p = argparse.ArgumentParser(description='Runs the drill with --log on the recorded scripts, and compares what it prints.')
    p.add_argument('program', nargs='?', default=PROGRAM, help='the built program nfsrdma')
    p.add_argument('--project', default=ROOT, help='the folder that has the folder crates')
    p.add_argument('--only', default='', help='scripts whose name has this word')
    p.add_argument('--most', type=int, default=1 << 30, help='leave out scripts of more lines')
    p.add_argument('--jobs', type=int, default=os.cpu_count() or 1)
    p.add_argument('--show', default='', help='print the capture of the script of this name, and end')
    a = p.parse_args(argv)
    scripts = [s for s in loaded(SCRIPTS) + loaded(DRILLS) if a.only in s['name'] and s['script'].count('\n') <= a.most]
    plain = loaded(PLAIN)
    if a.show:
        prepare(a.project, plain, '')
        print(''.join(deeply(capture, STATE['drills'], s, dict(plain.get(s['name'], {}))) for s in scripts if s['name'] == a.show), end='')
        return 0
    if not scripts or not os.path.exists(a.program):
        print('no script is chosen' if not scripts else 'no program at %s' % a.program)
        return 2
    scripts.sort(key=lambda s: len(s['script']), reverse=True)
    with multiprocessing.Pool(max(1, a.jobs), prepare, (a.project, plain, a.program)) as pool:
        found = [d for d in pool.imap_unordered(check, scripts) if d is not None]
    print('\n'.join(found + ['%d scripts, %d differ' % (len(scripts), len(found))]))
    return 1 if found else 0


if __name__ == '__main__':
    sys.exit(main(sys.argv[1:]))
