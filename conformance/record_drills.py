"""Records what the built program prints of scripts that are generated, and of a hostile one: drills.json.gz.

    python3 conformance/record_drills.py [PROGRAM]

PROGRAM is the built program nfsrdma, by default the one that `rt run` leaves in crates/nfsrdma. The text of a generated script
is written from what the generator's definition gives; the program runs this text, and the seed alone. `check_drills.py --record`
then adds the plain server's replies. Exit status: 0, or 2 if there is no program."""
import argparse
import gzip
import json
import os
import subprocess
import sys

from antt import ROOT
from check_definitions import HERE, Recorded
from check_drills import DRILLS, Drills
from compare_scripts import PROGRAM
from values import CannotEvaluate, Value, deeply

# A Read Response that completes a frame of the client's, which the server then reads as a Send: in its drain more work is left after
# a step than before.
HOSTILE = os.path.join(HERE, 'misread.drill')
GENERATED = 100
FORMS = {'Auto': 'auto'}
NUMBERED = {'Up': 'up', 'Down': 'down'}


def line_of(line: Value) -> str:
    """The text of a line of a generated script."""
    if line.n == 'Drain':
        return 'drain'
    if line.n == 'Work':
        return 'work %d' % line.a[0]
    if line.n in NUMBERED:
        return '%s %d %d' % (NUMBERED[line.n], *line.a)
    if line.n == 'Call':
        client, form, _, _, proc, args = line.a
        return 'call %d %s nfs %d %s' % (client, FORMS[form.n], proc, bytes(args).hex() or '-')
    raise CannotEvaluate('a line %s of a generated script' % line.n)


def text_of(script: Value) -> str:
    first = 'clients %(clients)d credits %(credits)d capacity %(capacity)d' % script['opening']
    return ''.join(x + '\n' for x in [first] + [line_of(x) for x in script['lines']])


def run(program: str, words: list[str], text: str) -> subprocess.CompletedProcess[bytes]:
    return subprocess.run([program, 'drill', *words], input=text.encode('latin-1'), stdout=subprocess.PIPE, stderr=subprocess.PIPE, check=False)


def record(program: str, name: str, text: str) -> Recorded:
    """A script, and what the program gives of it."""
    done = run(program, [], text)
    return {'name': name, 'script': text, 'status': done.returncode, 'stdout': done.stdout.decode('latin-1'), 'stderr': done.stderr.decode('latin-1')}


def generated(program: str, drills: Drills, at: int) -> Recorded:
    """The generated script of a number: a seed, a number of clients and one of calls."""
    seed, clients, calls = at * 2654435761 % 2 ** 64, (1, 2, 5)[at % 3], at % 8 + 1
    text = text_of(drills.ask('made', seed, clients, calls))
    made = record(program, 'generated_%03d' % at, text)
    words = ['--seed', str(seed), '--clients', str(clients), '--calls', str(calls)]
    return {**made, 'seed': seed, 'clients': clients, 'calls': calls, 'sums': run(program, words, '').stdout.decode('latin-1')}


def main(argv: list[str]) -> int:
    p = argparse.ArgumentParser(description='Records what the built program prints of generated scripts.')
    p.add_argument('program', nargs='?', default=PROGRAM, help='the built program nfsrdma')
    a = p.parse_args(argv)
    if not os.path.exists(a.program):
        print('no program at %s' % a.program)
        return 2
    with open(HOSTILE, encoding='latin-1', newline='') as h:
        scripts = [record(a.program, 'misread_response', h.read())]
    drills = deeply(Drills, ROOT)
    scripts += [deeply(generated, a.program, drills, at) for at in range(GENERATED)]
    with gzip.GzipFile(DRILLS, 'wb', mtime=0) as f:
        f.write(json.dumps(scripts, separators=(',', ':')).encode())
    print('%d scripts, %d with status 0' % (len(scripts), sum(1 for s in scripts if s['status'] == 0)))
    return 0


if __name__ == '__main__':
    sys.exit(main(sys.argv[1:]))
