"""Records what the plain server answers to the calls that the recorded runs execute, beside the runs: plain.json.gz.

    python3 conformance/record_plain.py [PROGRAM]

PROGRAM is the built plain_calls, by default the one that `rt run` leaves in crates/plain_calls. The capacity of a run's
journal isn't in its record: of the capacities with which runs were made, the first is taken with which the answers are
those of the run, else the largest. Exit status: 0, or 2 if there is no program."""
import argparse
import gzip
import json
import os
import subprocess
import sys

from antt import ROOT
from check_definitions import LARGE_RUNS, RUNS, Recorded, recorded
from laws_of_runs import PLAIN, answers_of

PROGRAM = os.path.join(ROOT, 'crates', 'plain_calls', 'out', 'plain_calls')
CAPACITIES = (1 << 40, 0, 103, 116, 3000)


def answers(program: str, capacity: int, run: Recorded) -> list[str]:
    """What plain_calls prints of the calls of a run, in the order in which they were executed."""
    executes = [m for m in run['marks'] if m['mark'] == 'Execute']
    lines = ['capacity %d' % capacity] + ['%d %s' % (m['seconds'], m['payload'] or '-') for m in executes]
    done = subprocess.run([program], input=''.join(x + '\n' for x in lines), stdout=subprocess.PIPE, text=True, check=True)
    return done.stdout.splitlines()[:len(executes)]


def record(program: str, run: Recorded) -> Recorded:
    """The capacity of a run and the answers of the plain server."""
    for capacity in CAPACITIES:
        given = answers(program, capacity, run)
        if given == answers_of(run):
            return {'capacity': capacity, 'answers': given}
    return {'capacity': CAPACITIES[0], 'answers': answers(program, CAPACITIES[0], run)}


def main(argv: list[str]) -> int:
    p = argparse.ArgumentParser(description='Records the answers of the plain server beside the recorded runs.')
    p.add_argument('program', nargs='?', default=PROGRAM, help='the built plain_calls')
    a = p.parse_args(argv)
    if not os.path.exists(a.program):
        print('no program at %s: cd crates/plain_calls && rt run < stdin' % a.program)
        return 2
    runs = [r for folder in (RUNS, LARGE_RUNS) for r in recorded(folder) if any(m['mark'] == 'Execute' for m in r['marks'])]
    plain = {r['name']: record(a.program, r) for r in runs}
    with gzip.GzipFile(PLAIN, 'wb', mtime=0) as h:
        h.write(json.dumps(plain, separators=(',', ':')).encode())
    same = sum(1 for r in runs if plain[r['name']]['answers'] == answers_of(r))
    print('%d runs, %d with the answers of the plain server' % (len(runs), same))
    return 0


if __name__ == '__main__':
    sys.exit(main(sys.argv[1:]))
