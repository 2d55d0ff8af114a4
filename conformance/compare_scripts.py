"""Runs the drill on the recorded scripts, and compares its status and what it prints with what was recorded.

    python3 conformance/compare_scripts.py [PROGRAM] [--only WORD] [--jobs N]

PROGRAM is the built program nfsrdma, by default the one that `rt run` leaves in crates/nfsrdma. Exit status: 0 all agree, 1
some differ, 2 there is no program or no script is chosen."""
import argparse
import gzip
import json
import os
import subprocess
import sys
from multiprocessing.pool import ThreadPool

from antt import ROOT
from check_definitions import HERE, Recorded, shorten

PROGRAM = os.path.join(ROOT, 'crates', 'nfsrdma', 'out', 'nfsrdma')
# the recorded scripts, and those whose clients have numbers and go on over further links
SCRIPTS = os.path.join(HERE, 'scripts.json.gz')
REJOIN = os.path.join(HERE, 'rejoin_scripts.json.gz')


def recorded_scripts(only: str = '') -> list[Recorded]:
    """The scripts of both files whose name has this word."""
    scripts: list[Recorded] = []
    for path in (SCRIPTS, REJOIN):
        with gzip.open(path, 'rt', encoding='utf-8') as h:
            scripts += [s for s in json.load(h) if only in s['name']]
    return scripts


def difference(program: str, script: Recorded) -> str | None:
    """What differs first: the status, standard output, or standard error."""
    done = subprocess.run([program, 'drill'], input=script['script'].encode('latin-1'), stdout=subprocess.PIPE,
                          stderr=subprocess.PIPE, check=False)
    printed = {'status': done.returncode, 'stdout': done.stdout.decode('latin-1'), 'stderr': done.stderr.decode('latin-1')}
    for what, value in printed.items():
        if value != script[what]:
            wanted, got = shorten(repr(script[what]), 300), shorten(repr(value), 300)
            return '%s: %s: wanted %s, printed %s' % (script['name'], what, wanted, got)
    return None


def main(argv: list[str]) -> int:
    p = argparse.ArgumentParser(description='Runs the drill on the recorded scripts, and compares what it prints.')
    p.add_argument('program', nargs='?', default=PROGRAM, help='the built program nfsrdma')
    p.add_argument('--only', default='', help='scripts whose name has this word')
    p.add_argument('--jobs', type=int, default=os.cpu_count() or 1)
    a = p.parse_args(argv)
    scripts = recorded_scripts(a.only)
    if not scripts or not os.path.exists(a.program):
        print('no script is chosen' if not scripts else 'no program at %s' % a.program)
        return 2
    with ThreadPool(max(1, a.jobs)) as pool:
        found = [d for d in pool.imap(lambda s: difference(a.program, s), scripts) if d is not None]
    print('\n'.join(found + ['%d scripts, %d differ' % (len(scripts), len(found))]))
    return 1 if found else 0


if __name__ == '__main__':
    sys.exit(main(sys.argv[1:]))
