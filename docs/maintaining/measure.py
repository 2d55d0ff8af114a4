"""Measures the processor time of proofs, edits and tests, crate by crate, and adds rows to measured.csv beside it.

    python3 docs/maintaining/measure.py [--what proof|edits|tests ..] [--note TEXT] [CRATE ..]

Each row has the commit, the date (UTC), the processors, the load when it began, the crate, what was measured, the seconds of
processor time of the command and its children, and whether it passed. Proofs are taken from nothing (`rt verdict`), edits by
`rt must-fail CRATE`, tests by `rt test`. Run it on an idle machine; it needs the toolchain. It is no part of the gate.
Exit status: 0 if everything passed, else 1."""
import argparse
import csv
import datetime
import os
import resource
import subprocess
import sys

HERE = os.path.dirname(os.path.abspath(__file__))
ROOT = os.path.dirname(os.path.dirname(HERE))
TABLE = os.path.join(HERE, 'measured.csv')
HEAD = ('commit', 'date', 'processors', 'load', 'crate', 'what', 'seconds', 'passed', 'note')


def crates() -> list[str]:
    """The crates of the repository, lowest first."""
    with open(os.path.join(ROOT, 'crates.txt'), encoding='utf-8') as h:
        return [x.split(':')[0].split()[0] for x in h if ':' in x and not x.startswith('#')]


def command(what: str, crate: str) -> tuple[list[str], str]:
    """What is run, and in which folder."""
    folder = os.path.join(ROOT, 'crates', crate)
    if what == 'edits':
        return ['rt', 'must-fail', crate], ROOT
    return ['rt', 'verdict' if what == 'proof' else 'test'], folder


def applies(what: str, crate: str) -> bool:
    """Whether a crate has edits or tests."""
    if what == 'edits':
        return os.path.isdir(os.path.join(ROOT, 'crates', crate, 'must-fail'))
    return what == 'proof' or crate.endswith('_tests')


def spent(words: list[str], folder: str) -> tuple[float, bool]:
    """The seconds of processor time of a command with its children, and whether it passed."""
    before = resource.getrusage(resource.RUSAGE_CHILDREN)
    status = subprocess.run(words, cwd=folder, stdout=subprocess.DEVNULL, stderr=subprocess.DEVNULL, check=False).returncode
    after = resource.getrusage(resource.RUSAGE_CHILDREN)
    return after.ru_utime + after.ru_stime - before.ru_utime - before.ru_stime, status == 0


def add(rows: list[list[str]]) -> None:
    """Adds rows to the table, and its head if there is none."""
    is_new = not os.path.exists(TABLE)
    with open(TABLE, 'a', encoding='utf-8', newline='') as h:
        writer = csv.writer(h, lineterminator='\n')
        writer.writerows([list(HEAD)] * is_new + rows)


def main(argv: list[str]) -> int:
    p = argparse.ArgumentParser(description='Measures proofs, edits and tests, and adds rows to measured.csv.')
    p.add_argument('crates', nargs='*', metavar='CRATE', help='the crates, by default all')
    p.add_argument('--what', action='append', choices=('proof', 'edits', 'tests'), help='may be given several times; default: all')
    p.add_argument('--note', default='', help='what else was at work on the machine')
    a = p.parse_args(argv)
    commit = subprocess.run(['git', 'rev-parse', '--short', 'HEAD'], cwd=ROOT, stdout=subprocess.PIPE, text=True, check=True).stdout.strip()
    all_passed = True
    for crate in a.crates or crates():
        for what in a.what or ('proof', 'edits', 'tests'):
            if not applies(what, crate):
                continue
            date, load = datetime.datetime.now(datetime.timezone.utc).strftime('%Y-%m-%dT%H:%MZ'), os.getloadavg()[0]
            seconds, passed = spent(*command(what, crate))
            all_passed = all_passed and passed
            row = [commit, date, str(os.cpu_count()), '%.1f' % load, crate, what, '%.0f' % seconds, 'yes' if passed else 'no', a.note]
            add([row])
            print(' '.join(row), flush=True)
    return 0 if all_passed else 1


if __name__ == '__main__':
    sys.exit(main(sys.argv[1:]))
