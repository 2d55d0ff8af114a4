"""Samples the processor time of running `rt ci`s crate by crate, and adds rows to measured.csv beside it.

    python3 docs/maintaining/sample.py FILE                              # beside a run: writes FILE, until it is interrupted
    python3 docs/maintaining/sample.py FILE --rows [--note TEXT]         # afterwards: adds rows

Each proof, check for an edit and compilation of `rt ci` is a process of its own. Every five seconds its user and system time, with that of its
children, is read from /proc. FILE has a row for each: the run that began it, when it was first and last seen, what it does, its crate, its
seconds, and whether it has ended. What it does is `proof` (a library), `program` (a program's proof), `compile`, `tests`, `seed` (the crate's
proof once more, for its edits), `edit`, or `sound` (the check of the seed after the edits). Of a process that ends, up to five seconds are
lost. `--rows` adds up proofs, edits and tests of each crate, of the last run that had them to their end. It is no part of the gate."""
import argparse
import csv
import datetime
import os
import subprocess
import time

from measure import ROOT, add

TICK = os.sysconf('SC_CLK_TCK')
HEAD = ('run', 'first', 'last', 'kind', 'crate', 'seconds', 'ended')
# what a row of measured.csv is made of
PARTS = {'proof': ('proof', 'program', 'compile'), 'edits': ('seed', 'edit', 'sound'), 'tests': ('tests',)}


def stat(pid: int) -> tuple[str, int, int, int]:
    """The name of a process, its parent, the ticks of it and of its children that have ended, and when it began."""
    with open(f'/proc/{pid}/stat', encoding='latin1') as h:
        text = h.read()
    at = text.rindex(')')
    words = text[at + 2:].split()
    return text[text.index('(') + 1:at], int(words[1]), sum(map(int, words[11:15])), int(words[19])


def words_of(pid: int) -> list[str]:
    """The words of a process."""
    with open(f'/proc/{pid}/cmdline', encoding='latin1') as h:
        return h.read().split('\0')[:-1]


def after(words: list[str], flag: str) -> str:
    """The word after a flag."""
    return (words[words.index(flag) + 1:] or [''])[0] if flag in words else ''


def kind_of(words: list[str], folder: str, seeds: set[str]) -> str:
    """What a process of the prover does. The first one over a seed makes it."""
    kept = after(words, '--incremental')
    if '/rt-edits-' in kept and kept.endswith('/seed'):
        kind = 'sound' if kept in seeds else 'seed'
        seeds.add(kept)
        return kind
    if '/rt-edits-' in kept or '/rt-edit-' in folder:
        return 'edit'
    if '--test' in words:
        return 'tests'
    if '--crate-checked' in words:
        return 'compile'
    if '/rt-proved-' in after(words, '-o'):
        return 'program'
    return 'proof' if words[1:2] == ['build'] else 'check'


def run_of(pid: int, seen: dict) -> str:
    """The process of `rt ci` above a process, or nothing."""
    for _ in range(6):
        if pid not in seen:
            return ''
        try:
            words = words_of(pid)
        except OSError:
            return ''
        if any(os.path.basename(x) == 'rt' for x in words[:2]) and 'ci' in words[:3]:
            return str(pid)
        pid = seen[pid][1]
    return ''


def look(jobs: dict, seeds: set[str]) -> None:
    """Reads /proc once."""
    now, seen = time.strftime('%H:%M:%S'), {}
    for name in filter(str.isdigit, os.listdir('/proc')):
        try:
            seen[int(name)] = stat(int(name))
        except OSError:
            pass
    below: dict[int, list[int]] = {}
    for pid, it in seen.items():
        below.setdefault(it[1], []).append(pid)

    def ticks(pid: int) -> int:
        return seen[pid][2] + sum(map(ticks, below.get(pid, ())))

    live = {(pid, it[3]) for pid, it in seen.items() if it[0].startswith('rattle')}
    for key in live:
        pid = key[0]
        if key not in jobs:
            try:
                words, folder = words_of(pid), os.readlink(f'/proc/{pid}/cwd')
            except OSError:
                continue
            run, crate = run_of(seen[pid][1], seen), after(words, '--crate-name')
            if not run or not crate:
                continue
            jobs[key] = [run, now, now, kind_of(words, folder, seeds), crate, 0.0, 'no']
        jobs[key][2], jobs[key][5] = now, max(jobs[key][5], ticks(pid) / TICK)
    for key, job in jobs.items():
        job[6] = 'no' if key in live else 'yes'


def sample(file: str) -> None:
    """Writes the table anew every 20 seconds."""
    jobs: dict = {}
    seeds: set[str] = set()
    while True:
        for _ in range(4):
            look(jobs, seeds)
            time.sleep(5)
        with open(file + '.new', 'w', encoding='utf-8', newline='') as h:
            writer = csv.writer(h, lineterminator='\n')
            writer.writerow(HEAD)
            writer.writerows([*job[:5], f'{job[5]:.1f}', job[6]] for job in jobs.values())
        os.replace(file + '.new', file)


def rows(file: str, note: str) -> list[list[str]]:
    """The rows of measured.csv: proofs, edits and tests of each crate, of the last run that had all of them to their end."""
    with open(file, encoding='utf-8', newline='') as h:
        jobs = list(csv.DictReader(h))
    commit = subprocess.run(['git', 'rev-parse', '--short', 'HEAD'], cwd=ROOT, stdout=subprocess.PIPE, text=True, check=True).stdout.strip()
    date = datetime.datetime.now(datetime.timezone.utc).strftime('%Y-%m-%d')
    made = []
    for what, kinds in PARTS.items():
        sums: dict[str, dict[str, float]] = {}
        for job in jobs:
            if job['kind'] in kinds and job['ended'] == 'yes':
                of_run = sums.setdefault(job['crate'], {})
                of_run[job['run']] = of_run.pop(job['run'], 0.0) + float(job['seconds'])
        for crate, of_run in sums.items():
            made.append([commit, date, str(os.cpu_count()), '', crate, what, f'{list(of_run.values())[-1]:.0f}', 'yes', note])
    return made


def main() -> None:
    p = argparse.ArgumentParser(description='Samples the processor time of running `rt ci`s, and adds rows to measured.csv.')
    p.add_argument('file', metavar='FILE')
    p.add_argument('--rows', action='store_true', help='add rows from FILE')
    p.add_argument('--note', default='sampled in a run of rt ci', help='what else was at work on the machine')
    a = p.parse_args()
    if a.rows:
        add(rows(a.file, a.note))
    else:
        sample(a.file)


if __name__ == '__main__':
    main()
