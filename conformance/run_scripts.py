"""Runs the drill on the recorded scripts without a proof, and compares: status, standard output and standard error.

    python3 conformance/run_scripts.py [--only WORD]

It writes each script as a case of nr_cases, and runs that program by `rt try`, so it needs the toolchain, but no built program, and
nothing is proved here. Exit status: 0 all agree, 1 some differ, 2 nothing could be run."""
import argparse
import os
import re
import subprocess
import sys
import tempfile

from antt import ROOT
from check_definitions import Recorded
from compare_scripts import recorded_scripts


def lines_of(key: str, text: str) -> list[str]:
    """The lines of a case that say this text: one a line, or one a byte of a line that has bytes which no text of a case has."""
    lines: list[str] = []
    for line in re.findall('[^\n]*\n|[^\n]+', text):
        body = line.removesuffix('\n')
        if all(' ' <= c <= '~' for c in body):
            lines.append('%s %s' % (key if line != body else key + '|', body))
        else:
            lines += ['byte %d' % ord(c) for c in line]
    return lines


def case_of(script: Recorded) -> str:
    """A script as a case: its name, the words, the input, what is printed, and the status."""
    lines = ['case %s' % script['name'], 'run drill', *lines_of('<', script['script']), *lines_of('>', script['stdout']),
             *lines_of('!', script['stderr']), 'status %d' % script['status']]
    return ''.join(line + '\n' for line in lines)


def answers(scripts: list[Recorded]) -> list[str]:
    """The lines that nr_cases prints of these scripts."""
    with tempfile.NamedTemporaryFile('w', encoding='ascii', suffix='.txt') as h:
        h.write('\n' + ''.join(case_of(s) for s in scripts))
        h.flush()
        done = subprocess.run(['rt', 'try', '--seconds', '3000', '--', h.name], cwd=os.path.join(ROOT, 'crates', 'nr_cases'),
                              stdout=subprocess.PIPE, check=False)
        return done.stdout.decode('latin-1').splitlines()


def compared(scripts: list[Recorded]) -> int:
    """Runs the drill on these scripts, prints what differs, and gives the exit status."""
    lines = answers(scripts) if scripts else []
    differing = [line for line in lines if not line.startswith('ok ')]
    differ = sum('no %s' % s['name'] in lines for s in scripts)
    answered = differ + sum('ok %s' % s['name'] in lines for s in scripts)
    if not scripts or answered != len(scripts):
        print('\n'.join([*differing, '%d scripts, %d answers' % (len(scripts), answered)]))
        return 2
    print('\n'.join([*differing, '%d scripts, %d differ' % (len(scripts), differ)]))
    return 1 if differ else 0


def main(argv: list[str]) -> int:
    p = argparse.ArgumentParser(description='Runs the drill unproved on the recorded scripts, and compares what it prints.')
    p.add_argument('--only', default='', help='scripts whose name has this word')
    return compared(recorded_scripts(p.parse_args(argv).only))


if __name__ == '__main__':
    sys.exit(main(sys.argv[1:]))
