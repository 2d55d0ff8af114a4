"""Evaluates the grammar of scripts on the recorded scripts: which are scripts, and else the first invalid line.

    python3 conformance/check_grammar.py [--only WORD] [--jobs N]

Exit status: 0 all agree, 1 some differ, 2 nothing could be run."""
import argparse
import multiprocessing
import os
import sys
from typing import Any

from antt import ROOT, Project
from check_definitions import Recorded
from compare_scripts import recorded_scripts
from values import CannotEvaluate, Value, call, deeply

MODULE, NAME = 'Rattle.nr_script.specs.Script', 'script_of'
STATE: dict[str, Any] = {}


def prepare(project: str) -> None:
    STATE['script_of'] = deeply(lambda: Project(project).value(MODULE, NAME))


def given(answer: Value) -> tuple[int, str]:
    """The status and the text that an answer of the grammar calls for."""
    return (0, '') if answer.n == 'Ok' else (10, 'bad line %d\n' % answer.a[0])


def difference(script: Recorded) -> str | None:
    """What the record has and what the definition gives, if they differ."""
    try:
        computed = given(deeply(call, STATE['script_of'], list(script['script'].encode('latin-1'))))
    except CannotEvaluate as e:
        return "%s: can't be evaluated: %s" % (script['name'], e)
    wanted = (script['status'], script['stderr'])
    return None if wanted == computed else '%s: wanted %s, computed %s' % (script['name'], wanted, computed)


def main(argv: list[str]) -> int:
    p = argparse.ArgumentParser(description='Evaluates the grammar of scripts on the recorded scripts.')
    p.add_argument('--project', default=ROOT, help='the folder that has the folder crates')
    p.add_argument('--only', default='', help='scripts whose name has this word')
    p.add_argument('--jobs', type=int, default=os.cpu_count() or 1)
    a = p.parse_args(argv)
    scripts = recorded_scripts(a.only)
    try:
        prepare(a.project)
    except CannotEvaluate as e:
        print("can't be evaluated: %s" % e)
        return 2
    if not scripts:
        print('no script is chosen')
        return 2
    with multiprocessing.Pool(max(1, a.jobs), prepare, (a.project,)) as pool:
        found = [d for d in pool.imap(difference, scripts, 8) if d is not None]
    print('\n'.join(found + ['%d scripts, %d differ' % (len(scripts), len(found))]))
    return 1 if found else 0


if __name__ == '__main__':
    sys.exit(main(sys.argv[1:]))
