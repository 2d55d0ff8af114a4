"""Evaluates the definitions of a run, and the laws, on the recorded runs. Python's standard library is enough.

    python3 conformance/run.py [--jobs N]

It runs test_evaluator.py, check_numbered.py, joined_frames.py, check_grammar.py, check_drills.py, captures_of_runs.py,
check_definitions.py and laws_of_runs.py, one after the other, on all processors. Exit status: 0 if all of them agree,
else 1."""
import argparse
import os
import subprocess
import sys
import time

HERE = os.path.dirname(os.path.abspath(__file__))
STEPS = (
    ('The evaluator against definitions whose values are known', 'test_evaluator.py', False),
    ('The plain server on calls of numbered clients', 'check_numbered.py', False),
    ('Frames of a command and its server in one piece', 'joined_frames.py', False),
    ('The grammar of scripts on the recorded scripts', 'check_grammar.py', True),
    ('The definitions of a drill on the recorded scripts', 'check_drills.py', True),
    ('The text of captures on the recorded runs', 'captures_of_runs.py', True),
    ('The definitions of a run on the recorded runs', 'check_definitions.py', True),
    ('The laws on the recorded runs', 'laws_of_runs.py', True),
)


def step(title: str, script: str, jobs: list[str]) -> bool:
    """Runs a script, prints what it says, and gives whether it agrees."""
    print('== %s: %s' % (title, script), flush=True)
    start = time.time()
    status = subprocess.run([sys.executable, os.path.join(HERE, script), *jobs], check=False).returncode
    print('%s, %.0f seconds\n' % ('agrees' if status == 0 else 'status %d' % status, time.time() - start), flush=True)
    return status == 0


def main(argv: list[str]) -> int:
    p = argparse.ArgumentParser(description='Evaluates the definitions of a run, and the laws, on the recorded runs.')
    p.add_argument('--jobs', type=int, default=os.cpu_count() or 1, help='how many processes work at a time')
    a = p.parse_args(argv)
    agrees = [step(title, script, ['--jobs', str(a.jobs)] if takes else []) for title, script, takes in STEPS]
    print('all agree' if all(agrees) else 'NOT all agree')
    return 0 if all(agrees) else 1


if __name__ == '__main__':
    sys.exit(main(sys.argv[1:]))
