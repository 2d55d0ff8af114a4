"""Reads the recorded scripts with `read_script` of nr_script, and compares: which are scripts, and else the first invalid line.

    python3 conformance/read_scripts.py [--only WORD]

It makes a program over nr_script in a temporary copy of the repository and runs it by `rt try`, so nothing is proved here.
Exit status: 0 all agree, 1 some differ, 2 nothing could be run."""
import argparse
import os
import shutil
import subprocess
import sys
import tempfile

from antt import ROOT
from compare_scripts import recorded_scripts

NAME = 'script_reader'
# each text comes as its length, four bytes, and its bytes; for each there is a line: its lines, or the number of the invalid one
PROGRAM = '''//! Reads texts of scripts from the input, and writes a line for each.
#![tactic(auto)]

use nr_outside::{INPUT_MAX, StdSource, read_whole};
use nr_script::{ScriptFault, read_script};
use std::io;

fn main(rt: HostRuntime) -> io::Result<()> {
    let mut source = StdSource::new(rt.stdin());
    let Ok(input) = read_whole(rt.alloc(), &mut source, INPUT_MAX) else {
        return println!(rt; "no input");
    };
    let mut rest = input.as_slice();
    while rest.len() >= 4 {
        let (head, more) = rest.split_at(4);
        let len = u32::from_be_bytes([head[0], head[1], head[2], head[3]]) as usize;
        let (text, after) = more.split_at(len.min(more.len()));
        match read_script(rt.alloc(), text) {
            Ok(script) => println!(rt; "script {}", script.lines().len())?,
            Err(ScriptFault::BadLine { line }) => println!(rt; "bad line {line}")?,
            Err(ScriptFault::Memory) => println!(rt; "memory")?,
        }
        rest = after;
    }
    Ok(())
}
'''


def wanted(script: dict) -> str:
    """The line that the record calls for: the lines after the first that aren't skipped, or the invalid line."""
    if script['status'] == 10:
        return script['stderr'].strip()
    lines = [x for x in script['script'].split('\n') if x and not x.startswith('#')]
    return 'script %d' % (len(lines) - 1)


def answers(texts: list[bytes]) -> list[str]:
    """What the program writes for these texts."""
    with tempfile.TemporaryDirectory() as place:
        repo = os.path.join(place, 'repo')
        shutil.copytree(ROOT, repo, ignore=shutil.ignore_patterns('out', '.git'))
        crate = os.path.join(repo, 'crates', NAME)
        os.makedirs(os.path.join(crate, 'src'))
        with open(os.path.join(crate, 'src', 'main.rt'), 'w', encoding='utf-8') as h:
            h.write(PROGRAM)
        with open(os.path.join(repo, 'crates.txt'), 'a', encoding='utf-8') as h:
            h.write('%s: nr_script nr_outside\n' % NAME)
        given = b''.join(len(text).to_bytes(4, 'big') + text for text in texts)
        done = subprocess.run(['rt', 'try'], cwd=crate, input=given, stdout=subprocess.PIPE, check=False)
        return [x for x in done.stdout.decode('latin-1').splitlines() if x.startswith(('script ', 'bad line ', 'memory', 'no input'))]


def main(argv: list[str]) -> int:
    p = argparse.ArgumentParser(description='Reads the recorded scripts with read_script, and compares.')
    p.add_argument('--only', default='', help='scripts whose name has this word')
    a = p.parse_args(argv)
    scripts = recorded_scripts(a.only)
    got = answers([s['script'].encode('latin-1') for s in scripts])
    if not scripts or len(got) != len(scripts):
        print('%d scripts, %d answers' % (len(scripts), len(got)))
        return 2
    found = ['%s: wanted %s, read %s' % (s['name'], wanted(s), g) for s, g in zip(scripts, got) if wanted(s) != g]
    print('\n'.join(found + ['%d scripts, %d differ' % (len(scripts), len(found))]))
    return 1 if found else 0


if __name__ == '__main__':
    sys.exit(main(sys.argv[1:]))
