"""Runs a script of 20,000 lines by the built `nfsrdma drill`: 2,512 WRITEs of 16 clients, each of which is an entry of the journal.

    python3 conformance/long_drills.py [--program PROGRAM] [--rounds N]

In each round each client writes a byte to the file `hello`, after those of the rounds before, and everything is drained; then there are lines
after which nothing moves. The replies were worked out from RFC 5531 section 9 and RFC 1813 section 3.3.7: a drain executes the calls of the
clients in order. Exit status: 0 all as expected, 1 something differs, 2 no program."""
import argparse
import os
import struct
import subprocess
import sys

ROOT = os.path.dirname(os.path.dirname(os.path.abspath(__file__)))
CLIENTS, ROUNDS = 16, 157
# of the file hello: its size, its mode, its number
SIZE, MODE, NUMBER = 5, 0o666, 2
STILL = ('up %d 4096', 'down %d 4096', 'work %d', 'up %d 1', 'down %d 1', 'work %d', 'up %d 4294967295')


def words(*numbers: int) -> bytes:
    return struct.pack('>%dI' % len(numbers), *numbers)


def hyper(number: int) -> bytes:
    return struct.pack('>Q', number)


def write_of(offset: int) -> bytes:
    """The arguments of a WRITE of one byte, FILE_SYNC."""
    return words(8) + hyper(NUMBER) + hyper(offset) + words(1, 2, 1) + b'a' + bytes(3)


def reply_of(xid: int, before: int, after: int) -> bytes:
    """The reply, with the sizes before and after it; the clock shows 0, and the write verifier is 1."""
    sizes = hyper(after) * 2
    attributes = words(1, MODE, 1, 0, 0) + sizes + words(0, 0) + hyper(1) + hyper(NUMBER) + words(0, 0, 0, 0, 0, 0)
    return words(xid, 1, 0, 0, 0, 0, 0, 1) + hyper(before) + words(0, 0, 0, 0, 1) + attributes + words(1, 2) + hyper(1)


def made(rounds: int) -> tuple[str, str]:
    """The script, and what is printed of it."""
    lines, printed = ['clients %d credits 1' % CLIENTS], []
    for at in range(rounds):
        for client in range(1, CLIENTS + 1):
            place = at * CLIENTS + client - 1
            before, after = SIZE + place, SIZE + place + 1
            lines.append('call %d auto nfs 7 %s' % (client, write_of(before).hex()))
            printed.append('%d %d place %d reply %s\n' % (client, at + 1, place, reply_of(at + 1, before, after).hex()))
        lines.append('drain')
        lines += [it % client for client in range(1, CLIENTS + 1) for it in STILL]
    printed.append('journal %d\n' % (rounds * CLIENTS))
    return '\n'.join(lines) + '\n', ''.join(printed)


def main(argv: list[str]) -> int:
    p = argparse.ArgumentParser(description='Runs a script of 20,000 lines by the built nfsrdma drill.')
    p.add_argument('--program', default=os.path.join(ROOT, 'crates/nfsrdma/out/nfsrdma'))
    p.add_argument('--rounds', type=int, default=ROUNDS)
    a = p.parse_args(argv)
    if not os.access(a.program, os.X_OK):
        print('no program at %s' % a.program)
        return 2
    script, want = made(a.rounds)
    got = subprocess.run([a.program, 'drill'], input=script, capture_output=True, text=True, check=False)
    if (got.returncode, got.stdout, got.stderr) != (0, want, ''):
        pairs = zip(got.stdout.split('\n'), want.split('\n'))
        first = next((it for it in pairs if it[0] != it[1]), ('', ''))
        print('status %d, %r: %s, not %s' % (got.returncode, got.stderr[:100], *first))
        return 1
    print('as expected: %d lines, a journal of %d' % (script.count('\n'), a.rounds * CLIENTS))
    return 0


if __name__ == '__main__':
    sys.exit(main(sys.argv[1:]))
