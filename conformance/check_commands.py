"""Runs the built `nfsrdma serve` and the commands of a client over TCP, as a new user would.

    python3 conformance/check_commands.py [--program PROGRAM] [--entries N] [--only WORD ..]

Each command is a process with a connection of its own. --only tries the commands that are named (a command that a build does not have yet
would differ everywhere). Exit status: 0 all as expected, 1 something differs, 2 no program."""
import argparse
import os
import random
import subprocess
import sys
import tempfile
import time

from check_serve import CONFIG, ROOT, connect, free_port, serve

MIB = 1 << 20
LIMIT = 16 * MIB
# "reg 0644 1 0 0 SIZE FILEID": the first file of a new tree is number 2, since the root is number 1
NEW_FILE = 'reg 0644 1 0 0 5 2\n'


class Tries:
    """What was tried, and what differed."""

    def __init__(self, program: str, port: int, only: list[str]) -> None:
        self.program, self.port, self.only = program, port, only
        self.wrong: list[str] = []
        self.tried = 0

    def command(self, *words: str) -> list[str]:
        return [self.program, words[0], '127.0.0.1:%d' % self.port, *words[1:]]

    def same(self, what: str, got: object, want: object) -> None:
        self.tried += 1
        if got != want:
            self.wrong.append('%s: %s, not %s' % (what, repr(got)[:200], repr(want)[:200]))

    def has(self, *commands: str) -> bool:
        return not self.only or all(it in self.only for it in commands)

    def ends(self, words: list[str], want: tuple[int, bytes, str], given: bytes = b'') -> None:
        """Runs a command; `want` is its status, what it prints, and what it reports."""
        done = subprocess.run(self.command(*words), input=given, capture_output=True, check=False, timeout=120)
        what = ' '.join(it if len(it) < 40 else it[:37] + '..' for it in words)
        self.same(what, (done.returncode, done.stdout, done.stderr.decode('utf-8', 'replace')), want)

    def refuses(self, words: list[str]) -> None:
        """Runs a command whose words are refused, with a text that begins with `error: `."""
        done = subprocess.run(self.command(*words), capture_output=True, check=False, timeout=120)
        self.same(' '.join(words), (done.returncode, done.stdout, done.stderr[:7]), (1, b'', b'error: '))


def single_calls(t: Tries) -> None:
    """Commands on the root, and each reason that a command is not done."""
    if t.has('stat'):
        t.ends(['stat', '/', '/'], (0, b'dir 0777 2 0 0 0 1\n', ''))
        t.ends(['stat', '/', '/missing'], (7, b'', 'nfs 2\n'))
        t.ends(['stat', '/', '/' + 'a' * 256], (10, b'', 'bad path 1\n'))
        t.ends(['stat', '/', '/missing/' + 'a' * 256], (10, b'', 'bad path 9\n'))
        t.ends(['stat', '/' + 'a' * 1024, '/'], (11, b'', 'budget 1024\n'))
        t.ends(['stat', '/none', '/'], (6, b'', 'mount 2\n'))
        t.refuses(['stat', '/', '/', '--uid', 'x'])
        t.refuses(['stat', '/'])
        t.ends(['stat', '/', '/', '--uid=+5'], (0, b'dir 0777 2 0 0 0 1\n', ''))
    if t.has('mount'):
        done = subprocess.run(t.command('mount', '/'), capture_output=True, check=False, timeout=120)
        t.same('mount', (done.returncode, done.stdout[:7], done.stdout[-1:], done.stderr), (0, b'handle ', b'\n', b''))
        t.ends(['mount', '/none'], (6, b'', 'mount 2\n'))
    if t.has('rm'):
        t.ends(['rm', '/', '//'], (10, b'', 'bad path 2\n'))
        t.ends(['rm', '/', '/missing'], (7, b'', 'nfs 2\n'))


def files(t: Tries) -> None:
    """A file of five bytes, one of 16 MiB, and two that are too long, one of them by a byte."""
    rng = random.Random(7)
    t.ends(['put', '/', '/a'], (0, b'', ''), b'hello')
    t.ends(['stat', '/', '/a'], (0, NEW_FILE.encode(), ''))
    t.ends(['get', '/', '/a'], (0, b'hello', ''))
    t.ends(['put', '/', '/empty'], (0, b'', ''))
    t.ends(['get', '/', 'empty'], (0, b'', ''))
    for size in (1048576, 1048577, LIMIT):
        content = rng.randbytes(size)
        t.ends(['put', '/', '/b'], (0, b'', ''), content)
        t.ends(['get', '/', '//b/'], (0, content, ''))
    for size in (LIMIT + 1, 40 * MIB):
        long = rng.randbytes(size)
        t.ends(['put', '/', '/c'], (11, b'', 'budget %d\n' % LIMIT), long)
        t.ends(['get', '/', '/c'], (0, long[:LIMIT], ''))
    t.ends(['get', '/', '/none'], (7, b'', 'nfs 2\n'))
    t.ends(['rm', '/', '/b'], (0, b'', ''))
    t.ends(['get', '/', '/b'], (7, b'', 'nfs 2\n'))


def directories(t: Tries, entries: int) -> None:
    """A directory of many entries, and symbolic links."""
    t.ends(['mkdir', '/', '/d'], (0, b'', ''))
    t.ends(['mkdir', '/', '/d'], (7, b'', 'nfs 17\n'))
    names = ['entry%d' % n for n in range(entries)]
    for name in names:
        t.ends(['mkdir', '/', '/d/' + name], (0, b'', ''))
    t.ends(['ls', '/', '/d'], (0, ''.join(it + '\n' for it in names).encode(), ''))
    t.ends(['ls', '/', '/d/entry0'], (0, b'', ''))
    t.ends(['ln', '/', '/d/link', '../a path'], (0, b'', ''))
    t.ends(['readlink', '/', '/d/link'], (0, b'../a path\n', ''))
    t.ends(['readlink', '/', '/d'], (7, b'', 'nfs 22\n'))
    t.ends(['rm', '/', '/d/link'], (0, b'', ''))
    t.ends(['readlink', '/', '/d/link'], (7, b'', 'nfs 2\n'))


def killed(t: Tries, server: 'subprocess.Popen[str]') -> None:
    """The server is killed while a client gets a file: status 4, or 3 if the connection was reset; what came is right."""
    content = random.Random(9).randbytes(LIMIT)
    t.ends(['put', '/', '/long'], (0, b'', ''), content)
    client = subprocess.Popen(t.command('get', '/', '/long'), bufsize=0, stdout=subprocess.PIPE, stderr=subprocess.PIPE)
    assert client.stdout is not None
    first = client.stdout.read(1000)
    server.kill()
    rest, err = client.communicate(timeout=60)
    t.same('killed: status', client.returncode in (3, 4), True)
    t.same('killed: text', err in (b'link fault\n', b'link closed\n'), True)
    t.same('killed: bytes', content.startswith(first + rest) and len(first + rest) < LIMIT, True)


def three(program: str, folder: str) -> list[str]:
    """A server of three connections prints that at its end."""
    t = Tries(program, free_port(), [])
    server = serve(program, folder, CONFIG % (t.port, 3))
    for _ in range(100):
        done = subprocess.run(t.command('put', '/', '/a'), input=b'hello', capture_output=True, check=False, timeout=60)
        if done.returncode != 3:
            break
        time.sleep(0.05)
    t.same('put', (done.returncode, done.stdout, done.stderr), (0, b'', b''))
    t.ends(['stat', '/', '/a'], (0, NEW_FILE.encode(), ''))
    t.ends(['get', '/', '/a'], (0, b'hello', ''))
    out, err = server.communicate(timeout=30)
    t.same('the server', (server.returncode, out, err), (0, 'served 3 journal 2\n', ''))
    t.ends(['get', '/', '/a'], (3, b'', 'link fault\n'))
    return t.wrong


def main(argv: list[str]) -> int:
    p = argparse.ArgumentParser(description='Runs the built nfsrdma serve and the commands of a client over TCP.')
    p.add_argument('--program', default=os.path.join(ROOT, 'crates/nfsrdma/out/nfsrdma'))
    p.add_argument('--entries', type=int, default=1000, help='how many entries a directory gets')
    p.add_argument('--only', nargs='+', default=[], help='the commands that are tried')
    a = p.parse_args(argv)
    if not os.access(a.program, os.X_OK):
        print('no program at %s' % a.program)
        return 2
    with tempfile.TemporaryDirectory() as folder:
        t = Tries(a.program, free_port(), a.only)
        t.ends(['stat', '/', '/'], (3, b'', 'link fault\n'))  # nobody listens
        config = (CONFIG % (t.port, 4294967295)).replace('1000000', '1099511627776')
        server = serve(a.program, folder, config)
        try:
            connect(t.port).close()
            single_calls(t)
            if t.has('put', 'get', 'stat', 'rm'):
                files(t)
            if t.has('mkdir', 'ls', 'ln', 'readlink', 'rm'):
                directories(t, a.entries)
            if t.has('put', 'get'):
                killed(t, server)
        finally:
            server.kill()
            server.wait()
        if t.has('put', 'get', 'stat'):
            t.wrong += three(a.program, folder)
    print('\n'.join(t.wrong) or 'all as expected, %d tries' % t.tried)
    return 1 if t.wrong else 0


if __name__ == '__main__':
    sys.exit(main(sys.argv[1:]))
