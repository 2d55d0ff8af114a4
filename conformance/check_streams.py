"""Runs the built `nfsrdma` with one of its standard streams closed: no link takes its number, and the status is 9.

    python3 conformance/check_streams.py [--program PROGRAM]

A file or socket that is opened gets the lowest free number, so without care a link becomes the output of a `get`. Exit status: 0 all as
expected, 1 something differs, 2 no program."""
import argparse
import os
import subprocess
import sys
import tempfile

from check_serve import CONFIG, ROOT, connect, free_port, serve

SCRIPT = b'clients 1 credits 1\ncall 1 auto nfs 0 -\ndrain\n'
BAD_SCRIPT = b'clients 0 credits 1\n'


class Row:
    """A command with a stream closed (`<`, `>` or `2>`), its input, and its status, output and report."""

    def __init__(self, words: list[str], closed: str, given: bytes, want: tuple[int, bytes, bytes]) -> None:
        self.words, self.closed, self.given, self.want = words, closed, given, want

    def run(self, program: str, folder: str) -> tuple[int, bytes, bytes]:
        shell = 'exec "$@" %s&-' % self.closed
        done = subprocess.run(['sh', '-c', shell, 'sh', program, *self.words], input=self.given, capture_output=True, cwd=folder,
                              check=False, timeout=60)
        return done.returncode, done.stdout, done.stderr


def clients(port: int) -> list[Row]:
    """Commands of a client; the file /a has five bytes, and stays as it is."""
    to = ['127.0.0.1:%d' % port, '/']
    same = Row(['get', *to, '/a'], '<', b'', (0, b'hello', b''))
    return [
        Row(['get', *to, '/a'], '>', b'', (9, b'', b'output fault\n')),
        same,
        Row(['put', *to, '/a'], '<', b'other', (9, b'', b'input fault\n')),
        same,
        Row(['put', *to, '/b'], '>', b'data', (0, b'', b'')),
        Row(['stat', *to, '/missing'], '2>', b'', (9, b'', b'')),
        Row(['get', *to, '/a'], '2>', b'', (0, b'hello', b'')),
        same,
    ]


def alone(port: int) -> list[Row]:
    """Drills, words that are refused, and servers that end at once."""
    config = ['serve', 'bad.toml']
    return [
        Row(['drill'], '<', SCRIPT, (9, b'', b'input fault\n')),
        Row(['drill'], '>', SCRIPT, (9, b'', b'output fault\n')),
        Row(['drill'], '2>', SCRIPT, (0, b'1 1 place 0 reply 000000010000000100000000000000000000000000000000\njournal 0\n', b'')),
        Row(['drill'], '2>', BAD_SCRIPT, (9, b'', b'')),
        Row(['nothing'], '2>', b'', (9, b'', b'')),
        Row(['--version'], '>', b'', (9, b'', b'output fault\n')),
        Row(['get', '127.0.0.1:%d' % port, '/', '/a'], '2>', b'', (9, b'', b'')),
        Row(config, '<', b'', (10, b'', b'bad configuration\n')),
        Row(config, '2>', b'', (9, b'', b'')),
    ]


def served(program: str, folder: str, wrong: list[str]) -> None:
    """A server for each stream: it answers a client with the stream closed, and prints its sums if it can."""
    sums = 'served 2 journal 0\n'
    for closed, want in (('<', (0, sums, '')), ('>', (9, '', 'output fault\n')), ('2>', (0, sums, ''))):
        port = free_port()
        with open(os.path.join(folder, 'config.toml'), 'w', encoding='utf-8') as f:
            f.write(CONFIG % (port, 2))
        server = subprocess.Popen(['sh', '-c', 'exec "$@" %s&-' % closed, 'sh', program, 'serve', 'config.toml'], cwd=folder,
                                  stdin=subprocess.PIPE, stdout=subprocess.PIPE, stderr=subprocess.PIPE, text=True)
        connect(port).close()
        done = subprocess.run([program, 'stat', '127.0.0.1:%d' % port, '/', '/'], capture_output=True, check=False, timeout=60)
        compare(wrong, 'stat at serve %s&-' % closed, (done.returncode, done.stdout, done.stderr), (0, b'dir 0777 2 0 0 0 1\n', b''))
        out, err = server.communicate(timeout=60)
        compare(wrong, 'serve %s&-' % closed, (server.returncode, out, err), want)


def compare(wrong: list[str], what: str, got: object, want: object) -> None:
    if got != want:
        wrong.append('%s: %r, not %r' % (what, got, want))


def main(argv: list[str]) -> int:
    p = argparse.ArgumentParser(description='Runs the built nfsrdma with one of its standard streams closed.')
    p.add_argument('--program', default=os.path.join(ROOT, 'crates/nfsrdma/out/nfsrdma'))
    a = p.parse_args(argv)
    if not os.access(a.program, os.X_OK):
        print('no program at %s' % a.program)
        return 2
    program, wrong = os.path.abspath(a.program), []
    with tempfile.TemporaryDirectory() as folder:
        with open(os.path.join(folder, 'bad.toml'), 'w', encoding='utf-8') as f:
            f.write('listen = 5\n')
        for row in alone(free_port()):
            compare(wrong, '%s %s&-' % (row.words[0], row.closed), row.run(program, folder), row.want)
        port = free_port()
        server = serve(program, folder, CONFIG % (port, 1000))
        try:
            connect(port).close()
            put = [program, 'put', '127.0.0.1:%d' % port, '/', '/a']
            subprocess.run(put, input=b'hello', check=True, timeout=60)
            for row in clients(port):
                compare(wrong, '%s %s&-' % (row.words[0], row.closed), row.run(program, folder), row.want)
        finally:
            server.kill()
            server.wait()
        served(program, folder, wrong)
    print('\n'.join(wrong) or 'all as expected')
    return 1 if wrong else 0


if __name__ == '__main__':
    sys.exit(main(sys.argv[1:]))
