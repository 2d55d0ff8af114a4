"""Runs the built `nfsrdma serve` over TCP: NULL calls, peers of random bytes, and configurations that are wrong.

    python3 conformance/check_serve.py [--program PROGRAM] [--peers N]

The bytes of a NULL call and of its answer are those of the recorded run of one call (RFC 5044, 5040, 8166). Exit status: 0 all as
expected, 1 something differs, 2 no program."""
import argparse
import os
import random
import socket
import struct
import subprocess
import sys
import tempfile
import time

ROOT = os.path.dirname(os.path.dirname(os.path.abspath(__file__)))


def words(*numbers: int) -> bytes:
    return struct.pack('>%dI' % len(numbers), *numbers)


HELLO = words(0x4d504120, 0x49442052, 0x65712046, 0x72616d65, 0x00010000)
CALL = words(0x00564143, 0, 0, 1, 0, 1, 1, 16, 0, 0, 0, 0, 1, 0, 2, 100003, 3, 0, 0, 0, 0, 0, 0)
ANSWERED = words(0x4d504120, 0x49442052, 0x65702046, 0x72616d65, 0x00010000,
                 0x00464143, 0, 0, 1, 0, 1, 1, 16, 0, 0, 0, 0, 1, 1, 0, 0, 0, 0, 0)
CONFIG = '''listen = "127.0.0.1:%d"
export = "/"
credits = 16
capacity = 1000000
connections = %d
write_verifier = "0000000000000001"
'''


def free_port() -> int:
    with socket.socket() as s:
        s.bind(('127.0.0.1', 0))
        return int(s.getsockname()[1])


def connect(port: int, tries: int = 100) -> socket.socket:
    """A connection, once the server listens."""
    for _ in range(tries):
        try:
            return socket.create_connection(('127.0.0.1', port), timeout=10)
        except ConnectionRefusedError:
            time.sleep(0.05)
    raise TimeoutError('the server does not listen')


def null_call(port: int, pieces: list[bytes]) -> bytes:
    """What the server sends to a client that sends these pieces and then no more."""
    with connect(port) as s:
        for piece in pieces:
            s.sendall(piece)
            time.sleep(0.01)
        s.shutdown(socket.SHUT_WR)
        got = b''
        while more := s.recv(65536):
            got += more
        return got


def wrong_peer(port: int, rng: random.Random) -> None:
    """A peer that sends half a hello, or a hello and random bytes, and is gone."""
    with connect(port) as s:
        try:
            s.sendall(HELLO[:rng.randrange(20)] if rng.random() < 0.3 else HELLO + rng.randbytes(rng.randrange(1, 400)))
        except OSError:
            pass


def serve(program: str, folder: str, config: str) -> 'subprocess.Popen[str]':
    path = os.path.join(folder, 'config.toml')
    with open(path, 'w', encoding='utf-8') as f:
        f.write(config)
    return subprocess.Popen([program, 'serve', path], stdout=subprocess.PIPE, stderr=subprocess.PIPE, text=True)


def main(argv: list[str]) -> int:
    p = argparse.ArgumentParser(description='Runs the built nfsrdma serve over TCP.')
    p.add_argument('--program', default=os.path.join(ROOT, 'crates/nfsrdma/out/nfsrdma'))
    p.add_argument('--peers', type=int, default=2000, help='how many wrong peers come before the last client')
    a = p.parse_args(argv)
    if not os.access(a.program, os.X_OK):
        print('no program at %s' % a.program)
        return 2
    wrong: list[str] = []

    def same(what: str, got: object, want: object) -> None:
        if got != want:
            wrong.append('%s: %r, not %r' % (what, got, want))

    rng = random.Random(7)
    with tempfile.TemporaryDirectory() as folder:
        port, n = free_port(), 3 + a.peers
        server = serve(a.program, folder, CONFIG % (port, n))
        same('a NULL call', null_call(port, [HELLO + CALL]), ANSWERED)
        same('byte by byte', null_call(port, [bytes([b]) for b in HELLO + CALL]), ANSWERED)
        for _ in range(a.peers):
            wrong_peer(port, rng)
        same('after wrong peers', null_call(port, [HELLO, CALL]), ANSWERED)
        out, err = server.communicate(timeout=30)
        same('what is printed', (server.returncode, out, err), (0, 'served %d journal 0\n' % n, ''))
        with socket.socket() as taken:
            taken.bind(('127.0.0.1', 0))
            taken.listen()
            server = serve(a.program, folder, CONFIG % (taken.getsockname()[1], 1))
            out, err = server.communicate(timeout=30)
            same('an address in use', (server.returncode, out, err), (3, '', 'link fault\n'))
        server = serve(a.program, folder, 'listen = 5\n')
        same('a bad configuration', (*server.communicate(timeout=30), server.returncode), ('', 'bad configuration\n', 10))
        done = subprocess.run([a.program, 'serve', os.path.join(folder, 'none')], capture_output=True, text=True, check=False)
        same('no configuration', (done.returncode, done.stdout, done.stderr), (9, '', 'input fault\n'))
    print('\n'.join(wrong) or 'all as expected')
    return 1 if wrong else 0


if __name__ == '__main__':
    sys.exit(main(sys.argv[1:]))
