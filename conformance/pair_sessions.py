"""Records sessions between `nfsrdma COMMAND` and `nfsrdma serve` by a proxy, and makes one list of marks of each.

    python3 conformance/pair_sessions.py [--program PROGRAM] [--large]

README.md beside this file says what is compared, and what of a list isn't shown by bytes. --large also puts and gets 1,048,577 bytes, which
takes minutes. Exit status: 0 all agree, 1 something differs, 2 no program."""
import argparse
import os
import random
import select
import socket
import subprocess
import sys
import tempfile
import threading
import time
from collections.abc import Callable

from check_definitions import Differs
from check_serve import CONFIG, ROOT, connect, free_port, serve
from pair_sides import CAPACITY, UNITS, Definitions, Piece, Plain, check, moments_in, stream
from values import CannotEvaluate, deeply, show

SETTINGS = 'inline = %d\ninvalidate = true\n' % UNITS
SMALL, LARGE = random.Random(3).randbytes(40000), random.Random(4).randbytes((1 << 20) + 1)
# the words of a command but for the address, its input, its status, and what it prints (None: not compared)
Row = tuple[str, bytes, int, bytes | None]
ROWS: tuple[Row, ...] = (
    ('stat / /', b'', 0, b'dir 0777 2 0 0 0 1\n'), ('mount /', b'', 0, None), ('mount /none', b'', 6, b''), ('stat / /missing', b'', 7, b''),
    ('mkdir / /d', b'', 0, b''), ('mkdir / /d', b'', 7, b''), ('put / /d/a', b'hello', 0, b''), ('put / /d/a --uid 7', b'other', 7, b''),
    ('get / /d/a', b'', 0, b'hello'), ('put / /d/b', SMALL, 0, b''), ('get / /d/b', b'', 0, SMALL), ('get / /d/b --jobs 2', b'', 0, SMALL),
    ('put / /d/c --inline 4', SMALL, 0, b''), ('get / /d/c --inline 4', b'', 0, SMALL), ('put / /d/e --invalidate', SMALL, 0, b''),
    ('get / /d/e --invalidate', b'', 0, SMALL), ('ln / /d/link ../path', b'', 0, b''), ('readlink / /d/link', b'', 0, b'../path\n'),
    ('ls / /d', b'', 0, b'a\nb\nc\ne\nlink\n'), ('rm / /d/link', b'', 0, b''), ('readlink / /d/link', b'', 7, b''))
LARGE_ROWS: tuple[Row, ...] = (('put / /l', LARGE, 0, b''), ('get / /l', b'', 0, LARGE), ('get / /l --jobs 2', b'', 0, LARGE))
# its server is killed once the proxy has this many bytes of it
KILLED: Row = ('get / /d/b', b'', 4, None)
KILLED_AFTER = 20000


def proxy(listener: socket.socket, port: int, pieces: list[Piece], most: int, lose: Callable[[], None]) -> None:
    """Takes one connection, and hands on the bytes of both sides; writes them down in the order in which they came. After `most` bytes of the
    server it loses the server."""
    with listener.accept()[0] as client, socket.create_connection(('127.0.0.1', port)) as server:
        to = {client: ('client', server), server: ('server', client)}
        while to and most > 0:
            for end in select.select(list(to), [], [], 60)[0]:
                side, other = to[end]
                piece = end.recv(min(65536, most) if side == 'server' else 65536)
                if not piece:
                    other.shutdown(socket.SHUT_WR)
                    del to[end]
                    continue
                pieces.append((side, piece))
                other.sendall(piece)
                most -= len(piece) if side == 'server' else 0
        if most == 0:
            lose()


def record(program: str, port: int, row: Row, most: int, lose: Callable[[], None]) -> tuple[list[Piece], str | None]:
    """The bytes of a session, and what the command did otherwise than its row says."""
    command, given, status, printed = row
    name, *words = command.split()
    pieces: list[Piece] = []
    with socket.create_server(('127.0.0.1', 0)) as listener:
        thread = threading.Thread(target=proxy, args=(listener, port, pieces, most, lose))
        thread.start()
        to = '127.0.0.1:%d' % listener.getsockname()[1]
        done = subprocess.run([program, name, to, *words], input=given, capture_output=True, check=False, timeout=120)
        thread.join()
    is_right = done.returncode == status and printed in (None, done.stdout)
    return pieces, None if is_right else 'status %d, not %d, or other text: %s' % (done.returncode, status, show(list(done.stdout))[:200])


def sessions(program: str, rows: list[Row]) -> int:
    """Runs the commands one after another over one server; prints a line for each, and gives how many differ."""
    names, since, differ = Definitions(), int(time.time()), 0
    plain: Plain | None = None
    with tempfile.TemporaryDirectory() as folder:
        port = free_port()
        server = serve(program, folder, CONFIG.replace('1000000', str(CAPACITY)) % (port, len(rows) + 1) + SETTINGS)
        try:
            connect(port).close()
            for row in rows:
                is_cut, start = row is KILLED, time.time()
                pieces, wrong = record(program, port, row, KILLED_AFTER if is_cut else 1 << 40, server.kill)
                # the root's times, which no entry changed yet, say when the server was opened
                plain = plain or Plain(names, since, next(iter(moments_in(stream(pieces, 'server'), since)), (since, 0)))
                try:
                    said = wrong or 'agrees, ' + check(names, plain, row[0].split(), pieces, is_cut)
                except (Differs, CannotEvaluate) as why:
                    said = str(why)
                differ += not said.startswith('agrees')
                print('%s%s: %s, %.0f s' % (row[0], ', killed' if is_cut else '', said, time.time() - start), flush=True)
        finally:
            server.kill()
            server.wait()
    return differ


def main(argv: list[str]) -> int:
    p = argparse.ArgumentParser(description='Records sessions of commands and a server by a proxy, and makes one list of marks of each.')
    p.add_argument('--program', default=os.path.join(ROOT, 'crates/nfsrdma/out/nfsrdma'))
    p.add_argument('--large', action='store_true', help='puts and gets 1,048,577 bytes too')
    a = p.parse_args(argv)
    if not os.access(a.program, os.X_OK):
        print('no program at %s' % a.program)
        return 2
    rows = [*ROWS, *(LARGE_ROWS if a.large else ()), KILLED]
    differ = deeply(sessions, os.path.abspath(a.program), rows)
    print('%d sessions, %d differ' % (len(rows), differ))
    return 1 if differ else 0


if __name__ == '__main__':
    sys.exit(main(sys.argv[1:]))
