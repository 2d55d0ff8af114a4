"""Runs the built `nfsrdma serve` with `record = true`: records over TCP (RFC 5531 section 11), right and wrong ones.

    python3 conformance/check_records.py [--program PROGRAM] [--peers N]

What is sent and what has to come back was put together from RFC 5531 and RFC 1813. The ends of connections aren't printed by `serve`, so a
row shows them by the replies that come before the server closes. The memory of the server is read from /proc while wrong peers hold their
connections. Exit status: 0 all as expected, 1 something differs, 2 no program."""
import argparse
import os
import random
import socket
import struct
import subprocess
import sys
import tempfile
import threading
import time

ROOT = os.path.dirname(os.path.dirname(os.path.abspath(__file__)))

CONFIG = '''listen = "127.0.0.1:%d"
export = "/export"
credits = 16
capacity = 1000000000
connections = %d
write_verifier = "0000000000000001"
record = true
'''

RECORD_MAX = 1056768
MEMORY_MAX = 4 << 20


def words(*numbers: int) -> bytes:
    return struct.pack('>%dI' % len(numbers), *numbers)


def call(xid: int, proc: int = 0, arguments: bytes = b'', prog: int = 100003, vers: int = 3, rpc: int = 2) -> bytes:
    """A call with AUTH_NONE (RFC 5531 section 9)."""
    return words(xid, 0, rpc, prog, vers, proc, 0, 0, 0, 0) + arguments


def accepted(xid: int, status: int, results: bytes = b'') -> bytes:
    return words(xid, 1, 0, 0, 0, status) + results


def record(payload: bytes, cuts: tuple[int, ...] = ()) -> bytes:
    """A record, cut into fragments of these lengths and the rest."""
    out, at = b'', 0
    for n in cuts:
        out += words(n) + payload[at:at + n]
        at += n
    return out + words(0x80000000 | len(payload) - at) + payload[at:]


def by_bytes(payload: bytes) -> bytes:
    """A record in fragments of one byte."""
    return b''.join(words(1) + payload[i:i + 1] for i in range(len(payload) - 1)) + words(0x80000001) + payload[-1:]


NULL = call(1)
REPLY = record(accepted(1, 0))
HELLO = words(0x4d504120, 0x49442052, 0x65712046, 0x72616d65, 0x00010000)
HELLO_REPLY = words(0x4d504120, 0x49442052, 0x65702046, 0x72616d65, 0x00010000)

# name, the pieces that are sent, what comes back before the server closes or the client has ended its stream
ROWS: list[tuple[str, list[bytes], bytes]] = [
    ('nothing', [], b''),
    ('NULL', [record(NULL)], REPLY),
    ('NULL in two fragments', [record(NULL, (4,))], REPLY),
    ('NULL in empty fragments', [record(NULL, (0, 0, 4, 0))], REPLY),
    ('byte by byte', [bytes([b]) for b in record(NULL, (4,))], REPLY),
    ('three at once', [record(NULL) * 3], REPLY * 3),
    ('RPC version 3, then NULL', [record(call(9, rpc=3)) + record(NULL)], record(words(9, 1, 1, 0, 2, 2)) + REPLY),
    ('a program that is not there', [record(call(2, prog=100004))], record(accepted(2, 1))),
    ('another version of NFS', [record(call(2, vers=4))], record(accepted(2, 2, words(3, 3)))),
    ('a procedure that is not there', [record(call(2, 22))], record(accepted(2, 3))),
    ('two calls in one record', [record(NULL + call(2))], record(accepted(1, 4))),
    ('MNT', [record(call(2, 1, words(7) + b'/export\0', prog=100005))], record(accepted(2, 0, words(0, 8, 0, 1, 2, 1, 0)))),
    ('MNT of another path', [record(call(2, 1, words(6) + b'/other\0\0', prog=100005))], record(accepted(2, 0, words(2)))),
    ('half a call', [record(NULL[:20])], b''),
    ('cut in a header', [record(NULL) + b'\x80\0'], REPLY),
    ('cut in a record', [record(NULL) + record(NULL)[:20]], REPLY),
    ('cut after a fragment that is not the last', [words(40) + NULL], b''),
    ('no call head, empty', [record(b'') + record(NULL)], b''),
    ('no call head, a reply', [record(NULL) + record(accepted(1, 0)) + record(NULL)], REPLY),
    ('above the limit', [words(0x00102001) + record(NULL)], b''),
    ('above the limit by its second fragment', [record(NULL) + words(4) + b'abcd' + words(0x80101ffd) + b'x' * 9], REPLY),
    ('a length of 2^31 - 1', [words(0xffffffff)], b''),
    ('a length of 2^31 - 1, not the last fragment', [record(NULL) + words(0x7fffffff) + record(NULL)], REPLY),
    ('a header alone', [words(0x80102000)], b''),
    ('a record at the limit, of no call', [words(0x80000000 | RECORD_MAX) + bytes(4) + words(1) + bytes(RECORD_MAX - 8)], b''),
    ('a record at the limit, in fragments of one byte', [by_bytes(NULL + bytes(RECORD_MAX - len(NULL)))], record(accepted(1, 4))),
    ('a hello of RPC over RDMA', [HELLO], HELLO_REPLY),
]


def free_port() -> int:
    with socket.socket() as s:
        s.bind(('127.0.0.1', 0))
        return int(s.getsockname()[1])


def connect(port: int, tries: int = 200) -> socket.socket:
    """A connection, once the server listens."""
    for _ in range(tries):
        try:
            s = socket.create_connection(('127.0.0.1', port), timeout=30)
            s.setsockopt(socket.IPPROTO_TCP, socket.TCP_NODELAY, 1)
            return s
        except ConnectionRefusedError:
            time.sleep(0.05)
    raise TimeoutError('the server does not listen')


def answered(port: int, pieces: list[bytes]) -> bytes:
    """What the server sends to a client that sends these pieces and then ends its stream."""
    got = b''
    with connect(port) as s:
        try:
            for piece in pieces:
                s.sendall(piece)
            s.shutdown(socket.SHUT_WR)
        except OSError:
            pass
        try:
            while more := s.recv(65536):
                got += more
        except OSError:
            pass
    return got


def one_call(s: socket.socket, xid: int) -> bool:
    """Whether a NULL call on this connection is answered."""
    s.sendall(record(call(xid)))
    want = record(accepted(xid, 0))
    got = b''
    while len(got) < len(want):
        more = s.recv(len(want) - len(got))
        if not more:
            return False
        got += more
    return got == want


def resident(pid: int) -> int:
    with open('/proc/%d/status' % pid, encoding='ascii') as f:
        for line in f:
            if line.startswith('VmRSS:'):
                return int(line.split()[1]) * 1024
    raise ValueError('no VmRSS')


def check(name: str, good: bool, shown: object = '') -> bool:
    print('%-55s %s %s' % (name, 'ok' if good else 'NOT as expected', shown if not good else ''))
    return good


# name, what a peer sends and then holds its connection open
HELD: list[tuple[str, bytes]] = [
    ('a header of one MiB and no payload', words(0x80102000)),
    ('half a record of one MiB', words(0x80102000) + bytes(RECORD_MAX // 2)),
    ('a record of one MiB but for its last byte', words(0x80102000) + bytes(RECORD_MAX - 1)),
    ('a million empty fragments', bytes(4 << 20)),
    ('a record of one MiB in fragments of one byte, but for its last', (words(1) + b'\0') * (RECORD_MAX - 1)),
]


def held_memory(port: int, pid: int, before: int, name: str, sent: bytes, peers: int) -> bool:
    """Peers that hold their connections: what each takes of the server's memory, beside a client that is served. What the allocator kept of
    the peers of earlier rows counts too."""
    with connect(port) as client:
        good = one_call(client, 1)
        links = [connect(port) for _ in range(peers)]
        for s in links:
            s.sendall(sent)
        time.sleep(1)
        each = (resident(pid) - before) // peers
        good = one_call(client, 2) and good
        for s in links:
            s.close()
    return check('%s: %d KiB a connection' % (name, each // 1024), good and each <= MEMORY_MAX, (good, each))


def random_peers(port: int, peers: int) -> bool:
    """Peers of random bytes, beside a client whose calls are answered all the time."""
    rng = random.Random(5531)
    stop = threading.Event()
    served = [0, True]

    def client() -> None:
        with connect(port) as s:
            while not stop.is_set():
                served[1] = one_call(s, served[0] % 2 ** 32 + 1) and served[1]
                served[0] += 1

    beside = threading.Thread(target=client)
    beside.start()
    for _ in range(peers):
        with connect(port) as s:
            try:
                s.sendall(rng.choice([b'', record(NULL), b'\x80\0\0', b'\0']) + rng.randbytes(rng.randrange(1, 600)))
            except OSError:
                pass
    stop.set()
    beside.join(60)
    return check('%d peers of random bytes, %d calls beside them' % (peers, served[0]), bool(served[1]) and served[0] > 0, served)


def run(program: str, peers: int) -> bool:
    held_peers = 32
    connections = len(ROWS) + len(HELD) * (held_peers + 1) + peers + 1
    port = free_port()
    good = True
    with tempfile.TemporaryDirectory() as folder:
        path = os.path.join(folder, 'config.toml')
        with open(path, 'w', encoding='utf-8') as f:
            f.write(CONFIG % (port, connections))
        with subprocess.Popen([program, 'serve', path], stdout=subprocess.PIPE, stderr=subprocess.PIPE, text=True) as server:
            try:
                for name, pieces, want in ROWS:
                    got = answered(port, pieces)
                    good = check(name, got == want, (got[:80].hex(), want[:80].hex())) and good
                before = resident(server.pid)
                for name, sent in HELD:
                    good = held_memory(port, server.pid, before, name, sent, held_peers) and good
                good = random_peers(port, peers) and good
                out, err = server.communicate(timeout=60)
                good = check('served', (out, err, server.returncode) == ('served %d journal 0\n' % connections, '', 0), (out, err)) and good
            finally:
                server.kill()
    return good


def main() -> int:
    parser = argparse.ArgumentParser(description=__doc__, formatter_class=argparse.RawDescriptionHelpFormatter)
    parser.add_argument('--program', default=os.path.join(ROOT, 'crates', 'nfsrdma', 'out', 'nfsrdma'))
    parser.add_argument('--peers', type=int, default=2000)
    given = parser.parse_args()
    if not os.path.exists(given.program):
        print('no program %s' % given.program, file=sys.stderr)
        return 2
    good = run(given.program, given.peers)
    print('all as expected' if good else 'NOT all as expected')
    return 0 if good else 1


if __name__ == '__main__':
    sys.exit(main())
