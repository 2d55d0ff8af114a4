"""Runs the built `nfsrdma serve` and, in front of it, `nfsrdma gate`: records over TCP (RFC 5531 section 11) through a gateway.

    python3 conformance/check_gate.py [--program PROGRAM] [--seconds N] [--clients N]

The rows of check_records.py have to come back through the gateway as from the server itself, but for a hello of RPC over RDMA, which is a
record above the limit there. A relay between both counts what the remote link carries. Then clients at work side by side, each change of which
has to be in the journal once, one that is killed within a record, a silent one, a remote server that is killed, and the statuses. Exit status:
0 all as expected, 1 something differs, 2 no program."""
import argparse
import os
import random
import socket
import struct
import subprocess
import sys
import tempfile
import threading
import time

from check_records import CONFIG, HELLO, ROWS, ROOT, answered, call, check, connect, free_port, one_call, record, words

GATE = '''listen = "127.0.0.1:%d"
remote = "127.0.0.1:%d"
connections = %d
'''
# of the server behind the gateway: a WRITE of a block costs 32,864, and the clients make tens of thousands
CAPACITY = 'capacity = 1000000000000\n'
ROOT_HANDLE = words(8, 0, 1)
BLOCK = 32768


class Relay:
    """Hands the bytes of one connection on to a port, in both directions, and counts them."""

    def __init__(self, port: int) -> None:
        self.listener = socket.create_server(('127.0.0.1', 0))
        self.port = int(self.listener.getsockname()[1])
        self.to = port
        self.up = 0
        self.down = 0
        threading.Thread(target=self.run, daemon=True).start()

    def run(self) -> None:
        near, _ = self.listener.accept()
        far = connect(self.to)
        back = threading.Thread(target=self.pump, args=(far, near, 'down'), daemon=True)
        back.start()
        self.pump(near, far, 'up')

    def pump(self, source: socket.socket, sink: socket.socket, way: str) -> None:
        try:
            while piece := source.recv(65536):
                sink.sendall(piece)
                setattr(self, way, getattr(self, way) + len(piece))
            sink.shutdown(socket.SHUT_WR)
        except OSError:
            pass


class Pair:
    """A server, a relay and a gateway."""

    def __init__(self, program: str, folder: str, connections: int) -> None:
        self.files = [os.path.join(folder, name) for name in ('serve.toml', 'gate.toml')]
        behind, self.port = free_port(), free_port()
        with open(self.files[0], 'w', encoding='utf-8') as f:
            f.write((CONFIG % (behind, 2)).replace('record = true\n', '').replace('capacity = 1000000000\n', CAPACITY))
        self.server = subprocess.Popen([program, 'serve', self.files[0]], stdout=subprocess.PIPE, stderr=subprocess.DEVNULL, text=True)
        # the first of its two connections sees that it listens
        connect(behind).close()
        self.relay = Relay(behind)
        with open(self.files[1], 'w', encoding='utf-8') as f:
            f.write(GATE % (self.port, self.relay.port, connections))
        self.gate = subprocess.Popen([program, 'gate', self.files[1]], stdout=subprocess.PIPE, stderr=subprocess.PIPE, text=True)

    def end(self) -> tuple[str, str, int]:
        out, err = self.gate.communicate(timeout=60)
        return out, err, self.gate.returncode

    def served(self) -> str:
        """What the server prints, once the gateway has ended."""
        return str(self.server.communicate(timeout=60)[0])

    def kill(self) -> None:
        for child in (self.gate, self.server):
            child.kill()
            child.wait()


def reply(s: socket.socket) -> bytes:
    """The next record of a connection, of one fragment; no bytes at its end."""
    got = b''
    need = 4
    while len(got) < need:
        more = s.recv(need - len(got))
        if not more:
            return b''
        got += more
        if len(got) == 4 and need == 4:
            need = 4 + (int.from_bytes(got, 'big') & 0x7fffffff)
    return got[4:]


def asked(s: socket.socket, payload: bytes) -> bytes:
    try:
        s.sendall(record(payload))
        return reply(s)
    except OSError:
        return b''


def rows(program: str, folder: str) -> bool:
    """What comes back through the gateway, row by row, and what the remote link carries for a call of RPC version 3."""
    pair = Pair(program, folder, len(ROWS) + 3)
    good = True
    try:
        for name, pieces, want in ROWS:
            got = answered(pair.port, pieces)
            want = b'' if pieces == [HELLO] else want
            good = check(name, got == want, (got[:80].hex(), want[:80].hex())) and good
        with connect(pair.port) as s:
            before = pair.relay.up
            got = asked(s, call(9, rpc=3))
            time.sleep(0.2)
            good = check('RPC version 3: the remote link carries nothing', (got, pair.relay.up) == (words(9, 1, 1, 0, 2, 2), before), got) and good
        with connect(pair.port) as one, connect(pair.port) as two:
            both = [record(call(9, 1, ROOT_HANDLE)) for _ in range(2)]
            one.sendall(both[0])
            two.sendall(both[1])
            replies = [reply(one), reply(two)]
            alike = replies[0] == replies[1] and len(replies[0]) == 112 and replies[0][:4] == words(9)
            good = check('GETATTR with one xid by two clients', alike, replies) and good
        end = pair.end()
        good = check('gated', end == ('gated %d\n' % (len(ROWS) + 3), '', 0), end) and good
    finally:
        pair.kill()
    return good


def create(s: socket.socket, xid: int, name: bytes) -> bytes:
    """The handle of a new file of the root."""
    padded = words(len(name)) + name + bytes(-len(name) % 4)
    got = asked(s, call(xid, 8, ROOT_HANDLE + padded + words(0, 0, 0, 0, 0, 0, 0)))
    return got[32:44]


def at_work(port: int, number: int, until: float, counts: list[int]) -> None:
    """Writes blocks of a file of its own, and reads any that it wrote, and compares every byte. The xids are those of all other clients."""
    rng = random.Random(number)
    held: dict[int, bytes] = {}
    done = 0
    with connect(port) as s:
        handle, xid = create(s, 1, b'f%d' % number), 1
        while time.monotonic() < until:
            at, data = rng.randrange(16) * BLOCK, rng.randbytes(BLOCK)
            xid += 2
            wrote = asked(s, call(xid, 7, handle + words(0, at, BLOCK, 2, BLOCK) + data))
            held[at] = data
            back = rng.choice(list(held))
            got = asked(s, call(xid + 1, 6, handle + words(0, back, BLOCK)))
            if (wrote[:4], wrote[24:28], got[:4], got[24:28], got[-BLOCK:]) != (words(xid), words(0), words(xid + 1), words(0), held[back]):
                return
            done += 1
    counts[number] = done


def side_by_side(program: str, folder: str, clients: int, seconds: int) -> bool:
    """Clients at work beside a silent one, one that is killed within a record, and one that is killed before its replies come. The count of a
    client is 0 if anything of it differs."""
    pair = Pair(program, folder, clients + 3)
    try:
        silent = connect(pair.port)
        with connect(pair.port) as broken:
            broken.sendall(words(0x80000028) + bytes(10))
        with connect(pair.port) as gone:
            gone.setsockopt(socket.SOL_SOCKET, socket.SO_LINGER, struct.pack('ii', 1, 0))
            gone.sendall(record(call(1)) * 100)
        counts = [0] * clients
        until = time.monotonic() + seconds
        threads = [threading.Thread(target=at_work, args=(pair.port, i, until, counts)) for i in range(clients)]
        for t in threads:
            t.start()
        for t in threads:
            t.join()
        good = check('%d clients for %d seconds, %d WRITEs and READs' % (clients, seconds, sum(counts)), min(counts) > 0, counts)
        silent.close()
        end = pair.end()
        good = check('gated', end == ('gated %d\n' % (clients + 3), '', 0), end) and good
        served = pair.served()
        return check('each CREATE and WRITE once in the journal', served == 'served 2 journal %d\n' % (clients + sum(counts)), served) and good
    finally:
        pair.kill()


def remote_killed(program: str, folder: str) -> bool:
    """The remote server is killed: each connection ends at its next call, and the gateway goes on."""
    pair = Pair(program, folder, 3)
    try:
        with connect(pair.port) as one, connect(pair.port) as two:
            good = check('NULL through the gateway', one_call(one, 1) and one_call(two, 1))
            pair.server.kill()
            pair.server.wait()
            good = check('the remote server is killed', (asked(one, call(2)), asked(two, call(2))) == (b'', b'')) and good
        good = check('a later connection', answered(pair.port, [record(call(3))]) == b'') and good
        end = pair.end()
        return check('its status is 0', end == ('gated 3\n', '', 0), end) and good
    finally:
        pair.kill()


def statuses(program: str, folder: str) -> bool:
    path = os.path.join(folder, 'other.toml')

    def ran(text: str, name: str = path) -> tuple[str, int]:
        with open(path, 'w', encoding='utf-8') as f:
            f.write(text)
        done = subprocess.run([program, 'gate', name], capture_output=True, text=True, timeout=60, check=False)
        return done.stderr, done.returncode

    good = check('no remote server', ran(GATE % (free_port(), free_port(), 1)) == ('link fault\n', 3))
    with socket.create_server(('127.0.0.1', 0)) as taken:
        good = check('an address in use', ran(GATE % (taken.getsockname()[1], free_port(), 1)) == ('link fault\n', 3)) and good
    good = check('no connections', ran(GATE % (free_port(), free_port(), 0)) == ('bad configuration\n', 10)) and good
    good = check('the configuration of a server', ran(CONFIG % (free_port(), 1)) == ('bad configuration\n', 10)) and good
    return check('no file', ran('', path + '.none') == ('input fault\n', 9)) and good


def main() -> int:
    parser = argparse.ArgumentParser(description=__doc__, formatter_class=argparse.RawDescriptionHelpFormatter)
    parser.add_argument('--program', default=os.path.join(ROOT, 'crates', 'nfsrdma', 'out', 'nfsrdma'))
    parser.add_argument('--seconds', type=int, default=20)
    parser.add_argument('--clients', type=int, default=16)
    given = parser.parse_args()
    if not os.access(given.program, os.X_OK):
        print('no program %s' % given.program, file=sys.stderr)
        return 2
    with tempfile.TemporaryDirectory() as folder:
        good = rows(given.program, folder)
        good = side_by_side(given.program, folder, given.clients, given.seconds) and good
        good = remote_killed(given.program, folder) and good
        good = statuses(given.program, folder) and good
    print('all as expected' if good else 'NOT all as expected')
    return 0 if good else 1


if __name__ == '__main__':
    sys.exit(main())
