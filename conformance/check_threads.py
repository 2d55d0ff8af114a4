"""Runs the built `nfsrdma serve` with many connections at once over TCP, and compares each byte that is read and the journal's length.

    python3 conformance/check_threads.py [--program PROGRAM] [--few PROGRAM] [--seconds N] [--only WORD ..]

`work`: 64 connections for 20 seconds, each of which writes and reads a file of its own, and reads one that all read, beside a peer that says
nothing, peers that are reset in the middle of a frame, `put` and `get` of 4 mebibytes, and such that are killed; then 64 more for a quarter of
that time. `short`: 10,000 short connections. `crowd`: 1,500 clients at once with one call each. `few`: three peers that say nothing, at a
program built with `THREADS` of nfsrdma's main.rt at 2 (--few; left out without it): a fourth client waits until one of them ends. The frames
are those of docs/WIRE.md, with small calls inline. The server's resident memory after the connections may be that before them, with what the
files take, and 8 MiB more, in `work` 32; the 64 more may add what their files take, and 4 MiB. Exit status: 0 all as expected, 1 something
differs, 2 no program."""
import argparse
import os
import random
import resource
import selectors
import socket
import struct
import subprocess
import sys
import tempfile
import threading
import time
from concurrent.futures import Future, ProcessPoolExecutor

from check_serve import ANSWERED, CALL, HELLO, ROOT, connect, free_port, serve, words

CONFIG = '''listen = "127.0.0.1:%d"
export = "/"
credits = 16
capacity = 1000000000000
connections = %d
write_verifier = "0000000000000001"
'''
NFS, GETATTR, CREATE, WRITE, READ = 100003, 1, 8, 7, 6
HANDLE_LEN = 8
ROOT_HANDLE = words(HANDLE_LEN, 0, 1)
# offsets in a reply: the status of the results, the handle of a CREATE, the count and the data of a READ, the size of a GETATTR (RFC 5531
# section 9, RFC 1813)
STATUS, NEW_HANDLE, READ_COUNT, READ_DATA, SIZE = 24, 32, 116, 128, 48
# a READ or WRITE of so many bytes fits a Send of 1024 bytes without a chunk
PIECE = 512
CONNECTIONS, PROCESSES = 64, 4
# how much more memory a server may keep after its connections, in MiB
ROOM = 8
# what the connections of a process came to: of each its calls, its changes, and what differed
Part = Future[list[tuple[int, int, str]]]


class Link:
    """A client of one connection: it makes one call after another, inline."""

    def __init__(self, port: int) -> None:
        self.socket = connect(port)
        self.socket.setsockopt(socket.IPPROTO_TCP, socket.TCP_NODELAY, 1)
        self.count = 0
        self.socket.sendall(HELLO)
        self.take(20)

    def take(self, size: int) -> bytes:
        got = b''
        while len(got) < size:
            more = self.socket.recv(size - len(got))
            if not more:
                raise ConnectionError('the server ended its stream')
            got += more
        return got

    def frame(self, proc: int, args: bytes) -> bytes:
        """The FPDU of the next call: a Send (RFC 5041 section 4.2, RFC 5040 section 4) with RDMA_MSG (RFC 8166 section 4.2)."""
        self.count += 1
        call = words(self.count, 0, 2, NFS, 3, proc, 0, 0, 0, 0) + args
        ulpdu = b'\x41\x43' + words(0, 0, self.count, 0) + words(self.count, 1, 16, 0, 0, 0, 0) + call
        return struct.pack('>H', len(ulpdu)) + ulpdu + bytes(-(len(ulpdu) + 2) % 4) + words(0)

    def call(self, proc: int, args: bytes) -> bytes:
        """The payload of the reply. Its status has to be 0."""
        self.socket.sendall(self.frame(proc, args))
        head = self.take(2)
        size = struct.unpack('>H', head)[0]
        rest = self.take(size + -(size + 2) % 4 + 4)
        reply = rest[18 + 28:size]
        if reply[:4] != words(self.count) or reply[STATUS:STATUS + 4] != words(0):
            raise ValueError('call %d: reply %s' % (self.count, reply[:64].hex()))
        return reply

    def create(self, name: str) -> bytes:
        data = name.encode()
        args = ROOT_HANDLE + words(len(data)) + data + bytes(-len(data) % 4) + words(0, 0, 0, 0, 0, 0, 0)
        return words(HANDLE_LEN) + self.call(CREATE, args)[NEW_HANDLE + 4:NEW_HANDLE + 12]

    def write(self, handle: bytes, offset: int, data: bytes) -> None:
        self.call(WRITE, handle + struct.pack('>QIII', offset, len(data), 2, len(data)) + data)

    def read(self, handle: bytes, offset: int, count: int) -> bytes:
        reply = self.call(READ, handle + struct.pack('>QI', offset, count))
        got = struct.unpack('>I', reply[READ_COUNT:READ_COUNT + 4])[0]
        return reply[READ_DATA:READ_DATA + got]

    def size(self, handle: bytes) -> int:
        return int(struct.unpack('>Q', self.call(GETATTR, handle)[SIZE:SIZE + 8])[0])

    def reset(self, data: bytes) -> None:
        """Sends these bytes, and resets the connection."""
        self.socket.sendall(data)
        self.socket.setsockopt(socket.SOL_SOCKET, socket.SO_LINGER, struct.pack('ii', 1, 0))
        self.socket.close()


def work_on(port: int, number: int, common: bytes, text: bytes, until: float) -> tuple[int, int, str]:
    """Writes and reads a file of its own, and reads the common one. Gives its calls, its changes, and what differed."""
    rng, mine, calls, changes = random.Random(number), bytearray(16 * PIECE), 2, 1
    link = Link(port)
    handle = link.create('own%d' % number)
    link.write(handle, 0, bytes(PIECE))
    changes += 1
    size = PIECE
    while time.time() < until:
        at, data = rng.randrange(15 * PIECE), rng.randbytes(PIECE)
        link.write(handle, at, data)
        mine[at:at + PIECE] = data
        size = max(size, at + PIECE)
        back = rng.randrange(15 * PIECE)
        if link.read(handle, back, PIECE) != bytes(mine[back:min(back + PIECE, size)]):
            return calls, changes + 1, 'connection %d: its own file at %d' % (number, back)
        if link.read(common, back, PIECE) != text[back:back + PIECE]:
            return calls, changes + 1, 'connection %d: the common file at %d' % (number, back)
        calls, changes = calls + 3, changes + 1
    link.socket.close()
    return calls, changes, ''


def work_of_process(port: int, numbers: range, common: bytes, text: bytes, until: float) -> list[tuple[int, int, str]]:
    """Several connections at once, each in a thread."""
    done: list[tuple[int, int, str]] = []

    def one(number: int) -> None:
        try:
            done.append(work_on(port, number, common, text, until))
        except (OSError, ValueError) as error:
            done.append((0, 0, 'connection %d: %s' % (number, error)))

    threads = [threading.Thread(target=one, args=(number,)) for number in numbers]
    for thread in threads:
        thread.start()
    for thread in threads:
        thread.join()
    return done


def start_work(pool: ProcessPoolExecutor, port: int, first: int, common: bytes, text: bytes, seconds: float) -> list[Part]:
    """Starts all connections, whose files have numbers from `first` on."""
    until, each = time.time() + seconds, CONNECTIONS // PROCESSES
    return [pool.submit(work_of_process, port, range(at, at + each), common, text, until) for at in range(first, first + CONNECTIONS, each)]


def resident(pid: int) -> float:
    """The resident memory of a process, in mebibytes."""
    with open('/proc/%d/status' % pid, encoding='utf-8') as f:
        return next((int(line.split()[1]) / 1024 for line in f if line.startswith('VmRSS')), 0.0)


class Tries:
    """What was tried, and what differed."""

    def __init__(self, program: str, few: str, folder: str, seconds: float) -> None:
        self.program, self.few, self.folder, self.seconds = program, few, folder, seconds
        self.wrong: list[str] = []

    def same(self, what: str, got: object, want: object) -> None:
        if got != want:
            self.wrong.append('%s: %s, not %s' % (what, repr(got)[:300], repr(want)[:300]))

    def ends(self, what: str, server: 'subprocess.Popen[str]', connections: int, journal: int) -> None:
        try:
            out, err = server.communicate(timeout=60)
        except subprocess.TimeoutExpired:
            server.kill()
            out, err = server.communicate()
        self.same(what, (server.returncode, out, err), (0, 'served %d journal %d\n' % (connections, journal), ''))

    def command(self, port: int, name: str, path: str, data: bytes) -> bytes:
        done = subprocess.run([self.program, name, '127.0.0.1:%d' % port, '/', path], input=data, capture_output=True, check=False, timeout=60)
        self.same('%s %s' % (name, path), (done.returncode, done.stderr), (0, b''))
        return done.stdout

    def killed(self, port: int, beside: Link, number: int, data: bytes) -> int:
        """A `get` is killed while it prints, and a `put` after the WRITEs of half of the data. Gives how many changes were made."""
        get, put = ([self.program, name, '127.0.0.1:%d' % port, '/', path] for name, path in (('get', '/large0'), ('put', '/half%d' % number)))
        client = subprocess.Popen(get, stdout=subprocess.PIPE)
        assert client.stdout is not None
        first = client.stdout.read(1000)
        client.kill()
        client.communicate()
        handle, half = beside.create('half%d' % number), data[:len(data) // 2]
        other = subprocess.Popen(put, stdin=subprocess.PIPE)
        assert other.stdin is not None
        other.stdin.write(half)
        other.stdin.flush()
        until = time.time() + 30
        while beside.size(handle) < len(half) and time.time() < until:
            time.sleep(0.05)
        other.kill()
        other.communicate()
        self.same('killed in the middle', (first, client.returncode, beside.size(handle), other.returncode), (data[:1000], -9, len(half), -9))
        return 2 + len(half) // 1048576

    def work(self) -> None:
        """64 connections at work, and wrong peers beside them."""
        resets, rounds = 200, 10
        total = 1 + 1 + 2 * CONNECTIONS + resets + 4 * rounds
        port = free_port()
        server = serve(self.program, self.folder, CONFIG % (port, total))
        silent = connect(port)
        text = random.Random(0).randbytes(16 * PIECE)
        first = Link(port)
        common = first.create('common')
        for at in range(0, len(text), PIECE):
            first.write(common, at, text[at:at + PIECE])
        journal = 1 + len(text) // PIECE
        before = resident(server.pid)
        with ProcessPoolExecutor(PROCESSES) as pool:
            parts = start_work(pool, port, 0, common, text, self.seconds)
            time.sleep(self.seconds / 4)
            for i in range(resets):
                peer = Link(port)
                peer.read(common, 0, PIECE)
                frame = peer.frame(READ, common + struct.pack('>QI', 0, PIECE))
                peer.reset(frame[:1 + i % len(frame)] if i % 2 else frame)
            large = random.Random(1).randbytes(1 << 22)
            for i in range(rounds):
                self.command(port, 'put', '/large%d' % i, large)
                self.same('get of 4 mebibytes', self.command(port, 'get', '/large%d' % i, b'') == large, True)
                journal += 1 + len(large) // 1048576 + self.killed(port, first, i, large)
            at_work = resident(server.pid)
            done = [it for part in parts for it in part.result()]
            first.socket.close()
            time.sleep(1)
            after = resident(server.pid)
            done += [it for part in start_work(pool, port, CONNECTIONS, common, text, self.seconds / 4) for it in part.result()]
        self.wrong += [what for calls, changes, what in done if what]
        calls, changes = sum(it[0] for it in done), sum(it[1] for it in done)
        time.sleep(1)
        self.same('while one peer says nothing', server.poll(), None)
        again = resident(server.pid)
        own = CONNECTIONS * 16 * PIECE / (1 << 20)
        files = own + rounds * 3 * len(large) / (2 << 20)
        # the allocator keeps what each of its arenas had at its most: some 0.8 MiB a connection if all are at work at the same time
        self.same('resident memory after the work, %.1f MiB, is within bounds' % after, after <= before + files + CONNECTIONS, True)
        self.same('resident memory after more work, %.1f MiB, is within bounds' % again, again <= after + own + ROOM / 2, True)
        silent.close()
        self.ends('64 connections at work', server, total, journal + changes)
        print('work: %d calls, %d changes in %g seconds; resident %.1f MiB before, %.1f at work, %.1f after, of which files %.1f; %.1f after more' % (
            calls, changes, self.seconds * 1.25, before, at_work, after, files, again))

    def short(self) -> None:
        """Short connections, one after another by each of several threads."""
        count, threads = 10000, 8
        port = free_port()
        server = serve(self.program, self.folder, CONFIG % (port, count + 2))
        with connect(port) as s:
            s.sendall(HELLO + CALL)
            s.shutdown(socket.SHUT_WR)
            while s.recv(65536):
                pass
        before = resident(server.pid)

        def some() -> None:
            for _ in range(count // threads):
                with connect(port) as s:
                    s.sendall(HELLO + CALL)
                    got = b''
                    while len(got) < len(ANSWERED) and (more := s.recv(65536)):
                        got += more
                self.same('a short connection', got, ANSWERED)

        begun = time.time()
        running = [threading.Thread(target=some) for _ in range(threads)]
        for thread in running:
            thread.start()
        for thread in running:
            thread.join()
        took = time.time() - begun
        time.sleep(1)
        after = resident(server.pid)
        self.same('resident memory after short connections, %.1f MiB, is within bounds' % after, after <= before + ROOM, True)
        connect(port).close()
        self.ends('short connections', server, count + 2, 0)
        print('short: %d connections in %.1f seconds; resident %.1f MiB before, %.1f after' % (count, took, before, after))

    def crowd(self) -> None:
        """Clients that all connect before the first is answered."""
        count = 1500
        soft, hard = resource.getrlimit(resource.RLIMIT_NOFILE)
        # the server keeps the limit that it would have
        resource.setrlimit(resource.RLIMIT_NOFILE, (min(1024, hard), hard))
        port = free_port()
        server = serve(self.program, self.folder, CONFIG % (port, count + 1))
        connect(port).close()
        resource.setrlimit(resource.RLIMIT_NOFILE, (min(4096, hard), hard))
        waiting = selectors.DefaultSelector()
        got: dict[socket.socket, bytes] = {}
        for _ in range(count):
            s = socket.socket()
            s.setblocking(False)
            s.connect_ex(('127.0.0.1', port))
            got[s] = b''
            waiting.register(s, selectors.EVENT_WRITE)
        answered, until = 0, time.time() + 120
        while answered < count and time.time() < until:
            for key, mask in waiting.select(1):
                s = key.fileobj
                assert isinstance(s, socket.socket)
                more = b''
                try:
                    if mask & selectors.EVENT_WRITE:
                        s.sendall(HELLO + CALL)
                        waiting.modify(s, selectors.EVENT_READ)
                        continue
                    more = s.recv(65536)
                except OSError:
                    pass
                got[s] += more
                if not more or len(got[s]) >= len(ANSWERED):
                    self.same('one of the crowd', got[s], ANSWERED)
                    waiting.unregister(s)
                    s.close()
                    answered += 1
        self.same('answered clients', answered, count)
        self.ends('the crowd', server, count + 1, 0)
        resource.setrlimit(resource.RLIMIT_NOFILE, (soft, hard))
        print('crowd: %d clients at once' % count)

    def limit(self) -> None:
        """Three peers that say nothing, at a server that has two threads."""
        port = free_port()
        server = serve(self.few, self.folder, CONFIG % (port, 5))
        connect(port).close()
        # the thread of that one has to end, else it is one of the two
        time.sleep(2)
        silent = [connect(port) for _ in range(3)]
        time.sleep(2)
        with connect(port) as fourth:
            fourth.sendall(HELLO + CALL)
            fourth.settimeout(3)
            try:
                self.same('a fourth client', fourth.recv(65536), 'nothing yet')
            except TimeoutError:
                pass
            # the third has the accepting thread
            silent[2].close()
            fourth.settimeout(10)
            got = b''
            while len(got) < len(ANSWERED) and (more := fourth.recv(65536)):
                got += more
            self.same('the fourth client, after the third', got, ANSWERED)
        for peer in silent[:2]:
            peer.close()
        self.ends('a limit of two', server, 5, 0)
        print('few: the fourth client waited')


def main(argv: list[str]) -> int:
    p = argparse.ArgumentParser(description='Runs the built nfsrdma serve with many connections at once.')
    p.add_argument('--program', default=os.path.join(ROOT, 'crates/nfsrdma/out/nfsrdma'))
    p.add_argument('--few', default='', help='a program that was built with a limit of two threads')
    p.add_argument('--seconds', type=float, default=20)
    p.add_argument('--only', nargs='*', default=['work', 'short', 'crowd', 'few'])
    a = p.parse_args(argv)
    if not os.access(a.program, os.X_OK):
        print('no program at %s' % a.program)
        return 2
    with tempfile.TemporaryDirectory() as folder:
        t = Tries(a.program, a.few, folder, a.seconds)
        for name, trial in (('work', t.work), ('short', t.short), ('crowd', t.crowd), ('few', t.limit)):
            if name in a.only and (name != 'few' or a.few):
                trial()
    print('\n'.join(t.wrong[:20]) or 'all as expected')
    return 1 if t.wrong else 0


if __name__ == '__main__':
    sys.exit(main(sys.argv[1:]))
