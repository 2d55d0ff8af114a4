"""Runs the built `nfsrdma serve` with clients that have numbers, lose their connections and send calls again over new ones.

    python3 conformance/check_numbers.py [--program PROGRAM]

The client is this script: it writes hellos and Sends as docs/WIRE.md has them (RFC 5044, 5040, 8166), and calls of RFC 1813. A CREATE is GUARDED, so
it succeeds once: executed again it would fail with NFS3ERR_EXIST. Exit status: 0 all as expected, 1 something differs, 2 no program."""
import argparse
import os
import socket
import struct
import sys
import tempfile

from check_serve import CONFIG, ROOT, connect, free_port, serve, words

REQUEST, REPLY = b'MPA ID Req Frame', b'MPA ID Rep Frame'
SEND, TERMINATE = 0x43, 0x47
# procedures of RFC 1813, and what they answer
LOOKUP, CREATE = 3, 8
OK, NO_ENTRY = 0, 2
ROOT_HANDLE = (1).to_bytes(8, 'big')
# how many xids of a client are remembered, up to the largest; the reason of a call that is older
WINDOW, OLD = 64, 28


def opaque(data: bytes) -> bytes:
    return words(len(data)) + data + bytes(-len(data) % 4)


def create(name: bytes) -> tuple[int, bytes]:
    """CREATE of a name in the root, GUARDED, without attributes."""
    return CREATE, opaque(ROOT_HANDLE) + opaque(name) + words(1, 0, 0, 0, 0, 0, 0)


def lookup(name: bytes) -> tuple[int, bytes]:
    return LOOKUP, opaque(ROOT_HANDLE) + opaque(name)


class Link:
    """A connection of a client with this number; without one if it is None."""

    def __init__(self, port: int, number: int | None) -> None:
        private = b'' if number is None else b'NR01' + bytes((1, 1, 0, 0)) + struct.pack('>Q', number)
        self.socket, self.sent, self.held = connect(port), 0, b''
        self.socket.sendall(REQUEST + struct.pack('>BBH', 0, 1, len(private)) + private)
        hello = self.take(20)
        if hello[:16] != REPLY:
            raise ValueError('no hello: %r' % hello)
        self.take(struct.unpack('>H', hello[18:])[0])

    def take(self, size: int) -> bytes:
        while len(self.held) < size:
            more = self.socket.recv(65536)
            if not more:
                raise EOFError('the server closed')
            self.held += more
        taken, self.held = self.held[:size], self.held[size:]
        return taken

    def send(self, xid: int, made: tuple[int, bytes]) -> None:
        """Sends a call inline, with an AUTH_SYS credential of user 0."""
        self.sent += 1
        call = words(xid, 0, 2, 100003, 3, made[0], 1, 20, 0, 0, 0, 0, 0, 0, 0) + made[1]
        segment = bytes((0x41, SEND)) + words(0, 0, self.sent, 0) + words(xid, 1, 16, 0, 0, 0, 0) + call
        self.socket.sendall(struct.pack('>H', len(segment)) + segment + bytes(-(2 + len(segment)) % 4) + bytes(4))

    def receive(self) -> tuple[int, bytes]:
        """The second control byte of the next frame, and its payload."""
        size = struct.unpack('>H', self.take(2))[0]
        segment = self.take(size + -(2 + size) % 4 + 4)[:size]
        return segment[1], segment[18:]

    def call(self, xid: int, made: tuple[int, bytes]) -> tuple[int, bytes]:
        """The status of the reply to a call, and the RPC reply."""
        self.send(xid, made)
        kind, payload = self.receive()
        if kind != SEND or payload[:4] != words(xid):
            raise ValueError('not a reply to %d: %02x %s' % (xid, kind, payload.hex()))
        return struct.unpack('>I', payload[52:56])[0], payload[28:]

    def close(self) -> None:
        self.socket.close()


class Rows:
    """What the rows found, and how many connections they made."""

    def __init__(self, port: int) -> None:
        self.port, self.links, self.entries, self.wrong = port, 0, 0, list[str]()

    def link(self, number: int | None) -> Link:
        self.links += 1
        return Link(self.port, number)

    def same(self, what: str, got: object, want: object) -> None:
        if got != want:
            self.wrong.append('%s: %r, not %r' % (what, got, want))

    def sent_again(self, what: str, number: int | None, executed_once: bool) -> None:
        """A CREATE over a connection that is lost once the answer came, and again over another one."""
        name, replies = what.replace(' ', '-').encode(), []
        for _ in range(2):
            link = self.link(number)
            replies.append(link.call(1, create(name)))
            link.close()
        self.entries += 1
        self.same(what + ', first', replies[0][0], OK)
        self.same(what + ', the same reply', replies[0] == replies[1], executed_once)
        self.same(what + ', again', replies[1][0], OK if executed_once else 17)

    def answer_lost(self) -> None:
        """The connection is lost before the answer was read."""
        link = self.link(11)
        link.send(1, create(b'lost'))
        while self.found(b'lost') != OK:
            pass
        link.close()
        again = self.link(11)
        self.same('an answer that was lost', again.call(1, create(b'lost'))[0], OK)
        again.close()
        self.entries += 1

    def found(self, name: bytes) -> int:
        link = self.link(None)
        status = link.call(1, lookup(name))[0]
        link.close()
        return status

    def only_read(self) -> None:
        """A call that adds no entry isn't remembered: sent again it is executed again."""
        link = self.link(12)
        self.same('a name that is not there', link.call(1, lookup(b'late'))[0], NO_ENTRY)
        link.close()
        other = self.link(13)
        other.call(1, create(b'late'))
        other.close()
        self.entries += 1
        again = self.link(12)
        self.same('looked up again', again.call(1, lookup(b'late'))[0], OK)
        again.close()

    def window(self) -> None:
        """Of the xids up to the largest, the last 64 are remembered; a call before them ends the connection."""
        link, last = self.link(14), WINDOW + 6
        replies = {xid: link.call(xid, create(b'w%d' % xid)) for xid in range(1, last + 1)}
        link.close()
        self.entries += last
        again = self.link(14)
        for xid in range(last - WINDOW + 1, last + 1):
            self.same('kept %d' % xid, again.call(xid, create(b'other')), replies[xid])
        again.send(last - WINDOW, create(b'w%d' % (last - WINDOW)))
        kind, payload = again.receive()
        self.same('an old call', (kind, payload[:4]), (TERMINATE, words(OLD)))
        self.same('and its end', again.socket.recv(1), b'')
        again.close()

    def two_with_one_number(self) -> None:
        """Two clients that say one number at once: the second gets the reply of the first to the same xid, and changes nothing."""
        first, second = self.link(15), self.link(15)
        replies = first.call(1, create(b'one')), second.call(1, create(b'two'))
        self.same('two clients with one number', replies[0] == replies[1], True)
        self.same('the change of the second', self.found(b'two'), NO_ENTRY)
        first.close()
        second.close()
        self.entries += 1


def rows_of(port: int) -> Rows:
    rows = Rows(port)
    rows.sent_again('a client with a number', 5, True)
    rows.sent_again('the greatest number', (1 << 64) - 1, True)
    rows.sent_again('a client without a number', None, False)
    rows.sent_again('number 0', 0, False)
    rows.answer_lost()
    rows.only_read()
    rows.window()
    rows.two_with_one_number()
    return rows


# How many connections the server takes: more than the rows make, and the rest are made at the end.
CONNECTIONS = 1000


def main(argv: list[str]) -> int:
    p = argparse.ArgumentParser(description='Runs the built nfsrdma serve with clients that have numbers.')
    p.add_argument('--program', default=os.path.join(ROOT, 'crates/nfsrdma/out/nfsrdma'))
    a = p.parse_args(argv)
    if not os.access(a.program, os.X_OK):
        print('no program at %s' % a.program)
        return 2
    with tempfile.TemporaryDirectory() as folder:
        port = free_port()
        server = serve(a.program, folder, CONFIG % (port, CONNECTIONS))
        rows = rows_of(port)
        for _ in range(CONNECTIONS - rows.links):
            connect(port).close()
        out, err = server.communicate(timeout=60)
        rows.same('what is printed', (server.returncode, out, err), (0, 'served %d journal %d\n' % (CONNECTIONS, rows.entries), ''))
    print('\n'.join(rows.wrong) or 'all as expected')
    return 1 if rows.wrong else 0


if __name__ == '__main__':
    sys.exit(main(sys.argv[1:]))
