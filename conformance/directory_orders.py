"""Makes 10,000 entries of a directory and removes them in three orders, with READDIR from each kept cookie in between.

    python3 conformance/directory_orders.py [PROGRAM] [--entries N]

PROGRAM is the built plain_calls, by default the one that `rt run` leaves in crates/plain_calls. What READDIR has to answer is worked out
here from a list of names and cookies (RFC 1813 section 3.3.16): the next two entries, since the room is that of two, and eof after the
last one. Each removed name of the first fifth is made again, and then stands last with a new cookie. Exit status: 0, 1 if an answer
differs, or 2 if there is no program."""
import argparse
import os
import struct
import subprocess
import sys

from antt import ROOT

PROGRAM = os.path.join(ROOT, 'crates', 'plain_calls', 'out', 'plain_calls')
ROOT_DIRECTORY, DIRECTORY = 1, 105
CREATE, MKDIR, REMOVE, READDIR = 8, 9, 12, 16
ROOM = 104 + 2 * 32


def handle(number: int) -> bytes:
    """A file handle of the server."""
    return struct.pack('>IQ', 8, number)


def name_of(index: int) -> bytes:
    """The name of an entry: eight letters."""
    return b'f%07d' % index


def named(number: int, name: bytes) -> bytes:
    """A directory and a name in it."""
    return handle(number) + struct.pack('>I', len(name)) + name + bytes(-len(name) % 4)


class Calls:
    """Calls, and what each has to answer; none where any answer with status 0 will do."""

    def __init__(self) -> None:
        self.lines: list[str] = ['capacity %d' % (1 << 40)]
        self.wanted: list[tuple[list[tuple[bytes, int]], bool] | None] = []

    def call(self, procedure: int, args: bytes, wanted: tuple[list[tuple[bytes, int]], bool] | None = None) -> None:
        """Adds a call of NFS without a credential."""
        payload = struct.pack('>10I', len(self.wanted), 0, 2, 100003, 3, procedure, 0, 0, 0, 0) + args
        self.lines.append('0 ' + payload.hex())
        self.wanted.append(wanted)


def entries_of(reply: bytes) -> tuple[list[tuple[bytes, int]], bool]:
    """The names and the cookies of a reply to READDIR, and eof."""
    at, entries = 24 + 4 + 4 + 84 + 8, []
    while reply[at:at + 4] == b'\0\0\0\1':
        size, = struct.unpack_from('>I', reply, at + 12)
        end = at + 16 + size + -size % 4
        cookie, = struct.unpack_from('>Q', reply, end)
        entries.append((reply[at + 16:at + 16 + size], cookie))
        at = end + 8
    assert reply[at:at + 4] == bytes(4) and len(reply) == at + 8
    return entries, reply[at + 4:] == b'\0\0\0\1'


def list_all(calls: Calls, kept: dict[bytes, int]) -> None:
    """READDIR from the beginning and from each kept cookie."""
    entries = list(kept.items())
    for place in range(len(entries) + 1):
        cookie = entries[place - 1][1] if place else 0
        calls.call(READDIR, handle(DIRECTORY) + struct.pack('>QQI', cookie, 0, ROOM), (entries[place:place + 2], place + 2 >= len(entries)))


def calls_in(order: list[int]) -> Calls:
    """The entries made, and removed in an order."""
    calls, kept, cookie = Calls(), {}, 1
    calls.call(MKDIR, named(ROOT_DIRECTORY, b'directory') + bytes(24))
    step = max(1, len(order) // 5)

    def make(index: int) -> None:
        nonlocal cookie
        calls.call(CREATE, named(DIRECTORY, name_of(index)) + bytes(28))
        kept[name_of(index)] = cookie
        cookie += 1

    for index in range(len(order)):
        make(index)
    list_all(calls, kept)
    for count, index in enumerate(order, 1):
        calls.call(REMOVE, named(DIRECTORY, name_of(index)))
        del kept[name_of(index)]
        if count % step == 0:
            list_all(calls, kept)
        if count == step:
            for again in order[:step]:
                make(again)
            list_all(calls, kept)
    for index in order[:step]:
        calls.call(REMOVE, named(DIRECTORY, name_of(index)))
        del kept[name_of(index)]
    list_all(calls, kept)
    return calls


def differing(program: str, order: list[int]) -> tuple[int, int]:
    """How many answers differ, of how many."""
    calls = calls_in(order)
    done = subprocess.run([program], input='\n'.join(calls.lines) + '\n', stdout=subprocess.PIPE, text=True, check=True)
    *lines, last = done.stdout.splitlines()
    wrong = abs(len(lines) - len(calls.wanted)) + (not last.startswith('journal '))
    for line, wanted in zip(lines, calls.wanted):
        reply = bytes.fromhex(line.split()[1])
        right = reply[24:28] == bytes(4) and (wanted is None or entries_of(reply) == wanted)
        wrong += not right
    return wrong, len(calls.wanted)


def main(argv: list[str]) -> int:
    p = argparse.ArgumentParser(description='Entries of a directory made and removed in three orders, and listed in between.')
    p.add_argument('program', nargs='?', default=PROGRAM, help='the built plain_calls')
    p.add_argument('--entries', type=int, default=10_000, help='how many entries')
    a = p.parse_args(argv)
    if not os.path.exists(a.program):
        print('no program at %s: cd crates/plain_calls && rt run < stdin' % a.program)
        return 2
    n = a.entries
    orders = {'oldest first': list(range(n)), 'newest first': list(range(n))[::-1], 'mixed': sorted(range(n), key=lambda i: i * 7919 % 10_007)}
    wrong = 0
    for name, order in orders.items():
        some, of = differing(a.program, order)
        print('%s: %d of %d answers differ' % (name, some, of))
        wrong += some
    return 1 if wrong else 0


if __name__ == '__main__':
    sys.exit(main(sys.argv[1:]))
