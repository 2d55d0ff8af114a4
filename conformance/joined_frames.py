"""A client is fed several frames of its server in one piece. Is there one list with both sides, in which each is fed what the other sent?

    python3 conformance/joined_frames.py

Each run is right by the definitions, and what each side was fed is a beginning of what the other sent. Three ways to make the list are tried:

  as they are   both runs, mark by mark
  cut           the client is fed the same bytes frame by frame, and makes the same calls at the same places
  rebuilt       a client is fed the same bytes frame by frame, and makes the calls that the server took of the link

`a list`: there is one. `each waits`: there is none. `other bytes`: this client writes other bytes, or has other outcomes. `lacks a call`: there is
one, but a call of the client is not in it. `not sent`: the server does not send these bytes to such a client. Exit status: 0 as CASES has it, or 1."""
import sys
from typing import Any

from check_definitions import Differs
from pair_sides import CAPACITY, EXPORT, Definitions, Side, frames, merged
from values import NONE, Value, deeply, show

OPENED = {'first_xid': 1, 'first_stag': 1, 'wished': 16, 'granted': 16, 'number': 0, 'client_units': 1, 'server_units': 1,
          'client_invalidates': False, 'server_invalidates': False}
MOMENT = {'seconds': 1, 'nanos': 0}
HELLO_SIZE = 20
ROOT_HANDLE, FILE, DATA = (1).to_bytes(8, 'big'), (2).to_bytes(8, 'big'), bytes(2000)


def words(*numbers: int) -> bytes:
    return b''.join(n.to_bytes(4, 'big') for n in numbers)


# a procedure of RFC 1813 and its arguments
Procedure = tuple[int, bytes]
NULL: Procedure = (0, b'')
CREATE: Procedure = (8, words(8) + ROOT_HANDLE + words(1) + b'f\0\0\0' + words(0, 1, 0o644, 0, 0, 0, 0, 0))
WRITE: Procedure = (7, words(8) + FILE + words(0, 0, len(DATA), 2, len(DATA)) + DATA)
READ: Procedure = (6, words(8) + FILE + words(0, 0, len(DATA)))
LIST, WAITS, OTHER, LACKS, UNSENT = 'a list', 'each waits', 'other bytes', 'lacks a call', 'not sent'
Ways = tuple[str, str, str]
# What the client is fed, its calls, the end of each piece (a frame of the server, 0 is its hello, and bytes after it), and what the ways give.
Case = tuple[str, tuple[Procedure, ...], tuple[tuple[int, int], ...], Ways]
CASES: tuple[Case, ...] = (
    ('frame by frame', (NULL,), ((0, 0), (1, 0)), (LIST, LIST, LIST)),
    ('nothing', (NULL,), (), (LIST, LIST, LACKS)),
    ('hello and a part of a Send', (NULL,), ((0, 10), (1, 0)), (WAITS, LIST, LIST)),
    ('hello and RDMA Write', (READ,), ((1, 0), (2, 0)), (WAITS, LIST, LIST)),
    ('hello and Read Request', (WRITE,), ((1, 0), (2, 0)), (WAITS, LIST, LIST)),
    ('Read Request and the Send after its Read Response', (WRITE,), ((0, 0), (2, 0)), (WAITS, LIST, LIST)),
    ('RDMA Write and Send', (READ,), ((0, 0), (2, 0)), (LIST, LIST, LIST)),
    ('hello and Send of a reply', (NULL,), ((1, 0),), (WAITS, OTHER, OTHER)),
    ('Send of a reply and that of the next call', (NULL, NULL), ((0, 0), (2, 0)), (UNSENT, UNSENT, UNSENT)),
)


def as_call(names: Definitions, made: Procedure) -> dict[str, Any]:
    cred = names.make('cred_sys', {'stamp': 0, 'machine': list(b'm'), 'uid': 0, 'gid': 0, 'gids': []})
    return {'prog': 100003, 'vers': 3, 'proc': made[0], 'cred': cred, 'args': list(made[1])}


def write(side: Side) -> None:
    """Writes all that is due."""
    if side.sent < len(side.due):
        side.add('wrote', side=side.at, bytes=side.due[side.sent:])
        side.sent = len(side.due)


class Server:
    """The plain server with a file of DATA, and its side of a link. It is fed frame by frame; each call is executed, and all output written."""

    def __init__(self, names: Definitions, opened: Value) -> None:
        self.names, self.side = names, Side(names, opened, 'server', b'', False)
        self.parameters = {'capacity': CAPACITY, 'verifier': {'number': 1}, 'export': list(EXPORT.encode())}
        tree = names.of('root_only', {'seconds': 1, 'nanoseconds': 0})
        self.state = names.of('first_state', {'tree': tree, 'parameters': self.parameters})
        self.place = self.executed = 0
        for made in (CREATE, WRITE):
            self.execute(list(names.of('call_payload', 1, as_call(names, made))))

    def execute(self, payload: list[int]) -> dict[str, Any]:
        answer = self.names.of('plain_answer', self.parameters, self.state, MOMENT, payload).a[0]
        done = {**MOMENT, 'payload': payload, 'place': self.place, 'reply': answer['reply']}
        for entry in answer['entries']:
            self.state = self.names.of('next_state', self.parameters, self.state, entry)
            self.place += 1
        return done

    def feed(self, frame: bytes) -> bytes:
        """What it writes for a frame."""
        side, before = self.side, self.side.sent
        side.feed(frame)
        while (ready := side.step('next', side.state)).n == 'Some':
            side.add('execute', xid=ready.a[0]['xid'], **self.execute(list(ready.a[0]['payload'])))
            self.executed += 1
        write(side)
        return bytes(side.due[before:])


class Client:
    """A client that makes these calls, each once the outcome of the one before it came. All output is written before it is fed."""

    def __init__(self, names: Definitions, opened: Value, calls: tuple[Procedure, ...]) -> None:
        self.names, self.side, self.calls = names, Side(names, opened, 'client', b'', False), calls
        self.submitted = self.done = 0
        self.go_on()

    def go_on(self) -> None:
        side = self.side
        for outcome in side.step('outcomes', side.state)[self.done:]:
            side.add('done', **outcome)
            self.done += 1
        write(side)
        if self.submitted == self.done < len(self.calls) and self.ended() == NONE:
            made, form = as_call(self.names, self.calls[self.submitted]), self.names.make('form_auto')
            side.add('submit', call=made, form=form, answer=side.step('answer', side.state, made, form))
            self.submitted += 1
            write(side)

    def ended(self) -> Value:
        return self.side.step('ended', self.side.state)

    def seen(self) -> tuple[list[int], list[Value], Value]:
        """Its bytes, its outcomes, and why it ended."""
        return self.side.due, self.side.step('outcomes', self.side.state), self.ended()


def fed_in(names: Definitions, opened: Value, calls: tuple[Procedure, ...], pieces: list[bytes]) -> Client:
    client = Client(names, opened, calls)
    for piece in pieces:
        client.side.feed(piece)
        client.go_on()
    return client


def served(names: Definitions, opened: Value, calls: tuple[Procedure, ...]) -> list[bytes]:
    """The frames of the server to a client that makes these calls and is fed each frame once it was sent."""
    client, server, taken = Client(names, opened, calls), Server(names, opened), 0
    sent: list[bytes] = []
    while taken < client.side.sent:
        hello = b'' if taken == 0 else bytes(HELLO_SIZE)
        came = list(frames(hello + bytes(client.side.due[taken:])))[taken > 0:]
        taken = client.side.sent
        for answered in map(server.feed, came):
            new = list(frames((b'' if not sent else bytes(HELLO_SIZE)) + answered))[len(sent) > 0:]
            sent += new
            for frame in new:
                client.side.feed(frame)
                client.go_on()
    return sent


def ordered(client: Client, server: Server) -> str:
    try:
        merged((client.side.run, server.side.run))
    except Differs:
        return WAITS
    return LIST


def three_ways(names: Definitions, opened: Value, case: Case) -> tuple[Ways, Client]:
    _, calls, cuts, _ = case
    sent = served(names, opened, calls)
    ends = [sum(map(len, sent[:at + 1])) + more for at, more in cuts]
    data = b''.join(sent)[:max(ends, default=0)]
    client, server = fed_in(names, opened, calls, [data[a:b] for a, b in zip([0, *ends], ends)]), Server(names, opened)
    for frame in frames(bytes(client.side.due)):
        server.feed(frame)
    if not bytes(server.side.due).startswith(data):
        return (UNSENT, UNSENT, UNSENT), client
    cut = fed_in(names, opened, calls, list(frames(data)))
    rebuilt = fed_in(names, opened, calls[:server.executed], list(frames(data)))
    by_frames = ordered(cut, server) if cut.seen() == client.seen() else OTHER
    by_bytes = ordered(rebuilt, server) if rebuilt.seen() == client.seen() else OTHER
    if rebuilt.submitted < client.submitted:
        by_bytes = LACKS
    return (ordered(client, server), by_frames, by_bytes), client


def main() -> int:
    names, differ = Definitions(), 0
    opened = names.opened(OPENED)
    for case in CASES:
        ways, client = three_ways(names, opened, case)
        print('%s: as they are %s, cut %s, rebuilt %s%s' % (case[0], *ways, '' if ways == case[3] else '; expected: ' + ', '.join(case[3])))
        marks = [mark.n + (' %d' % len(mark.a[2]) if mark.n in ('Fed', 'Wrote') else '') for mark in client.side.run]
        print('    the client: %s; ended: %s' % (', '.join(marks), show(client.ended())))
        differ += ways != case[3]
    print('all as expected' if differ == 0 else '%d NOT as expected' % differ)
    return 1 if differ else 0


if __name__ == '__main__':
    sys.exit(deeply(main))
