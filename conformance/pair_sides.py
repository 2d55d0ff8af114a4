"""Both sides of a recorded session of `nfsrdma COMMAND` and `nfsrdma serve`, by the definitions: the marks of each, and one list of them."""
import json
import struct
import time
from collections.abc import Iterator
from typing import Any

from antt import ROOT
from check_definitions import NAMES, Differs, Names, compare
from values import NONE, Fn, Value, call

LINK = 1
# what the server of these sessions is configured with
CREDITS, UNITS, CAPACITY, EXPORT = 16, 4, 10 ** 9, '/'
USES = {
    'link': ('Input.{initial_input, input_frames, input_after}',),
    'wire': ('Hello.{peer}',),
    'reduce': ('Events.{mark_events}', 'History.{written_at, fed_at}', 'ClientState.{call_payload}'),
    'rpc': ('Reading.{call_of}',),
    'tree': ('Roots.{root_only}',),
    'plain': ('Replies.{plain_answer}', 'Added.{entries_of_call}', 'Journal.{first_state, next_state}'),
    'host_laws': ('OwnMarks.{is_own, own_marks}',),
    'service_laws': ('ServedCommands.{is_client_mark, client_marks}',),
}
Piece = tuple[str, bytes]


def stream(pieces: list[Piece], side: str) -> bytes:
    return b''.join(piece for s, piece in pieces if s == side)


def frames(data: bytes) -> Iterator[bytes]:
    """The frames of a stream: a hello, then FPDUs (RFC 5044 sections 7.1 and 4). The last may lack bytes."""
    at = 0
    while at < len(data):
        n = 20 + int.from_bytes(data[18:20], 'big') if at == 0 else (int.from_bytes(data[at:at + 2], 'big') + 5) // 4 * 4 + 4
        yield data[at:at + n]
        at += n


def moments_in(data: bytes, since: int) -> list[tuple[int, int]]:
    """Each eight bytes that are a time of these sessions (RFC 1813 section 2.5, nfstime3), the last time first."""
    times = {struct.unpack_from('>II', data, at) for at in range(len(data) - 7)}
    return sorted(((s, n) for s, n in times if since <= s <= time.time() and n < 10 ** 9), reverse=True)


class Definitions(Names):
    """The roles of run-names.json, and the names of USES."""

    def __init__(self) -> None:
        with open(NAMES, encoding='utf-8') as h:
            super().__init__(ROOT, json.load(h))
        self.cited: dict[str, Value] = {}
        for crate, texts in USES.items():
            for text in texts:
                self.project.use(self.module, 'use Rattle.nr_%s.specs.%s' % (crate, text))
                for name in text.split('{')[1].rstrip('}').split(', '):
                    self.cited[name] = self.project.value_in(self.module, name)

    def of(self, name: str, *given: Value) -> Value:
        return call(self.cited[name], *given)


class Side:
    """One side of a link: its marks, its state, what is due, sent and fed, by the definitions of nr_reduce."""

    def __init__(self, names: Definitions, opened: Value, side: str, data: bytes, is_cut: bool) -> None:
        self.names, self.opened, self.side, self.data, self.is_cut = names, opened, side, data, is_cut
        self.at = names.side(side)
        self.run: list[Value] = []
        self.state = self.step('first')
        self.due: list[int] = list(self.step('greeting')) if side == 'client' else []
        self.sent = self.fed = 0
        self.input = names.of('initial_input', names.of('peer', self.at))

    def step(self, role: str, *more: Value) -> Value:
        steps = self.names.steps
        assert steps is not None
        return call(steps[self.side + '_' + role], self.opened, *more)

    def mark(self, kind: str, fields: dict[str, Value]) -> tuple[Value, Value, list[int]]:
        """A mark, what happens by it, and the output that is due for that."""
        mark = self.names.make('mark_' + kind, {'link': LINK, **fields})
        completed = Fn(1, lambda piece: self.names.of('input_frames', self.input, piece))
        events = {'drop': False, 'events': self.names.of('mark_events', LINK, self.at, self.fed, completed, mark)}
        return mark, events, self.step('output', self.state, events)

    def add(self, kind: str, **fields: Value) -> None:
        mark, events, output = self.mark(kind, fields)
        self.due += output
        self.state = self.step('after', self.state, events)
        self.run.append(mark)

    def feed(self, piece: bytes) -> None:
        self.same('bytes due before it reads', 0, len(self.due) - self.sent)
        self.add('fed', side=self.at, bytes=list(piece))
        self.input = self.names.of('input_after', self.input, list(piece))
        self.fed += len(piece)

    def write(self) -> bool:
        """Writes all that is due, as the recorded bytes have it; False if these end before."""
        due, recorded = self.due[self.sent:], list(self.data[self.sent:len(self.due)])
        self.same('bytes written', recorded, due[:len(recorded)] if self.is_cut else due)
        if recorded:
            self.add('wrote', side=self.at, bytes=recorded)
        self.sent = len(self.due)
        return len(due) == len(recorded)

    def same(self, what: str, wanted: Value, computed: Value) -> None:
        compare('mark %d of the %s: %s' % (len(self.run) + 1, self.side, what), wanted, computed)


class Plain:
    """The plain server: its journal, and its state after each number of entries."""

    def __init__(self, names: Definitions, since: int, opened_at: tuple[int, int]) -> None:
        self.names, self.since, self.last = names, since, opened_at
        self.parameters = {'capacity': CAPACITY, 'verifier': {'number': 1}, 'export': list(EXPORT.encode())}
        tree = names.of('root_only', {'seconds': opened_at[0], 'nanoseconds': opened_at[1]})
        self.journal: list[Value] = []
        self.states = [names.of('first_state', {'tree': tree, 'parameters': self.parameters})]

    def execute(self, server: Side, xid: int, payload: list[int]) -> dict[str, Any]:
        """Executes a call at the end of the journal, at the moment by which its reply is the recorded one."""
        at = len(server.due)
        for seconds, nanos in [*moments_in(server.data[at:at + 4096], self.since), self.last]:
            moment = {'seconds': seconds, 'nanos': nanos}
            answer = self.names.of('plain_answer', self.parameters, self.states[-1], moment, payload).a[0]
            done = {'xid': xid, **moment, 'payload': payload, 'place': len(self.journal), 'reply': answer['reply']}
            output = server.mark('execute', done)[2]
            shown = list(server.data[at:at + len(output)])
            if output == shown or server.is_cut and output[:len(shown)] == shown:
                break
        else:
            server.same('the reply to xid %d at place %d' % (xid, len(self.journal)), shown, output)
        self.last = (seconds, nanos)
        server.add('execute', **done)
        for entry in answer['entries']:
            self.journal.append(entry)
            self.states.append(self.names.of('next_state', self.parameters, self.states[-1], entry))
        return {**done, 'moment': moment}


def serves(server: Side, plain: Plain, from_client: bytes) -> list[dict[str, Any]]:
    """The server's marks, as `Runs` of nr_host has them: frame by frame, each complete call is executed, then all output written. The calls
    come back. Of a server that was killed the marks end with the last Wrote that is shown."""
    calls: list[dict[str, Any]] = []
    shown: int | None = None
    for frame in frames(from_client):
        if not server.is_cut:
            server.same('frames in a piece', 1, len(server.names.of('input_frames', server.input, list(frame))))
        server.feed(frame)
        while (ready := server.step('next', server.state)).n == 'Some':
            calls.append(plain.execute(server, ready.a[0]['xid'], ready.a[0]['payload']))
        if not server.write() and shown is None:
            shown = max(i for i, mark in enumerate(server.run) if mark.n == 'Wrote') + 1
    del server.run[len(server.run) if shown is None else shown:]
    return calls


def submit(client: Side, done: dict[str, Any]) -> None:
    """The client is given the call that the server executed later."""
    xid, prog, vers, proc, cred, args_at = client.names.of('call_of', done['payload']).a[0].a
    made = {'prog': prog, 'vers': vers, 'proc': proc, 'cred': cred, 'args': done['payload'][args_at:]}
    client.same('the payload of the call', done['payload'], client.names.of('call_payload', xid, made))
    form, answer = client.names.make('form_auto'), client.names.make('accepted', {'xid': done['xid']})
    client.same('its answer', answer, client.step('answer', client.state, made, form))
    state = client.state['end']['state']
    client.same('whether a credit is left', True, len(state['outstanding']) < state['grant'])
    client.add('submit', call=made, form=form, answer=answer)


def asks(client: Side, calls: list[dict[str, Any]], pieces: list[Piece]) -> None:
    """The client's marks: it is fed what the proxy handed on, piece by piece; outcomes are handed over once they came; a call is submitted
    when the first byte of its Send came to the proxy."""
    seen, submitted, done = 0, 0, 0
    for side, piece in pieces:
        if side == 'server':
            client.feed(piece)
            outcomes = client.step('outcomes', client.state)
            for outcome in outcomes[done:]:
                client.add('done', **outcome)
            done = len(outcomes)
            client.write()
        seen += len(piece) if side == 'client' else 0
        while client.sent < seen:
            if client.sent == len(client.due):
                client.same('calls so far', True, submitted < len(calls))
                submit(client, calls[submitted])
                submitted += 1
            client.write()
    client.same('calls', len(calls), submitted)


def merged(runs: tuple[list[Value], list[Value]]) -> list[Value]:
    """One list of both runs: each side goes on while what it is fed was sent."""
    at, sent, fed = [0, 0], [0, 0], [0, 0]
    both: list[Value] = []
    while (left := [k for k in (0, 1) if at[k] < len(runs[k])]):
        for k in left:
            mark = runs[k][at[k]]
            size = len(mark.a[2]) if mark.n in ('Fed', 'Wrote') else 0
            if mark.n != 'Fed' or fed[k] + size <= sent[1 - k]:
                break
        else:
            raise Differs('no list has both sides: after mark %d of the client and %d of the server each is fed what was not sent' % tuple(at))
        sent[k] += size if mark.n == 'Wrote' else 0
        fed[k] += size if mark.n == 'Fed' else 0
        at[k] += 1
        both.append(mark)
    return both


def check_sides(names: Definitions, client: Side, server: Side, both: list[Value]) -> None:
    """`AreSidesOf` of nr_pair_laws, `Matched` of nr_reduce among it."""
    compare('the marks of the client', client.run, names.of('client_marks', LINK, both))
    compare('the marks of the server', server.run, names.of('own_marks', LINK, both))
    sent: dict[str, list[int]] = {client.at.n: [], server.at.n: []}
    fed = dict.fromkeys(sent, 0)
    for i, mark in enumerate(both):
        compare('mark %d: whether it is of a side' % (i + 1), True, names.of('is_client_mark', LINK, mark) or names.of('is_own', LINK, mark))
        for at in (client.at, server.at):
            came, start = names.of('fed_at', LINK, at, mark), fed[at.n]
            compare('mark %d: bytes fed' % (i + 1), came, sent[names.of('peer', at).n][start:start + len(came)])
            fed[at.n] += len(came)
        for at in (client.at, server.at):
            sent[at.n] += names.of('written_at', LINK, at, mark)


def check_places(plain: Plain, first: int, both: list[Value], calls: list[dict[str, Any]], is_cut: bool) -> int:
    """`AreAnsweredFrom` of nr_pair_laws: each outcome is the reply at the place of its call, after the entries of the calls that were done
    before it was submitted. The answer is how many calls were outstanding at most."""
    by_xid = {done['xid']: done for done in calls}
    least, most = first, 0
    waiting: dict[int, int] = {}
    for i, mark in enumerate(both):
        if mark.n == 'Submit':
            waiting[mark.a[3].a[0]] = least
            most = max(most, len(waiting))
        elif mark.n == 'Done':
            done = by_xid[mark.a[1]]
            place = done['place']
            entries = plain.names.of('entries_of_call', done['moment'], done['payload'], done['reply'])
            compare('mark %d: outcome' % (i + 1), plain.names.make('outcome_reply', {'payload': done['reply']}), mark.a[2])
            compare('mark %d: entries at place %d' % (i + 1, place), entries, plain.journal[place:place + len(entries)])
            compare('mark %d: whether place %d is after those before' % (i + 1, place), True, waiting.pop(done['xid']) <= place)
            least = max(least, place + len(entries))
    compare('calls without an outcome', [], [] if is_cut else sorted(waiting))
    return most


def check(names: Definitions, plain: Plain, words: list[str], pieces: list[Piece], is_cut: bool) -> str:
    """Compares a session, and says what it has."""
    units = int(words[words.index('--inline') + 1]) if '--inline' in words else 1
    opened = names.opened({'first_xid': 1, 'first_stag': 1, 'wished': 16, 'granted': CREDITS, 'number': 0, 'client_units': units,
                           'server_units': UNITS, 'client_invalidates': '--invalidate' in words, 'server_invalidates': True})
    first = len(plain.journal)
    client, server = (Side(names, opened, side, stream(pieces, side), is_cut) for side in ('client', 'server'))
    calls = serves(server, plain, client.data)
    asks(client, calls, pieces)
    both = merged((client.run, server.run))
    check_sides(names, client, server, both)
    most = check_places(plain, first, both, calls, is_cut)
    for side in (client, server):
        compare('why the %s ended' % side.side, NONE, side.step('ended', side.state))
        compare('bytes of the %s' % side.side, len(side.data), len(side.data) if is_cut else side.sent)
    return '%d marks, %d calls (%d outstanding), entries %d to %d, %d and %d bytes' % (
        len(both), len(calls), most, first, len(plain.journal), len(client.data), len(server.data))
