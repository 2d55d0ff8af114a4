"""Asks of recorded runs what the laws of nr_laws say: if the premises of a law are met, and whether what it says is so.

    python3 conformance/laws_of_runs.py [--only WORD] [--runs FOLDER --plain FILE] [--jobs N]

That the recorded runs keep the laws of a link (Asked, Served) is what check_definitions.py compares; here the other
premises and what each law says are computed, from the same definitions, mark by mark. It proves nothing. For each law
it prints how often its premises were met, in all and by kind (with a read chunk, with a write chunk, ..), a run of
each, and each mark at which what it says isn't so. Exit status: 0 none, 1 some, 2 nothing could be run."""
import argparse
import gzip
import json
import multiprocessing
import os
import sys
from collections.abc import Iterable
from typing import Any

from antt import ROOT
from check_definitions import NAMES, RUNS, Names, Recorded, bytes_of, opening_of, recorded, weight
from ends import Ends
from laws_of_links import LAWS as LINK_LAWS, ROLES as LINK_ROLES, USES as LINK_USES, Links
from values import NONE, CannotEvaluate, Value, call, deeply

HERE = os.path.dirname(os.path.abspath(__file__))
PLAIN = os.path.join(HERE, 'plain.json.gz')
# a law, whether what it says is so, of which kind the case is, the run and the mark
Finding = tuple[str, bool, tuple[str, ...], str, int]

USES = [
    'use Rattle.nr_reduce.specs.ClientState.{call_payload, plan_for, stag_for, waiting_call, client_memory_at, responses_owed}',
    'use Rattle.nr_reduce.specs.Written.{ends_written, ends_waiting}',
    'use Rattle.nr_reduce.specs.DueItems.{items_due, hello_due}',
    'use Rattle.nr_link.specs.OutputItem.{items_encoding, is_send_item, is_response_item, items_written, items_left}',
    'use Rattle.nr_reduce.specs.Plans.{lists_of, call_message, buffers}',
    'use Rattle.nr_header.specs.Reading.{header_of}',
    'use Rattle.nr_reduce.specs.RunLaws.{known_stream}',
    'use Rattle.nr_reduce.specs.ChunkBytes.{lists_by, inline_by}',
    'use Rattle.nr_plain.specs.Added.{entries_of_call}',
    'use Rattle.nr_reduce.specs.Chunks.{is_read_chunk_of_item, call_conveyed, read_bytes, whole, some_bytes}',
    'use Rattle.nr_laws.specs.AnswersConvey.{replied_by, stream_brought, moved_brought}',
    'use Rattle.nr_reduce.specs.Run.{placed_bytes}',
    'use Rattle.nr_reduce.specs.Server.{answer_of_target, offer_of}',
    'use Rattle.nr_rpc.specs.Reading.{call_of, target_of}',
    'use Rattle.nr_link.specs.Frames.{is_hello}',
    'use Rattle.nr_link.specs.Ending.{frame_segment, access_of, frame_end_by}',
    'use Rattle.nr_regions.specs.Access.{grant_denial}',
    'use Rattle.nr_reduce.specs.OfferedRegions.{region_grants}',
    'use Rattle.nr_reduce.specs.Events.{events_at}',
    'use Rattle.nr_reduce.specs.EndRules.{next_end_state, output_for}',
    'use Rattle.nr_link.specs.ReceiveState.{read_request_of, message_completed, stag_invalidated}',
    'use Rattle.nr_reduce.specs.Client.{client_segment, client_readiness, client_message_end}',
    'use Rattle.nr_reduce.specs.ClientMessages.{answered_call, is_given}',
    'use Rattle.nr_link.specs.declared.end.End.TheVariants as ends',
    'use Rattle.nr_link.specs.Reasons.{REASON_INVALIDATED}',
    'use Rattle.nr_xdr.specs.Fields.{word_at}',
    'use Rattle.nr_link.specs.Output.{read_response}',
    'use Rattle.nr_link.specs.Ending.{tagged_access}',
    'use Rattle.nr_reduce.specs.Client.{client_rules, initial_client, outstanding_of}',
    'use Rattle.nr_reduce.specs.Server.{server_rules, initial_server}',
    'use Rattle.nr_laws.specs.Payloads.{form_conveyed}',
    'use Rattle.nr_reduce.specs.Served.{first_ready}',
    'use Rattle.nr_reduce.specs.Hellos.{client_agreement, server_agreement}',
    'use Rattle.nr_reduce.specs.ServerState.{credit_word, is_busy}',
    'use Rattle.nr_laws.specs.Grant.{last_granted}',
    'use Rattle.nr_reduce.specs.Client.{has_same_sizes}',
    'use Rattle.nr_reduce.specs.Hellos.{client_private}',
    'use Rattle.nr_link.specs.Agreement.{agreement, responder_private}',
]
ROLES: dict[str, str] = {
    'events': 'λ link side before mark. events_at link side before mark',
    'first_client': 'λ opened. initial_client opened',
    'first_server': 'λ opened. initial_server opened',
    'next_client': 'λ opened state event. next_end_state (client_rules opened) state event',
    'next_server': 'λ opened state event. next_end_state (server_rules opened) state event',
    'payload': 'λ xid call. call_payload xid call',
    'conveyed': 'λ form payload. form_conveyed form payload',
    'plan': 'λ state xid call form. plan_for state xid call form',
    'has_head': 'λ payload. call_of payload',
    'message': 'λ opened state xid plan. call_message xid opened.wished (stag_for state xid) plan',
    'lists_of': 'λ state xid plan. lists_of (stag_for state xid) plan',
    'waiting': 'λ state xid. waiting_call state xid',
    'header': 'λ message. header_of message',
    'known': 'λ message body. known_stream message body',
    'lists': 'λ body. lists_by body',
    'suits': 'λ stream read. is_read_chunk_of_item stream read',
    'adds': 'λ moment payload reply. entries_of_call moment payload reply',
    'offer': 'λ state xid. offer_of state xid',
    'answer': 'λ offer state payload reply. '
              'answer_of_target offer state.down_max reply (target_of (call_of payload))',
    'hello': 'λ frame. is_hello frame',
    'items': 'λ opened link side run. items_due opened link side run',
    'hello_due': 'λ opened link side run. hello_due opened link side run',
    'items_bytes': 'λ items. items_encoding items',
    'sends_counted': 'λ state. ends_written state.written state.send_ends',
    'responses_counted': 'λ state. responses_owed state',
    'messages_counted': 'λ state. ends_waiting state.written state.message_ends',
    'sends_by_items': 'λ at written items. items_written is_send_item at written items',
    'responses_by_items': 'λ at written items. items_left is_response_item at written items',
    'messages_by_items': 'λ at written items. items_left is_send_item at written items',
    'access': 'λ frame. access_of frame',
    'segment': 'λ frame. frame_segment frame',
    'client_segment': 'λ state frame. client_segment state frame',
    'completed': 'λ state segment. message_completed state.received segment',
    'named': 'λ segment. stag_invalidated segment',
    'xid': 'λ message. word_at 0 message',
    'answered': 'λ state header. answered_call state header.xid',
    'given': 'λ call stag. is_given call stag',
    'link_end': 'λ state f read. frame_end_by (client_readiness state) (region_grants f.end state.regions) f read',
    'plain_end': 'λ state f message. client_message_end state f None (Some message)',
    'stag_end': 'λ f. Some (ends.Bad f.at REASON_INVALIDATED)',
    'denial': 'λ frame regions access. grant_denial (region_grants frame.end regions) access frame.end',
    'placed': 'λ opened link side run stag. placed_bytes opened link side run stag',
    'output': 'λ opened state event. output_for (client_rules opened) state event',
    'request': 'λ segment. read_request_of segment',
    'response': 'λ sink to bytes. read_response sink to bytes',
    'memory': 'λ state place stag. client_memory_at state place stag',
    'tagged': 'λ frame segment. tagged_access frame segment',
    'chunks': 'λ state call. buffers (outstanding_of state call).stag (outstanding_of state call).plan',
    'agreed_client': 'λ opened f. client_agreement opened f',
    'agreed_server': 'λ opened f. server_agreement opened f',
    'waits': 'λ state ended. first_ready state.ready ended',
    'send_conveys': 'λ opened link side run message body. call_conveyed (inline_by message body) (lists_by body).read '
                    '(read_bytes (placed_bytes opened link side run) (lists_by body).read)',
    'answer_brings': 'λ offer answer payload. whole (replied_by (target_of (call_of payload))) '
                     '(stream_brought offer answer) (some_bytes (moved_brought offer answer))',
    'word': 'λ state. credit_word state',
    'busy': 'λ state. is_busy state',
    'last_granted': 'λ link credits run. last_granted link credits run',
    'agrees_again': 'λ opened. has_same_sizes opened.agreed (agreement (client_private opened) (responder_private opened.server (client_private opened)))',
}
LAWS = (
    'once: Sends',
    'once: calls',
    'once: xids',
    'executed_payloads',
    'replies_handed_over',
    'replies_are_plain',
    'replies_are_plain: of a link alone',
    'sends_convey',
    'answers_convey',
    'sent_bytes: client',
    'sent_bytes: server',
    'output_is_items: client',
    'output_is_items: server',
    'counts_go_by_bytes_sent: client',
    'counts_go_by_bytes_sent: server',
    'regions_handed_back: messages',
    'regions_handed_back: ended',
    'regions_handed_back: done',
    'journal: places',
    'chunk_outcomes: causes',
    'chunk_outcomes: completed',
    'chunk_outcomes: version',
    'chunk_outcomes: offers',
    'chunk_outcomes: own plans',
    'chunk_outcomes: auto',
    'chunk_outcomes: changes',
    'chunk_outcomes: nothing_added',
    'touches: client',
    'touches: server',
    'touches: requests',
    'touches: revoked',
    'invalidated',
    'judged',
    'offered_regions: client adds',
    'offered_regions: client live',
    'offered_regions: client closed',
    'offered_regions: server adds',
    'offered_regions: server live',
    'offered_regions: server closed',
    'offered_memory: client_bytes',
    'offered_memory: server_bytes',
    'offered_memory: reads',
    'grant',
    'server_credits: range',
    'server_credits: set',
    'sides_agree',
    'calls_complete',
    'segments_keep_the_rules: client',
    'segments_keep_the_rules: server',
    'matched_links_stay: stays',
    'matched_links_stay: clients',
) + LINK_LAWS
CALL_REASONS, REPLY_REASONS = (18,), (18, 19)


class Roles(Names):
    def __init__(self, root: str, spec: Recorded) -> None:
        super().__init__(root, spec)
        for u in USES + LINK_USES:
            self.project.use(self.module, u)
        self.role: dict[str, Value] = {}
        for k, text in (ROLES | LINK_ROLES).items():
            self.role[k] = self.project.expression(self.module, text)

    def ask(self, role: str, *args: Value) -> Value:
        return call(self.role[role], *args)


class Link:
    """One link of a run: what both ends are after each mark, and what is found on the way."""

    def __init__(self, names: Roles, run: Recorded, number: int, found: list[Finding]) -> None:
        self.names, self.run, self.number, self.found = names, run, number, found
        self.opened = opening_of(names, run, number)
        self.ends = {'client': names.ask('first_client', self.opened), 'server': names.ask('first_server', self.opened)}
        self.marks: list[Value] = []
        self.matched = self.is_matched()
        self.submits: dict[int, Recorded] = {}
        self.executes: dict[int, Recorded] = {}
        self.dones: dict[int, str] = {}
        self.numbers: set[int] = set()
        self.hellos: dict[str, Value] = {}
        self.revoked: list[tuple[dict[int, list[int]], list[int]]] = []
        self.brought: dict[str, list[tuple[int, int, list[int]]]] = {'client': [], 'server': []}
        # what regions held as they were handed back: a law, and bytes by STag
        self.handed: list[tuple[str, dict[int, list[int]]]] = []

    def is_matched(self) -> bool:
        """Whether each side received what the other sent."""
        sent, got = {'client': b'', 'server': b''}, {'client': b'', 'server': b''}
        for m in self.run['marks']:
            if m['link'] == self.number and m['mark'] == 'Wrote':
                sent[m['side']] += bytes.fromhex(m['bytes'])
            if m['link'] == self.number and m['mark'] == 'Fed':
                got[m['side']] += bytes.fromhex(m['bytes'])
                if not sent['server' if m['side'] == 'client' else 'client'].startswith(got[m['side']]):
                    return False
        return True

    def kind(self, xid: int) -> tuple[str, ...]:
        """What the plan of a call has: a read chunk (with bytes or without), a write chunk, a reply chunk; an offer that is given."""
        if xid not in self.submits:
            return ()
        p = self.submits[xid]['plan']
        out: list[str] = []
        if p['read']:
            out.append('read chunk' if sum(p['read']) else 'read chunk without bytes')
        if p['write'].n == 'Some' and p['write'].a[0]:
            out.append('write chunk')
        if p['reply'].n == 'Some':
            out.append('reply chunk')
        if self.submits[xid]['form']['kind'] == 'Given':
            out.append('given')
        return tuple(out)

    def note(self, law: str, holds: Any, kinds: Iterable[str] = ()) -> None:
        self.found.append((law, bool(holds), tuple(kinds), self.run['name'], len(self.marks) + 1))

    def step(self, mark: Recorded, made: Value) -> None:
        n, ask = self.number, self.names.ask
        for side in ('client', 'server'):
            for event in ask('events', n, self.names.side(side), list(self.marks), made):
                before = self.ends[side]
                self.ends[side] = ask('next_' + side, self.opened, before, event)
                self.regions(side, before, event)
                if event.n == 'FrameReceived' and before['ended'].n == 'None':
                    self.frame(side, before, event.a[0])
                    if side == 'client':
                        self.invalidated(before, event.a[0])
                    self.memory(side, before, event)

    def segment(self, side: str, before: Value, f: Value) -> Value:
        """A frame as a segment: whether a client takes a Send with Invalidate is agreed."""
        return self.names.ask('client_segment', before['state'], f) if side == 'client' else self.names.ask('segment', f)

    def frame(self, side: str, before: Value, f: Value) -> None:
        ask = self.names.ask
        if ask('hello', f):
            self.hellos[side] = f
            return
        segment = self.segment(side, before, f)
        if segment.n != 'Ok':
            return
        access = ask('access', segment.a[0])
        if access.n == 'Some':
            denied = ask('denial', f, before['state']['regions'], access.a[0]).n == 'Some'
            stops = self.ends[side]['ended'].n == 'Some' and self.ends[side]['state'] == before['state']
            self.note('touches: ' + side, not denied or stops, ('stops',) if denied else ())
            if side == 'server' and ask('request', segment.a[0]).n == 'Some':
                self.note('touches: requests', stops)

    def invalidated(self, before: Value, f: Value) -> None:
        """A Send with Invalidate ends the client and changes nothing else, or what it names is dead, and no region of another call changed."""
        ask = self.names.ask
        segment = self.segment('client', before, f)
        if ask('hello', f) or segment.n != 'Ok' or ask('named', segment.a[0]).n != 'Some':
            return
        stag = ask('named', segment.a[0]).a[0]
        message = ask('completed', before['state'], segment.a[0]).a[0]
        xid = ask('xid', message)
        self.judged(before['state'], f, segment, message, stag)
        if self.ends['client']['ended'].n == 'Some':
            self.note('invalidated', self.ends['client']['state'] == before['state'], ('ends',))
            return
        old, new = before['state']['regions'], self.ends['client']['state']['regions']
        own = [r for r in old if r['stag'] == stag]
        dead = all(r['until'].n == 'Some' for r in new if r['stag'] == stag)
        others = all(r in new for r in old if r['call'] != xid)
        revoked = own and own[0]['until'].n == 'Some'
        self.note('invalidated', len(own) == 1 and own[0]['call'] == xid and dead and others, ('revoked',) if revoked else ())

    def judged(self, state: Value, f: Value, read: Value, message: Value, stag: int) -> None:
        """It ends the client with reason 29 for an STag that its call wasn't given alone, and else as a message does that names none."""
        ask, ended = self.names.ask, self.ends['client']['ended']
        header = ask('header', message)
        call = ask('answered', state, header.a[0]) if header.n == 'Ok' else NONE
        another = call.n == 'Some' and not ask('given', call.a[0], stag)
        let_through = ask('link_end', state, f, read).n == 'None'
        for_stag = ask('stag_end', f)
        same = ended == for_stag if another else ended == ask('plain_end', state, f, message)
        kinds = ('another',) if another else ()
        self.note('judged', (ended != for_stag or another) and (same or not let_through), kinds if let_through else ('not let through',))

    def memory(self, side: str, before: Value, event: Value) -> None:
        ask, f = self.names.ask, event.a[0]
        segment = self.segment(side, before, f)
        if ask('hello', f) or segment.n != 'Ok' or self.ends[side]['ended'].n != 'None':
            return
        for t in ask('tagged', f, segment.a[0]):
            self.brought[side].append((t['stag'], t['to'], list(t['payload'])))
        request = ask('request', segment.a[0])
        if side == 'client' and request.n == 'Some':
            q = request.a[0]
            got = list(ask('memory', before['state'], f['end'], q['stag']))[q['to']:q['to'] + q['size']]
            response = list(ask('response', q['sink'], q['sink_to'], got))
            same = list(ask('output', self.opened, before, event)) == response
            self.note('offered_memory: reads', same and len(got) == q['size'])

    def regions(self, side: str, before: Value, event: Value) -> None:
        """Which regions an event adds and closes, and which of those that live are needed."""
        old, new, k = before['state']['regions'], self.ends[side]['state']['regions'], self.ends[side]['state']
        law = 'offered_regions: ' + side
        same = all(dict(a, until=None) == dict(b, until=None) for a, b in zip(old, new))
        self.note(law + ' adds', same and len(new) >= len(old))
        added = new[len(old):]
        if side == 'client' and event.n == 'CallSubmitted' and before['ended'].n == 'None':
            again = self.names.ask('waiting', before['state'], event.a[1]['xid']).n == 'Some'
            chunks = [] if again else self.names.ask('chunks', before['state'], event.a[1])
            fields = ('stag', 'right', 'bytes')
            same = [[r[k] for k in fields] for r in added] == [[c[k] for k in fields] for c in chunks]
            own = all(r['from'] == event.a[0] and r['call'] == event.a[1]['xid'] for r in added)
            self.note(law + ' adds', same and own, ('chunks',) if chunks else ())
        elif added:
            f = event.a[0]
            sinks = all(r['right'].n == 'Sink' and not any(r['bytes']) and r['from'] == f['end'] for r in added)
            self.note(law + ' adds', side == 'server' and event.n == 'FrameReceived' and sinks, ('chunks',))
        for i, r in enumerate(new):
            if r['until'].n == 'None':
                self.note(law + ' live', self.is_needed(side, k, r))
            elif i >= len(old) or old[i]['until'].n == 'None':
                at, place = r['until'].a[0], event.a[0]
                revoked = event.n == 'MemoryRevoked'
                closes = event.n == 'FrameReceived' and place['end'] == at
                closes = closes or revoked and place == at and event.a[1] == r['call']
                self.note(law + ' closed', closes and not self.is_needed(side, k, r), ('revoked',) if revoked else ())
                if side == 'client' and event.n == 'FrameReceived':
                    stood = list(self.names.ask('memory', before['state'], place['end'], r['stag']))
                    self.handed.append(('regions_handed_back: messages', {r['stag']: stood}))
            else:
                self.note(law + ' closed', r == old[i])

    def is_needed(self, side: str, k: Value, r: Value) -> bool:
        if side == 'client':
            return any(o['xid'] == r['call'] and not o['is_revoked'] for o in k['outstanding'] + k['waiting'])
        pending = any(c['number'] == r['call'] for c in k['calls'])
        return any(q['number'] == r['call'] and (pending or q['position'] == r['position']) for q in k['reads'])

    def placed(self, side: str, stag: int) -> list[int]:
        """What a region of a side holds after the marks so far."""
        return list(self.names.ask('placed', self.opened, self.number, self.names.side(side), list(self.marks), stag))

    def bytes_of_regions(self) -> None:
        for side in ('client', 'server'):
            for r in self.ends[side]['state']['regions']:
                held = self.placed(side, r['stag'])
                own = list(r['bytes'])
                here = [(to, b) for s, to, b in self.brought[side] if s == r['stag']]
                came = [{x[i - to] for to, x in here if to <= i < to + len(x)} for i in range(len(held))]
                holds = len(held) == len(own) and all(b == own[i] or b in came[i] for i, b in enumerate(held))
                self.note('offered_memory: %s_bytes' % side, holds, ('brought',) if here else ())

    def credits(self) -> None:
        """What the server grants is in range, and what was set last, but at most `low` while it is busy."""
        server, granted, low = self.ends['server'], self.opened['granted'], self.opened['low']
        word = self.names.ask('word', server['state'])
        self.note('server_credits: range', 1 <= word <= granted)
        if server['ended'].n == 'None':
            last = self.names.ask('last_granted', self.number, granted, list(self.marks))
            busy = self.names.ask('busy', server['state'])
            kinds = [k for k, so in (('set', last != granted), ('low', busy and low < last)) if so]
            self.note('server_credits: set', word == (min(low, last) if busy else last), kinds)

    def mark(self, m: Recorded) -> None:
        made = self.names.mark(m)
        if made is None:
            return
        if m['link'] == self.number:
            getattr(self, 'on_' + m['mark'].lower(), lambda m, made: None)(m, made)
            lives = self.ends['client']['ended'].n == 'None'
            self.step(m, made)
            self.marks.append(made)
            self.credits()
            if lives and self.ends['client']['ended'].n != 'None':
                stood = {r['stag']: self.placed('client', r['stag']) for r in self.ends['client']['state']['regions']}
                self.handed.append(('regions_handed_back: ended', stood))
        else:
            self.marks.append(made)

    def on_submit(self, m: Recorded, made: Value) -> None:
        if m['answer']['kind'] != 'Accepted':
            return
        x, state = m['answer']['xid'], self.ends['client']['state']
        c, form = self.names.call(m['call']), self.names.form(m['form'])
        run = list(self.marks)
        out, grant = (call(self.names.run[k], self.opened, self.number, run) for k in ('out', 'grant'))
        self.note('grant', out < grant, () if self.matched else ('not matched',))
        answer = self.names.ask('submit_answer', self.opened, self.number, run, c, form)
        again = self.names.ask('to_resend', self.ends['client'])[:1]
        resent = [w['xid'] for w in again] == [x]
        self.note('grant: accepts', answer.n == 'Accepted' and answer.a[0] == x or resent, ('resent',) if resent else ())
        plan = self.names.ask('plan', state, x, c, form).a[0]
        message = self.names.ask('message', self.opened, state, x, plan)
        self.submits[x] = {'payload': self.names.ask('payload', x, c), 'form': m['form'], 'made': form, 'plan': plan,
                           'offer': self.names.ask('lists_of', state, x, plan), 'message': message,
                           'refused': self.is_refused(message)}
        if m['form']['kind'] != 'Given':
            self.note('chunk_outcomes: own plans', not self.submits[x]['refused'], self.kind(x))

    def is_refused(self, message: list[int]) -> bool:
        """A bad header, or a stream that is there with another read chunk than its item's."""
        header = self.names.ask('header', message)
        if header.n == 'Err':
            fault = header.a[0]
            return fault.n == 'BadChunks' or fault.n == 'Kind' and fault.a[0] not in (3, 4)
        body = header.a[0]['body']
        read = self.names.ask('lists', body)['read']
        if body.n == 'Nomsg' and all(r['position'] != 0 for r in read):
            return True
        known = self.names.ask('known', message, body)
        return known.n == 'Some' and not self.names.ask('suits', known.a[0], read)

    def on_execute(self, m: Recorded, made: Value) -> None:
        x, q, reply = m['xid'], bytes_of(m['payload']), bytes_of(m['reply'])
        state, ask = self.ends['server']['state'], self.names.ask
        number = state['ready'][0]['number']
        self.note('once: Sends', number not in self.numbers, () if self.matched else ('not matched',))
        self.numbers.add(number)
        adds = [] if m.get('kept') else ask('adds', {'seconds': m['seconds'], 'nanos': m['nanos']}, q, reply)
        if not m.get('kept'):
            self.note('journal: places', self.run['entries'] == m['place'], ('adds',) if adds else ())
            self.run['entries'] += len(adds)
        kept = ask('offer', state, x)
        answer = ask('answer', kept, state, q, reply)
        if answer.n == 'Some':
            brings = ask('answer_brings', kept, answer.a[0], q)
            kinds = self.kind(x) if self.matched else ('not matched',)
            self.note('answers_convey', brings.n == 'Some' and list(brings.a[0]) == reply, kinds)
        if adds:
            kinds = self.kind(x) if self.matched else ('not matched',)
            self.note('chunk_outcomes: changes', answer.n == 'Some', kinds)
        held = None
        if self.matched:
            s = self.submits[x]
            self.note('once: xids', x not in self.executes, self.kind(x))
            conveyed = ask('conveyed', s['made'], s['payload'])
            self.note('executed_payloads', conveyed.n == 'Some' and conveyed.a[0] == q, self.kind(x))
            self.note('chunk_outcomes: offers', kept == s['offer'], self.kind(x))
            held = ask('answer', s['offer'], state, q, reply).n == 'Some'
        self.executes[x] = {'reply': reply, 'held': held, 'adds': bool(adds)}

    def has_cause(self, x: int) -> bool:
        return self.submits[x]['refused'] or x in self.executes and not self.executes[x]['held']

    def on_done(self, m: Recorded, made: Value) -> None:
        x, kind = m['xid'], m['outcome']['kind']
        self.note('once: calls', x not in self.dones, self.kind(x))
        self.dones[x] = kind
        own = [r for r in self.ends['client']['state']['regions'] if r['call'] == x]
        if own:
            self.note('regions_handed_back: done', all(r['until'].n == 'Some' for r in own), self.kind(x))
            self.handed.append(('regions_handed_back: done', {r['stag']: self.placed('client', r['stag']) for r in own}))
        if not self.matched:
            return
        e = self.executes.get(x)
        self.note('chunk_outcomes: version', kind != 'Version', self.kind(x))
        if kind == 'Reply':
            same = e is not None and e['reply'] == bytes_of(m['outcome']['payload'])
            self.note('replies_handed_over', same, self.kind(x))
            if self.run['plainly']:
                self.note('replies_are_plain', same, self.kind(x))
                if len(self.run['opened']) > 1:
                    self.note('replies_are_plain: of a link alone', same, self.kind(x))
        why = () if kind != 'Chunk' else ('is refused',) if self.submits[x]['refused'] else ('is not held',)
        self.note('chunk_outcomes: causes', (kind == 'Chunk') == self.has_cause(x), self.kind(x) + why)
        if kind == 'Chunk' and e is not None:
            self.note('chunk_outcomes: nothing_added', not e['adds'], self.kind(x))
        if self.submits[x]['form']['kind'] == 'Auto':
            self.note('chunk_outcomes: auto', kind == 'Reply', self.kind(x))

    def on_revoke(self, m: Recorded, made: Value) -> None:
        held = [r['stag'] for r in self.ends['client']['state']['regions'] if r['call'] == m['xid']]
        self.revoked.append(({s: self.placed('client', s) for s in held}, bytes_of(m['bytes'])))

    def finish(self) -> None:
        self.bytes_of_regions()
        for held, bytes_ in self.revoked:
            same = all(self.placed('client', s) == b for s, b in held.items())
            self.note('touches: revoked', same and sum(held.values(), []) == bytes_, () if self.matched else ('not matched',))
        matched = () if self.matched else ('not matched',)
        for law, stood in self.handed:
            self.note(law, all(self.placed('client', s) == b for s, b in stood.items()), matched)
        mine = [m for m in self.run['marks'] if m['link'] == self.number]
        for side in ('client', 'server'):
            due = list(call(self.names.run['owed'], self.opened, self.number, self.names.side(side), list(self.marks)))
            sent = [b for m in mine if m['mark'] == 'Wrote' and m['side'] == side for b in bytes_of(m['bytes'])]
            self.note('sent_bytes: ' + side, due[:len(sent)] == sent, matched)
            self.items(side, due, len(sent), matched)
        for x, submitted in self.submits.items():
            header = self.names.ask('header', submitted['message'])
            if header.n == 'Ok':
                brings = self.names.ask('send_conveys', self.opened, self.number, self.names.side('client'),
                                        list(self.marks), submitted['message'], header.a[0]['body'])
                want = self.names.ask('conveyed', submitted['made'], submitted['payload'])
                self.note('sends_convey', brings == want, self.kind(x) + matched)
        if self.matched and len(self.hellos) == 2:
            agreed = {s: self.names.ask('agreed_' + s, self.opened, f) for s, f in self.hellos.items()}
            goes = all(self.ends[s]['state'][f] == agreed[s][k] for s in agreed
                       for f, k in (('up_max', 'up'), ('down_max', 'down'), ('invalidates', 'invalidates')))
            larger = agreed['client']['up'] > 1024 or agreed['client']['down'] > 1024
            self.note('sides_agree', agreed['client'] == agreed['server'] and goes, ('larger',) if larger else ())
        # the laws below ask that each Wrote writes all output due
        if not self.matched or any(m.get('cut') for m in mine):
            return
        ends = self.run['ends'][str(self.number)]
        kinds = tuple(sorted({k for x in self.submits for k in self.kind(x)}))
        stops = [s for s in ('client', 'server') if ends[s] is not None]
        has_old_call = any(m['mark'] == 'Old' for m in mine)
        agrees_again = self.names.ask('agrees_again', self.opened)
        for s in ('client', 'server'):
            first, other = ends[s], ends['server' if s == 'client' else 'client']
            stands = agrees_again if s == 'client' else not has_old_call
            if stands and first is not None and (other is None or other['kind'] == 'Terminated'):
                bad = first['kind'] == 'Bad' and first['reason'] in (CALL_REASONS if s == 'server' else REPLY_REASONS)
                self.note('segments_keep_the_rules: ' + s, bad or s == 'client' and first['kind'] == 'Denied', kinds)
        conveys = all(s['form']['kind'] != 'Given' or self.conveys(s) for s in self.submits.values())
        revokes = any(m['mark'] == 'Revoke' for m in mine)
        if conveys and not revokes and agrees_again and not has_old_call:
            self.note('matched_links_stay: stays', not stops, kinds)
        if not revokes and agrees_again and ends['server'] is None:
            self.note('matched_links_stay: clients', ends['client'] is None, kinds)
        def joined(kind: str, side: str) -> str:
            return ''.join(m['bytes'] for m in mine if m['mark'] == kind and m['side'] == side)

        arrived = all(joined('Wrote', s) == joined('Fed', t) for s, t in (('client', 'server'), ('server', 'client')))
        settled = not stops and arrived
        waits = self.names.ask('waits', self.ends['server']['state'], self.ends['server']['ended']).n == 'Some'
        # of a link that was left the record doesn't say how many calls are out
        out = self.run['out'].get(str(self.number))
        if settled and not waits and out is not None:
            given_up = {m['xid'] for m in mine if m['mark'] in ('Forget', 'Revoke', 'Lost')}
            none_waits = not self.ends['client']['state']['waiting']
            self.note('calls_complete', out == 0 and none_waits and all(x in self.dones for x in self.submits if x not in given_up), kinds)
            for x in self.submits:
                if x not in given_up and self.has_cause(x):
                    self.note('chunk_outcomes: completed', self.dones.get(x) == 'Chunk', self.kind(x))

    def items(self, side: str, due: list[int], written: int, kinds: tuple[str, ...]) -> None:
        """The output due as a hello and items, and what has left of it by their bytes."""
        ask, state = self.names.ask, self.ends[side]['state']
        args = (self.opened, self.number, self.names.side(side), list(self.marks))
        items, hello = ask('items', *args), list(ask('hello_due', *args))
        self.note('output_is_items: ' + side, hello + list(ask('items_bytes', items)) == due, kinds)
        if self.ends[side]['ended'].n == 'None':
            counts = ('sends', 'responses') if side == 'client' else ('messages',)
            same = all(ask(c + '_counted', state) == ask(c + '_by_items', len(hello), written, items) for c in counts)
            self.note('counts_go_by_bytes_sent: ' + side, same, kinds)

    def conveys(self, s: Recorded) -> bool:
        """Whether the message of a call conveys a payload with a call head, or is refused by ERR_CHUNK."""
        q = self.names.ask('conveyed', s['made'], s['payload'])
        return bool(q.n == 'Some' and self.names.ask('has_head', q.a[0]).n == 'Ok' or s['refused'])


STATE: dict[str, Any] = {}


def prepare(project: str, spec: Recorded, plain: Recorded) -> None:
    STATE['plain'] = plain
    STATE['names'] = deeply(Roles, project, spec)
    STATE['ends'] = deeply(Ends, STATE['names'].project)


def answers_of(run: Recorded) -> list[str]:
    """Places and replies of a run, as plain_calls prints them."""
    return ['%d %s' % (m['place'], m['reply']) for m in run['marks'] if m['mark'] == 'Execute']


def is_plainly(run: Recorded) -> bool:
    """Whether the replies of a run and their places are those recorded of the plain server."""
    answers = answers_of(run)
    return not answers or answers == STATE['plain'].get(run['name'], {}).get('answers')


def check(run: Recorded) -> list[Finding]:
    def body() -> list[Finding]:
        found: list[Finding] = []
        STATE['ends'].begin()
        run['plainly'], run['entries'] = is_plainly(run), 0
        links = [Link(STATE['names'], run, o['link'], found) for o in run['opened']]
        for m in run['marks']:
            for link in links:
                link.mark(m)
        for link in links:
            link.finish()
        Links(run, {link.number: link for link in links}, found).ask()
        return found
    result: list[Finding] = deeply(body)
    return result


def print_counts(seen: dict[str, dict[str, tuple[int, str]]]) -> None:
    """For each law how often its premises were met, in all and by kind, and the run with the simplest name."""
    for law in LAWS:
        for k, (n, name) in sorted(seen.get(law, {'none': (0, '-')}).items()):
            print('%-34s %-26s %6d  %s' % (law, k or 'in all', n, name))


def simpler(a: str, b: str) -> str:
    """The name that says more: not a random run, and shorter."""
    return min(a, b, key=lambda x: (x.startswith(('random_', 'hostile_')), len(x), x))


def main(argv: list[str]) -> int:
    p = argparse.ArgumentParser(description='Asks of recorded runs what the laws of nr_laws say.')
    p.add_argument('--project', default=ROOT, help='the folder that has the folder crates')
    p.add_argument('--runs', default=RUNS, help='the folder of recorded runs')
    p.add_argument('--plain', default=PLAIN, help='the file of the answers of the plain server')
    p.add_argument('--only', default='', help='runs whose name has this word')
    p.add_argument('--jobs', type=int, default=os.cpu_count() or 1)
    a = p.parse_args(argv)
    with open(NAMES, encoding='utf-8') as h:
        spec = json.load(h)
    with gzip.open(a.plain, 'rt', encoding='utf-8') as h:
        plain = json.load(h)
    try:
        names = deeply(Roles, a.project, spec)
    except CannotEvaluate as e:
        print("can't be evaluated: %s" % e)
        return 2
    runs = [r for r in recorded(a.runs) if set(r['needs']) <= names.has and a.only in r['name']]
    if not runs:
        print('no run is chosen')
        return 2
    runs.sort(key=weight, reverse=True)
    seen: dict[str, dict[str, tuple[int, str]]] = {}
    wrong: list[str] = []
    with multiprocessing.Pool(max(1, a.jobs), prepare, (a.project, spec, plain)) as pool:
        for found in pool.imap_unordered(check, runs):
            for law, holds, kinds, name, at in found:
                for k in ('',) + kinds:
                    here = seen.setdefault(law, {})
                    n, first = here.get(k, (0, name))
                    here[k] = (n + 1, simpler(first, name))
                if not holds:
                    wrong.append('%s: not so in %s at mark %d %s' % (law, name, at, ' '.join(kinds)))
    print_counts(seen)
    for w in sorted(wrong):
        print(w)
    print('%d runs, %d not so' % (len(runs), len(wrong)))
    return 1 if wrong else 0


if __name__ == '__main__':
    sys.exit(main(sys.argv[1:]))
