"""What the laws of nr_laws say of the links of a run together: that places follow, that each change of a client with a
number takes effect once, and what is known of a link that was reopened. laws_of_runs.py asks it of recorded runs."""
from __future__ import annotations

from typing import Any

from check_definitions import Recorded, bytes_of
from values import Value

# lengths of Sends that no hello has agreed on, and the number after the last xid and STag
UNIT, NUMBERS_END = 1024, 2 ** 32
USES = [
    'use Rattle.nr_reduce.specs.SubmitAnswer.{submit_answer_after, calls_to_resend}',
    'use Rattle.nr_reduce.specs.NumberedJournal.{number_heard}',
    'use Rattle.nr_reduce.specs.ClientState.{stag_after}',
    'use Rattle.nr_reduce.specs.Plans.{plan_of}',
    'use Rattle.nr_reduce.specs.Opening.{lengths_before}',
]
ROLES: dict[str, str] = {
    'submit_answer': 'λ opened link run call form. submit_answer_after opened link run call form',
    'to_resend': 'λ ended. calls_to_resend ended',
    'heard': 'λ run link. number_heard run link',
    'stag_after': 'λ stag calls. stag_after stag calls',
    'planned': 'λ xid call form up down. plan_of (call_payload xid call) form up down',
    'lengths': 'λ agreed. lengths_before agreed',
}
LAWS = (
    'grant: accepts',
    'places',
    'once_each: entries',
    'once_each: heard',
    'once_each: completed',
    'once_each: plain',
    'once_each: outcomes',
    'once_each: old',
    'reopening: opened',
    'reopening: agree',
    'reopening: calls',
)


class Links:
    """All links of a run, after its last mark."""

    def __init__(self, run: Recorded, links: dict[int, Any], found: list[Any]) -> None:
        self.run, self.marks, self.links, self.found = run, run['marks'], links, found
        self.before: dict[int, int | None] = {o['link']: o.get('after') for o in run['opened']}
        self.begun = {n: next((i for i, m in enumerate(self.marks) if m['link'] == n), len(self.marks)) for n in links}

    def note(self, law: str, holds: bool, at: int, kinds: tuple[str, ...] = ()) -> None:
        self.found.append((law, holds, kinds, self.run['name'], at))

    def chain(self, link: int) -> list[int]:
        """A link and those that it goes on from, the first one last."""
        out, at = [], link
        while True:
            out.append(at)
            old = self.before[at]
            if old is None:
                return out
            at = old

    def matched(self, link: int) -> bool:
        return all(self.links[n].matched for n in self.chain(link))

    def number(self, link: int) -> int:
        number: int = self.links[link].opened['client']['number']
        return number

    def of(self, kind: str) -> list[tuple[int, Recorded]]:
        return [(i, m) for i, m in enumerate(self.marks) if m['mark'] == kind]

    def ask(self) -> None:
        self.places()
        self.entries()
        self.heard()
        self.plain()
        self.completed()
        self.outcomes()
        self.old()
        for link, old in self.before.items():
            if old is not None:
                self.reopened(old, link)

    def places(self) -> None:
        """A call that is submitted anew after the outcome of another: its place isn't smaller, on whichever later link it is executed."""
        place = {(m['link'], m['xid']): m['place'] for _, m in self.of('Execute')}
        seen: list[int] = []
        for i, m in enumerate(self.marks):
            if m['mark'] == 'Done' and self.links[m['link']].matched and (m['link'], m['xid']) in place:
                seen.append(place[(m['link'], m['xid'])])
            if m['mark'] != 'Submit' or m['answer']['kind'] != 'Accepted' or m.get('resent') or not seen:
                continue
            xid, before = m['answer']['xid'], max(seen)
            for (link, executed), p in place.items():
                if executed == xid and m['link'] in self.chain(link) and self.matched(link):
                    again = ('on a later link',) if link != m['link'] else ()
                    self.note('places', p >= before, i + 1, self.links[m['link']].kind(xid) + again)

    def entries(self) -> None:
        """No two entries are of one call of a client with a number."""
        entries = [(e['client'], e['xid']) for e in self.run.get('journal', ()) if e['client']]
        if entries:
            kinds = ('links after it',) if any(self.before.values()) else ()
            self.note('once_each: entries', len(set(entries)) == len(entries), len(self.marks), kinds)

    def heard(self) -> None:
        """The server of a matched link that executed a call heard the number of its client."""
        for i, m in self.of('Execute'):
            link = self.links[m['link']]
            if link.matched:
                heard = link.names.ask('heard', list(link.marks), m['link'])
                self.note('once_each: heard', heard == self.number(m['link']), i + 1, ('numbered',) if heard else ())

    def added(self, m: Recorded, payload: Value, reply: Value) -> list[Value]:
        moment = {'seconds': m['seconds'], 'nanos': m['nanos']}
        return list(self.links[m['link']].names.ask('adds', moment, payload, reply))

    def journal(self) -> dict[int, tuple[int, int, Recorded, list[Value]]]:
        """The entries by their places: client, xid, the Execute that added each, and the entry."""
        out: dict[int, tuple[int, int, Recorded, list[Value]]] = {}
        for _, m in self.of('Execute'):
            own = [] if m.get('kept') else self.added(m, bytes_of(m['payload']), bytes_of(m['reply']))
            if own:
                out[m['place']] = (self.number(m['link']), m['xid'], m, own)
        return out

    def plain(self) -> None:
        """Where all links of a client are matched a call that is kept has the reply of its entry, and would add just that."""
        journal = self.journal()
        for i, m in self.of('Execute'):
            own = [n for n in self.links if self.number(n) == self.number(m['link'])]
            if m.get('kept') and all(self.matched(n) for n in own):
                entry = journal.get(m['place'])
                adds = self.added(m, bytes_of(m['payload']), bytes_of(m['reply']))
                same = entry is not None and entry[2]['reply'] == m['reply'] and (not adds or adds == entry[3])
                self.note('once_each: plain', same, i + 1, ('adds',) if adds else ())

    def completed(self) -> None:
        """A change that completed on matched links of a client with a number has its one entry, with its own call and reply."""
        journal = list(self.journal().values())
        for i, m in self.of('Done'):
            client = self.number(m['link'])
            if m['outcome']['kind'] != 'Reply' or client == 0 or not self.matched(m['link']):
                continue
            submitted = self.links[m['link']].submits[m['xid']]
            payload = self.links[m['link']].names.ask('conveyed', submitted['made'], submitted['payload'])
            reply = bytes_of(m['outcome']['payload'])
            if payload.n != 'Some' or not self.added({'link': m['link'], 'seconds': 0, 'nanos': 0}, payload.a[0], reply):
                continue
            own = [e for e in journal if e[:2] == (client, m['xid'])]
            holds = len(own) == 1 and bytes_of(own[0][2]['reply']) == reply and self.added(own[0][2], payload.a[0], reply) == own[0][3]
            self.note('once_each: completed', holds, i + 1, ('links before it',) if self.before[m['link']] else ())

    def outcomes(self) -> None:
        """The outcome of a call is handed over once, on one link of its client."""
        seen = [(m['link'], m['xid'], i) for i, m in self.of('Done')]
        for link, xid, i in seen:
            others = [j for other, x, j in seen if x == xid and (other in self.chain(link) or link in self.chain(other))]
            self.note('once_each: outcomes', others == [i], i + 1, ('links before it',) if self.before[link] else ())

    def old(self) -> None:
        """On links that are matched from the first one on a call is old only once the client left the link."""
        for i, m in self.of('Old'):
            if self.matched(m['link']):
                left = any(old == m['link'] and self.begun[n] <= i for n, old in self.before.items())
                self.note('once_each: old', left, i + 1)

    def reopened(self, old: int, link: int) -> None:
        """What is known of a link that goes on from another one."""
        a, b = self.links[old], self.links[link]
        at = self.begun[link]
        self.note('reopening: opened', self.is_opened(b), at, ('sends calls again',) if b.opened['resumed'] else ())
        if a.matched and a.names.ask('agrees_again', a.opened):
            agrees = bool(b.names.ask('agrees_again', b.opened))
            self.note('reopening: agree', agrees, at, ('after a hello',) if b.opened['agreed'].n == 'Some' else ())
        if a.ends['client']['ended'].n == 'Some':
            return
        kinds = ('Forget', 'Revoke', 'Lost')
        given_up = {m['xid'] for m in self.marks[:at] if m['link'] == old and m['mark'] in kinds}
        came = {c['xid'] for c in a.ends['client']['state']['outcomes']}
        again = {r['xid'] for r in b.opened['resumed']}
        for xid in sorted(set(a.submits) | {r['xid'] for r in a.opened['resumed']}):
            if xid not in given_up:
                self.note('reopening: calls', xid in came or xid in again, at, ('sent again',) if xid in again else ())

    def is_opened(self, link: Any) -> bool:
        """Its numbers are in range, and its calls rise and are planned for lengths of Sends up to those that were agreed on."""
        ask, o = link.names.ask, link.opened
        agreed = ask('lengths', o['agreed'])
        first = 1
        for r in o['resumed']:
            lengths = ((UNIT, UNIT), (agreed['up'], agreed['down']))
            plans = [ask('planned', r['xid'], r['call'], r['form'], up, down) for up, down in lengths]
            if r['xid'] < first or all(p.n != 'Ok' or p.a[0] != r['plan'] for p in plans):
                return False
            first = r['xid'] + 1
        stags = ask('stag_after', o['first_stag'], o['resumed'])
        in_range = all(UNIT <= agreed[k] for k in ('up', 'down'))
        return bool(first <= o['first_xid'] <= NUMBERS_END and 0 < o['first_stag'] and stags <= NUMBERS_END and in_range)
