"""Makes of each recorded run what its clients' ends keep, by the definitions of nr_requester, nr_endpoint and nr_regions.

    python3 conformance/requesters_of_runs.py [--only WORD] [--runs FOLDER] [--jobs N]

check_definitions.py asks the definitions of a run (nr_reduce). Here a requester is opened, and takes each mark of its
client as one call: what it answers, writes, hands over and gives back is compared with the run, and at the end why it
ended, what is outstanding and granted, what is agreed, and its registered memory, of which nothing is dead while it
lives. Exit status: 0 all agree, 1 some differ, 2 nothing could be run."""
import argparse
import json
import multiprocessing
import os
import sys
from typing import Any

from antt import ROOT
from check_definitions import NAMES, RUNS, Names, Recorded, bytes_of, recorded, weight
from values import CannotEvaluate, Value, call, deeply

USES = (
    'use Rattle.nr_requester.specs.AfterCalls.{opened_as, after_submit, after_drain, after_revoke, after_forget}',
    'use Rattle.nr_requester.specs.AfterPiece.{after_fed}',
    'use Rattle.nr_requester.specs.Answers.{answer_of, plan_under}',
    'use Rattle.nr_requester.specs.RequesterState.{queue_of}',
    'use Rattle.nr_requester.specs.OpenCalls.{found_answer, buffers_of}',
    'use Rattle.nr_requester.specs.Buffers.{bytes_of_buffers}',
)
ROLES = {
    'opened': 'λ o. opened_as o.first_xid o.first_stag o.wished o.client []',
    'answer': 'λ h call form. answer_of h.state call form',
    'plan': 'λ h call form. plan_under h.state call form',
    'submitted': 'λ h call plan. after_submit h call plan',
    'queue': 'λ h. queue_of h.state',
    'drained': 'λ h n. after_drain n h',
    'fed': 'λ h piece. after_fed h piece []',
    'found': 'λ h xid. found_answer xid h.state',
    'forgotten': 'λ h xid. after_forget h xid',
    'buffers': 'λ h xid. bytes_of_buffers (buffers_of xid h.state)',
    'revoked': 'λ h xid. after_revoke h xid',
}
STATE: dict[str, Any] = {}


class Requesters(Names):
    def __init__(self, root: str, spec: Recorded) -> None:
        super().__init__(root, spec)
        for u in USES:
            self.project.use(self.module, u)
        self.role = {k: self.project.expression(self.module, text) for k, text in ROLES.items()}

    def ask(self, role: str, *args: Value) -> Value:
        return call(self.role[role], *args)


class Differs(Exception):
    """A difference: what, what the run has, what the definitions give."""


class Client:
    """The client of one link of a run."""

    def __init__(self, names: Requesters, run: Recorded, link: int) -> None:
        self.names, self.run, self.link, self.compared, self.mark = names, run, link, 0, 0
        self.h = names.ask('opened', names.opened(next(o for o in run['opened'] if o['link'] == link)))

    def compare(self, what: str, want: Value, have: Value) -> None:
        self.compared += 1
        if want != have:
            raise Differs('link %d, mark %d: %s: wanted %.300r, computed %.300r' % (self.link, self.mark, what, want, have))

    def next(self, role: str, *args: Value) -> None:
        self.h = self.names.ask(role, self.h, *args)

    def submit(self, m: Recorded) -> None:
        made, form = self.names.call(m['call']), self.names.form(m['form'])
        answer = self.names.answer(m['answer'])
        self.compare('answer', answer, self.names.ask('answer', self.h, made, form))
        if m['answer']['kind'] == 'Accepted':
            self.next('submitted', made, self.names.ask('plan', self.h, made, form).a[0])

    def wrote(self, m: Recorded) -> None:
        written, queue = list(bytes_of(m['bytes'])), list(self.names.ask('queue', self.h))
        self.compare('bytes written', written, queue[:len(written)] if m.get('cut') else queue)
        self.next('drained', len(written))

    def done(self, m: Recorded) -> None:
        found = self.names.ask('found', self.h, m['xid'])
        self.compare('outcome', self.names.outcome(m['outcome']), found.a[0]['outcome'] if found.n == 'Some' else None)
        self.next('forgotten', m['xid'])

    def revoke(self, m: Recorded) -> None:
        self.compare('bytes given back', list(bytes_of(m['bytes'])), list(self.names.ask('buffers', self.h, m['xid'])))
        self.next('revoked', m['xid'])

    def take(self, m: Recorded) -> None:
        kind = m['mark']
        if kind == 'Submit' and m['answer']['kind'] != 'Dropped':
            self.submit(m)
        elif kind == 'Wrote' and m['side'] == 'client':
            self.wrote(m)
        elif kind == 'Fed' and m['side'] == 'client':
            self.next('fed', list(bytes_of(m['bytes'])))
        elif kind == 'Done':
            self.done(m)
        elif kind == 'Forget':
            self.next('forgotten', m['xid'])
        elif kind == 'Revoke':
            self.revoke(m)

    def ends(self) -> None:
        state, link = self.h['state'], str(self.link)
        side, end = state['side'], self.run['ends'][link]['client']
        self.compare('end', self.names.optional_end(end), side['ended'])
        agreed = self.run.get('agreed', {}).get(link)
        if agreed is not None:
            self.compare('what is agreed', agreed['client'], side['agreed'])
        if end is None:
            self.compare('calls that are out', self.run['out'][link], len(state['outstanding']))
            self.compare('calls that are granted', self.run['grant'][link], state['grant'])
            regions = sorted((r['stag'], list(bytes_of(r['bytes']))) for r in self.run['memory'][link]['client'])
            self.compare('memory', regions, [(stag, list(r['buf'])) for stag, r in side['memory']['held']])
            self.compare('dead regions', [], [stag for stag, dead in side['memory']['dead'] if dead])


def prepare(root: str, spec: Recorded) -> None:
    STATE['names'] = deeply(Requesters, root, spec)


def check(run: Recorded) -> tuple[str, str | None, int]:
    n = 0
    try:
        for o in run['opened']:
            client = Client(STATE['names'], run, o['link'])
            for client.mark, m in enumerate(run['marks'], 1):
                if m['link'] == o['link']:
                    deeply(client.take, m)
            client.ends()
            n += client.compared
    except (Differs, CannotEvaluate) as e:
        return run['name'], str(e), n
    return run['name'], None, n


def main(argv: list[str]) -> int:
    p = argparse.ArgumentParser(description='Makes of recorded runs what the ends of their clients keep.')
    p.add_argument('--project', default=ROOT, help='the folder that has the folder crates')
    p.add_argument('--runs', default=RUNS, help='the folder of recorded runs')
    p.add_argument('--only', default='', help='runs whose name has this word')
    p.add_argument('--jobs', type=int, default=os.cpu_count() or 1)
    a = p.parse_args(argv)
    with open(NAMES, encoding='utf-8') as h:
        spec = json.load(h)
    try:
        has = deeply(Requesters, a.project, spec).has
    except CannotEvaluate as e:
        print("can't be evaluated: %s" % e)
        return 2
    runs = [r for r in recorded(a.runs) if set(r['needs']) <= has and a.only in r['name']]
    if not runs:
        print('no run is chosen')
        return 2
    compared, differ = 0, 0
    with multiprocessing.Pool(max(1, a.jobs), prepare, (a.project, spec)) as pool:
        for name, problem, n in pool.imap_unordered(check, sorted(runs, key=weight, reverse=True)):
            compared += n
            if problem is not None:
                differ += 1
                print('%s: %s' % (name, problem), flush=True)
    print('%d comparisons' % compared)
    print('%d runs, %d differ' % (len(runs), differ))
    return 1 if differ else 0


if __name__ == '__main__':
    sys.exit(main(sys.argv[1:]))
