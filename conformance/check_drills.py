"""Evaluates the definitions of a drill on the recorded scripts: the marks that a script makes, and what is printed of them.

    python3 conformance/check_drills.py [--only WORD] [--jobs N] [--drains]
    python3 conformance/check_drills.py --record PROGRAM

It takes the scripts of scripts.json.gz and of rejoin_scripts.json.gz that run, and those of drills.json.gz, with what the built nfsrdma
printed of them. Of a script that is generated it also evaluates the generator, whose script must be what the text says, and the line
of sums. The replies of the plain server are those recorded in plain_scripts.json.gz and plain_rejoin.json.gz; with --record those of
the first are asked of the built plain_calls, and recorded. With --drains it makes each drain step by step, and asks that each step of a link that moves something leaves less work, as long as no
line before put bytes into the pipes of the link. Exit status: 0 all agree, 1 some differ, 2 nothing could be run."""
import argparse
import gzip
import json
import multiprocessing
import os
import subprocess
import sys
import traceback
from typing import Any

from antt import ROOT, Project
from check_definitions import HERE, NAMES, RUNS, Names, Recorded, recorded, shorten
from compare_scripts import recorded_scripts
from ends import Ends
from values import NONE, CannotEvaluate, Fn, Value, call, deeply, show, some

PLAIN = os.path.join(HERE, 'plain_scripts.json.gz')
DRILLS = os.path.join(HERE, 'drills.json.gz')
# the same of scripts in which clients begin further links
REJOIN_PLAIN = os.path.join(HERE, 'plain_rejoin.json.gz')
ROUNDS_MAX = 10_000
USES = (
    'use Rattle.nr_plain.specs.Added.{entries_of_call}',
    'use Rattle.nr_script.specs.Script.{script_of}',
    'use Rattle.nr_script.specs.Generator.{made_script}',
    'use Rattle.std.specs.Prelude.{length}',
    'use Rattle.nr_reduce.specs.Run.{server}',
    'use Rattle.nr_drill.specs.Drill.{pipes_of, after_round, setting_now}',
    'use Rattle.nr_drill.specs.Follows.{after_line, is_still, setting_of, opened_drill}',
    'use Rattle.nr_drill.specs.WorkLeft.{after_step, work_left}',
    'use Rattle.nr_drill.specs.WorkLeft.DrainStep.{AllUp, Work, AllDown}',
    'use Rattle.nr_drill.specs.Lines.{is_raw_of}',
    'use Rattle.nr_drill.specs.Shown.{shown, summary}',
)
ROLES = {
    'adds': 'λ moment payload reply. entries_of_call moment payload reply', 'script_of': 'λ text. script_of text',
    'now': 'λ setting drill. setting_now setting drill', 'round': 'λ setting links drill. after_round setting links drill',
    'line': 'λ setting line drill. after_line setting line drill', 'still': 'λ setting drill link. is_still setting drill link',
    'setting': 'λ server opening. setting_of server opening', 'opened': 'λ server opening. opened_drill server opening',
    'shown': 'λ setting links run. shown setting links run', 'sums': 'λ setting links run. summary setting links run',
    'made': 'λ seed clients calls. made_script seed clients calls',
    'up': 'λ setting link drill. after_step setting link AllUp drill', 'work': 'λ setting link drill. after_step setting link Work drill',
    'down': 'λ setting link drill. after_step setting link AllDown drill', 'left': 'λ setting drill link. work_left setting drill link',
    'ready': 'λ setting link drill. length (server (setting.opened link) link drill.marks).state.ready',
    'waiting': 'λ link drill. pipes_of link drill', 'raw': 'λ link line. is_raw_of link line',
}


class Answers:
    """The plain server of a script: what was recorded, or what plain_calls answers now."""

    def __init__(self, recorded: dict[str, str], program: str | None, capacity: int) -> None:
        self.recorded, self.program, self.capacity = recorded, program, capacity
        self.lines: list[str] = []

    def reply_to(self, journal: list[Value], moment: Value, payload: list[int]) -> Value:
        digits = bytes(payload).hex() or '-'
        key = '%d %d %s' % (len(journal), moment['seconds'], digits)
        if key not in self.recorded:
            if self.program is None:
                raise CannotEvaluate('no reply is recorded of a call at place %d' % len(journal))
            self.recorded[key] = self.asked(moment['seconds'], digits)
        reply = self.recorded[key]
        return NONE if reply == 'none' else some(list(bytes.fromhex(reply)))

    def asked(self, seconds: int, digits: str) -> str:
        """The reply of the program after the calls so far."""
        self.lines.append('%d %s\n' % (seconds, digits))
        text = 'capacity %d\n' % self.capacity + ''.join(self.lines)
        done = subprocess.run([str(self.program)], input=text, stdout=subprocess.PIPE, text=True, check=True)
        answer = done.stdout.splitlines()[len(self.lines) - 1].split(' ')
        return 'none' if answer[0] == 'notcall' else answer[1]


class Drills:
    """The definitions of a drill."""

    def __init__(self, root: str, by_steps: bool = False) -> None:
        self.project = Project(root)
        module = self.project.read('names', '')
        for u in USES:
            self.project.use(module, u)
        self.role = {k: self.project.expression(module, text) for k, text in ROLES.items()}
        self.ends = Ends(self.project)
        self.by_steps = by_steps
        self.steps = 0

    def ask(self, role: str, *args: Value) -> Value:
        return call(self.role[role], *args)

    def read(self, text: str) -> Value:
        """What a text says: a script, or the number of its first invalid line."""
        return self.ask('script_of', list(text.encode('latin-1')))

    def made(self, script: Value, answers: Answers) -> tuple[Value, Value]:
        """What a script is made with, and the drill after its last line."""
        self.ends.begin()
        server = {'reply_to': Fn(3, answers.reply_to), 'adds': self.role['adds']}
        opening = script['opening']
        setting, drill = self.ask('setting', server, opening), self.ask('opened', server, opening)
        calm = set(drill['last_links'])
        for line in script['lines']:
            if line.n == 'Drain':
                drill = self.drained(self.ask('now', setting, drill), drill['last_links'], drill, calm)
            else:
                drill = self.ask('line', setting, line, drill)
            calm = {link for link in calm if not self.ask('raw', link, line)}
        return setting, drill

    def printed(self, script: Value, answers: Answers) -> tuple[str, str, list[Value]]:
        """What is printed of a script: the report, and the line of sums; and its marks."""
        setting, drill = self.made(script, answers)
        now, last = self.ask('now', setting, drill), drill['last_links']
        texts = (self.ask('shown', now, last, drill['marks']), self.ask('sums', now, last, drill['marks']))
        return bytes(texts[0]).decode('latin-1'), bytes(texts[1]).decode('latin-1'), drill['marks']

    def stepped(self, setting: Value, link: int, step: str, drill: Value, calm: set[int]) -> Value:
        """A drill after a step of a link, which leaves less work if it moves something and no raw line was of the link."""
        moves = step == 'work' or self.ask('waiting', link, drill)[step] != []
        after = self.ask(step, setting, link, drill)
        if step == 'work':
            moves = after['marks'] != drill['marks']
        if moves and link in calm:
            self.steps += 1
            old, new = self.ask('left', setting, drill, link), self.ask('left', setting, after, link)
            if not new < old:
                raise CannotEvaluate('%s of link %d leaves %r of %r' % (step, link, new, old))
        return after

    def one_round(self, setting: Value, links: list[int], drill: Value, calm: set[int]) -> Value:
        """A drill after a round, step by step."""
        for link in links:
            drill = self.stepped(setting, link, 'up', drill, calm)
            for _ in range(self.ask('ready', setting, link, drill)):
                drill = self.stepped(setting, link, 'work', drill, calm)
            drill = self.stepped(setting, link, 'down', drill, calm)
        return drill

    def drained(self, setting: Value, links: list[int], drill: Value, calm: set[int]) -> Value:
        """A drill after rounds until nothing moves."""
        for _ in range(ROUNDS_MAX):
            if all(self.ask('still', setting, drill, link) for link in links):
                return drill
            after = self.ask('round', setting, links, drill)
            if self.by_steps and self.one_round(setting, links, drill, calm) != after:
                raise CannotEvaluate('the steps of a round make another drill')
            drill = after
        raise CannotEvaluate('a drain of more than %d rounds' % ROUNDS_MAX)


STATE: dict[str, Any] = {}


def prepare(project: str, plain: dict[str, dict[str, str]], program: str | None, by_steps: bool) -> None:
    STATE.update(drills=deeply(Drills, project, by_steps), plain=plain, program=program)
    with open(NAMES, encoding='utf-8') as h:
        STATE['names'] = deeply(Names, project, json.load(h))
    STATE['runs'] = {r['name']: r for r in recorded(RUNS) if 'rejoin' in r['needs']}


def wanted_of(script: Recorded) -> tuple[str, str | None]:
    """The report, and the line of sums if it was recorded."""
    return script['stdout'], script.get('sums')


def first_difference(computed: str, wanted: str) -> str | None:
    """The first line that differs."""
    if computed == wanted:
        return None
    pairs = zip(computed.split('\n') + [''], wanted.split('\n') + [''])
    got, want = next((a, b) for a, b in pairs if a != b)
    return 'wanted %s, computed %s' % (shorten(repr(want), 200), shorten(repr(got), 200))


def compared(drills: Drills, script: Recorded, answers: dict[str, str]) -> str | None:
    """What differs between a recorded script and the definitions."""
    read = drills.read(script['script'])
    if read.n != 'Ok':
        return 'it is no script, at line %d' % read.a[0]
    if 'seed' in script and drills.ask('made', script['seed'], script['clients'], script['calls']) != read.a[0]:
        return 'it is not the script that is made from its seed'
    text, sums, marks = drills.printed(read.a[0], Answers(answers, STATE['program'], read.a[0]['opening']['capacity']))
    report, line = wanted_of(script)
    problem = first_difference(text, report) or (first_difference(sums, line) if line is not None else None)
    return problem or marks_differ(script['name'], marks)


def in_order(marks: list[Recorded]) -> list[Recorded]:
    """Done marks that one piece brings, in the order of their Submits: the record has them as they came."""
    out: list[Recorded] = []
    for m in marks:
        at = len(out)
        while m['mark'] == 'Done' and at > 0 and out[at - 1]['mark'] == 'Done' and out[at - 1]['link'] == m['link'] and out[at - 1]['xid'] > m['xid']:
            at -= 1
        out.insert(at, m)
    return out


def marks_differ(name: str, marks: list[Value]) -> str | None:
    """Whether the marks of a script are those of the recorded run of its name, if there is one."""
    run = STATE['runs'].get(name)
    if run is None:
        return None
    wanted = [STATE['names'].mark(m) for m in in_order(run['marks'])]
    for i, (w, c) in enumerate(zip(wanted, marks)):
        if w != c:
            return 'mark %d: wanted %s, computed %s' % (i + 1, shorten(show(w), 200), shorten(show(c), 200))
    return None if len(wanted) == len(marks) else 'wanted %d marks, computed %d' % (len(wanted), len(marks))


def check(script: Recorded) -> tuple[str, str | None, dict[str, str]]:
    """The name of a script, what differs, and the replies of the plain server."""
    answers = dict(STATE['plain'].get(script['name'], {}))
    try:
        return script['name'], deeply(compared, STATE['drills'], script, answers), answers
    except CannotEvaluate as e:
        return script['name'], "can't be evaluated: %s" % e, answers
    except Exception as e:
        lines = traceback.format_exc().strip().split('\n')
        return script['name'], "can't be evaluated: %r (%s)" % (e, ' '.join(x.strip() for x in lines[-3:-1])), answers


def scripts_that_run() -> list[Recorded]:
    """The scripts of all files; drills.json.gz may be missing."""
    scripts = recorded_scripts()
    if os.path.exists(DRILLS):
        with gzip.open(DRILLS, 'rt', encoding='utf-8') as h:
            scripts += json.load(h)
    return [s for s in scripts if s['status'] == 0]


def main(argv: list[str]) -> int:
    p = argparse.ArgumentParser(description='Evaluates the definitions of a drill on the recorded scripts.')
    p.add_argument('--project', default=ROOT, help='the folder that has the folder crates')
    p.add_argument('--only', default='', help='scripts whose name has this word')
    p.add_argument('--drains', action='store_true', help='ask of each step of a drain that it leaves less work')
    p.add_argument('--record', metavar='PROGRAM', help='ask the built plain_calls, and record its replies')
    p.add_argument('--jobs', type=int, default=os.cpu_count() or 1)
    a = p.parse_args(argv)
    scripts = [s for s in scripts_that_run() if a.only in s['name']]
    plain: dict[str, dict[str, str]] = {}
    if os.path.exists(PLAIN):
        with gzip.open(PLAIN, 'rt', encoding='utf-8') as h:
            plain = json.load(h)
    with gzip.open(REJOIN_PLAIN, 'rt', encoding='utf-8') as h:
        plain.update(json.load(h))
    try:
        deeply(Drills, a.project)
    except CannotEvaluate as e:
        print("can't be evaluated: %s" % e)
        return 2
    if not scripts:
        print('no script is chosen')
        return 2
    scripts.sort(key=lambda s: len(s['script']), reverse=True)
    differ = 0
    with multiprocessing.Pool(max(1, a.jobs), prepare, (a.project, plain, a.record, a.drains)) as pool:
        for name, problem, answers in pool.imap_unordered(check, scripts):
            plain[name] = answers
            if problem is not None:
                differ += 1
                print('%s: %s' % (name, problem), flush=True)
    if a.record:
        with gzip.GzipFile(PLAIN, 'wb', mtime=0) as f:
            f.write(json.dumps(plain, separators=(',', ':'), sort_keys=True).encode())
    print('%d scripts, %d differ' % (len(scripts), differ))
    return 1 if differ else 0


if __name__ == '__main__':
    sys.exit(main(sys.argv[1:]))
