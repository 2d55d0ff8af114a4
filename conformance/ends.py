"""Both ends of a link after the marks of a run, computed mark by mark instead of from all marks each time.

The definitions `client`, `server` and `output_due` of nr_reduce go over all marks of a run; asked again after each further mark,
they take most of the time. They are folds over the events of marks, so what is known of the marks so far is kept."""
from antt import Project
from values import Fn, Value, call

RUN = 'Rattle.nr_reduce.specs.Run'
USES = (
    'use Rattle.nr_wire.specs.declared.hello.Side.TheVariants.{Initiator, Responder}',
    'use Rattle.nr_reduce.specs.Hellos.{client_hello}',
    'use Rattle.nr_reduce.specs.Events.{events_at}',
    'use Rattle.nr_reduce.specs.EndRules.{next_end_state, output_for}',
    'use Rattle.nr_reduce.specs.Client.{client_rules, initial_client}',
    'use Rattle.nr_reduce.specs.Server.{server_rules, initial_server}',
)
ROLES = {
    'Initiator': 'Initiator', 'Responder': 'Responder', 'hello': 'λ opened. client_hello opened',
    'events': 'λ link side before mark. events_at link side before mark',
    'first Initiator': 'λ opened. initial_client opened', 'first Responder': 'λ opened. initial_server opened',
    'next Initiator': 'λ opened state event. next_end_state (client_rules opened) state event',
    'next Responder': 'λ opened state event. next_end_state (server_rules opened) state event',
    'output Initiator': 'λ opened state event. output_for (client_rules opened) state event',
    'output Responder': 'λ opened state event. output_for (server_rules opened) state event',
}


class Ends:
    """What is known of the ends of each link of one run."""

    def __init__(self, project: Project) -> None:
        module = project.read('ends', '')
        for u in USES:
            project.use(module, u)
        self.role = {k: project.expression(module, text) for k, text in ROLES.items()}
        self.known: dict[tuple[int, str], tuple[list[Value], Value, list[int]]] = {}
        project.replace(RUN, 'client', Fn(3, lambda opened, link, run: self.end(opened, link, 'Initiator', run)[0]))
        project.replace(RUN, 'server', Fn(3, lambda opened, link, run: self.end(opened, link, 'Responder', run)[0]))
        project.replace(RUN, 'output_due', Fn(4, lambda opened, link, side, run: self.end(opened, link, side.n, run)[1]))

    def begin(self) -> None:
        """Another run: nothing is known of it."""
        self.known = {}

    def end(self, opened: Value, link: int, side: str, run: list[Value]) -> tuple[Value, list[int]]:
        """The state of an end after these marks, and its output due."""
        ask = self.role
        hello = list(call(ask['hello'], opened)) if side == 'Initiator' else []
        first: tuple[list[Value], Value, list[int]] = ([], call(ask['first ' + side], opened), hello)
        marks, state, due = self.known.get((link, side), first)
        if len(marks) > len(run) or any(a is not b for a, b in zip(marks, run)):
            marks, state, due = first
        for i in range(len(marks), len(run)):
            for event in call(ask['events'], link, ask[side], run[:i], run[i]):
                due = due + call(ask['output ' + side], opened, state, event)
                state = call(ask['next ' + side], opened, state, event)
        self.known[(link, side)] = (list(run), state, due)
        return state, due
