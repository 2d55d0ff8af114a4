"""Runs random scripts of a drill, and compares what is printed with what the plain server answers.

    python3 conformance/random_drills.py [--seed N] [--scripts N] [--lines N] [--program NFSRDMA] [--plain PLAIN_CALLS] [--jobs N]

Half of the scripts have lines call, up, work, down and grant, and a drain at the end; the other half also have bytes of a peer that keeps to no
rule, on links whose calls change nothing. In four of ten the clients have numbers: they drop links, leave them and go on over further ones. Some
calls, most of them after a drain, are large: READs and WRITEs of up to 1,048,577 bytes in each form, offers and payloads at 1,056,768 bytes and
one more. Of each script: the status is 0, nothing is reported, each call line has one printed line; a call is refused for what it offers or its
payload if that is more than 1,056,768 bytes, with this number, and no other is; each call that is done has the reply that plain_calls gives at
its place, and the places of the changes are 0, 1, 2 and so on up to the journal's length; and what ended a side of a link in the first half of a
script ends it in the complete script, unless its client left it. A link without such bytes doesn't end, and all its calls are done or refused.
Exit status: 0 all as expected, 1 something differs, 2 there is no program."""
import argparse
import os
import random
import re
import struct
import subprocess
import sys
from multiprocessing.pool import ThreadPool
from typing import NamedTuple

from antt import ROOT

CAPACITY = 1 << 40
# a READ or WRITE moves at most 2^20 bytes; a payload, or what a given form offers, has at most so many; a segment of a chunk has at most 66048
TRANSFER_MAX, PAYLOAD_MAX, SEGMENT = 1048576, 1056768, 66048
LARGE_SIZES = (SEGMENT - 1, SEGMENT, SEGMENT + 1, 2 * SEGMENT + 1, 15 * SEGMENT + 1, TRANSFER_MAX - 1, TRANSFER_MAX, TRANSFER_MAX + 1)
LARGE_CALLS, LARGE_WRITES = 8, 3
# SETATTR, WRITE, CREATE, MKDIR, SYMLINK, MKNOD, REMOVE, RMDIR, RENAME, LINK: with status 0 each is an entry of the journal
CHANGING = (2, 7, 8, 9, 10, 11, 12, 13, 14, 15)
READING = (0, 1, 3, 4, 5, 6, 16, 17, 18, 19, 20, 21)
NAMES = (b'hello', b'link', b'many', b'f00', b'f99', b'.', b'..', b'', b'a/b', b'n' * 255, b'n' * 256) + tuple(b'new%d' % n for n in range(24))
PRINTED = re.compile(r'(\d+) (\d+) (place (\d+) reply ([0-9a-f]+)|place \d+ chunk|chunk|lost|open|refused (?:credit|large|ended|window).*)')
ENDED = re.compile(r'link \d+ (?:(?:client|server) (?:bad|denied|nobuffer|terminated) .*|dropped)')


class Call(NamedTuple):
    """A call line: its client, what it calls, its credential, and how many bytes its given form offers."""
    client: int
    prog: str
    proc: int
    args: bytes
    cred: bytes
    offered: int


class Done(NamedTuple):
    """A call that is done: the place and the reply, and the payload of the call."""
    place: int
    changes: bool
    reply: str
    payload: bytes


def words(*numbers: int) -> bytes:
    return struct.pack('>%dI' % len(numbers), *numbers)


def opaque(octets: bytes) -> bytes:
    return words(len(octets)) + octets + bytes(-len(octets) % 4)


def credential(uid: int, gid: int) -> bytes:
    """AUTH_SYS of a drill, and a verifier of AUTH_NONE."""
    return words(1) + opaque(words(0) + opaque(b'drill') + words(uid, gid, 0)) + words(0, 0)


class Maker:
    """Makes a script from a seed."""

    def __init__(self, seed: int, lines: int, hostile: bool) -> None:
        self.rng = random.Random(seed)
        self.clients, self.credits = self.rng.randint(1, 16), self.rng.choice((1, 4, 16, 64))
        self.hostile = [c for c in range(1, self.clients + 1) if hostile and (c == 1 or self.rng.random() < 0.4)]
        self.creds = {c: words(0, 0, 0, 0) for c in range(1, self.clients + 1)}
        self.calls: list[Call] = []
        # those that dropped their link, and the line at which each client last left one
        self.numbered, self.dropped, self.left = self.rng.random() < 0.4, set[int](), dict[int, int]()
        self.lines = ['clients %d credits %d' % (self.clients, self.credits) + ' numbered' * self.numbered]
        for c in self.creds:
            if self.rng.random() < 0.7:
                uid, gid = self.rng.choice(((0, 0), (5, 6)))
                self.creds[c] = credential(uid, gid)
                self.lines.append('cred %d %d %d' % (c, uid, gid))
        large = set(self.rng.sample(range(lines), min(lines, LARGE_CALLS)))
        self.writes = 0
        for at in range(lines):
            self.lines += self.large() if at in large else [self.line()]
        self.lines += [self.leave(c) for c in sorted(self.dropped)] + ['drain']

    def text(self, lines: int) -> str:
        return ''.join(it + '\n' for it in self.lines[:lines])

    def line(self) -> str:
        c = self.rng.randint(1, self.clients)
        if self.numbered and (c in self.dropped or self.rng.random() < 0.02):
            return self.leave(c)
        if c in self.hostile and self.rng.random() < 0.003:
            return 'raw %d %s %s' % (c, self.rng.choice(('up', 'down')), self.raw().hex())
        if self.rng.random() < 0.04:
            return 'grant %d %d' % (c, self.rng.randint(1, self.credits))
        kind = self.rng.choice(('call', 'up', 'up', 'work', 'down', 'down'))
        if kind == 'call':
            return self.call(c)
        return 'work %d' % c if kind == 'work' else '%s %d %d' % (kind, c, self.rng.choice((1, 19, 92, 200, 1000, 4096, 4294967295)))

    def leave(self, c: int) -> str:
        """A client goes on over its next link, or drops its link before."""
        if c not in self.dropped and self.rng.random() < 0.3:
            self.dropped.add(c)
            return 'drop %d' % c
        self.dropped.discard(c)
        self.left[c] = len(self.lines)
        return 'rejoin %d' % c

    def raw(self) -> bytes:
        """Random bytes; a frame with a random ULPDU; or a Terminate, an RDMA Write, a Read Request or a Send with a random message."""
        r = self.rng
        octets = r.randbytes(r.randint(1, 60))
        if r.random() < 0.4:
            return octets
        heads = (b'', b'\x41\x47' + words(0, 2, 1, 0), b'\xc1\x40' + words(r.randint(1, 9), 0, r.randint(0, 9)),
                 b'\x41\x41' + words(0, 1, r.randint(1, 3), 0), b'\x41\x43' + words(0, 0, r.randint(1, 9), 0))
        ulpdu = r.choice(heads) + octets
        framed = struct.pack('>H', len(ulpdu)) + ulpdu
        return framed + bytes(-len(framed) % 4 + 4)

    def call(self, c: int) -> str:
        if self.rng.random() < 0.03:
            prog, proc, args = 'mnt', self.rng.choice((0, 1, 3, 4)), opaque(self.rng.choice((b'/', b'/x')))
        else:
            prog, proc = 'nfs', self.rng.choice(READING if c in self.hostile else READING + CHANGING)
            args = self.args(proc)
        if self.rng.random() < 0.02:
            args = args[:self.rng.randint(0, len(args))]
        form = self.rng.choice(('auto', 'auto', 'auto', 'inline', 'chunk', 'long', 'given:write=%d,%d;reply=%d' % (
            self.rng.randint(1, 900), self.rng.randint(1, 4000), self.rng.choice((32, 300, 40000)))))
        return self.call_line(c, form, prog, proc, args)

    def call_line(self, c: int, form: str, prog: str, proc: int, args: bytes) -> str:
        offered = sum(int(n) for n in re.findall(r'[=,](\d+)', form))
        self.calls.append(Call(c, prog, proc, args, self.creds[c], offered))
        return 'call %d %s %s %d %s' % (c, form, prog, proc, args.hex() or '-')

    def large(self) -> list[str]:
        """A READ or WRITE of many bytes, most of them after a drain, so that there is a credit for it."""
        r = self.rng
        c = r.randint(1, self.clients)
        size = r.choice(LARGE_SIZES + (r.randint(SEGMENT, TRANSFER_MAX + 1),))
        handle = opaque((2).to_bytes(8, 'big')) if r.random() < 0.7 else self.handle()
        before = ([self.leave(c)] if c in self.dropped else []) + ['drain'] * (r.random() < 0.8)
        if c in self.hostile or self.writes == LARGE_WRITES or r.random() < 0.4:
            args = handle + words(0, r.choice((0, 0, 5, SEGMENT, TRANSFER_MAX))) + words(size)
            return before + [self.call_line(c, self.large_form(), 'nfs', 6, args)]
        self.writes += 1
        head = 44 + len(self.creds[c]) + len(handle)
        if r.random() < 0.1:
            size = PAYLOAD_MAX - head + r.choice((0, 1))
        args = handle + words(0, r.choice((0, 0, 5, SEGMENT))) + words(size, r.randint(0, 2)) + opaque(r.randbytes(size))
        lengths = [SEGMENT] * (size // SEGMENT) + [size % SEGMENT] * (size % SEGMENT > 0)
        parts = r.choice(('', ';write=7', ';reply=%d' % (PAYLOAD_MAX - size), ';reply=%d' % (PAYLOAD_MAX - size + 1)))
        given = 'given:read@%d=%s%s' % (head, ','.join(str(n) for n in lengths), parts)
        return before + [self.call_line(c, r.choice(('auto', 'auto', 'inline', 'chunk', 'long', given, given)), 'nfs', 7, args)]

    def large_form(self) -> str:
        """A form of a READ of many bytes."""
        r = self.rng
        offers = [PAYLOAD_MAX, PAYLOAD_MAX, PAYLOAD_MAX + 1, r.randint(1, PAYLOAD_MAX)]
        write, rest = r.choice(offers), r.randint(1, 9000)
        given = ('given:write=%d' % write, 'given:reply=%d' % write, 'given:write=%d;reply=%d' % (PAYLOAD_MAX - rest, rest + r.randint(0, 1)))
        return r.choice(('auto', 'auto', 'inline', 'chunk', 'long', *given))

    def handle(self) -> bytes:
        number = self.rng.choice((1, 1, 1, 2, 2, 3, 4, 4, self.rng.randint(5, 110), self.rng.randint(105, 140)))
        return opaque(number.to_bytes(8, 'big')) if self.rng.random() < 0.98 else opaque(self.rng.randbytes(self.rng.randint(0, 12)))

    def name(self) -> bytes:
        return opaque(self.rng.choice(NAMES))

    def attributes(self) -> bytes:
        r = self.rng
        mode = r.choice((words(0), words(1, r.choice((0o777, 0o644, 0o40000)))))
        owner = r.choice((words(0, 0), words(1, 5, 0), words(0, 1, 6)))
        size = r.choice((words(0), words(1, 0, r.randint(0, 9000))))
        return mode + owner + size + r.choice((words(0), words(1), words(2, 7, 8))) + r.choice((words(0), words(2, 7, 1000000000)))

    def args(self, proc: int) -> bytes:
        """The arguments of a procedure (RFC 1813 section 3.3)."""
        r = self.rng
        data = r.randbytes(r.choice((0, 1, 5, 800, 924, 925, 5000)))
        offset = words(0, r.choice((0, 0, 3, 4096, 9000)))
        cookie, count = words(0, r.choice((0, 0, 3, 50)), 0, 0), r.choice((0, 100, 968, 1200, 4096, 40000))
        made = self.attributes()
        tails = {
            2: made + r.choice((words(0), words(1, 0, 0))), 3: self.name(), 4: words(r.randint(0, 63)), 6: offset + words(count),
            7: offset + words(len(data), r.randint(0, 2)) + opaque(data), 8: self.name() + r.choice((words(0) + made, words(1) + made, words(2, 7, 7))),
            9: self.name() + made, 10: self.name() + made + opaque(r.choice((b'hello', b'', b'p' * 1024, b'p' * 1025))),
            11: self.name() + r.choice((words(6) + made, words(3) + made + words(8, 9), words(1))), 12: self.name(), 13: self.name(),
            14: self.name() + self.handle() + self.name(), 15: self.handle() + self.name(), 16: cookie + words(count),
            17: cookie + words(r.choice((0, 512, 8192)), count), 21: offset + words(count),
        }
        return b'' if proc == 0 else self.handle() + tails.get(proc, b'')


def payload_of(call: Call, xid: bytes) -> bytes:
    prog = words(100003, 3) if call.prog == 'nfs' else words(100005, 3)
    return xid + words(0, 2) + prog + words(call.proc) + call.cred + call.args


def room_needed(call: Call) -> int | None:
    """How many bytes a call needs that is too large by its payload, or else by what its form offers."""
    return next((n for n in (len(payload_of(call, bytes(4))), call.offered) if n > PAYLOAD_MAX), None)


def is_change(call: Call, reply: str) -> bool:
    """Whether a call with this reply is an entry: accepted, with the status 0."""
    return call.prog == 'nfs' and call.proc in CHANGING and reply[8:48] == words(1, 0, 0, 0, 0).hex() and reply[48:56] == '00000000'


def done_calls(maker: Maker, printed: list[str]) -> tuple[list[Done], list[str]]:
    """The calls that are done, and what is wrong with the lines of calls."""
    done, wrong = [], []
    numbers = {c: 0 for c in maker.creds}
    for call, line in zip(maker.calls, printed):
        numbers[call.client] += 1
        match = PRINTED.fullmatch(line)
        if match is None or (int(match[1]), int(match[2])) != (call.client, numbers[call.client]):
            wrong.append('not the line of call %d of client %d: %s' % (numbers[call.client], call.client, line[:100]))
            break
        need = room_needed(call)
        if (need is not None or match[3].endswith(' %d' % PAYLOAD_MAX)) and match[3] not in ('refused large %s %d' % (need, PAYLOAD_MAX), 'refused ended'):
            wrong.append('a call that needs %s bytes: %s' % (need, line[:100]))
        if match[4] is not None:
            done.append(Done(int(match[4]), is_change(call, match[5]), match[5], payload_of(call, bytes.fromhex(match[5][:8]))))
        elif match[3] in ('lost', 'open', 'refused ended') and call.client not in maker.hostile:
            wrong.append('a link without raw bytes: %s' % line)
    return done, wrong


def compared_with_plain(plain: str, done: list[Done], journal: int) -> list[str]:
    """Asks the plain server for the calls in the order of their places, a change after the calls at its place that change nothing."""
    ordered = sorted(done, key=lambda it: (it.place, it.changes))
    places = [it.place for it in ordered if it.changes]
    wrong = [] if places == list(range(journal)) else ['a journal of %d, with changes at %s' % (journal, str(places)[:200])]
    text = 'capacity %d\n' % CAPACITY + ''.join('0 %s\n' % it.payload.hex() for it in ordered)
    answers = subprocess.run([plain], input=text, stdout=subprocess.PIPE, text=True, check=True).stdout.splitlines()
    for it, answer in zip(ordered, answers):
        if answer != '%d %s' % (it.place, it.reply):
            wrong.append('at place %d: printed %s, the plain server has %s' % (it.place, it.reply[:120], answer[:120]))
    return wrong


def run(program: str, text: str) -> tuple[list[str], list[str]]:
    """The printed lines, and what is wrong with the run."""
    got = subprocess.run([program, 'drill'], input=text, capture_output=True, text=True, check=False)
    return got.stdout.splitlines(), [] if (got.returncode, got.stderr) == (0, '') else ['status %d, %s' % (got.returncode, got.stderr[:100])]


def differences(program: str, plain: str, maker: Maker) -> list[str]:
    """What is not as expected of a script."""
    printed, wrong = run(program, maker.text(len(maker.lines)))
    half, wrong_half = run(program, maker.text(len(maker.lines) // 2))
    if wrong or wrong_half:
        return wrong + wrong_half
    done, wrong = done_calls(maker, printed)
    ends = [it for it in printed[len(maker.calls):-1] if ENDED.fullmatch(it)]
    stayed = [it for it in half if ENDED.fullmatch(it) and maker.left.get(int(it.split(' ')[1]), 0) < len(maker.lines) // 2]
    wrong += ['gone: %s' % it for it in stayed if it not in ends]
    wrong += ['a link without raw bytes: %s' % it for it in ends if int(it.split(' ')[1]) not in maker.hostile]
    if len(printed) != len(maker.calls) + len(ends) + 1 or not printed[-1].startswith('journal '):
        return wrong + ['%d lines are printed, the last: %s' % (len(printed), printed[-1][:100])]
    return wrong + compared_with_plain(plain, done, int(printed[-1].split(' ')[1]))


def main(argv: list[str]) -> int:
    p = argparse.ArgumentParser(description='Runs random scripts of a drill, and compares them with the plain server.')
    p.add_argument('--seed', type=int, default=1)
    p.add_argument('--scripts', type=int, default=200)
    p.add_argument('--lines', type=int, default=10_000)
    p.add_argument('--program', default=os.path.join(ROOT, 'crates/nfsrdma/out/nfsrdma'))
    p.add_argument('--plain', default=os.path.join(ROOT, 'crates/plain_calls/out/plain_calls'))
    p.add_argument('--jobs', type=int, default=os.cpu_count() or 1)
    a = p.parse_args(argv)
    for program in (a.program, a.plain):
        if not os.access(program, os.X_OK):
            print('no program at %s' % program)
            return 2
    seeds = range(a.seed, a.seed + a.scripts)
    with ThreadPool(max(1, a.jobs)) as pool:
        found = pool.map(lambda seed: differences(a.program, a.plain, Maker(seed, a.lines, seed % 2 == 1)), seeds)
    for seed, wrong in zip(seeds, found):
        print(''.join('seed %d: %s\n' % (seed, it) for it in wrong[:5]), end='')
    bad = sum(1 for it in found if it)
    print('%d scripts of %d lines, %d differ' % (a.scripts, a.lines, bad))
    return 1 if bad else 0


if __name__ == '__main__':
    sys.exit(main(sys.argv[1:]))
