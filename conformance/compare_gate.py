"""Sends records that are made at random to the built `nfsrdma serve`, and the same ones through `nfsrdma gate`, and compares what comes back.

    python3 conformance/compare_gate.py [--program PROGRAM] [--seconds N] [--seed N]

The records have right and wrong credentials, verifiers, programs, versions, procedures and arguments, and some begin with no call head; none
changes the tree. A gateway forwards a call with another xid and an empty verifier, and what it answers has to be what the server answers to
the call itself. Exit status: 0 all as expected, 1 something differs, 2 no program."""
import argparse
import os
import random
import subprocess
import sys
import tempfile
import time

from check_gate import GATE, asked, create
from check_records import CONFIG, ROOT, answered, check, connect, free_port, one_call, record, words

ANY = 1 << 32
DATA = 100_000
ROOT_HANDLE, FILE_HANDLE = words(8, 0, 1), words(8, 0, 2)


def opaque(content: bytes) -> bytes:
    return words(len(content)) + content + bytes(-len(content) % 4)


def sys_body(rng: random.Random) -> bytes:
    """A body of AUTH_SYS (RFC 5531 appendix A), right, or with too many bytes, groups, or too few."""
    machine, count = rng.choice([0, 4, 255, 256]), rng.choice([0, 1, 16, 17])
    body = words(rng.randrange(ANY)) + opaque(bytes(machine)) + words(rng.randrange(3), rng.randrange(3), count)
    body += b''.join(words(rng.randrange(ANY)) for _ in range(count))
    return rng.choice([body, body, body, body + bytes(4), body[:rng.randrange(len(body) + 1)]])


def credential(rng: random.Random) -> bytes:
    flavor = rng.choice([0, 0, 1, 1, 1, 1, 2, 3, 6, ANY - 1])
    return words(flavor) + opaque(sys_body(rng) if flavor == 1 else rng.randbytes(rng.choice([0, 0, 5, 400, 401])))


def arguments(rng: random.Random, prog: int, proc: int) -> bytes:
    """Arguments of the procedure, if it is known here; right, cut, with more bytes, or any bytes."""
    number, count = rng.choice([0, 5, 512, 4096, DATA, ANY - 1]), rng.choice([0, 100, 4096])
    right = {1: opaque(rng.choice([b'/export', b'/', bytes(1024), bytes(1025)])), 3: opaque(b'/export')} if prog == 100005 else {
        1: ROOT_HANDLE, 3: ROOT_HANDLE + opaque(b'f'), 4: ROOT_HANDLE + words(63), 5: ROOT_HANDLE, 6: FILE_HANDLE + words(0, count, number),
        16: ROOT_HANDLE + words(0, 0, 0, 0, number), 17: ROOT_HANDLE + words(0, 0, 0, 0, count, number), 18: ROOT_HANDLE, 19: ROOT_HANDLE,
        20: ROOT_HANDLE, 21: FILE_HANDLE + words(0, 0, 0)}
    made = right.get(proc, b'')
    more = made + bytes(rng.choice([1, 4, 1000, 70_000]))
    return rng.choice([made, made, made, more, made[:rng.randrange(len(made) + 1)], rng.randbytes(rng.choice([3, 64, 5000]))])


def payload(rng: random.Random) -> bytes:
    """A call, or what is none. Its procedure changes nothing, whatever its arguments are."""
    prog, vers = rng.choice([(100003, 3)] * 8 + [(100005, 3)] * 3 + [(100005, 1), (100003, 2), (100003, 4), (1, 1)])
    proc = rng.choice([0, 1, 3, 4, 5, 6, 16, 17, 18, 19, 20, 21, 22, ANY - 1])
    head = words(rng.randrange(ANY), rng.choice([0] * 20 + [1, 2]), rng.choice([2] * 12 + [0, 1, 3, ANY - 1]), prog, vers, proc)
    verifier = words(rng.choice([0, 1, 6])) + opaque(rng.randbytes(rng.choice([0, 0, 0, 3, 400, 401])))
    made = head + credential(rng) + verifier + arguments(rng, prog, proc)
    return made[:rng.randrange(len(made) + 1)] if rng.random() < 0.05 else made


def compared(rng: random.Random, direct: int, gate: int, until: float) -> tuple[int, list[str]]:
    """How many records were sent to both ports, in connections of some, and the first bytes of what differs."""
    count, bad = 0, []
    while time.monotonic() < until:
        payloads = [payload(rng) for _ in range(rng.choice([1, 1, 3, 10]))]
        stream = b''.join(record(one) for one in payloads)
        if rng.random() < 0.1:
            stream = stream[:rng.randrange(len(stream) + 1)]
        replies = [answered(port, [stream]) for port in (direct, gate)]
        count += len(payloads)
        if replies[0] != replies[1]:
            bad.append('%s: %s, %s' % tuple(each[:100].hex() for each in (stream, *replies)))
    return count, bad


def main() -> int:
    parser = argparse.ArgumentParser(description=__doc__, formatter_class=argparse.RawDescriptionHelpFormatter)
    parser.add_argument('--program', default=os.path.join(ROOT, 'crates', 'nfsrdma', 'out', 'nfsrdma'))
    parser.add_argument('--seconds', type=int, default=20)
    parser.add_argument('--seed', type=int, default=1)
    given = parser.parse_args()
    if not os.access(given.program, os.X_OK):
        print('no program %s' % given.program, file=sys.stderr)
        return 2
    direct, gate = free_port(), free_port()
    children = []
    with tempfile.TemporaryDirectory() as folder:
        for command, port, text in (('serve', direct, CONFIG % (direct, 1_000_000)), ('gate', gate, GATE % (gate, direct, 1_000_000))):
            path = os.path.join(folder, command + '.toml')
            with open(path, 'w', encoding='utf-8') as f:
                f.write(text)
            children.append(subprocess.Popen([given.program, command, path], stdout=subprocess.DEVNULL))
            connect(port).close()
        try:
            with connect(direct) as s:
                handle = create(s, 1, b'f')
                data = random.Random(0).randbytes(DATA)
                wrote = asked(s, words(2, 0, 2, 100003, 3, 7, 0, 0, 0, 0) + handle + words(0, 0, DATA, 2) + opaque(data))
            good = check('a file', (handle, wrote[24:28]) == (FILE_HANDLE, words(0)), (handle, wrote[:40]))
            count, bad = compared(random.Random(given.seed), direct, gate, time.monotonic() + given.seconds)
            good = check('%d records' % count, not bad, bad[:3]) and good
            with connect(gate) as s:
                good = check('both go on', one_call(s, 7) and [child.poll() for child in children] == [None, None]) and good
        finally:
            for child in children:
                child.kill()
                child.wait()
    print('all as expected' if good else 'NOT all as expected')
    return 0 if good else 1


if __name__ == '__main__':
    sys.exit(main())
