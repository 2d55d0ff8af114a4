#!/usr/bin/env bash
# Measures what calls cost the plain server: microseconds for READ and WRITE of 32 KiB, and for GETATTR, LOOKUP, CREATE and READDIR of 100
# entries, each with 100 and with 50,000 entries in the directory.
#
#     bench/plain_calls.sh [PROGRAM]
#
# PROGRAM is the built program, by default the one that `rt run` leaves in crates/plain_calls. A row is the time of a run with its calls,
# less that of the run without them, the fastest of three each. The program reads and writes hexadecimal text, so the row `text` beside
# it is the time of calls with the same payload for a program that the server doesn't have: what the text costs, without the procedure
# (and without the reply's text, which is most of a READ). The last row is a copy of 32 KiB. This is not part of the gate.
set -euo pipefail
shopt -s inherit_errexit
export LC_ALL=C

top=$(cd "$(dirname "$0")/.." && pwd)
program=${1:-$top/crates/plain_calls/out/plain_calls}

if [[ ! -x $program ]]; then
    echo "no program at $program: (cd crates/plain_calls && rt run) < crates/plain_calls/stdin builds it" >&2
    exit 1
fi

room=$(mktemp -d)
trap 'rm -rf "$room"' EXIT

python3 - "$program" "$room" <<'PYTHON'
import struct, subprocess, sys, time, timeit

program, room = sys.argv[1:]
RUNS = 3
PIECE = 32768
# an input has at most 16 MiB, so the counts of calls are what fits
FEW, MANY = 100, 50_000
GETATTR, LOOKUP, READ, WRITE, CREATE, READDIR = 1, 3, 6, 7, 8, 16
NFS, NO_PROGRAM = 100003, 100004


def words(*numbers):
    return struct.pack(">%dI" % len(numbers), *numbers)


def hyper(number):
    return struct.pack(">Q", number)


def opaque(data):
    return words(len(data)) + data + bytes(-len(data) % 4)


def handle(number):
    return opaque(hyper(number))


def line(proc, arguments, prog=NFS):
    """A line of the program's input: a call of uid 0."""
    head = words(1, 0, 2, prog, 3, proc, 1) + opaque(words(0, 0, 0, 0, 0)) + words(0, 0)
    return "1 " + (head + arguments).hex() + "\n"


def create(name, prog=NFS):
    return line(CREATE, handle(1) + opaque(name) + words(0, 0, 0, 0, 0, 0, 0), prog)


def fill(count):
    """CREATEs after which the root has this many entries."""
    return [create(b"e%06d" % number) for number in range(3, count)]


def spent(lines):
    """The least seconds of a run of the program on these lines."""
    with open(room + "/given", "w") as given:
        given.write("capacity %d\n" % 2**62)
        given.writelines(lines)
    best = None
    for _ in range(RUNS):
        with open(room + "/given") as given, open(room + "/printed", "w") as printed:
            start = time.perf_counter()
            subprocess.run([program], stdin=given, stdout=printed, check=True)
            took = time.perf_counter() - start
        best = took if best is None else min(best, took)
    return best


def printed_as(status, calls):
    """Ends the script if one of the last calls was not answered with this status."""
    with open(room + "/printed") as printed:
        replies = printed.read().splitlines()[-calls - 1 : -1]
    for reply in replies:
        if reply.split(" ")[1][40:56] != "%016x" % status:
            sys.exit("unexpected reply: " + reply[:200])


def row(name, before, calls, without):
    base = spent(before)
    took = spent(before + calls)
    printed_as(0, len(calls))
    text = spent(before + without)
    a, b = ((t - base) / len(calls) * 1e6 for t in (took, text))
    print("%-40s %9.2f microseconds, text %9.2f" % (name, a, b), flush=True)


def same(name, before, proc, arguments, calls):
    row(name, before, [line(proc, arguments)] * calls, [line(proc, arguments, NO_PROGRAM)] * calls)


whole = [line(WRITE, handle(2) + hyper(0) + words(PIECE, 2) + opaque(bytes(PIECE)))]
same("READ of 32 KiB", whole, READ, handle(2) + hyper(0) + words(PIECE), 1_000)
same("WRITE of 32 KiB", whole, WRITE, handle(2) + hyper(0) + words(PIECE, 2) + opaque(bytes(PIECE)), 250)
for entries in (FEW, MANY):
    before = fill(entries)
    same("GETATTR beside %d entries" % entries, before, GETATTR, handle(2), 20_000)
    same("LOOKUP of the last of %d entries" % entries, before, LOOKUP, handle(1) + opaque(b"e%06d" % (entries - 1)), 20_000)
    names = [b"n%06d" % number for number in range(20_000 if entries == MANY else 1_000)]
    row(
        "CREATE after %d entries" % entries,
        before,
        [create(name) for name in names],
        [create(name, NO_PROGRAM) for name in names],
    )
    # 100 entries of this length are 100 * 32 bytes, beside 104 of the result; the last 100 of the directory
    arguments = handle(1) + hyper(entries - 100) + hyper(0) + words(104 + 3200)
    same("READDIR of 100 entries of %d" % entries, before, READDIR, arguments, 10_000)

piece = bytearray(PIECE)
copies = 20_000
print("%-40s %9.2f microseconds" % ("copying 32 KiB", min(timeit.repeat(lambda: piece[:], number=copies, repeat=RUNS)) / copies * 1e6))
PYTHON
