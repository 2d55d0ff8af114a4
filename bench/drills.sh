#!/usr/bin/env bash
# Measures the processor time and the peak memory of drills that are made from a seed: 16 clients, 1,000 to 1,000,000 calls.
#
#     bench/drills.sh [PROGRAM [CALLS ..]]
#
# PROGRAM is the built program, by default the one that `rt run` leaves in crates/nfsrdma. The least of several runs counts, of more if they
# are short; of each time that of a drill of one call is taken off. The status is 1 if the program fails or a target is missed. This is not part of the gate.
set -euo pipefail
shopt -s inherit_errexit

top=$(cd "$(dirname "$0")/.." && pwd)
program=${1:-$top/crates/nfsrdma/out/nfsrdma}
if [[ ! -x $program ]]; then
    echo "no program at $program: (cd crates/nfsrdma && rt run -- drill) < drills/null.drill builds it" >&2
    exit 1
fi

exec python3 - "$program" "${@:2}" <<'END'
import os, re, sys

TIME_TARGET = 1.2  # between the dearest and the cheapest call
MEMORY_TARGET = 4096  # bytes a call
RUNS = 3  # of a long drill


def run(program: str, calls: int) -> tuple[float, int]:
    """The processor seconds that a drill takes, and its peak memory in bytes."""
    words = [program, "drill", "--seed", "7", "--clients", "16", "--calls", str(calls)]
    reader, writer = os.pipe()
    child = os.fork()
    if child == 0:
        os.dup2(writer, 1)
        os.execv(program, words)
    os.close(writer)
    with os.fdopen(reader) as printed:
        line = printed.read()
    _, status, usage = os.wait4(child, 0)
    spent = usage.ru_utime + usage.ru_stime
    if status != 0 or not re.fullmatch(rf"calls {calls} done \d+ refused \d+ journal \d+ bytes \d+\n", line):
        sys.exit(f"a drill of {calls} calls ended with status {os.waitstatus_to_exitcode(status)} and printed {line!r}")
    return spent, usage.ru_maxrss * 1024


program = sys.argv[1]
counts = [int(word) for word in sys.argv[2:]] or [1000, 10000, 100000, 1000000]


def least(calls: int) -> tuple[float, int]:
    return min(run(program, calls) for _ in range(RUNS * (5 if calls <= 10000 else 1)))


first = least(1)
times = []
missed = False
for calls in counts:
    spent, peak = least(calls)
    times.append((spent - first[0]) / calls * 1e6)
    bytes_a_call = (peak - first[1]) / calls
    missed |= bytes_a_call > MEMORY_TARGET
    print(f"{calls:8} calls: {times[-1]:8.3f} microseconds and {bytes_a_call:7.0f} bytes a call, peak {peak >> 20} MiB")
ratio = max(times) / min(times)
missed |= ratio > TIME_TARGET
print(f"time a call, dearest to cheapest: {ratio:.3f} (target: at most {TIME_TARGET}); memory a call: at most {MEMORY_TARGET} bytes")
sys.exit(missed)
END
