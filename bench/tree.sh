#!/bin/sh
# Calls of the plain server alone, in microseconds: listings of the last 100 of a directory's files; changes of a directory of few and of
# many entries; READs and WRITEs of 32 KiB at offsets of a file, and copies at the same offsets; and the memory of files. Run by hand, at
# the top of the repository, after `(cd crates/nr_bench && rt run -- tree churn 200 100)` has built the program; or with the program's path as $1.
exec python3 - "${1:-crates/nr_bench/out/nr_bench}" <<'END'
import os, resource, subprocess, sys

def seconds(what, size, rounds):
    """The processor time of a run."""
    before = resource.getrusage(resource.RUSAGE_CHILDREN)
    subprocess.run([sys.argv[1], "tree", what, str(size), str(rounds)], stdout=subprocess.DEVNULL, check=True)
    after = resource.getrusage(resource.RUSAGE_CHILDREN)
    return after.ru_utime + after.ru_stime - before.ru_utime - before.ru_stime

def memory(what, size):
    """The most bytes of memory that a run has."""
    child = subprocess.Popen([sys.argv[1], "tree", what, str(size), '0'], stdout=subprocess.DEVNULL)
    _, status, usage = os.wait4(child.pid, 0)
    assert status == 0
    return usage.ru_maxrss * 1024

def each(what, size, rounds, times=5):
    """The microseconds of one round, beyond what comes before the first: the least of several runs, which take turns."""
    none = some = float('inf')
    for _ in range(times):
        none = min(none, seconds(what, size, 0))
        some = min(some, seconds(what, size, rounds))
    return (some - none) / rounds * 1e6

print('load', os.getloadavg()[0])
for what, rounds in (('readdir', 100_000), ('readdirplus', 20_000), ('churn', 300_000), ('rename', 300_000), ('create', 100_000), ('directories', 300_000), ('scattered_lookup', 300_000), ('scattered_churn', 300_000), ('scattered_rename', 300_000)):
    few, many = each(what, 100, rounds), each(what, 100_000, rounds)
    print(f'{what} at 100: {few:.2f} microseconds, at 100,000: {many:.2f}, {many / few:.2f} times')
for size in (65_536, 16_777_216):
    copy = each('copy', size, 100_000)
    for what in ('read', 'write'):
        took = each(what, size, 20_000)
        if what == 'write':
            # the program makes the payload of the call, which a caller has
            took -= each('payloads', size, 100_000)
        print(f'{what} of 32 KiB in {size:,} bytes: {took:.2f} microseconds, a copy {copy:.2f}, {took / copy:.2f} copies')
none = memory('churn', 0)
print(f'memory of an empty file: {(memory("churn", 200_000) - memory("churn", 100_000)) / 100_000:.0f} bytes')
print(f'memory of 10,000 files with a byte at 1 MiB: {(memory("sparse", 10_000) - none) / 1e6:.1f} MB')
print('load', os.getloadavg()[0])
END
