#!/bin/sh
# Calls through both ends of a link and the plain server, one after the other: NULL, beside two Sends through two endpoints alone; a WRITE
# and a READ of 32 KiB and of 1 MiB in form Auto, in copies of the same size and run (by processor time, and by cycles if perf is there), with 1
# and with 64 credits; and, if there is a C compiler, four copies of the data alone (bench/copies.c), and the bytes that the C library copies
# and clears. Run by hand, at the top of the repository, once
# `(cd crates/nr_bench && rt run -- ends write 2 16 32768)` has built the program; or with the program's path as $1.
exec python3 - "${1:-crates/nr_bench/out/nr_bench}" <<'END'
import os, resource, shutil, subprocess, sys, tempfile

PROGRAM = sys.argv[1]
LARGE = ('copy', 'write', 'read')
# The sizes of a WRITE and a READ, each with a few and many calls.
SIZES = {32_768: (1_000, 21_000), 1_048_576: (32, 672)}

def words(what, rounds, credits, size):
    return [PROGRAM, 'ends', what, str(rounds), str(credits), str(size)]

def seconds(what, rounds, credits, size=32_768):
    """The processor time of a run."""
    before = resource.getrusage(resource.RUSAGE_CHILDREN)
    subprocess.run(words(what, rounds, credits, size), stdout=subprocess.DEVNULL, check=True)
    after = resource.getrusage(resource.RUSAGE_CHILDREN)
    return after.ru_utime + after.ru_stime - before.ru_utime - before.ru_stime

def cycles(what, rounds, credits, size):
    """The processor cycles of a run outside the kernel, by perf; nothing without it."""
    if shutil.which('perf') is None:
        return None
    command = ['perf', 'stat', '-x,', '-e', 'cycles:u', *words(what, rounds, credits, size)]
    done = subprocess.run(command, capture_output=True, text=True)
    counts = [line.split(',')[0] for line in done.stderr.splitlines() if ',cycles' in line]
    return int(counts[0]) if done.returncode == 0 and counts and counts[0].isdigit() else None

def least(measure, kinds, few, many, times, credits=16, size=32_768):
    """What one round of each kind takes, beyond the start of the program: the least of several runs, which take turns."""
    best = {}
    for _ in range(times):
        for what in kinds:
            for rounds in (few, many):
                used = measure(what, rounds, credits, size)
                if used is None:
                    return None
                best[what, rounds] = min(used, best.get((what, rounds), used))
    return {what: (best[what, many] - best[what, few]) / (many - few) for what in kinds}

# Counts calls and bytes, in pieces of less than 2,048 bytes and in others.
COUNTER = r'''
#include <stddef.h>
#include <stdio.h>
static unsigned long calls[2][2], bytes[2][2];
static void count(int kind, size_t n) { calls[kind][n >= 2048]++; bytes[kind][n >= 2048] += n; }
void *memmove(void *to, const void *from, size_t n)
{
    char *t = to;
    const char *f = from;
    count(0, n);
    if (t <= f || t >= f + n) __asm__ volatile("rep movsb" : "+D"(t), "+S"(f), "+c"(n)::"memory");
    else while (n--) t[n] = f[n];
    return to;
}
void *memcpy(void *to, const void *from, size_t n) { return memmove(to, from, n); }
void *memset(void *to, int byte, size_t n)
{
    char *t = to;
    count(1, n);
    __asm__ volatile("rep stosb" : "+D"(t), "+c"(n) : "a"(byte) : "memory");
    return to;
}
__attribute__((destructor)) static void report(void)
{
    for (int kind = 0; kind < 2; kind++)
        for (int large = 0; large < 2; large++) fprintf(stderr, "%lu %lu ", calls[kind][large], bytes[kind][large]);
}
'''

def counts(size):
    """For each kind of call: calls and bytes of one round, of small copies, large copies, small and large clearings."""
    compiler = shutil.which('cc') or shutil.which('gcc')
    if compiler is None or os.uname().machine != 'x86_64':
        return {}
    with tempfile.TemporaryDirectory() as folder:
        source, library = f'{folder}/counter.c', f'{folder}/counter.so'
        open(source, 'w').write(COUNTER)
        subprocess.run([compiler, '-O1', '-fno-builtin', '-shared', '-fPIC', '-o', library, source], check=True)
        def run(what, rounds):
            done = subprocess.run(words(what, rounds, 16, size), env={**os.environ, 'LD_PRELOAD': library}, capture_output=True, check=True)
            return [int(word) for word in done.stderr.split()]
        return {what: [(many - few) / 100 for few, many in zip(run(what, 10), run(what, 110))] for what in ('null', 'write', 'read')}

def copies(size):
    """The microseconds of one copy, and of the copies of a WRITE and of a READ alone, by bench/copies.c; nothing without a compiler."""
    compiler = shutil.which('cc') or shutil.which('gcc')
    source = 'bench/copies.c'
    if compiler is None or not os.path.exists(source) or os.uname().machine != 'x86_64':
        return None
    with tempfile.TemporaryDirectory() as folder:
        subprocess.run([compiler, '-O2', '-o', f'{folder}/copies', source], check=True)
        runs = [[float(word) for word in subprocess.run([f'{folder}/copies', str(size)], capture_output=True, check=True).stdout.split()] for _ in range(3)]
        return [min(each) for each in zip(*runs)]

def report_counts(counted, what):
    if what in counted:
        kinds = zip(('small copies', 'large copies', 'small clearings', 'large clearings'), counted[what][::2], counted[what][1::2])
        print('  ' + ', '.join(f'{calls:.0f} {kind} of {size:.0f} bytes' for kind, calls, size in kinds))

def report(size, few, many):
    """The lines of a WRITE and a READ of this size."""
    counted = counts(size)
    if size == 32_768:
        report_counts(counted, 'null')
    each = {what: used * 1e6 for what, used in least(seconds, LARGE, few, many, 9, size=size).items()}
    by_cycles = least(cycles, LARGE, few, many, 5, size=size)
    print(f"copying {size} bytes: {each['copy']:.2f} microseconds")
    alone = copies(size)
    if alone is not None:
        one, *beside = alone
        for what, took in zip(('write', 'read'), beside):
            print(f'four copies of the data and a clearing alone, by a C program, as of a {what.upper()}: {took:.2f} microseconds, {took / one:.1f} copies;'
                  f' the call takes {each[what] / took:.2f} times that (target 1.4)')
    for what in ('write', 'read'):
        line = f"a {what.upper()} of {size} bytes: {each[what]:.2f} microseconds, {each[what] / each['copy']:.1f} copies (target 6)"
        if by_cycles is not None:
            line += f"; {by_cycles[what]:.0f} cycles, {by_cycles[what] / by_cycles['copy']:.1f} copies"
        print(line)
        for credits in (1, 64):
            one = least(seconds, (what,), few, many, 5, credits, size)[what] * 1e6
            print(f'  with {credits} credits: {one:.2f} microseconds')
        report_counts(counted, what)

print(f"a NULL call: {least(seconds, ('null',), 10_000, 210_000, 7)['null'] * 1e6:.2f} microseconds")
for rounds in (10_000, 1_000_000):
    one = seconds('null', rounds, 16) / rounds * 1e6
    print(f'  of {rounds}: {one:.2f} microseconds')
for credits in (1, 16, 64):
    used = least(seconds, ('sends', 'null'), 10_000, 210_000, 5, credits)
    one, two = used['null'] * 1e6, used['sends'] * 1e6
    print(f'  with {credits} credits: {one:.2f} microseconds; two Sends of the same lengths through two endpoints alone: {two:.3f}; {one / two:.1f} times (target 40)')
for size, (few, many) in SIZES.items():
    report(size, few, many)
END
