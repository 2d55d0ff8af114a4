#!/bin/sh
# Records over TCP (RFC 5531 section 11) over loopback: GETATTRs of `nfsrdma serve` with `record = true` beside raw round trips of the same
# bytes, READs and WRITEs of 32 KiB, one at a time and with 16 outstanding, and the server's processor time a GETATTR. Run by hand, at the
# top of the repository, once `rt run` has built nfsrdma; or with the path of the program. Three more words are the port of another NFS server
# on 127.0.0.1, the path that it exports, and the port of its MOUNT: it is measured in turn with the first (bench/ganesha.sh starts one). It
# needs a C compiler, for bench/records.c. The least of several runs counts; TIMES says of how many. PART=0.02
# makes a fiftieth of the calls, to see that all runs.
exec python3 - "${1:-crates/nfsrdma/out/nfsrdma}" "${2:-}" "${3:-}" "${4:-}" <<'PYTHON'
import os, socket, subprocess, sys, tempfile, time

NFSRDMA, OTHER, MOUNTED = os.path.abspath(sys.argv[1]), sys.argv[2], sys.argv[3:]
TIMES, PART = int(os.environ.get("TIMES", "5")), float(os.environ.get("PART", "1"))
# kind, calls, outstanding, bytes of a reply, the least share of raw round trips that is asked for
ROWS = (("getattr", 20_000, 1, 112, 0.7), ("getattr", 40_000, 16, 112, 0.7), ("read", 2_000, 1, 32_896, 0.25), ("read", 4_000, 16, 32_896, 0.5),
        ("write", 2_000, 1, 160, 0.25), ("write", 4_000, 16, 160, 0.25))


def free_port():
    with socket.socket() as it:
        it.bind(("127.0.0.1", 0))
        return it.getsockname()[1]


def used(child):
    """Waits for a child, and gives its processor seconds."""
    _, status, usage = os.wait4(child.pid, 0)
    child.returncode = status
    return usage.ru_utime + usage.ru_stime


def micros(program, how, port, *words):
    """The microseconds of a call, once the server listens."""
    for _ in range(500):
        done = subprocess.run([program, how, str(port), *map(str, words)], capture_output=True, text=True)
        if done.returncode != 2:
            break
        time.sleep(0.01)
    if done.returncode:
        sys.exit(f"{how} {words}: status {done.returncode}: {done.stderr}")
    return float(done.stdout)


def serve(folder, connections):
    """A server with file 2 of 2 MiB."""
    port = free_port()
    with open(f"{folder}/config.toml", "w") as it:
        it.write(f'listen = "127.0.0.1:{port}"\nexport = "/export"\ncredits = 16\ncapacity = 1000000000000\nconnections = {connections + 1}\n'
                 'write_verifier = "0000000000000001"\nrecord = true\n')
    return port, subprocess.Popen([NFSRDMA, "serve", f"{folder}/config.toml"], stdout=subprocess.DEVNULL)


def main(folder):
    records = f"{folder}/records"
    subprocess.run([os.environ.get("CC", "cc"), "-O2", "-o", records, "bench/records.c"], check=True)
    least = {}

    def note(name, value):
        least[name] = min(value, least.get(name, value))

    for _ in range(TIMES):
        for kind, calls, outstanding, reply, _ in ROWS:
            row, count = (kind, outstanding), int(calls * PART)
            port = free_port()
            child = subprocess.Popen([records, "serve", str(port), str(reply)])
            note(("raw", *row), micros(records, "raw", port, kind, count, outstanding))
            note(("raw seconds", *row), used(child) / count * 1e6)
            port, child = serve(folder, 1)
            micros(records, "call", port, "make", 65, 1)
            with open(f"/proc/{child.pid}/stat") as it:
                begun = sum(map(int, it.read().split()[13:15])) / os.sysconf("SC_CLK_TCK")
            note(("ours", *row), micros(records, "call", port, kind, count, outstanding))
            note(("seconds", *row), (used(child) - begun) / count * 1e6)
            if OTHER:
                micros(records, "call", OTHER, "make", 65, 1, *MOUNTED)
                note(("other", *row), micros(records, "call", OTHER, kind, count, outstanding, *MOUNTED))
    for kind, _, outstanding, _, goal in ROWS:
        row = kind, outstanding
        ours, raw = least["ours", *row], least["raw", *row]
        other = f"; the other server {least['other', *row]:.1f}, {least['other', *row] / ours:.1f} times (goal 1.5)" if OTHER else ""
        print(f"{kind.upper()}, {outstanding} outstanding: {ours:.1f} microseconds; raw round trips of the same bytes {raw:.1f}; share {raw / ours:.2f}"
              f" (goal {goal}){other}; the server's processor time {least['seconds', *row]:.1f}, raw {least['raw seconds', *row]:.1f}")


with tempfile.TemporaryDirectory() as folder:
    main(folder)
PYTHON
