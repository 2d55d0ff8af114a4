#!/bin/sh
# Real links over loopback: GETATTRs of `nfsrdma serve` beside raw round trips of the same bytes; READs and WRITEs of 32 KiB and of 1 MiB, one
# at a time and with 16 outstanding, beside raw bytes one way; GETATTRs, and READs and WRITEs of 2 and 8 KiB, with Sends of 1 and of 16
# units, beside raw round trips of the bytes of the latter; and `get`, with jobs too, and `put` of 16 MiB, beside raw bytes one way; the
# server's processor time a GETATTR; the greatest memory of a server with a file of 16 MiB and 16 idle connections. Beside READs and WRITEs of
# 1 MiB, `get` and `put` it prints what their passes take without any protocol, alone and with the copies that both ends make; and what has no
# part in the raw bytes: a `stat`, and a new file's bytes written. Run by hand, at the top of the repository, once `rt run` has built nfsrdma
# and nr_bench; or with the paths of both programs. It needs a C compiler, for bench/echo.c. The least of several runs counts, of the sides in
# turn; TIMES says of how many. PART=0.02 makes a fiftieth of the calls, to see that all runs.
exec python3 - "${1:-crates/nfsrdma/out/nfsrdma}" "${2:-crates/nr_bench/out/nr_bench}" <<'PYTHON'
import contextlib, os, re, socket, subprocess, sys, tempfile, time

NFSRDMA, LINKS = map(os.path.abspath, sys.argv[1:3])
TIMES, PART = int(os.environ.get("TIMES", "5")), float(os.environ.get("PART", "1"))
# The sizes of a READ and a WRITE, each with the goals of both, one at a time and with 16 outstanding; how many bytes a call has at most; and how
# many are sent at a time beside them.
GOALS = {32_768: ((0.25, 0.4), (0.25, 0.4)), 1 << 20: ((0.7, None), (0.5, None))}
MOST = 1 << 20
# How often the data of a call are copied by the side that sends them and by the one that receives them: of a READ the pages into the reply and
# into frames, the frames into a region and that into the reply; of a WRITE the arguments into a region and into frames, the frames into a region
# and that into pages. `put` copies them into arguments too.
SENT, RECEIVED = 2, 2
# What copies are called.
ALONE, COPIED = "alone", "with the copies"
SIZE = 32_768
FILE = 16 << 20
IDLE = 16
# The frames of a GETATTR with an AUTH_SYS credential without a name and of its reply, in bytes: length 2, DDP and RDMAP header 18, transport
# header 28, RPC message 72 and 112, CRC field 4.
CALL, REPLY = 124, 164
# The frame of a READ of 1 MiB, which has a write list with 16 segments, in bytes.
READ_CALL = 408
TURNS, CALLS = int(20_000 * PART), int(2_000 * PART)
# How many bytes are read or written in calls of a size.
TOTAL = max(4 << 20, int((64 << 20) * PART))


def port():
    with socket.socket() as it:
        it.bind(("127.0.0.1", 0))
        return it.getsockname()[1]


def used(child):
    """Waits for a child, and gives its processor seconds and its greatest resident memory in bytes."""
    _, status, usage = os.wait4(child.pid, 0)
    child.returncode = status
    if status:
        sys.exit(f"{child.args} ended with status {status}")
    return usage.ru_utime + usage.ru_stime, usage.ru_maxrss * 1024


@contextlib.contextmanager
def server(folder, connections):
    """A server of this number of connections after one that puts file 2, of 16 MiB. Gives its address, and a list that gets what it used."""
    at = port()
    config = f"{folder}/config{at}.toml"
    with open(config, "w") as it:
        it.write(f'listen = "127.0.0.1:{at}"\nexport = "/"\ncredits = 64\ncapacity = 1000000000000\nconnections = {connections + 1}\ninline = 16\nwrite_verifier = "0000000000000001"\n')
    child = subprocess.Popen([NFSRDMA, "serve", config], stdout=subprocess.DEVNULL)
    result = []
    for _ in range(500):
        with open(f"{folder}/file") as data:
            if subprocess.run([NFSRDMA, "put", f"127.0.0.1:{at}", "/", "/a"], stdin=data, stderr=subprocess.DEVNULL).returncode == 0:
                break
        time.sleep(0.01)
    else:
        sys.exit("no server")
    yield f"127.0.0.1:{at}", result
    result += used(child)


def raw(program, request, reply, *words):
    """The microseconds of a raw client, and the processor seconds of its server."""
    return pair(program, ["serve", request, reply], words)


def pair(program, server, client, stdin=None, stdout=None):
    """The microseconds of a raw client with this input, and the processor seconds of a raw server with this output."""
    at = port()
    with_port = lambda words: [program, words[0], str(at), *map(str, words[1:])]
    child = subprocess.Popen(with_port(server), stdout=stdout)
    micros = float(subprocess.run(with_port(client), check=True, stdin=stdin, capture_output=True, text=True).stdout)
    return micros, used(child)[0]


def calls(address, what, count, outstanding, size=SIZE, units=1):
    """The microseconds of these calls."""
    done = subprocess.run([LINKS, "links", address, what, *map(str, (count, outstanding, size, units))], check=True, capture_output=True, text=True).stdout
    total, micros = map(int, re.fullmatch(r"(\d+) (\d+)\n", done).groups())
    if total != count * (1 if what == "getattr" else size):
        sys.exit(f"{what}: {total} confirmed")
    return micros


def least_of(program, folder, note):
    """Notes what the passes of calls of the greatest size take, alone and with the copies of both ends."""
    count = FILE // MOST
    for name, sent, received, more in ((ALONE, 0, 0, 0), (COPIED, SENT, RECEIVED, 1)):
        turns = lambda copies: pair(program, ["serve", READ_CALL, MOST, sent], ["turns", READ_CALL, MOST, count, copies])[0]
        note(("read", name), turns(received) / count)
        note(("get", name), turns(received))
        note(("write", name), pair(program, ["over", MOST, received], ["write", MOST, count, sent])[0] / count)
        with open(f"{folder}/file", "rb") as data:
            note(("put", name), pair(program, ["store", MOST, received], ["put", MOST, sent + more], stdin=data)[0])


# The FPDUs of a Send with this many bytes: each of at most 4096 of them, and 24 bytes beside them, padded to words.
def sent(size):
    return size + 24 * -(-size // 4096)


# The frames of a READ and of a WRITE inline, and of their replies: beside the data a READ has a Send of 112 bytes and one of 156, and a WRITE one of 120
# and one of 188.
def frames(what, size):
    return (sent(112), sent(156 + size)) if what == "read" else (sent(120 + size), sent(188))


def idle(address, count):
    """This number of connections, over which both hellos went and nothing else."""
    host, at = address.split(":")
    links = []
    for _ in range(count):
        link = socket.create_connection((host, int(at)))
        link.sendall(b"MPA ID Req Frame" + bytes((0, 1, 0, 0)))
        if link.recv(20, socket.MSG_WAITALL)[:16] != b"MPA ID Rep Frame":
            sys.exit("no hello")
        links.append(link)
    return links


def command(words, **streams):
    begun = time.perf_counter()
    subprocess.run(words, check=True, **streams)
    return (time.perf_counter() - begun) * 1e6


def main(folder):
    echo = f"{folder}/echo"
    subprocess.run([os.environ.get("CC", "cc"), "-O2", "-o", echo, "bench/echo.c"], check=True)
    with open(f"{folder}/file", "wb") as it:
        it.write(os.urandom(FILE))
    least = {}

    def note(name, value):
        least[name] = min(value, least.get(name, value))

    for _ in range(TIMES):
        micros, seconds = raw(echo, CALL, REPLY, "turns", str(CALL), str(REPLY), str(TURNS))
        note("turn", micros / TURNS)
        note("echo server", seconds / TURNS * 1e6)
        with server(folder, 1) as (address, result):
            note("getattr", calls(address, "getattr", TURNS, 1) / TURNS)
        with_calls = result[0]
        with server(folder, 1) as (address, result):
            calls(address, "getattr", 1, 1)
        note("server", (with_calls - result[0]) / TURNS * 1e6)
        for what in ("read", "write"):
            for size in (2048, 8192):
                request, reply = frames(what, size)
                note(("raw", what, size), raw(echo, request, reply, "turns", str(request), str(reply), str(CALLS))[0] / CALLS)
        for size in GOALS:
            note(("raw", size), raw(echo, 1, 0, "send", str(TOTAL // size * size), str(size))[0] / (TOTAL // size))
        note("raw 16 MiB", raw(echo, 1, 0, "send", str(FILE), str(SIZE))[0])
        with open(f"{folder}/raw", "wb") as out:
            note("raw into a file", pair(echo, ["save"], ["send", FILE, SIZE], stdout=out)[0])
        least_of(echo, folder, note)
        with server(folder, IDLE) as (address, result):
            for link in idle(address, IDLE):
                link.close()
        note("memory", result[1])
        with server(folder, 15 + 4 * len(GOALS)) as (address, result):
            for what in ("read", "write"):
                for size in GOALS:
                    for outstanding in (1, 16):
                        note((what, size, "outstanding", outstanding), calls(address, what, TOTAL // size, outstanding, size) / (TOTAL // size))
            for what, size in (("getattr", 0), ("read", 2048), ("read", 8192), ("write", 2048), ("write", 8192)):
                for units in (1, 16):
                    note((what, size, units), calls(address, what, CALLS, 1, size, units) / CALLS)
            note("get into /dev/null", command([NFSRDMA, "get", address, "/", "/a"], stdout=subprocess.DEVNULL))
            note("get --jobs 4", command([NFSRDMA, "get", "--jobs", "4", address, "/", "/a"], stdout=subprocess.DEVNULL))
            note("stat", command([NFSRDMA, "stat", address, "/", "/a"], stdout=subprocess.DEVNULL))
            with open(f"{folder}/back", "wb") as out:
                note("get into a file", command([NFSRDMA, "get", address, "/", "/a"], stdout=out))
            with open(f"{folder}/file", "rb") as data:
                note("put from a file", command([NFSRDMA, "put", address, "/", "/b"], stdin=data))
    print(f"a raw round trip of {CALL} and {REPLY} bytes: {least['turn']:.1f} microseconds; a GETATTR: {least['getattr']:.1f};"
          f" share {least['turn'] / least['getattr']:.2f} (goal 0.7)")
    print(f"the server's processor time: {least['echo server']:.1f} microseconds a raw round trip, {least['server']:.1f} a GETATTR:"
          f" {least['server'] / least['echo server']:.2f} times (goal 2.5)")
    for size, goals in GOALS.items():
        for what, both in zip(("read", "write"), goals):
            for outstanding, goal in zip((1, 16), both):
                took, alone = least[what, size, "outstanding", outstanding], least["raw", size]
                print(f"{what.upper()} of {size >> 10} KiB, {outstanding} outstanding: {took:.1f} microseconds; raw bytes one way {alone:.1f};"
                      f" share {alone / took:.2f}" + (f" (goal {goal})" if goal else ""))
    for what, size in (("read", 2048), ("read", 8192), ("write", 2048), ("write", 8192)):
        raw_turn, one, sixteen = least["raw", what, size], least[what, size, 1], least[what, size, 16]
        print(f"{what.upper()} of {size} bytes: {one:.1f} microseconds with Sends of one unit, {sixteen:.1f} with 16: {sixteen / one:.2f} times (goal: below 1);"
              f" a raw round trip of the same bytes inline {raw_turn:.1f}")
    print(f"a GETATTR with Sends of one unit {least['getattr', 0, 1]:.1f} microseconds, with 16 {least['getattr', 0, 16]:.1f}")
    for what in ("read", "write"):
        took, alone = least[what, MOST, "outstanding", 1], least["raw", MOST]
        for name in (ALONE, COPIED):
            print(f"the passes of a {what.upper()} of 1 MiB, {name}: {least[what, name]:.1f} microseconds, share {alone / least[what, name]:.2f};"
                  f" the {what.upper()} takes {took / least[what, name]:.2f} times that")
    for what, goal in (("get into /dev/null", 3), ("get --jobs 4", 3), ("get into a file", 3), ("put from a file", 4)):
        print(f"{what}, 16 MiB: {least[what] / 1000:.1f} ms; raw bytes {least['raw 16 MiB'] / 1000:.1f}: {least[what] / least['raw 16 MiB']:.1f} times (goal {goal})")
    print(f"raw bytes into a file, 16 MiB: {least['raw into a file'] / 1000:.1f} ms: `get` takes {least['get into a file'] / least['raw into a file']:.1f} times that")
    for what, whole in (("get", "get into /dev/null"), ("put", "put from a file")):
        for name in (ALONE, COPIED):
            print(f"the passes of `{what}` of 16 MiB, one call at a time, {name}: {least[what, name] / 1000:.1f} ms, {least[what, name] / least['raw 16 MiB']:.1f}"
                  f" times raw bytes; `{what}` takes {least[whole] / least[what, name]:.1f} times that")
    print(f"a `stat`, which connects and looks the file up as `get` does: {least['stat'] / 1000:.1f} ms")
    print(f"the greatest resident memory of a server with a file of 16 MiB and {IDLE} idle connections: {least['memory'] / (1 << 20):.0f} MiB (goal 48)")


with tempfile.TemporaryDirectory() as folder:
    main(folder)
PYTHON
