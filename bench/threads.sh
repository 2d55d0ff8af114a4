#!/bin/sh
# Clients at once over loopback: GETATTRs a second of 1, 2, 4 and 8 clients of one `nfsrdma serve`, each a process with a connection of its own,
# one call after another, beside raw round trips of the same bytes by as many pairs of processes in the same run. Run by hand on an idle machine,
# at the top of the repository, once `rt run` has built nfsrdma and nr_bench; or with the paths of both programs. With the path of a third
# program, an earlier nfsrdma, one client alone calls that one too. It needs a C compiler, for bench/echo.c. The greatest rate of several runs
# counts, of the sides in turn.
exec python3 - "${1:-crates/nfsrdma/out/nfsrdma}" "${2:-crates/nr_bench/out/nr_bench}" ${3:+"$3"} <<'PYTHON'
import contextlib, os, re, socket, subprocess, sys, tempfile, time

NFSRDMA, LINKS = map(os.path.abspath, sys.argv[1:3])
EARLIER = os.path.abspath(sys.argv[3]) if len(sys.argv) > 3 else None
TIMES = int(os.environ.get("TIMES", "5"))
CLIENTS = (1, 2, 4, 8)
# the frames of a GETATTR and of its reply, in bytes, as in bench/links.sh
CALL, REPLY = 124, 164
TURNS = int(os.environ.get("TURNS", "20000"))


def port():
    with socket.socket() as it:
        it.bind(("127.0.0.1", 0))
        return it.getsockname()[1]


@contextlib.contextmanager
def server(program, folder, connections):
    """A server of this number of connections after one that puts file 2. Gives its address."""
    at = port()
    config = f"{folder}/config{at}.toml"
    with open(config, "w") as it:
        it.write(f'listen = "127.0.0.1:{at}"\nexport = "/"\ncredits = 64\ncapacity = 1000000000000\nconnections = {connections + 1}\nwrite_verifier = "0000000000000001"\n')
    child = subprocess.Popen([program, "serve", config], stdout=subprocess.DEVNULL)
    for _ in range(500):
        if subprocess.run([program, "put", f"127.0.0.1:{at}", "/", "/a"], input=b"hello", stderr=subprocess.DEVNULL).returncode == 0:
            break
        time.sleep(0.01)
    else:
        sys.exit("no server")
    yield f"127.0.0.1:{at}"
    if child.wait():
        sys.exit(f"the server ended with status {child.returncode}")


def rate(commands):
    """The round trips a second of these clients together, each a process."""
    running = [subprocess.Popen(it, stdout=subprocess.PIPE, text=True) for it in commands]
    total = 0.0
    for child in running:
        out = child.communicate()[0]
        if child.returncode:
            sys.exit(f"{child.args} ended with status {child.returncode}")
        total += TURNS / float(out.split()[-1]) * 1e6
    return total


def raw(echo, count):
    ports = [port() for _ in range(count)]
    servers = [subprocess.Popen([echo, "serve", str(at), str(CALL), str(REPLY)]) for at in ports]
    result = rate([[echo, "turns", str(at), str(CALL), str(REPLY), str(TURNS)] for at in ports])
    for child in servers:
        child.wait()
    return result


def calls(program, folder, count):
    with server(program, folder, count) as address:
        return rate([[LINKS, "links", address, "getattr", str(TURNS), "1", "0", "1"]] * count)


def main(folder):
    echo = f"{folder}/echo"
    subprocess.run([os.environ.get("CC", "cc"), "-O2", "-o", echo, "bench/echo.c"], check=True)
    best = {}

    def note(name, value):
        best[name] = max(value, best.get(name, 0.0))

    for _ in range(TIMES):
        for count in CLIENTS:
            note(("raw", count), raw(echo, count))
            note(("getattr", count), calls(NFSRDMA, folder, count))
        if EARLIER:
            note("earlier", calls(EARLIER, folder, 1))
    for count in CLIENTS:
        print(f"{count} clients: {best['getattr', count]:,.0f} GETATTRs a second, {best['getattr', count] / best['getattr', 1]:.2f} times one client;"
              f" raw round trips {best['raw', count]:,.0f}, {best['raw', count] / best['raw', 1]:.2f} times one pair")
    goal = min(2.5, best["raw", 4] / best["raw", 1])
    print(f"4 clients: {best['getattr', 4] / best['getattr', 1]:.2f} times one client (goal {goal:.2f})")
    if EARLIER:
        print(f"one client of the earlier program: {best['earlier']:,.0f} GETATTRs a second; now {best['getattr', 1] / best['earlier']:.3f} of that (goal 0.95)")


with tempfile.TemporaryDirectory() as folder:
    main(folder)
PYTHON
