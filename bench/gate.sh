#!/bin/sh
# A gateway over loopback: GETATTRs and READs of 32 KiB through `nfsrdma gate` to `nfsrdma serve`, one at a time, beside two raw hops of the
# same bytes, without copies and with those of the server and the gateway, and beside a record connection of `nfsrdma serve` itself. Run by
# hand, at the top of the repository, once `rt run` has built nfsrdma; or with the path of the program. It needs a C compiler, for
# bench/records.c. A round makes CALLS calls of each kind in each way, one way after another, since the time in which a blocked process is
# woken differs from run to run; ROUNDS says how many rounds. The least and the median count.
exec python3 - "${1:-crates/nfsrdma/out/nfsrdma}" <<'PYTHON'
import os, socket, statistics, subprocess, sys, tempfile, time

NFSRDMA = os.path.abspath(sys.argv[1])
CALLS, ROUNDS = int(os.environ.get("CALLS", "500")), int(os.environ.get("ROUNDS", "100"))
# kind, bytes of a reply
KINDS = (("getattr", 112), ("read", 32_896))
# Ways without RPC: how often the server copies a reply, and the relay, if there is one. The server of a record connection copies it once.
# Over RDMA the server puts a reply together and then into its output; the gateway puts its data into a region, and together again.
RAW = (("two raw hops", 0, 1), ("two raw hops with the copies", 2, 2), ("a raw hop with one copy", 1, 0))
GATE, RECORD = "the gateway", "a record connection"
# the least share of two raw hops, and the most times the record connection
SHARE, TIMES_MOST = 0.5, 2.2


def free_port():
    with socket.socket() as it:
        it.bind(("127.0.0.1", 0))
        return it.getsockname()[1]


def micros(program, how, port, *words):
    """The microseconds of a call, once it is listened at the port."""
    for _ in range(500):
        done = subprocess.run([program, how, str(port), *map(str, words)], capture_output=True, text=True)
        if done.returncode != 2:
            break
        time.sleep(0.01)
    if done.returncode:
        sys.exit(f"{how} {words}: status {done.returncode}: {done.stderr}")
    return float(done.stdout)


def start(command, path, text):
    with open(path, "w") as it:
        it.write(text)
    return subprocess.Popen([NFSRDMA, command, path], stdout=subprocess.DEVNULL)


def serve(folder, port, connections):
    return start("serve", f"{folder}/serve.toml", f'listen = "127.0.0.1:{port}"\nexport = "/export"\ncredits = 16\ncapacity = 1000000000000\n'
                 f'connections = {connections}\nwrite_verifier = "0000000000000001"\nrecord = true\n')


def end(*children):
    for child in children:
        child.kill()
        child.wait()


def raw(records, kind, reply, served, relayed):
    """The microseconds of a raw call."""
    far, near = free_port(), free_port()
    hops = [subprocess.Popen([records, "serve", str(far), str(reply), str(served)])]
    if relayed:
        time.sleep(0.02)
        hops.append(subprocess.Popen([records, "relay", str(near), str(far), str(relayed)]))
    taken = micros(records, "raw", near if relayed else far, kind, CALLS, 1)
    end(*hops)
    return taken


def measure(records, port, gated):
    """The microseconds of a call in each round, by kind and way."""
    taken = {}
    for _ in range(ROUNDS):
        for kind, reply in KINDS:
            for way, served, relayed in RAW:
                taken.setdefault((kind, way), []).append(raw(records, kind, reply, served, relayed))
            for way, at in ((RECORD, port), (GATE, gated)):
                taken.setdefault((kind, way), []).append(micros(records, "call", at, kind, CALLS, 1))
    return taken


def report(taken):
    for name, of in (("least", min), ("median", statistics.median)):
        for kind, _ in KINDS:
            gate, record, hops, copied, once = (of(taken[kind, way]) for way in (GATE, RECORD, *(way for way, _, _ in RAW)))
            print(f"{kind.upper()}, {name}: {gate:.1f} microseconds through the gateway; two raw hops {hops:.1f}, share {hops / gate:.2f} (goal "
                  f"{SHARE}); a record connection {record:.1f}, {gate / record:.2f} times (goal at most {TIMES_MOST}); two raw hops with the copies "
                  f"{copied:.1f}, {copied / record:.2f} times; a raw hop with one copy {once:.1f}")


def main(folder):
    records = f"{folder}/records"
    subprocess.run([os.environ.get("CC", "cc"), "-O2", "-o", records, "bench/records.c"], check=True)
    port, gated, connections = free_port(), free_port(), 10 * ROUNDS + 10
    server = serve(folder, port, connections)
    micros(records, "call", port, "make", 65, 1)
    gate = start("gate", f"{folder}/gate.toml", f'listen = "127.0.0.1:{gated}"\nremote = "127.0.0.1:{port}"\nconnections = {connections}\n')
    report(measure(records, port, gated))
    end(gate, server)


with tempfile.TemporaryDirectory() as folder:
    main(folder)
PYTHON
