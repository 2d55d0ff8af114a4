"""Has 16 threads make 20,000 READs over one link to the built `nfsrdma serve`, by `nr_bench shared`, and kills the server meanwhile.

    python3 conformance/check_shared.py [--program PROGRAM] [--bench PROGRAM]

File 2 holds the numbers from 0 on, of four bytes each, and each READ is of one of them. First all give their own number. Then the server is
killed after 50 milliseconds, after 100, and so on, nine times: each READ gives its own number or has no answer, and the program ends within
20 seconds. Exit status: 0 all did, 1 some run did otherwise, 2 nothing could be run."""
import argparse
import os
import subprocess
import sys
import tempfile
import time

from check_serve import CONFIG, connect, free_port

ROOT = os.path.dirname(os.path.dirname(os.path.abspath(__file__)))
THREADS, READS = 16, 1250


def served(program: str, folder: str) -> tuple[subprocess.Popen[bytes], str]:
    """A server with the file of the numbers, and its address."""
    port, path = free_port(), os.path.join(folder, 'config.toml')
    with open(path, 'w', encoding='utf-8') as f:
        f.write(CONFIG % (port, 1000000))
    server = subprocess.Popen([program, 'serve', path], stdout=subprocess.DEVNULL, stderr=subprocess.DEVNULL)
    connect(port).close()
    address = '127.0.0.1:%d' % port
    numbers = b''.join(i.to_bytes(4, 'big') for i in range(THREADS * READS))
    subprocess.run([program, 'put', address, '/', '/a'], input=numbers, check=True)
    return server, address


def run(program: str, bench: str, folder: str, kill_after: float | None) -> tuple[int, int]:
    """How many READs gave their own number, and how many had no answer; the server is killed after so many seconds."""
    server, address = served(program, folder)
    client = subprocess.Popen([bench, 'shared', address, str(THREADS), str(READS)], stdout=subprocess.PIPE)
    if kill_after is not None:
        time.sleep(kill_after)
        server.kill()
    try:
        out, _ = client.communicate(timeout=20)
    except subprocess.TimeoutExpired:
        client.kill()
        client.communicate()
        return -1, -1
    finally:
        server.kill()
        server.wait()
    words = out.split()
    return (int(words[0]), int(words[1])) if client.returncode == 0 and len(words) == 2 else (-1, -1)


def main(argv: list[str]) -> int:
    p = argparse.ArgumentParser(description='Has 16 threads make 20,000 READs over one link.')
    p.add_argument('--program', default=os.path.join(ROOT, 'crates/nfsrdma/out/nfsrdma'))
    p.add_argument('--bench', default=os.path.join(ROOT, 'crates/nr_bench/out/nr_bench'))
    a = p.parse_args(argv)
    for program in (a.program, a.bench):
        if not os.access(program, os.X_OK):
            print('no program at %s' % program)
            return 2
    wrong = 0
    with tempfile.TemporaryDirectory() as folder:
        for kill_after in [None, *(0.05 * i for i in range(1, 10))]:
            own, unanswered = run(a.program, a.bench, folder, kill_after)
            when = 'not killed' if kill_after is None else 'killed after %d ms' % round(kill_after * 1000)
            print('%s: %d READs gave their own number, %d had no answer' % (when, own, unanswered))
            wrong += own + unanswered != THREADS * READS or (kill_after is None and unanswered != 0)
    print('some run did otherwise' if wrong else 'all did')
    return 1 if wrong else 0


if __name__ == '__main__':
    sys.exit(main(sys.argv[1:]))
