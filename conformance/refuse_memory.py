"""Refuses each request for memory of the built `nfsrdma`, one at a time, and looks at what it then does.

    python3 conformance/refuse_memory.py [--program PROGRAM]

The N-th call of malloc and realloc is answered with nothing, for N from 1 on, until a run makes fewer. Each drill, of several scripts, has
to end with status 2, print nothing and write `memory`. So has `stat` over TCP; or it can't make a link, and ends with status 3. A server of
one connection, or of two at once, ends so, or serves them: then each client has received the answer, or a part of it before its link ended.
A `get` by two jobs ends so after it printed a first part of the file, or can't make a link, or prints the file: what a job has no memory to
read is read again.
It needs a C compiler (`cc`) for the library that it preloads. Exit status: 0 all did, 1 some run did otherwise, 2 nothing could be run."""
import argparse
import os
import socket
import subprocess
import sys
import tempfile
from collections.abc import Callable
from concurrent.futures import ThreadPoolExecutor

from check_serve import ANSWERED, CALL, CONFIG, HELLO, connect, free_port

ROOT = os.path.dirname(os.path.dirname(os.path.abspath(__file__)))
REFUSES = r'''
#define _GNU_SOURCE
#include <dlfcn.h>
#include <fcntl.h>
#include <stdlib.h>
#include <unistd.h>
static long left = -1, made;
__attribute__((constructor)) static void begin(void) { const char *at = getenv("REFUSE_AT"); left = at ? atol(at) : 0; made = 0; }
static int refused(void) {
    if (left <= 0 || ++made != left) return 0;
    close(open(getenv("REFUSE_MARK"), O_CREAT | O_WRONLY, 0600));
    return 1;
}
void *malloc(size_t n) { static void *(*f)(size_t); if (!f) f = dlsym(RTLD_NEXT, "malloc"); return refused() ? 0 : f(n); }
void *realloc(void *p, size_t n) { static void *(*f)(void *, size_t); if (!f) f = dlsym(RTLD_NEXT, "realloc"); return refused() ? 0 : f(p, n); }
'''
FILE, WORD = '000000080000000000000002', '0000000000000000'
WRITE = FILE + WORD + '00000005' + '00000002' + '00000005' + '48454c4c4f000000'
SCRIPTS = {
    'a NULL call': 'clients 1 credits 16\ncall 1 auto nfs 0 -\ndrain\n',
    'a READ with a write chunk': 'clients 1 credits 16\ncall 1 given:write=5 nfs 6 %s%s00000005\ndrain\n' % (FILE, WORD),
    'a READDIR with a reply chunk': 'clients 1 credits 16\ncall 1 given:reply=1000,1000,1000 nfs 16 000000080000000000000004%s%s00001000\ndrain\n' % (WORD, WORD),
    'two WRITEs with read chunks': 'clients 2 credits 1\ncall 1 chunk nfs 7 %s\ncall 2 chunk nfs 7 %s\nup 1 4096\nup 2 4096\ndown 2 4096\nup 2 4096\nwork 2\ndown 1 4096\nup 1 4096\nwork 1\ndrain\n' % (WRITE, WRITE),
}


# stands for the status of a run in which no request was refused, since it made fewer
FEWER = 77


def environment(library: str, at: int) -> dict[str, str]:
    return dict(os.environ, LD_PRELOAD=library, REFUSE_AT=str(at), REFUSE_MARK='%s.%d' % (library, at))


def status(library: str, at: int, returned: int) -> int:
    """The status of a run, or FEWER. The library leaves a file if it refused a request."""
    if at == 0:
        return returned
    try:
        os.remove('%s.%d' % (library, at))
    except FileNotFoundError:
        return FEWER
    return returned


def run(program: str, library: str, words: list[str], given: bytes, at: int) -> tuple[int, bytes, bytes]:
    done = subprocess.run([program, *words], input=given, capture_output=True, env=environment(library, at), check=False)
    return status(library, at, done.returncode), done.stdout, done.stderr


def answer(s: socket.socket) -> bytes:
    """What comes over a link up to the length of an answer, or up to its end, or until nothing has come for a second."""
    got = b''
    s.settimeout(1)
    try:
        while len(got) < len(ANSWERED) and (more := s.recv(65536)):
            got += more
    except OSError:
        pass
    return got


def serve_some(program: str, library: str, folder: str, count: int, at: int) -> tuple[int, bytes, bytes, list[bytes]]:
    """What a server of this many connections came to, and what each of its clients received after a NULL call. All are open at once, and
    the last one is answered first."""
    port, path = free_port(), os.path.join(folder, 'config%d.toml' % at)
    with open(path, 'w', encoding='utf-8') as f:
        f.write(CONFIG % (port, count))
    server = subprocess.Popen([program, 'serve', path], stdout=subprocess.PIPE, stderr=subprocess.PIPE, env=environment(library, at))
    links: list[socket.socket] = []
    while server.poll() is None and len(links) < count:
        try:
            s = connect(port, tries=1)
            links.append(s)
            s.sendall(HELLO + CALL)
        except (OSError, TimeoutError):
            continue
    got = []
    for s in reversed(links):
        got.append(answer(s))
        s.close()
    out, err = server.communicate(timeout=30)
    return status(library, at, server.returncode), out, err, got


def served(count: int, g: tuple[object, ...]) -> bool:
    """Whether it ended as it may: by memory, by the link, or after its connections, each of which received a part of the answer at most."""
    if g[:3] in ((2, b'', b'memory\n'), (3, b'', b'link fault\n')):
        return True
    assert isinstance(g[3], list)
    return g[:3] == (0, b'served %d journal 0\n' % count, b'') and all(ANSWERED.startswith(it) for it in g[3])


def got_by_jobs(file: bytes, g: tuple[object, ...]) -> bool:
    """Whether it ended as it may: with the file; or by memory, after a first part of the file; or by the link, before any of it."""
    assert isinstance(g[1], bytes)
    return g == (0, file, b'') or (g[0] == 2 and g[2] == b'memory\n' and file.startswith(g[1])) or g == (3, b'', b'link fault\n')


def refuse_over_links(program: str, library: str, folder: str) -> int:
    """Refuses the requests of `stat`, of `get` by two jobs, and of servers of one and two connections. Gives how many runs did otherwise than they may."""
    wrong = 0
    port, path = free_port(), os.path.join(folder, 'config.toml')
    with open(path, 'w', encoding='utf-8') as f:
        f.write(CONFIG.replace('capacity = 1000000', 'capacity = 4000000') % (port, 1000000))
    server = subprocess.Popen([program, 'serve', path])
    connect(port).close()
    address = '127.0.0.1:%d' % port
    file = bytes(i % 251 for i in range(3 << 20))
    subprocess.run([program, 'put', address, '/', '/a'], input=file, check=True)
    ends: dict[str, tuple[Callable[[int], tuple[object, ...]], Callable[[tuple[object, ...]], bool]]] = {
        'stat': (lambda at: run(program, library, ['stat', address, '/', '/'], b'', at),
                 lambda g: g in ((2, b'', b'memory\n'), (3, b'', b'link fault\n'))),
        'get, two jobs': (lambda at: run(program, library, ['get', '--jobs', '2', address, '/', '/a'], b'', at), lambda g: got_by_jobs(file, g)),
        'serve, one connection': (lambda at: serve_some(program, library, folder, 1, at), lambda g: served(1, g)),
        'serve, two connections at once': (lambda at: serve_some(program, library, folder, 2, at), lambda g: served(2, g)),
    }
    for name, (run_at, may_be) in ends.items():
        good, at, seen = run_at(0), 0, {}
        while True:
            at += 1
            g = run_at(at)
            if g[0] == FEWER:
                break
            seen[str(g[0])] = seen.get(str(g[0]), 0) + 1
            if not may_be(g):
                wrong += 1
                print(('%s, request %d: %r' % (name, at, g))[:300])
        print('%s: status %d without refusals; %d requests refused, statuses %s' % (name, good[0], at - 1, seen))
    server.kill()
    server.wait()
    return wrong


def refuse_drill(program: str, library: str, pool: ThreadPoolExecutor, words: list[str], name: str, script: bytes) -> int:
    """Refuses each request of a drill: it ends with status 2 and prints nothing. Returns how many runs did otherwise."""
    wrong, count, step = 0, 0, 64
    good = run(program, library, words, script, 0)
    while True:
        got = list(pool.map(lambda at: run(program, library, words, script, at), range(count + 1, count + step + 1)))
        refused = max((i + 1 for i, g in enumerate(got) if g[0] != FEWER), default=0)
        for at, g in enumerate(got[:refused], count + 1):
            if g != (2, b'', b'memory\n'):
                wrong += 1
                print('%s, %s, request %d: status %d, %r, %r' % (' '.join(words), name, at, g[0], g[1][:80], g[2][:80]))
        count += refused
        if refused < step:
            break
    print('%s, %s: status %d without refusals; %d requests refused' % (' '.join(words), name, good[0], count))
    return wrong


def main(argv: list[str]) -> int:
    p = argparse.ArgumentParser(description='Refuses each request for memory of the built nfsrdma, one at a time.')
    p.add_argument('--program', default=os.path.join(ROOT, 'crates/nfsrdma/out/nfsrdma'))
    a = p.parse_args(argv)
    if not os.access(a.program, os.X_OK):
        print('no program at %s' % a.program)
        return 2
    wrong = 0
    with tempfile.TemporaryDirectory() as folder, ThreadPoolExecutor(os.cpu_count()) as pool:
        source, library = os.path.join(folder, 'refuse.c'), os.path.join(folder, 'refuse.so')
        with open(source, 'w', encoding='utf-8') as f:
            f.write(REFUSES)
        subprocess.run(['cc', '-shared', '-fPIC', '-O1', '-o', library, source, '-ldl'], check=True)
        for words in (['drill'], ['drill', '--log']):
            for name, script in SCRIPTS.items():
                wrong += refuse_drill(a.program, library, pool, words, name, script.encode())
        wrong += refuse_over_links(a.program, library, folder)
    print('some run did otherwise' if wrong else 'each ended as it may')
    return 1 if wrong else 0


if __name__ == '__main__':
    sys.exit(main(sys.argv[1:]))
