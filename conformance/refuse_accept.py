"""Answers calls of accept(2) of the built `nfsrdma serve` with errors, and looks at what it then does.

    python3 conformance/refuse_accept.py [--program PROGRAM]

A library that is preloaded gives the calls of accept4 the errors of a list, 0 for a call that is made; after the list all are made. After an
error of which accept(2) says to try again, also three times in a row, the server answers the clients that come, as it does after an error
of descriptors or memory, when 100 ms have passed. After an error that tells of a wrong descriptor, argument or address it ends with status 3.
It needs a C compiler (`cc`). Exit status: 0 all as expected, 1 something differs, 2 nothing could be run."""
import argparse
import errno
import os
import subprocess
import sys
import tempfile
import time

from check_serve import ANSWERED, CALL, CONFIG, HELLO, ROOT, free_port, null_call

REFUSES = r'''
#define _GNU_SOURCE
#include <dlfcn.h>
#include <errno.h>
#include <fcntl.h>
#include <stdlib.h>
#include <sys/socket.h>
#include <unistd.h>
static char *left;
static int given = -1;
__attribute__((constructor)) static void begin(void) {
    left = getenv("ACCEPT_ERRORS");
    given = open(getenv("ACCEPT_GIVEN"), O_WRONLY | O_CREAT | O_APPEND | O_CLOEXEC, 0600);
}
static int refused(void) {
    int error = left && *left ? strtol(left, &left, 10) : 0;
    if (left && *left == ',') left++;
    if (error && write(given, ".", 1) == 1) errno = error;
    return error;
}
int accept4(int fd, struct sockaddr *a, socklen_t *n, int flags) {
    static int (*f)(int, struct sockaddr *, socklen_t *, int);
    if (!f) f = dlsym(RTLD_NEXT, "accept4");
    return refused() ? -1 : f(fd, a, n, flags);
}
int accept(int fd, struct sockaddr *a, socklen_t *n) { return accept4(fd, a, n, 0); }
'''
# accept(2): EAGAIN, ECONNABORTED, EINTR, EPERM and EPROTO, and what it says to treat like EAGAIN, the network errors of TCP/IP
AGAIN = ('EAGAIN', 'ECONNABORTED', 'EINTR', 'EPERM', 'EPROTO', 'ENETDOWN', 'ENOPROTOOPT', 'EHOSTDOWN', 'ENONET', 'EHOSTUNREACH', 'EOPNOTSUPP', 'ENETUNREACH')
LATER = ('EMFILE', 'ENFILE', 'ENOBUFS', 'ENOMEM')
NEVER = ('EBADF', 'EFAULT', 'EINVAL', 'ENOTSOCK')
PAUSE = 0.1


class Server:
    """A server of two connections, whose calls of accept4 are given these errors."""

    def __init__(self, program: str, library: str, folder: str, errors: list[int]) -> None:
        self.port, path, self.given = free_port(), os.path.join(folder, 'config.toml'), os.path.join(folder, 'given')
        if os.path.exists(self.given):
            os.remove(self.given)
        with open(path, 'w', encoding='utf-8') as f:
            f.write(CONFIG % (self.port, 2))
        env = dict(os.environ, LD_PRELOAD=library, ACCEPT_ERRORS=','.join(map(str, errors)), ACCEPT_GIVEN=self.given)
        self.begun = time.time()
        self.process = subprocess.Popen([program, 'serve', path], stdout=subprocess.PIPE, stderr=subprocess.PIPE, env=env)

    def end(self) -> tuple[int, bytes, bytes, int]:
        """Its status, what it prints and reports, and how many errors it was given."""
        try:
            out, err = self.process.communicate(timeout=60)
        finally:
            self.process.kill()
        return self.process.returncode, out, err, os.path.getsize(self.given)


def is_answered(port: int) -> bool:
    """Whether a NULL call is answered."""
    try:
        return null_call(port, [HELLO + CALL]) == ANSWERED
    except OSError:
        return False


def goes_on(program: str, library: str, folder: str, errors: list[int], pause: float) -> str:
    """What is wrong with a server that is given these errors before the second of two clients."""
    server = Server(program, library, folder, [0] + errors)
    got = [is_answered(server.port) for _ in range(2)]
    took = time.time() - server.begun
    ended = server.end()
    if got != [True, True] or ended != (0, b'served 2 journal 0\n', b'', len(errors)) or took < pause:
        return 'answered %s, ended %r, %.2f seconds' % (got, ended, took)
    return ''


def ends(program: str, library: str, folder: str, error: int) -> str:
    """What is wrong with a server that is given this error after its first client."""
    server = Server(program, library, folder, [0, error])
    got, ended = is_answered(server.port), server.end()
    return '' if (got, ended) == (True, (3, b'', b'link fault\n', 1)) else 'answered %s, ended %r' % (got, ended)


def main(argv: list[str]) -> int:
    p = argparse.ArgumentParser(description='Answers calls of accept(2) of the built nfsrdma serve with errors.')
    p.add_argument('--program', default=os.path.join(ROOT, 'crates/nfsrdma/out/nfsrdma'))
    a = p.parse_args(argv)
    if not os.access(a.program, os.X_OK):
        print('no program at %s' % a.program)
        return 2
    with tempfile.TemporaryDirectory() as folder:
        source, library = os.path.join(folder, 'refuse.c'), os.path.join(folder, 'refuse.so')
        with open(source, 'w', encoding='utf-8') as f:
            f.write(REFUSES)
        subprocess.run(['cc', '-shared', '-fPIC', '-O1', '-o', library, source, '-ldl'], check=True)
        rows = [(it, goes_on(a.program, library, folder, [getattr(errno, it)] * 3, 0)) for it in AGAIN]
        rows.append(('all of these', goes_on(a.program, library, folder, [getattr(errno, it) for it in AGAIN], 0)))
        rows += [(it, goes_on(a.program, library, folder, [getattr(errno, it)] * 2, 2 * PAUSE)) for it in LATER]
        rows += [(it, ends(a.program, library, folder, getattr(errno, it))) for it in NEVER]
    wrong = ['%s: %s' % it for it in rows if it[1]]
    print('\n'.join(wrong) or 'all as expected, %d rows' % len(rows))
    return 1 if wrong else 0


if __name__ == '__main__':
    sys.exit(main(sys.argv[1:]))
