"""Runs the built `nfsrdma serve` with `record = true`, and libnfs against it: each call of NFS and MOUNT that it makes, compared.

    python3 conformance/check_libnfs.py [--program PROGRAM] [--capture] [--gate]

It needs Debian's packages libnfs-utils and libnfs13 (libnfs 4.0); with --capture also tshark, and the right to capture on the loopback
device: then tshark reads each record of the session, and none may be malformed. With --gate the server speaks RPC over RDMA alone, and
libnfs talks to `nfsrdma gate` in front of it: the same is expected. Exit status: 0 all as expected, 1 something differs,
2 no program or no library."""
import argparse
import ctypes
import ctypes.util
import errno
import os
import select
import socket
import subprocess
import sys
import tempfile
import time
from ctypes import POINTER, Structure, byref, c_char, c_char_p, c_int, c_size_t, c_uint32, c_uint64, c_void_p, cast

ROOT = os.path.dirname(os.path.dirname(os.path.abspath(__file__)))
CAPACITY = 1 << 40
CONFIG = '''listen = "127.0.0.1:%d"
export = "/export"
credits = 16
capacity = %d
connections = %d
write_verifier = "0000000000000001"
record = true
'''


GATE = '''listen = "127.0.0.1:%d"
remote = "127.0.0.1:%d"
connections = %d
'''


class Stat(Structure):
    """struct nfs_stat_64 of libnfs."""
    _fields_ = [(name, c_uint64) for name in (
        'dev', 'ino', 'mode', 'nlink', 'uid', 'gid', 'rdev', 'size', 'blksize', 'blocks', 'atime', 'mtime', 'ctime', 'atime_nsec',
        'mtime_nsec', 'ctime_nsec', 'used')]


class Dirent(Structure):
    """The beginning of struct nfsdirent."""
    _fields_ = [('next', c_void_p), ('name', c_char_p), ('inode', c_uint64)]


class Handle(Structure):
    """nfs_fh3, and struct nfs_fh."""
    _fields_ = [('len', c_uint32), ('val', c_void_p)]


class ReaddirArgs(Structure):
    _fields_ = [('dir', Handle), ('cookie', c_uint64), ('verifier', c_char * 8), ('count', c_uint32)]


class Entry(Structure):
    _fields_ = [('fileid', c_uint64), ('name', c_char_p), ('cookie', c_uint64), ('next', c_void_p)]


class ReaddirRes(Structure):
    _fields_ = [('status', c_uint32), ('attributes', c_uint64 * 12), ('verifier', c_char * 8), ('entries', c_void_p), ('eof', c_uint32)]


class LookupArgs(Structure):
    _fields_ = [('dir', Handle), ('name', c_char_p)]


class LookupRes(Structure):
    _fields_ = [('status', c_uint32), ('object', Handle)]


class WriteArgs(Structure):
    _fields_ = [('file', Handle), ('offset', c_uint64), ('count', c_uint32), ('stable', c_uint32), ('len', c_uint32), ('data', c_char_p)]


class PathconfRes(Structure):
    _fields_ = [('status', c_uint32), ('attributes', c_uint64 * 12), ('words', c_uint32 * 6)]


class Statvfs(Structure):
    _fields_ = [(name, c_uint64) for name in ('bsize', 'frsize', 'blocks', 'bfree', 'bavail', 'files', 'ffree', 'favail', 'more', 'and_more',
                                              'name_max', 'rest0', 'rest1', 'rest2')]


class Poll(Structure):
    _fields_ = [('fd', c_int)]


# what handles point to
HELD: list[object] = []
CALLBACK = ctypes.CFUNCTYPE(None, c_void_p, c_int, c_void_p, c_void_p)


def load() -> ctypes.CDLL:
    lib = ctypes.CDLL(ctypes.util.find_library('nfs') or 'libnfs.so.13')
    lib.nfs_init_context.restype = c_void_p
    lib.nfs_get_error.restype = c_char_p
    lib.nfs_parse_url_dir.restype = c_void_p
    lib.nfs_get_rootfh.restype = POINTER(Handle)
    lib.nfs_get_rpc_context.restype = c_void_p
    lib.nfs_readdir.restype = POINTER(Dirent)
    lib.nfs_get_readmax.restype = c_size_t
    lib.nfs_get_writemax.restype = c_size_t
    return lib


class Checks:
    """What was compared."""

    def __init__(self) -> None:
        self.bad = 0

    def same(self, name: str, got: object, want: object) -> None:
        good = got == want
        self.bad += not good
        print('%-60s %s' % (name, 'ok' if good else 'NOT as expected: %r, not %r' % (got, want)), flush=True)


class Mount:
    """An export that libnfs has mounted. A call answers what libnfs does: 0 or a number, or a negative errno."""

    def __init__(self, lib: ctypes.CDLL, port: int, export: str) -> None:
        self.lib = lib
        self.nfs = c_void_p(lib.nfs_init_context())
        url = 'nfs://127.0.0.1%s?nfsport=%d&mountport=%d&version=3&auto-traverse-mounts=0' % (export, port, port)
        lib.nfs_parse_url_dir(self.nfs, url.encode())
        self.as_user(0, 0)
        self.status = lib.nfs_mount(self.nfs, b'127.0.0.1', export.encode())

    def as_user(self, uid: int, gid: int) -> None:
        self.lib.nfs_set_uid(self.nfs, uid)
        self.lib.nfs_set_gid(self.nfs, gid)

    def root(self) -> Handle:
        root = self.lib.nfs_get_rootfh(self.nfs).contents
        return Handle(root.len, root.val)

    def call(self, name: str, *arguments: object) -> int:
        return int(getattr(self.lib, 'nfs_' + name)(self.nfs, *arguments))

    def stat(self, path: bytes) -> Stat | int:
        found = Stat()
        status = self.call('lstat64', path, byref(found))
        return found if status == 0 else status

    def opened(self, name: str, path: bytes, *more: object) -> c_void_p:
        handle = c_void_p()
        status = self.call(name, path, *more, byref(handle))
        if status != 0:
            raise OSError(-status, '%s of %r' % (name, path))
        return handle

    def write(self, handle: c_void_p, at: int, data: bytes) -> int:
        """All of the data, from an offset on."""
        done = 0
        while done < len(data):
            piece = data[done:done + (1 << 20)]
            n = self.call('pwrite', handle, c_uint64(at + done), c_uint64(len(piece)), piece)
            if n <= 0:
                return n
            done += n
        return done

    def read(self, handle: c_void_p, at: int, count: int) -> bytes:
        parts = []
        while count > 0:
            part = ctypes.create_string_buffer(min(count, 1 << 20))
            n = self.call('pread', handle, c_uint64(at), c_uint64(len(part)), part)
            if n <= 0:
                break
            parts.append(part.raw[:n])
            at, count = at + n, count - n
        return b''.join(parts)

    def names(self, path: bytes) -> list[bytes]:
        """The names of a directory, by READDIRPLUS, without `.` and `..`."""
        found = []
        folder = self.opened('opendir', path)
        while entry := self.lib.nfs_readdir(self.nfs, folder):
            if entry.contents.name not in (b'.', b'..'):
                found.append(entry.contents.name)
        self.lib.nfs_closedir(self.nfs, folder)
        return found

    def raw(self, name: str, arguments: Structure, read: 'object') -> object:
        """What a call of the layer below gives: `read` of its result."""
        done: list[object] = []

        def answered(_rpc: int, status: int, result: int, _private: int) -> None:
            done.append(read(result) if status == 0 else status)  # type: ignore[operator]

        held = CALLBACK(answered)
        rpc = c_void_p(self.lib.nfs_get_rpc_context(self.nfs))
        if getattr(self.lib, 'rpc_nfs3_%s_async' % name)(rpc, held, byref(arguments), None) != 0:
            return 'not sent'
        while not done:
            fd, events = self.lib.nfs_get_fd(self.nfs), self.lib.nfs_which_events(self.nfs)
            poll = select.poll()
            poll.register(fd, events)
            for _, happened in poll.poll(10_000):
                if self.lib.nfs_service(self.nfs, happened) < 0:
                    return 'no service'
        return done[0]


def read_listing(result: int) -> object:
    r = cast(result, POINTER(ReaddirRes)).contents
    if r.status != 0:
        return r.status
    found = []
    at = r.entries
    while at:
        entry = cast(at, POINTER(Entry)).contents
        found.append((entry.name, entry.cookie))
        at = entry.next
    return found, bool(r.eof)


def read_pathconf(result: int) -> object:
    r = cast(result, POINTER(PathconfRes)).contents
    return r.status, tuple(r.words)


def read_status(result: int) -> object:
    return cast(result, POINTER(c_uint32))[0]


def handle_of(m: Mount, name: bytes) -> Handle:
    """The handle of a file of the root, by LOOKUP."""
    found = ctypes.create_string_buffer(64)

    def read_object(result: int) -> object:
        r = cast(result, POINTER(LookupRes)).contents
        if r.status != 0:
            return r.status
        ctypes.memmove(found, r.object.val, r.object.len)
        return Handle(r.object.len, ctypes.addressof(found))

    handle = m.raw('lookup', LookupArgs(m.root(), name), read_object)
    if not isinstance(handle, Handle):
        raise OSError('LOOKUP of %r: %r' % (name, handle))
    HELD.append(found)
    return handle


def listed(m: Mount, folder: Handle) -> list[bytes]:
    """The names of a directory, by READDIR."""
    found: list[bytes] = []
    cookie = 0
    while True:
        arguments = ReaddirArgs(folder, cookie, b'', 4096)
        got = m.raw('readdir', arguments, read_listing)
        if not isinstance(got, tuple):
            return [b'status %r' % (got,)]
        found += [name for name, _ in got[0]]
        if got[1] or not got[0]:
            return found
        cookie = got[0][-1][1]


def files(c: Checks, m: Mount) -> None:
    """CREATE, WRITE, COMMIT, READ, GETATTR, SETATTR, ACCESS."""
    data = os.urandom(16 << 20)
    f = m.opened('creat', b'/f', 0o644)
    c.same('WRITE of 16 MiB', m.write(f, 0, data), len(data))
    c.same('COMMIT', m.call('fsync', f), 0)
    c.same('READ of 16 MiB: the same bytes', m.read(f, 0, len(data) + 1) == data, True)
    c.same('READ past the end', m.read(f, len(data), 5), b'')
    c.same('WRITE beyond 16 MiB is refused', m.write(f, len(data), b'x') < 0, True)
    c.same('its status: NFS3ERR_FBIG', m.raw('write', WriteArgs(handle_of(m, b'f'), len(data), 1, 2, 1, b'x'), read_status), 27)
    c.same('SETATTR of the size, by the handle', m.call('ftruncate', f, c_uint64(1000)), 0)
    c.same('WRITE past a gap', m.write(f, 1100, b'end'), 3)
    c.same('READ of the gap', m.read(f, 990, 200), data[990:1000] + bytes(100) + b'end')
    m.call('close', f)
    found = m.stat(b'/f')
    assert isinstance(found, Stat)
    c.same('GETATTR', (found.mode, found.nlink, found.uid, found.gid, found.size, found.dev), (0o100644, 1, 0, 0, 1103, 1))
    c.same('SETATTR of the mode', m.call('chmod', b'/f', 0o640), 0)
    c.same('SETATTR of owner and group', m.call('chown', b'/f', 12, 34), 0)
    c.same('SETATTR of the size', m.call('truncate', b'/f', c_uint64(7)), 0)
    times = (c_uint64 * 4)(1_000_000_000, 5, 1_100_000_000, 6)
    c.same('SETATTR of the times', m.call('utimes', b'/f', times), 0)
    found = m.stat(b'/f')
    assert isinstance(found, Stat)
    c.same('GETATTR of all that', (found.mode, found.uid, found.gid, found.size, found.atime, found.mtime, found.mtime_nsec),
           (0o100640, 12, 34, 7, 1_000_000_000, 1_100_000_000, 6000))
    c.same('ACCESS', m.call('access', b'/f', 6), 0)
    # uid 0 has every right (docs/SERVER.md)
    c.same('ACCESS of what has no x, by uid 0', m.call('access', b'/f', 1), 0)
    for uid, gid, rights in ((12, 0, (0, 0)), (5, 34, (0, -errno.EACCES)), (5, 6, (-errno.EACCES, -errno.EACCES))):
        m.as_user(uid, gid)
        c.same('ACCESS r, w, x of mode 0640, by %d and %d' % (uid, gid), [m.call('access', b'/f', bit) for bit in (4, 2, 1)],
               [*rights, -errno.EACCES])
    m.as_user(0, 0)
    c.same('CREATE of what is there, then the size', m.call('close', m.opened('creat', b'/f', 0o644)), 0)
    c.same('LOOKUP of what is not there', m.stat(b'/none'), -errno.ENOENT)


def links(c: Checks, m: Mount) -> None:
    """SYMLINK, READLINK, LINK, RENAME, MKNOD, REMOVE."""
    c.same('SYMLINK', m.call('symlink', b'f', b'/s'), 0)
    path = ctypes.create_string_buffer(64)
    c.same('READLINK', (m.call('readlink', b'/s', path, 64), path.value), (0, b'f'))
    c.same('LINK', m.call('link', b'/f', b'/h'), 0)
    one, two = m.stat(b'/f'), m.stat(b'/h')
    assert isinstance(one, Stat) and isinstance(two, Stat)
    c.same('two names of one file', (one.ino, one.nlink), (two.ino, 2))
    c.same('RENAME', m.call('rename', b'/h', b'/g'), 0)
    c.same('RENAME of what is not there', m.call('rename', b'/h', b'/g'), -errno.ENOENT)
    c.same('MKNOD of a fifo', m.call('mknod', b'/p', 0o010600, 0), 0)
    found = m.stat(b'/p')
    assert isinstance(found, Stat)
    c.same('GETATTR of the fifo', found.mode, 0o010600)
    c.same('READDIR', listed(m, m.root()), [b'f', b's', b'g', b'p'])
    c.same('READDIRPLUS', sorted(m.names(b'/')), [b'f', b'g', b'p', b's'])
    for name in (b'/f', b'/g', b'/p', b'/s'):
        c.same('REMOVE of %s' % name.decode(), m.call('unlink', name), 0)
    c.same('REMOVE of what is not there', m.call('unlink', b'/f'), -errno.ENOENT)


def folders(c: Checks, m: Mount) -> None:
    """MKDIR, RMDIR, names of 255 bytes, a directory of 5,000 entries."""
    c.same('MKDIR', m.call('mkdir', b'/d'), 0)
    c.same('MKDIR again', m.call('mkdir', b'/d'), -errno.EEXIST)
    names = [b'%05d' % i for i in range(5000)]
    for name in names:
        m.call('close', m.opened('creat', b'/d/' + name, 0o600))
    c.same('READDIR of 5,000 entries', listed(m, handle_of(m, b'd')), names)
    # libnfs gives the entries in another order than they came
    c.same('READDIRPLUS of 5,000 entries', sorted(m.names(b'/d')), names)
    c.same('RMDIR of what has entries', m.call('rmdir', b'/d'), -errno.ENOTEMPTY)
    c.same('REMOVE of 5,000 entries', {m.call('unlink', b'/d/' + name) for name in names}, {0})
    c.same('RMDIR', m.call('rmdir', b'/d'), 0)
    long = b'n' * 255
    c.same('MKDIR of a name of 255 bytes', m.call('mkdir', b'/' + long), 0)
    c.same('SYMLINK of a name of 255 bytes in it', m.call('symlink', long, b'/' + long + b'/' + long), 0)
    c.same('its name', m.names(b'/' + long), [long])
    c.same('a name of 256 bytes', m.call('mkdir', b'/' + long + b'n'), -errno.ENAMETOOLONG)
    c.same('REMOVE of it', m.call('unlink', b'/' + long + b'/' + long), 0)
    c.same('RMDIR of it', m.call('rmdir', b'/' + long), 0)


def session(c: Checks, lib: ctypes.CDLL, port: int) -> None:
    m = Mount(lib, port, '/export')
    c.same('MNT', m.status, 0)
    c.same('FSINFO: READ and WRITE of', (lib.nfs_get_readmax(m.nfs), lib.nfs_get_writemax(m.nfs)), (1048576, 1048576))
    space = Statvfs()
    c.same('FSSTAT', (m.call('statvfs', b'/', byref(space)), space.blocks * space.frsize), (0, CAPACITY))
    c.same('PATHCONF', m.raw('pathconf', m.root(), read_pathconf), (0, (65535, 255, 1, 1, 0, 1)))
    files(c, m)
    links(c, m)
    folders(c, m)
    c.same('UMNT', m.call('umount'), 0)
    lib.nfs_destroy_context(m.nfs)
    other = Mount(lib, port, '/other')
    # libnfs gives another number for each version; MNT3ERR_NOENT is compared by check_commands.py
    c.same('MNT of another path is refused', other.status < 0, True)
    lib.nfs_destroy_context(other.nfs)


def programs(c: Checks, port: int, folder: str) -> None:
    """The programs of libnfs-utils."""
    url = 'nfs://127.0.0.1/export%%s?nfsport=%d&mountport=%d&version=3&auto-traverse-mounts=0' % (port, port)

    def run(*line: str) -> tuple[int, bytes]:
        done = subprocess.run(line, capture_output=True, check=False, timeout=60)
        return done.returncode, done.stdout

    here, back = os.path.join(folder, 'here'), os.path.join(folder, 'back')
    data = os.urandom(300_000)
    with open(here, 'wb') as f:
        f.write(data)
    c.same('nfs-cp to the server', run('nfs-cp', here, url % '/r')[0], 0)
    c.same('nfs-cp from the server', run('nfs-cp', url % '/r', back)[0], 0)
    with open(back, 'rb') as f:
        c.same('the same bytes', f.read() == data, True)
    c.same('nfs-cat', run('nfs-cat', url % '/r'), (0, data))
    status, shown = run('nfs-ls', url % '')
    c.same('nfs-ls', (status, [line.split()[-1] for line in shown.decode().splitlines()]), (0, ['r']))


def capture(port: int, path: str) -> 'subprocess.Popen[bytes]':
    return subprocess.Popen(['tshark', '-q', '-i', 'lo', '-f', 'tcp port %d' % port, '-B', '64', '-w', path],
                            stdout=subprocess.DEVNULL, stderr=subprocess.DEVNULL)


def read_capture(c: Checks, port: int, path: str) -> None:
    """Each record that was captured is decoded."""
    def count(what: str) -> int:
        line = ['tshark', '-r', path, '-d', 'tcp.port==%d,rpc' % port, '-Y', what, '-T', 'fields', '-e', 'frame.number']
        return len(subprocess.run(line, capture_output=True, check=True).stdout.splitlines())

    frames = count('rpc')
    c.same('tshark reads calls and replies, %d frames' % frames, frames > 20_000, True)
    c.same('records that tshark finds malformed', count('_ws.malformed || rpc.fragment.error || _ws.unreassembled'), 0)


def wait(port: int) -> None:
    for _ in range(200):
        try:
            socket.create_connection(('127.0.0.1', port)).close()
            return
        except ConnectionRefusedError:
            time.sleep(0.05)
    raise TimeoutError('the server does not listen')


def free_port() -> int:
    with socket.socket() as s:
        s.bind(('127.0.0.1', 0))
        return int(s.getsockname()[1])


def start_gate(program: str, folder: str, port: int, remote: int) -> 'subprocess.Popen[bytes]':
    """A gateway that listens at a port, in front of the server at another one."""
    path = os.path.join(folder, 'gate.toml')
    with open(path, 'w', encoding='utf-8') as f:
        f.write(GATE % (port, remote, 1000))
    return subprocess.Popen([program, 'gate', path])


def main() -> int:
    parser = argparse.ArgumentParser(description=__doc__, formatter_class=argparse.RawDescriptionHelpFormatter)
    parser.add_argument('--program', default=os.path.join(ROOT, 'crates', 'nfsrdma', 'out', 'nfsrdma'))
    parser.add_argument('--capture', action='store_true')
    parser.add_argument('--gate', action='store_true')
    given = parser.parse_args()
    try:
        lib = load()
    except OSError as fault:
        print(fault, file=sys.stderr)
        return 2
    if not os.access(given.program, os.X_OK):
        print('no program at %s' % given.program, file=sys.stderr)
        return 2
    port = free_port()
    behind = free_port() if given.gate else port
    c = Checks()
    with tempfile.TemporaryDirectory() as folder:
        config, captured = os.path.join(folder, 'config.toml'), os.path.join(folder, 'captured.pcap')
        with open(config, 'w', encoding='utf-8') as f:
            f.write((CONFIG % (behind, CAPACITY, 1000)).replace('record = true\n', '' if given.gate else 'record = true\n'))
        watcher = capture(port, captured) if given.capture else None
        time.sleep(2 if watcher else 0)
        with subprocess.Popen([given.program, 'serve', config]) as server:
            gate = None
            try:
                wait(behind)
                if given.gate:
                    gate = start_gate(given.program, folder, port, behind)
                    wait(port)
                session(c, lib, port)
                programs(c, port, folder)
                c.same('the server goes on', (server.poll(), gate.poll() if gate else None), (None, None))
            finally:
                if gate:
                    gate.kill()
                    gate.wait()
                server.kill()
        if watcher:
            time.sleep(2)
            watcher.terminate()
            watcher.wait()
            read_capture(c, port, captured)
    print('all as expected' if not c.bad else 'NOT all as expected')
    return 1 if c.bad else 0


if __name__ == '__main__':
    sys.exit(main())
