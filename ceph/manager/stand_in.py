"""Stand-ins of mgr_module, mgr_util and cephfs, and of a small cluster behind them, so that the module runs without Ceph."""
import contextlib
import errno
import json
import os
import re
import stat
import sys
import threading
import types
from typing import Any, Dict, Iterator, List, Optional, Set, Tuple

NO_PIN = -1
GET = {'export dir', 'get subtrees', 'dump loads', 'scrub status', 'config get', 'perf dump'}


class Directory:
    def __init__(self, inode: int, entries: int = 1, pin: int = NO_PIN, distributed: str = '0', random: str = '0') -> None:
        self.inode, self.entries, self.pin, self.distributed, self.random = inode, entries, pin, distributed, random


def read_listing(text: bytes) -> Dict[bytes, Directory]:
    """The file `dirs` of a recorded folder."""
    found = {}  # type: Dict[bytes, Directory]
    path = b''
    for line in text.split(b'\n'):
        if line.startswith(b'# file: '):
            name = re.sub(rb'\\([0-7]{3})', lambda it: bytes([int(it.group(1), 8)]), line[8:])
            path = b'' if name == b'.' else b'/' + name
            found.setdefault(path, Directory(0x20000000000 + len(found)))
        elif line.startswith(b'ceph.dir.'):
            name, _, value = line[9:].partition(b'="')
            field = {b'entries': 'entries', b'pin': 'pin', b'pin.distributed': 'distributed', b'pin.random': 'random'}[name]
            text_of = value.rstrip(b'"').decode()
            setattr(found[path], field, text_of if field in ('distributed', 'random') else int(text_of))
    return found


class Cluster:
    """A cluster with one file system, from a folder that ceph/collect wrote. Pins that are set move their directories."""

    def __init__(self, folder: str) -> None:
        def read(name: str) -> bytes:
            with open(os.path.join(folder, name), 'rb') as it:
                return it.read()
        self.fs, self.fsid = read('complete').decode().split()
        self.map = json.loads(read('fs.json'))['mdsmap']  # type: Dict[str, Any]
        self.map['fs_name'] = self.fs
        self.interval = '10'
        if os.path.exists(os.path.join(folder, 'balancer')):
            self.interval = read('balancer').decode().split('\n')[0]
        for number, it in enumerate(self.map['info'].values()):
            it.setdefault('gid', number)
            it.setdefault('name', 'm{}'.format(number))
        self.id = 7
        self.roots = {rank: json.loads(read('subtrees.{}.json'.format(rank)).decode('latin-1')) for rank in self.map['in']}
        self.loads = {}  # type: Dict[int, List[bytes]]
        for rank in self.map['in']:
            names = sorted((it for it in os.listdir(folder) if it.startswith('loads.{}.'.format(rank))), key=lambda it: int(it.split('.')[2]))
            self.loads[rank] = [read(it) for it in names]
        self.taken = {rank: 0 for rank in self.loads}
        self.directories = read_listing(read('dirs')) if os.path.exists(os.path.join(folder, 'dirs')) else {}
        self.directories.setdefault(b'', Directory(1))
        for dump in (it for dumps in self.loads.values() for it in dumps):
            for entry in json.loads(re.sub(r':-?inf\b', ':0', dump.decode('latin-1')))['dirfrags']:
                name = entry['path'].encode('latin-1')
                it = self.directories.setdefault(name, Directory(0x20000000000 + len(self.directories)))
                if 'dirfrag' in entry:
                    it.inode = int(entry['dirfrag'].split('.')[0], 16)
        self.directories[b''].inode = 1
        self.moved = {}       # type: Dict[bytes, int]  # pins that were set, by path
        self.exported = {}    # type: Dict[bytes, int]  # directories that were moved without a pin
        self.late = set()     # type: Set[bytes]  # directories that do not move by their pins
        self.slow_looks = 0   # so many looks at roots find the last pin's directory under way
        self.checks = {}      # type: Dict[str, Any]
        self.kept = {}        # type: Dict[str, str]  # the store of the monitors
        self.keeps = True
        self.has_monitors = True
        self.scrubs = False
        self.obeys = {}       # type: Dict[int, str]  # whether a rank moves what is pinned, if it was said
        self.served = {}      # type: Dict[str, int]
        self.refuse = set()   # type: Set[bytes]
        self.hangs = None     # type: Optional[int]  # a rank
        self.freed = threading.Event()
        self.sets = []        # type: List[Tuple[bytes, int]]
        self.asked = []       # type: List[str]
        self.at_set = lambda path: None  # type: Any  # called before a pin is set
        self.cached = 1000

    def rentries(self, path: bytes) -> int:
        return 1 + sum(it.entries for name, it in self.directories.items() if name == path or name.startswith(path + b'/'))

    def subtrees(self, rank: int) -> bytes:
        found = [it for it in self.roots[rank] if it['dir']['path'].encode('latin-1') not in self.moved]
        found = [it for it in found if it['dir']['path'].encode('latin-1') not in self.exported]
        found += [root_at(path, at) for path, at in self.exported.items() if at == rank]
        slow, self.slow_looks = self.slow_looks, max(0, self.slow_looks - 1)
        for path, pin in self.moved.items():
            at = pin if pin in self.roots else 0
            if at == rank and (pin != NO_PIN):
                found.append({'is_auth': True, 'auth_first': at, 'auth_second': 1 if slow else -2, 'export_pin': pin,
                              'distributed_ephemeral_pin': False, 'random_ephemeral_pin': False, 'export_pin_target': -1,
                              'dir': {'path': path.decode('latin-1')}})
        return json.dumps(found, ensure_ascii=False, indent=4).encode('latin-1')

    def answer(self, rank: int, command: Dict[str, str]) -> bytes:
        what = command['prefix']
        assert what in GET, what
        self.asked.append('{} {}'.format(rank, what))
        if what == 'get subtrees':
            return self.subtrees(rank)
        if what == 'export dir':
            if command['path'].encode() in self.refuse:
                return json.dumps({'return_code': -errno.EINVAL}).encode()
            self.exported[command['path'].encode()] = int(command['rank'])
            return json.dumps({'return_code': 0}).encode()
        if what == 'dump loads':
            self.taken[rank] += 1
            return self.loads[rank][(self.taken[rank] - 1) % len(self.loads[rank])]
        if what == 'scrub status':
            return json.dumps({'status': 'scrub active' if self.scrubs else 'no active scrubs running', 'scrubs': {}}).encode()
        if what == 'config get':
            options = {'mds_bal_interval': self.interval, 'mds_bal_export_pin': self.obeys.get(rank, 'true')}
            return json.dumps({command['var']: options[command['var']]}).encode()
        return json.dumps({'mds_mem': {'dir': self.cached}}).encode()


def root_at(path: bytes, rank: int) -> Dict[str, Any]:
    """A root of a subtree without a pin, as a rank that has it prints it."""
    return {'is_auth': True, 'auth_first': rank, 'auth_second': -2, 'export_pin': NO_PIN, 'distributed_ephemeral_pin': False,
            'random_ephemeral_pin': False, 'export_pin_target': -1, 'dir': {'path': path.decode('latin-1')}}


# cephfs


class Error(Exception):
    def __init__(self, number: int, text: str = '') -> None:
        super().__init__(number, text)
        self.errno = number


class NoData(Error):
    pass


class ObjectNotFound(Error):
    pass


class Library:
    """A client of the file system."""

    def __init__(self, cluster: Cluster) -> None:
        self.cluster = cluster
        self.open_paths = {}  # type: Dict[int, bytes]

    def found(self, path: bytes) -> Directory:
        assert path.startswith(b'/')
        name = b'' if path == b'/' else path
        if name not in self.cluster.directories:
            name.decode()  # libcephfs fails to print such a path
            raise ObjectNotFound(errno.ENOENT, 'no such directory')
        return self.cluster.directories[name]

    def stat(self, path: bytes, follow_symlink: bool = True) -> Any:
        return types.SimpleNamespace(st_ino=self.found(path).inode, st_mode=stat.S_IFDIR | 0o755)

    def getxattr(self, path: bytes, name: str, size: int = 255, follow_symlink: bool = True) -> bytes:
        it = self.found(path)
        if name == 'ceph.dir.rentries':
            return str(self.cluster.rentries(b'' if path == b'/' else path)).encode()
        if name == 'ceph.dir.pin.random' and it.random == '0':
            raise NoData(errno.ENODATA)
        values = {'ceph.dir.pin': it.pin, 'ceph.dir.pin.distributed': it.distributed, 'ceph.dir.pin.random': it.random}
        return str(values[name]).encode()

    def open(self, path: bytes, flags: int, mode: int = 0) -> int:
        assert flags & os.O_NOFOLLOW and flags & os.O_DIRECTORY
        self.found(path)
        self.open_paths[len(self.open_paths)] = path
        return len(self.open_paths) - 1

    def close(self, place: int) -> None:
        pass

    def fstat(self, place: int) -> Any:
        return self.stat(self.open_paths[place])

    def fgetxattr(self, place: int, name: str, size: int = 255) -> bytes:
        return self.getxattr(self.open_paths[place], name)

    def fsetxattr(self, place: int, name: str, value: bytes, flags: int) -> None:
        path = self.open_paths[place]
        self.cluster.at_set(path)
        if path in self.cluster.refuse:
            raise Error(errno.EPERM, 'not permitted')
        assert name == 'ceph.dir.pin'
        self.cluster.directories[path].pin = int(value)
        if path not in self.cluster.late:
            self.cluster.moved[path] = int(value)
        self.cluster.sets.append((path, int(value)))

    def mds_command(self, mds: str, command: str, _: bytes) -> Tuple[int, bytes, str]:
        rank = int(mds.rpartition(':')[2])
        if rank == self.cluster.hangs:
            self.cluster.freed.wait()
            return -errno.ETIMEDOUT, b'', 'went away'
        return 0, self.cluster.answer(rank, json.loads(command)), ''

    def sync_fs(self) -> None:
        pass


# mgr_module and mgr_util


class Option(dict):  # type: ignore[type-arg]
    def __init__(self, name: str, **words: Any) -> None:
        super().__init__(words, name=name)


class CommandResult:
    def __init__(self, tag: str = '') -> None:
        self.ev, self.r, self.outb, self.outs = threading.Event(), 0, '', ''


DECLARED = {}  # type: Dict[str, Tuple[str, str]]  # the commands: who may give one, and what does it


def command(prefix: str, perm: str = 'rw') -> Any:
    def declare(function: Any) -> Any:
        DECLARED[prefix] = (perm, function.__name__)
        return function
    return declare


class MgrModule:
    """As much of MgrModule as the module uses. The monitors lose values over 64 KiB, and the manager does not say so."""

    cluster = None  # type: Any
    MODULE_OPTIONS = []  # type: List[Any]

    def __init__(self, *_: Any) -> None:
        silent = lambda *_: None  # noqa: E731
        self.log = types.SimpleNamespace(info=silent, debug=silent, exception=self.on_exception)
        self.options = {it['name']: it['default'] for it in self.MODULE_OPTIONS}
        self.stored = dict(self.cluster.kept)
        self.health = {}   # type: Dict[str, Any]
        self.events = []   # type: List[Any]
        self.raised = []   # type: List[Any]

    def on_exception(self, *_: Any) -> None:
        self.raised.append(sys.exc_info()[1])

    def get(self, what: str) -> Any:
        cluster = self.cluster
        return {'fs_map': {'filesystems': [{'id': cluster.id, 'mdsmap': json.loads(json.dumps(cluster.map))}]},
                'mon_map': {'fsid': cluster.fsid}, 'health': {'json': json.dumps({'checks': cluster.checks})}}[what]

    def get_mgr_id(self) -> str:
        return 'x'

    def have_mon_connection(self) -> bool:
        return bool(self.cluster.has_monitors)

    def get_module_option(self, name: str) -> Any:
        return self.options[name]

    def get_store(self, key: str) -> Optional[str]:
        return self.stored.get(key)

    def get_store_prefix(self, prefix: str) -> Dict[str, str]:
        return {key: it for key, it in self.stored.items() if key.startswith(prefix)}

    def set_store(self, key: str, value: Optional[str]) -> None:
        if value is None:
            self.stored.pop(key, None)
            self.cluster.kept.pop(key, None)
            return
        self.stored[key] = value
        if len(value) <= 65536 and self.cluster.keeps:
            self.cluster.kept[key] = value

    def send_command(self, result: CommandResult, kind: str, name: str, text: str, tag: str) -> None:
        asked = json.loads(text)
        assert asked['prefix'] == 'config-key get' and asked['key'].startswith('mgr/mdbal/')
        result.outb = self.cluster.kept.get(asked['key'][10:], '')
        result.ev.set()

    def get_latest(self, kind: str, daemon: str, name: str) -> int:
        return int(self.cluster.served.get(daemon, 0))

    def set_health_checks(self, checks: Dict[str, Any]) -> None:
        self.health = checks

    def remote(self, *words: Any) -> None:
        self.events.append(words)

    def shutdown(self) -> None:
        pass


class CephfsClient:
    def __init__(self, mgr: MgrModule) -> None:
        self.mgr = mgr


@contextlib.contextmanager
def open_filesystem(client: CephfsClient, fs: str) -> Iterator[Library]:
    yield Library(client.mgr.cluster)


def install() -> None:
    """Puts the stand-ins in the place of the modules of Ceph."""
    here = sys.modules[__name__]
    for name, words in (('cephfs', ('Error', 'NoData', 'ObjectNotFound')), ('mgr_util', ('CephfsClient', 'open_filesystem')),
                        ('mgr_module', ('MgrModule', 'Option', 'CommandResult'))):
        made = types.ModuleType(name)
        for word in words:
            setattr(made, word, getattr(here, word))
        sys.modules[name] = made
    setattr(sys.modules['mgr_module'], 'CLICommand', command)
