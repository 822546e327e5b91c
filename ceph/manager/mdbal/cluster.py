"""One file system of the cluster: what its ranks say, and the pins of its directories.

All goes through libcephfs. MgrModule.send_command is not used to ask a rank: it gives text, and where a name is not UTF-8
it waits for ever.
"""
import errno
import json
import os
import stat
from typing import Any, Dict, List, NamedTuple, Optional, Set, Tuple

import cephfs

from .hands import Hands, NoAnswer
from .texts import NO_PIN, Trouble, escaped

GONE = (errno.ENOENT, errno.ENOTDIR)
AWAY = (errno.ETIMEDOUT, errno.ENOTCONN, errno.ESHUTDOWN)


class Root(NamedTuple):
    """A root of a subtree that a rank has."""
    path: str
    rank: int
    other: int  # to which it is exported, and otherwise -2
    pin: int


class Facts(NamedTuple):
    """What the file system knows of a directory, as attributes print it."""
    inode: int
    rentries: int
    pin: str
    distributed: str
    random: str


def file_systems(mgr: Any) -> Dict[str, Dict[str, Any]]:
    """The file systems by name, as the map has them."""
    return {it['mdsmap']['fs_name']: it for it in mgr.get('fs_map')['filesystems']}


class Cluster:
    def __init__(self, mgr: Any, fs: str, hands: Hands) -> None:
        self.mgr, self.fs, self.hands = mgr, fs, hands

    def mds_map(self) -> Dict[str, Any]:
        found = file_systems(self.mgr).get(self.fs)
        if found is None:
            raise Trouble('there is no file system {}'.format(self.fs))
        return found['mdsmap']  # type: ignore[no-any-return]

    def fsid(self) -> str:
        return str(self.mgr.get('mon_map')['fsid'])

    def ranks(self) -> List[int]:
        """The ranks, all of which are active."""
        found = self.mds_map()
        states = {it['rank']: it['state'] for it in found['info'].values()}
        for rank in found['in']:
            if states.get(rank) != 'up:active':
                raise Trouble('{} is degraded: rank {} is {}'.format(self.fs, rank, states.get(rank, 'without a daemon')))
        return sorted(found['in'])

    def word(self) -> str:
        """One word that is the same as long as ranks, daemons and their states are."""
        found = self.mds_map()
        daemons = sorted((it['rank'], it['name'], it['gid'], it['state']) for it in found['info'].values() if it['rank'] >= 0)
        return escaped(json.dumps([found['max_mds'], sorted(found['in']), daemons]).encode())

    def warnings(self) -> Set[str]:
        """The health warnings that concern file systems, and all errors."""
        checks = json.loads(self.mgr.get('health')['json'])['checks']
        return {code for code, it in checks.items() if code.startswith(('MDS_', 'FS_')) or it['severity'] == 'HEALTH_ERR'}

    # What ranks are asked

    def tell(self, whom: int, prefix: str, **more: Any) -> bytes:
        """What a rank answers to a command."""
        command = json.dumps(dict(more, prefix=prefix, format='json'))
        status, answer, why = self.hands.call(lambda lib: lib.mds_command('{}:{}'.format(self.fs, whom), command, b''))
        if status != 0 or not answer:
            raise NoAnswer('mds.{}:{} {}: {}'.format(self.fs, whom, prefix, why or 'status {}'.format(status)))
        return bytes(answer)

    def told(self, whom: int, prefix: str, **more: Any) -> Any:
        """The same, read. A character is a byte of a name."""
        return json.loads(self.tell(whom, prefix, **more).decode('latin-1'))

    def option(self, rank: int, name: str) -> str:
        """The value of an option of Ceph that a rank has."""
        return str(self.told(rank, 'config get', var=name)[name])

    def roots(self, rank: int) -> Tuple[bytes, List[Root]]:
        dump = self.tell(rank, 'get subtrees')
        found = json.loads(dump.decode('latin-1'))
        return dump, sorted(Root(it['dir']['path'], it['auth_first'], it['auth_second'], it['export_pin']) for it in found if it['is_auth'])

    def subtree_ranks(self) -> Dict[bytes, int]:
        """The rank of each root of a subtree, by its path."""
        return {root.path.encode('latin-1'): root.rank for rank in self.ranks() for root in self.roots(rank)[1]}

    def are_in_place(self) -> bool:
        try:
            ranks = self.ranks()
        except Trouble:  # a rank comes or goes
            return False
        found = [root for rank in ranks for root in self.roots(rank)[1]]
        return all(it.other == -2 and (it.pin not in ranks or it.pin == it.rank) for it in found)

    def balancer(self) -> Tuple[int, Optional[bool]]:
        """The longest interval in seconds at which a rank balances by itself, and the flag balance_automate of Ceph 18 and later."""
        seconds = max(int(float(self.option(rank, 'mds_bal_interval'))) for rank in self.ranks())
        return seconds, self.mds_map().get('flags_state', {}).get('balance_automate')

    def is_balancer_on(self) -> bool:
        seconds, automate = self.balancer()
        return seconds > 0 and automate is not False

    def why_not(self) -> str:
        """Why no pin may be set now; empty if nothing says so."""
        if not self.mgr.have_mon_connection():
            return 'the monitors do not answer'
        try:
            ranks = self.ranks()
        except Trouble as trouble:
            return str(trouble)
        if 'MDS_SLOW_REQUEST' in self.warnings():
            return 'the ranks have slow requests (MDS_SLOW_REQUEST)'
        if b'no active scrubs' not in self.tell(0, 'scrub status'):
            return 'a scrub is running'
        for rank in ranks:  # what is pinned meanwhile does not move when the option is true again
            if self.option(rank, 'mds_bal_export_pin') != 'true':
                return 'rank {} does not move pinned directories (mds_bal_export_pin)'.format(rank)
        return ''

    # Directories

    def pin_of(self, path: bytes) -> Optional[int]:
        """The directory's own pin; None if it is gone."""
        facts = self.facts(path)
        return None if facts is None else int(facts.pin)

    def facts(self, path: bytes) -> Optional[Facts]:
        """What the file system knows of a directory; None if it is gone."""
        def read(lib: Any) -> Optional[Facts]:
            def value(name: str, none: str) -> str:
                try:
                    return str(lib.getxattr(path, 'ceph.dir.' + name, follow_symlink=False).decode()).strip('\0') or none
                except cephfs.NoData:
                    return none
            try:
                found = lib.stat(path, follow_symlink=False)
                if not stat.S_ISDIR(found.st_mode):
                    return None
                return Facts(found.st_ino, int(value('rentries', '0')), value('pin', str(NO_PIN)), value('pin.distributed', '0'),
                             value('pin.random', '0'))
            except cephfs.Error as error:
                if getattr(error, 'errno', None) in GONE:
                    return None
                raise NoAnswer('{}: {}'.format(escaped(path), error))
            except UnicodeDecodeError:  # libcephfs can't print the path of its own error
                return None
        return self.hands.call(read)  # type: ignore[no-any-return]

    def get(self, path: bytes) -> str:
        """The answer to `get` of the driver."""
        def read(lib: Any, place: int) -> str:
            pin = lib.fgetxattr(place, 'ceph.dir.pin').decode().strip('\0')
            return 'found {} {}'.format(lib.fstat(place).st_ino, pin)
        return self._touch(path, read)

    def set(self, path: bytes, pin: int) -> str:
        """The answer to `set` of the driver."""
        def write(lib: Any, place: int) -> str:
            lib.fsetxattr(place, 'ceph.dir.pin', str(pin).encode(), 0)
            return 'done'
        return self._touch(path, write)

    def _touch(self, path: bytes, what: Any) -> str:
        def touch(lib: Any) -> str:
            try:
                place = lib.open(path, os.O_RDONLY | os.O_DIRECTORY | os.O_NOFOLLOW, 0)
                try:
                    return str(what(lib, place))
                finally:
                    lib.close(place)
            except cephfs.Error as error:
                number = getattr(error, 'errno', None)
                self.mgr.log.info('%s: %s', escaped(path), error)
                return 'gone' if number in GONE else 'no-answer' if number in AWAY else 'refused'
            except UnicodeDecodeError:  # as above: it can't tell which error
                return 'no-answer'
        return str(self.hands.call(touch))
