"""Writes what mdbal_ceph reads: a folder in the form of ceph/collect --named, or of --roots."""
import json
import os
from typing import Callable, Dict, Iterator, List

from .cluster import Cluster, Facts
from .texts import NO_PIN, Refused, Trouble, listed

TRIES = 3


def write(folder: str, name: str, content: bytes) -> None:
    with open(os.path.join(folder, name), 'wb') as it:
        it.write(content)


class Collector:
    """Collects from a cluster into a folder. rest(seconds) waits, and raises a Trouble where the work has to stop."""

    def __init__(self, cluster: Cluster, folder: str, rest: Callable[[float], None], say: Callable[[str], None]) -> None:
        self.cluster, self.folder, self.rest, self.say = cluster, folder, rest, say
        self.rules = {}  # type: Dict[bytes, int]  # what decides where directories are, of those that were listed

    def dumps(self, samples: int, pause: float, most_directories: int) -> None:
        """What the ranks print. With 0 samples no rank is asked for its heat. Where something moves meanwhile, all is taken again."""
        for left in reversed(range(TRIES)):
            if self._are_taken(samples, pause, most_directories):
                break
            if not left:
                raise Refused('subtrees moved while they were read: try again later')
            self.rest(pause)
        seconds, automate = self.cluster.balancer()
        flag = '' if automate is None else 'balance_automate {}\n'.format(str(automate).lower())
        write(self.folder, 'balancer', '{}\n{}'.format(seconds, flag).encode())

    def _are_taken(self, samples: int, pause: float, most_directories: int) -> bool:
        self.say('reading the ranks')
        cluster, ranks, word = self.cluster, self.cluster.ranks(), self.cluster.word()
        write(self.folder, 'fs.json', self._map())
        before = {}
        for rank in ranks:
            dump, before[rank] = cluster.roots(rank)
            write(self.folder, 'subtrees.{}.json'.format(rank), dump)
            if not samples:
                write(self.folder, 'loads.{}.1.json'.format(rank), b'{"dirfrags":[]}\n')
            else:
                cached = cluster.told(rank, 'perf dump', logger='mds_mem')['mds_mem']['dir']
                if cached > most_directories:  # it would answer nobody for 47 us each, and is replaced after 15 s
                    raise Trouble('rank {} caches {} directories, more than mgr/mdbal/most_directories'.format(rank, cached))
        for sample in range(1, samples + 1):
            if sample > 1:
                self.rest(pause)
            for rank in ranks:
                write(self.folder, 'loads.{}.{}.json'.format(rank, sample), cluster.tell(rank, 'dump loads'))
        after = {rank: cluster.roots(rank)[1] for rank in ranks}
        return cluster.word() == word and after == before and all(root.other == -2 for roots in after.values() for root in roots)

    def _map(self) -> bytes:
        return json.dumps({'mdsmap': self.cluster.mds_map()}).encode()

    def listing(self, paths: List[bytes]) -> Dict[bytes, int]:
        """Entries, pins and inode numbers of these directories; gives their entries. Those that are gone are left out."""
        found = {}  # type: Dict[bytes, Facts]
        for place, path in enumerate(dict.fromkeys(paths)):
            if place % 500 == 0:
                self.rest(0)
                self.say('reading directories, {} of {}'.format(place, len(paths)))
            facts = self.cluster.facts(path or b'/')
            if facts is not None:
                found[path] = facts
        self.rules = rules_of(found, self.cluster.ranks())
        own = own_entries({path: max(it.rentries - 1, 0) for path, it in found.items()})
        with open(os.path.join(self.folder, 'dirs'), 'wb') as dirs:
            for name, values in (('entries', {path: str(count) for path, count in own.items()}),
                                 ('pin', {path: it.pin for path, it in found.items()}),
                                 ('pin.distributed', {path: it.distributed for path, it in found.items()}),
                                 ('pin.random', {path: it.random for path, it in found.items()})):
                dirs.writelines(blocks(name, values))
        write(self.folder, 'inodes', b''.join(b'%d %s\0' % (it.inode, path[1:]) for path, it in found.items()))
        return own

    def end(self) -> None:
        write(self.folder, 'complete', '{} {}\n'.format(self.cluster.fs, self.cluster.fsid()).encode())


def rules_of(found: Dict[bytes, Facts], ranks: List[int]) -> Dict[bytes, int]:
    """The pins by path. With NO_PIN directories stay where they are: by a policy of Ceph, or by a pin to a rank that is not there."""
    rules = {}
    for path, it in found.items():
        is_left = bool((it.distributed + it.random).strip('0.'))
        if is_left or int(it.pin) != NO_PIN:
            rules[path] = int(it.pin) if int(it.pin) in ranks and not is_left else NO_PIN
    return rules


def own_entries(below: Dict[bytes, int]) -> Dict[bytes, int]:
    """What is below a directory, without what is below the nearest directories that are listed too."""
    own = dict(below)
    for path in below:
        above = path
        while above:
            above = above.rpartition(b'/')[0]
            if above in below:
                own[above] -= below[path]
                break
    return {path: max(count, 0) for path, count in own.items()}


def blocks(name: str, values: Dict[bytes, str]) -> Iterator[bytes]:
    """As getfattr prints them."""
    for path, value in values.items():
        yield b'# file: %s\nceph.dir.%s="%s"\n\n' % (listed(path[1:]) or b'.', name.encode(), value.encode())
