"""The heat of earlier plans, in the monitors' store: a plan is for these hours too (--hours of mdbal_ceph)."""
import base64
import os
import zlib
from typing import Any, Dict, List

from .state import CHUNK
from .texts import Trouble

NEWEST = 32        # records that are kept whatever their time
WEEK = 7 * 86400   # of older ones, one for each hour of so many seconds
HOUR = 3600
HEAD = 3           # lines of a record before those of its directories


def packed(record: bytes) -> str:
    """A record of mdbal_ceph as a value of the store. If it is too large, its coolest directories are left out."""
    lines = record.split(b'\n')[:-1]
    head, rows = lines[:HEAD], lines[HEAD:]
    hottest = sorted(rows, key=lambda row: -int(row.partition(b' ')[0]))
    count = len(rows)
    while True:
        kept = set(hottest[:count])
        text = b''.join(line + b'\n' for line in head + [row for row in rows if row in kept])
        value = base64.b85encode(zlib.compress(text, 9)).decode('ascii')
        if len(value) <= CHUNK or not count:
            return value
        count = count * 3 // 4


def unpacked(value: str) -> bytes:
    return zlib.decompress(base64.b85decode(value))


def due(times: List[int], now: int) -> List[int]:
    """The records that go: of those before the newest, all that are older than a week, and in each hour all but the first."""
    old = sorted(times)[:-NEWEST]
    first = {}  # type: Dict[int, int]
    for time in old:
        first.setdefault(time // HOUR, time)
    return [time for time in old if time < now - WEEK or first[time // HOUR] != time]


class Hours:
    """The records of one file system, by its number and by their time in seconds since 1970."""

    def __init__(self, mgr: Any, number: int) -> None:
        self.mgr, self.prefix = mgr, 'fs.{}.hour.'.format(number)

    def times(self) -> List[int]:
        return sorted(int(key[len(self.prefix):]) for key in self.mgr.get_store_prefix(self.prefix))

    def write(self, folder: str, paths: List[bytes]) -> List[str]:
        """Writes the records into a folder, oldest first, and gives their names. One that has none of these directories is left out."""
        known, found = set(paths), []
        for time in self.times():
            try:
                record = unpacked(self.mgr.get_store(self.prefix + str(time)))
            except (TypeError, ValueError, zlib.error) as error:
                raise Trouble('the record mgr/mdbal/{}{} can not be read: {}'.format(self.prefix, time, error))
            if any(line.partition(b' ')[2] in known for line in record.split(b'\n')[HEAD:-1]):
                found.append(os.path.join(folder, 'hour.{}'.format(time)))
                with open(found[-1], 'wb') as it:
                    it.write(record)
        return found

    def keep(self, record: bytes, now: int) -> None:
        """Keeps a record, and removes those that are due."""
        self.mgr.set_store(self.prefix + str(now), packed(record))
        for time in due(self.times(), now):
            self.mgr.set_store(self.prefix + str(time), None)
