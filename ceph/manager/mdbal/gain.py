"""What the pins of a plan gain in heat that it was not made for. What chance did to the plan's own heat is not in that."""
from typing import Dict, List

from .hours import HEAD
from .texts import NO_PIN, Change, listed

SURE = 20  # percent from which on a gain is no chance


def after(rules: Dict[bytes, int], changes: List[Change]) -> Dict[bytes, int]:
    """The pins by path, when these changes are made."""
    found = dict(rules)
    for it in changes:
        if it.after == NO_PIN:
            found.pop(it.path, None)
        else:
            found[it.path] = it.after
    return found


def nearest(places: Dict[bytes, int], path: bytes, none: int) -> int:
    """What is said of the directory, or of the nearest one above it of which something is said. The root's path is empty."""
    while path not in places:
        if not path:
            return none
        path = path.rpartition(b'/')[0]
    return places[path]


def hottest(record: bytes, roots: Dict[bytes, int], pins: Dict[bytes, int]) -> int:
    """The heat of the hottest rank if the nearest pin at or above it decides where a directory is. Without one it stays where it is.

    record is one of mdbal_ceph, and roots has the rank of each root of a subtree, by its path.
    """
    lines = record.split(b'\n')[:-1]
    loads = dict(enumerate(map(int, lines[HEAD - 1].split())))
    pins, roots = ({listed(path): rank for path, rank in places.items()} for places in (pins, roots))
    for line in lines[HEAD:]:
        heat, _, path = line.partition(b' ')
        rank = nearest(pins, path, NO_PIN)
        if rank == NO_PIN:
            rank = nearest(roots, path, 0)
        loads[rank] = loads.get(rank, 0) + int(heat)
    return max(loads.values())


def percent(record: bytes, roots: Dict[bytes, int], pins: Dict[bytes, int]) -> float:
    """By how much the hottest rank gets cooler by these pins."""
    now = hottest(record, roots, {})
    return 100.0 * (now - hottest(record, roots, pins)) / now if now else 0.0
