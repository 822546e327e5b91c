"""Paths and texts in the forms in which the programs write and read them."""
import hashlib
import re
from typing import Callable, Dict, List, NamedTuple, Optional

NO_PIN = -1  # the value of ceph.dir.pin of a directory without a pin of its own


class Trouble(Exception):
    """Why something was not done, in words for the operator."""


class Refused(Trouble):
    """Nothing is wrong with mdbal, but it may not do that now."""


class Change(NamedTuple):
    """A change of a pin, in the text of a plan."""
    before: int
    after: int
    path: bytes


class PlanText(NamedTuple):
    """What the text of a plan says (docs/DRIVER.md)."""
    identity: str            # FSNAME and the cluster's fsid
    begun: int               # the first changes that may be set
    certain: int             # the first of them that are set, or passed over
    changes: List[Change]    # in their order
    pins: Dict[bytes, int]   # those that the program set earlier


def listed(path: bytes) -> bytes:
    """A path as getfattr and lists of pins write it."""
    return path.replace(b'\\', b'\\134').replace(b'\n', b'\\012').replace(b'\r', b'\\015')


def escaped(word: bytes) -> str:
    """A path or a word as the driver's lines have it, and as people read it."""
    return ''.join(chr(it) if 32 < it < 127 and it != 92 else '\\{:03o}'.format(it) for it in word)


def unescaped(word: str) -> bytes:
    return re.sub(rb'\\([0-3][0-7][0-7])', lambda it: bytes([int(it.group(1), 8)]), word.encode('ascii'))


def _pin(field: str) -> int:
    return NO_PIN if field == '-' else int(field)


def read_plan(text: str) -> PlanText:
    """Reads the text of a plan for what people are told. mdbal_drive judges whether it is one."""
    identity, begun, certain = '', 0, 0
    changes = []  # type: List[Change]
    pins = {}     # type: Dict[bytes, int]
    for line in text.split('\n'):
        word, _, rest = line.partition(' ')
        fields = rest.split(' ')
        if word == 'plan':
            identity = unescaped(rest).decode('latin-1')
        elif word == 'mark':
            begun, certain = int(fields[0]), int(fields[1])
        elif word == 'change':
            changes.append(Change(_pin(fields[1]), _pin(fields[2]), unescaped(fields[4])))
        elif word == 'pin':
            pins[unescaped(fields[2])] = int(fields[1])
    return PlanText(identity, begun, certain, changes, pins)


def id_of(text: str) -> str:
    """The id of a plan: of its text, whatever the mark is. What is set is what was shown."""
    return hashlib.sha256(re.sub('(?m)^mark .*$', 'mark 0 0', text, count=1).encode()).hexdigest()[:12]


def own_pins(text: str, pin_of: Callable[[bytes], Optional[int]]) -> Dict[bytes, int]:
    """The pins that the program set, by the text that was stored last.

    A change that may be set counts as set where the directory has its pin. pin_of reads a directory's pin.
    """
    plan = read_plan(text)
    own = dict(plan.pins)
    for place, change in enumerate(plan.changes[:plan.begun]):
        if place < plan.certain or pin_of(change.path) == change.after:
            own.pop(change.path, None)
            if change.after != NO_PIN:
                own[change.path] = change.after
    return own


def pins_list(own: Dict[bytes, int]) -> bytes:
    """The list of pins for --own and --check."""
    return b''.join(b'%d %s\n' % (rank, listed(path)) for path, rank in own.items())
