"""A trial of a plan: its directories are moved by `export dir`, and no pin is set."""
from typing import Any, Callable, List

from .cluster import Cluster
from .texts import NO_PIN, Change, PlanText, Trouble, escaped

BATCH = 100      # directories that move at once
PASSES = 3       # a directory that stays while the one above it moves, goes with it, and comes back in the next pass
PATIENCE = 30.0  # seconds in which one that was asked to move comes to its rank, or at least another one does
SHOWN = 3


def why_not(text: PlanText) -> str:
    """Why a plan can't be tried without pins; empty if it can."""
    if text.pins or any(it.before != NO_PIN for it in text.changes):
        return 'pins of mdbal are set, and a directory with a pin goes back to its rank: rollback and plan again, or apply without --once'
    return ''


class Trial:
    """Moves the directories of a plan. rest(seconds) waits, and raises a Trouble where the work has to stop."""

    def __init__(self, cluster: Cluster, rest: Callable[[float], None], say: Callable[[str], None]) -> None:
        self.cluster, self.rest, self.say = cluster, rest, say
        self.refused = []  # type: List[str]

    def run(self, changes: List[Change], poll: float, wait: float) -> str:
        """Moves them, those of a plan in its order, and says which are not at their ranks."""
        for number in range(PASSES):
            ranks = self.cluster.subtree_ranks()
            away = self._away(changes)
            if not away:
                break
            self.refused = []
            asked = []  # type: List[Change]
            for place, change in enumerate(away):
                self.rest(0)
                self.say('moves directories, {} of {} in pass {}'.format(place, len(away), number + 1))
                if self._is_asked(change, rank_in(ranks, change.path)):
                    asked.append(change)
                if place % BATCH == BATCH - 1 or place == len(away) - 1:
                    self._settle(asked, poll, wait)
                    asked = []
        away = self._away(changes)
        said = '{} of {} directories are at their ranks, without pins: one that cools down goes back with the one above it'.format(
            len(changes) - len(away), len(changes))
        return said + ''.join('; not {}'.format(escaped(it.path)) for it in away[:SHOWN]) + ''.join('; ' + it for it in self.refused[:SHOWN])

    def _away(self, changes: List[Change]) -> List[Change]:
        """Those whose directory is not at its rank."""
        ranks = self.cluster.subtree_ranks()
        return [it for it in changes if it.after != NO_PIN and rank_in(ranks, it.path) != it.after]

    def _is_asked(self, change: Change, at: int) -> bool:
        """Asks its rank to move a directory. Whether that rank will try."""
        try:
            said = self.cluster.told(at, 'export dir', path=change.path.decode(), rank=change.after)
        except UnicodeDecodeError:
            self.refused.append('{} is not UTF-8'.format(escaped(change.path)))
            return False
        if said.get('return_code'):
            self.refused.append('{}: {}'.format(escaped(change.path), said))
            return False
        return True

    def _settle(self, asked: List[Change], poll: float, wait: float) -> None:
        """Waits until these are at their ranks, or nothing moves any more. What a rank has only begun, no list of roots shows."""
        left, patience, away = wait, PATIENCE, len(asked)
        while away:
            self.rest(poll)
            left, patience = left - poll, patience - poll
            count = len(self._away(asked))
            if count < away:
                patience, away = PATIENCE, count
            elif patience <= 0 and self.cluster.are_in_place():
                return
            if away and left <= 0:
                raise Trouble('directories still move after {:.0f} seconds'.format(wait))


def rank_in(ranks: Any, path: bytes) -> int:
    """The rank of a directory: that of the nearest root of a subtree at or above it."""
    while path and path not in ranks:
        path = path.rpartition(b'/')[0]
    return int(ranks.get(path, 0))
