"""When a round of a file system that balances by itself is due, and when it may set pins."""
import re
import time
from typing import Any, Dict, Optional

from .texts import Trouble

LOOK = 10         # seconds between two looks at what the ranks serve
LOOKS = 3         # so many uneven looks in a row make a round at once
LEAST_RATE = 10   # requests a second of all ranks below which a look says nothing


def served(mgr: Any, mds_map: Dict[str, Any]) -> Dict[int, int]:
    """How many requests each rank's daemon has served, by its id. They are what the daemon last told the manager."""
    found = {}
    for it in mds_map['info'].values():
        if it['state'] == 'up:active':
            found[it['gid']] = counter(mgr, it['name'], 'mds_server.handle_client_request')
    return found


def counter(mgr: Any, daemon: str, name: str) -> int:
    """The last value of a daemon's counter; from Ceph 20 on those without labels have calls of their own."""
    latest = mgr.get_unlabeled_counter_latest if hasattr(mgr, 'get_unlabeled_counter_latest') else mgr.get_latest
    try:
        return int(latest('mds', daemon, name))
    except KeyError:  # it has told nothing yet
        return 0


def is_within(begin: Any, now: Any, end: Any) -> bool:
    """Whether it is past begin, and not past end: where that is earlier, of the next day or week. If they are the same, it always is."""
    if begin < end:
        return bool(begin <= now < end)
    return bool(begin == end or now >= begin or now < end)


def may_act(mgr: Any, now: time.struct_time) -> bool:
    """Whether rounds may set pins at this local time. Weekdays are from 0, Sunday, as Ceph's balancer module has them."""
    times, days = [], []
    for name in ('begin', 'end'):
        times.append(str(mgr.get_module_option(name + '_time')))
        days.append(mgr.number(name + '_weekday') % 7)
        if not re.fullmatch('([01][0-9]|2[0-3])[0-5][0-9]|2400', times[-1]):
            raise Trouble('mgr/mdbal/{}_time is no time of a day as 0730: {}'.format(name, times[-1]))
    return is_within(times[0], time.strftime('%H%M', now), times[1]) and is_within(days[0], (now.tm_wday + 1) % 7, days[1])


class Watch:
    """The clock of one file system. Times are in seconds of a clock that only rises."""

    def __init__(self) -> None:
        self.next = 0.0     # when the next round is due
        self.rest = 0.0     # until then looks begin no round
        self.counts = {}    # type: Dict[int, int]
        self.time = 0.0     # of the counts
        self.uneven = 0     # looks in a row
        self.to_mean = None  # type: Optional[float]

    def is_look_due(self, now: float) -> bool:
        return now >= self.time + LOOK

    def look(self, counts: Dict[int, int], now: float, limit: float) -> None:
        """Takes a look. limit is the hottest rank to the mean from which on it counts as uneven, in requests; 0 is never."""
        seconds, before = now - self.time, self.counts
        self.counts, self.time, self.to_mean = counts, now, None
        if set(before) != set(counts) or any(counts[it] < before[it] for it in counts):
            self.uneven = 0  # another daemon, or one that began anew
            return
        rates = [(counts[it] - before[it]) / seconds for it in counts]
        if sum(rates) >= LEAST_RATE:
            self.to_mean = max(rates) * len(rates) / sum(rates)
        self.uneven = self.uneven + 1 if limit and self.to_mean is not None and self.to_mean >= limit else 0

    def is_round_due(self, now: float) -> bool:
        return now >= self.next or self.uneven >= LOOKS and now >= self.rest

    def after_round(self, now: float, interval: float, has_set: bool) -> None:
        """A round that set nothing is not repeated for what it could not mend before the interval is over."""
        self.next, self.uneven = now + interval, 0
        self.rest = now if has_set else self.next
