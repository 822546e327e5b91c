"""What is kept of each file system, in the monitors' store, so that another manager goes on with it."""
import hashlib
import json
from typing import Any, Callable, Dict, List, Optional

from .texts import Trouble

VERSION = 1    # of the form below. State of a newer one is refused: a standby manager keeps old code until it is restarted
TURNED_OFF = 'it was turned off'  # why a run stopped that `off` ended
SLOW = 'stopped too-slow'         # how a run ended in which a batch took longer than `wait`
CHUNK = 48000  # the monitors take at most 64 KiB a value, and the manager's store says nothing if they refuse one


class State:
    """Of a file system: whether it is balanced by itself, and the text of the plan that mdbal_drive stored last."""

    def __init__(self) -> None:
        self.on = False
        self.text = ''   # no plan was ever set, if empty
        self.what = ''   # the last run of mdbal_drive over the text: set or restore
        self.ended = ''  # how it ended, `done` or `stopped WHY`; empty while it runs
        self.time = 0    # when it began or ended, in seconds since 1970


class Store:
    """States by the number of the file system, as a new one of the same name has no pins.

    A text lies in parts under new names. The head, written after them, names those that count. Parts that it no longer
    names are removed at last, so at each moment there is one whole state.
    """

    def __init__(self, mgr: Any, is_kept: Callable[[str, str], bool]) -> None:
        """is_kept(key, value): whether the monitors have this value. What the manager itself says of its store may differ."""
        self.mgr, self.is_kept = mgr, is_kept

    def _head(self, number: int) -> Optional[Dict[str, Any]]:
        text = self.mgr.get_store('fs.{}.head'.format(number))
        if text is None:
            return None
        head = json.loads(text)
        if head['version'] > VERSION:
            raise Trouble('the state has version {}, and this module knows only {}: restart this manager, so that it loads the '
                          'module that is installed'.format(head['version'], VERSION))
        return head  # type: ignore[no-any-return]

    def load(self, number: int) -> State:
        state, head = State(), self._head(number)
        if head is None:
            return state
        state.on, state.what, state.ended, state.time = head['on'], head['what'], head['ended'], head['time']
        parts = [self.mgr.get_store(key) for key in head['parts']]
        state.text = ''.join(part or '' for part in parts)
        if hashlib.sha256(state.text.encode()).hexdigest() != head['sha256']:
            raise Trouble('the state is not whole: ceph config-key ls, mgr/mdbal/fs.{}'.format(number))
        return state

    def _put(self, key: str, value: str) -> None:
        self.mgr.set_store(key, value)
        if not self.is_kept(key, value):
            raise Trouble('the monitors did not store the state')

    def save(self, number: int, state: State) -> None:
        head = self._head(number) or {'parts': [], 'sha256': '', 'generation': 0}
        digest = hashlib.sha256(state.text.encode()).hexdigest()
        parts, generation = head['parts'], head['generation']  # type: List[str], int
        if digest != head['sha256']:
            generation += 1
            parts = []
            for start in range(0, len(state.text), CHUNK):
                parts.append('fs.{}.text.{}.{}'.format(number, generation, start // CHUNK))
                self._put(parts[-1], state.text[start:start + CHUNK])
        self._put('fs.{}.head'.format(number), json.dumps({
            'version': VERSION, 'on': state.on, 'what': state.what, 'ended': state.ended, 'time': state.time,
            'generation': generation, 'parts': parts, 'sha256': digest}))
        for key in self.mgr.get_store_prefix('fs.{}.text.'.format(number)):
            if key not in parts:
                self.mgr.set_store(key, None)
