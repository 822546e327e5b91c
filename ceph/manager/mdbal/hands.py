"""A client of one file system, each call of which has a time limit."""
import queue
import threading
from typing import Any, Callable, Optional

from mgr_util import open_filesystem

from .texts import Trouble


class NoAnswer(Trouble):
    """Nothing answered within the time limit, or the cluster is away."""


class Hands:
    """Calls of libcephfs in a thread of their own.

    A rank that hangs, hangs who asks it: mds_command and the calls on files have no time limit. A call that takes too long
    is left behind, with its thread and its client, and from then on nothing more is asked of these hands.
    """

    def __init__(self, client: Any, fs: str, limit: float) -> None:
        """client is a CephfsClient: the manager has those blocklisted when it fails, so it sets no pin any more."""
        self.client, self.fs, self.limit = client, fs, limit
        self.asked = queue.Queue()  # type: queue.Queue[Optional[Callable[[Any], Any]]]
        self.answers = queue.Queue()  # type: queue.Queue[Any]
        self.is_left = False
        self.has_begun = False

    def _work(self) -> None:
        try:
            with open_filesystem(self.client, self.fs) as lib:  # mounts
                while self._answered(lib):
                    pass
        except Exception as error:
            self.is_left = True  # before the answer, as whoever gets that may ask again at once
            self.answers.put((False, NoAnswer('{} can not be mounted: {}'.format(self.fs, error))))

    def _answered(self, lib: Any) -> bool:
        todo = self.asked.get()
        if todo is None:
            return False
        try:
            self.answers.put((True, todo(lib)))
        except Exception as error:  # whoever asked knows which it may be
            self.answers.put((False, error))
        return True

    def call(self, todo: Callable[[Any], Any]) -> Any:
        """What todo gives with the client, or the exception that it raises."""
        if self.is_left:
            raise NoAnswer('{} does not answer'.format(self.fs))
        if not self.has_begun:
            self.has_begun = True
            threading.Thread(target=self._work, name='mdbal-' + self.fs, daemon=True).start()
        self.asked.put(todo)
        try:
            is_well, answer = self.answers.get(timeout=self.limit)
        except queue.Empty:
            self.is_left = True
            self.asked.put(None)
            raise NoAnswer('{} does not answer within {:.0f} seconds'.format(self.fs, self.limit))
        if not is_well:
            raise answer
        return answer

    def close(self) -> None:
        self.asked.put(None)
