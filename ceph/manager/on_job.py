"""What the tests without the programs share: a module on the recorded cluster, and one of its jobs."""
import tempfile
import time
import unittest.mock
from typing import Any, List

import stand_in
from on_sample import Direct, OnSample

from mdbal import programs
from mdbal.cluster import Cluster
from mdbal.jobs import Work
from mdbal.programs import Plan
from mdbal.record import Planned
from mdbal.state import State
from mdbal.texts import Refused, id_of

TEXT = "mdbal_pins 1\nplan x\nmark 0 0\nchanges 3\nchange 5 - 1 1 /w/p05\nchange 6 - 2 1 /w/p06\nchange 7 - 1 1 /w/p07\npins 0\nend\n"
NAME = id_of(TEXT)
HOUR = b"mdbal-hour 1\nlab 0-1\n0 0\n9 /w\n"
NOW = 10**9


def marked(begun: int, certain: int) -> str:
    return TEXT.replace("mark 0 0", f"mark {begun} {certain}")


class OnModule(OnSample):
    """A module on the recorded cluster, of which no program runs."""

    def setUp(self) -> None:
        super().setUp()
        self.options = self.module.options

    def patch(self, where: Any, name: str, what: Any) -> Any:
        stops = unittest.mock.patch.object(where, name, what)
        stops.start()
        self.addCleanup(stops.stop)
        return what

    def take_plan(self, text: str = TEXT, ago: float = 0, is_proposed: bool = True) -> None:
        told = {"ranks": [], "bound": 0, "idle": True, "changes": [{}, {}], "inodes_moved": 0}
        word = Cluster(self.module, "lab", Direct(None)).word()  # type: ignore[arg-type]
        self.record().planned = Planned(Plan(id_of(text), text, is_proposed, told, "report\nwhy\n", HOUR), time.time() - ago, word, {})


class Working(OnModule):
    """A job whose client has no thread, and whose clocks go on where it waits."""

    def setUp(self) -> None:
        super().setUp()
        self.lib = stand_in.Library(self.cluster)  # type: Any
        self.waited, self.now, self.said = [], 500.0, []  # type: List[float], float, List[str]
        self.module.sleep = self.sleep
        self.module.say = lambda fs, doing: self.said.append(doing)
        self.patch(time, "monotonic", lambda: self.now)
        self.patch(time, "time", lambda: float(NOW))
        self.work = Work(self.module, self.record(), Cluster(self.module, "lab", Direct(self.lib)))  # type: ignore[arg-type]
        room = tempfile.TemporaryDirectory()
        self.addCleanup(room.cleanup)
        self.room = room.name
        self.patch(tempfile, "tempdir", self.room)

    def sleep(self, seconds: float) -> bool:
        self.waited.append(seconds)
        self.now += seconds
        return bool(self.module.is_ending.is_set())

    def played(self, name: str, answer: Any) -> Any:
        """A function of programs that gives this answer, or what it comes to with its arguments."""
        return self.patch(programs, name, unittest.mock.Mock(**{"side_effect" if callable(answer) else "return_value": answer}))

    def stored(self, text: str, ended: str = "done", what: str = "set", ago: int = 0) -> None:
        state = State()
        state.text, state.what, state.ended, state.time = text, what, ended, NOW - ago
        self.record().take(state)

    def refused(self, why: str, call: Any, *words: str) -> None:
        with self.assertRaises(Refused) as raised:
            call(*words)
        self.assertEqual(str(raised.exception), why)
