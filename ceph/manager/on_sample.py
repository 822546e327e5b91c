"""What the tests of the module share: a file system, and a module on the recorded cluster, with the real programs."""
import os
import tempfile
import unittest
from typing import Any, Dict

import stand_in

TOP = os.path.dirname(os.path.dirname(os.path.dirname(os.path.abspath(__file__))))
stand_in.install()
from mdbal import programs  # noqa: E402
from mdbal.cluster import Cluster  # noqa: E402
from mdbal.module import Job, Module  # noqa: E402
from mdbal.texts import own_pins, read_plan  # noqa: E402

SAMPLE = f"{TOP}/ceph/samples/reef"
ROOM = tempfile.TemporaryDirectory()
for name in ("mdbal_ceph", "mdbal_drive"):
    os.symlink(os.path.abspath(os.environ.get(name.upper(), f"{TOP}/crates/{name}/out/{name}")), f"{ROOM.name}/{name}")


class Direct:
    """Hands without a thread."""

    def __init__(self, lib: Any) -> None:
        self.lib = lib

    def call(self, todo: Any) -> Any:
        return todo(self.lib)


class OnLibrary(unittest.TestCase):
    """A cluster on the recorded folder, its client a stand-in."""

    def setUp(self) -> None:
        self.stored = stand_in.MgrModule.cluster = stand_in.Cluster(SAMPLE)
        self.mgr = stand_in.MgrModule()  # type: Any
        self.lib = stand_in.Library(self.stored)  # type: Any
        self.cluster = Cluster(self.mgr, "lab", Direct(self.lib))  # type: Any
        self.daemons = {it["rank"]: it for it in self.stored.map["info"].values()}

    def standby(self, rank: int) -> Dict[str, Any]:
        """One more daemon."""
        it = {"rank": rank, "state": "up:standby-replay", "name": "s", "gid": 9}
        self.stored.map["info"]["gid_9"] = it
        return it


class OnSample(unittest.TestCase):
    """A module on the recorded cluster: three ranks, all load at rank 0."""

    def setUp(self) -> None:
        programs.FOLDERS = [ROOM.name]
        self.cluster = stand_in.MgrModule.cluster = stand_in.Cluster(SAMPLE)
        self.module = self.manager()

    def manager(self) -> Any:
        """Another manager, over the same cluster."""
        made = Module("mdbal", 0, 0)  # type: Any
        made.sleep = lambda seconds: made.is_ending.is_set()
        made.meet()
        return made

    def do(self, what: str, plan: str = "", module: Any = None) -> str:
        module = module or self.module
        record = module.records["lab"]
        module.do(Job(what, "lab", plan), record)
        module.tell_health()
        self.assertEqual(module.raised, [])
        return str(record.said)

    def planned(self) -> str:
        self.do("plan")
        return str(self.module.records["lab"].planned.plan.id)

    def record(self) -> Any:
        return self.module.records["lab"]

    def own(self) -> Dict[bytes, int]:
        """The pins of the program, by what is stored, as another manager reads it."""
        module = self.manager()
        pins = {path: it.pin for path, it in self.cluster.directories.items()}
        return own_pins(module.records["lab"].state.text, lambda path: pins.get(path))

    def pins(self) -> Dict[bytes, int]:
        return {path: it.pin for path, it in self.cluster.directories.items() if it.pin != -1}

    def change(self, place: int) -> Any:
        """A change of a new plan."""
        self.planned()
        return read_plan(self.record().planned.plan.text).changes[place]

    def automate(self, on: bool) -> Any:
        """What turns the balancer of Ceph on or off."""
        return lambda: self.cluster.map["flags_state"].update(balance_automate=on)
