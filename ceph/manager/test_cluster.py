"""What a file system is asked: its ranks, its directories, and the calls of its client, each of which has a limit."""
import errno
import json
import os
import stat
import threading
import types
import unittest
import unittest.mock
from typing import Any, List

import stand_in
from on_sample import SAMPLE, Direct, OnLibrary

from mdbal import hands
from mdbal.cluster import Cluster, Facts, Root, file_systems
from mdbal.hands import Hands, NoAnswer
from mdbal.texts import Trouble

import cephfs  # isort: skip  # that of the stand-ins


def undecodable(*_: Any, **__: Any) -> Any:
    """As libcephfs does where it can't print the path of its own error."""
    b"\xff".decode()


class Ranks(OnLibrary):
    def test_file_system_that_is_not_there(self) -> None:
        self.assertEqual(list(file_systems(self.mgr)), ["lab"])
        self.assertEqual(file_systems(self.mgr)["lab"]["id"], 7)
        self.assertRaisesRegex(Trouble, "^there is no file system lib$", Cluster(self.mgr, "lib", Direct(None)).mds_map)  # type: ignore[arg-type]

    def test_ranks_are_active(self) -> None:
        self.stored.map["in"] = [2, 0, 1]
        self.assertEqual(self.cluster.ranks(), [0, 1, 2])
        self.daemons[1]["state"] = "up:rejoin"
        self.assertRaisesRegex(Trouble, "^lab is degraded: rank 1 is up:rejoin$", self.cluster.ranks)
        del self.stored.map["info"][f"gid_{self.daemons[1]['gid']}"]
        self.assertRaisesRegex(Trouble, "^lab is degraded: rank 1 is without a daemon$", self.cluster.ranks)

    def test_word_has_ranks_and_daemons_with_a_rank(self) -> None:
        self.stored.map["in"] = [2, 0, 1]
        daemons = [[rank, self.daemons[rank]["name"], self.daemons[rank]["gid"], "up:active"] for rank in range(3)]
        self.standby(-1)
        self.assertEqual(self.cluster.word(), json.dumps([3, [0, 1, 2], daemons]).replace(" ", "\\040"))
        self.standby(0)
        word = self.cluster.word()
        self.assertIn('"s"', word)
        for change in ({"rank": 1}, {"name": "t"}, {"gid": 8}, {"state": "up:replay"}):
            self.standby(0).update(change)
            self.assertNotEqual(self.cluster.word(), word)

    def test_warnings_of_file_systems_and_all_errors(self) -> None:
        for code, grade in (("MDS_TRIM", "WARN"), ("FS_DEGRADED", "WARN"), ("OSD_DOWN", "WARN"), ("OSD_FULL", "ERR"), ("MDS_ALL_DOWN", "ERR")):
            self.stored.checks[code] = {"severity": "HEALTH_" + grade}
        self.assertEqual(self.cluster.warnings(), {"MDS_TRIM", "FS_DEGRADED", "OSD_FULL", "MDS_ALL_DOWN"})

    def test_what_a_rank_is_told(self) -> None:
        self.lib.mds_command = unittest.mock.Mock(return_value=(0, b'{"a\xff": 1}', ""))
        self.assertEqual(self.cluster.tell(2, "perf dump", logger="mds_mem"), b'{"a\xff": 1}')
        whom, command, data = self.lib.mds_command.call_args[0]
        self.assertEqual((whom, json.loads(command), data), ("lab:2", {"logger": "mds_mem", "prefix": "perf dump", "format": "json"}, b""))
        self.assertEqual(self.cluster.told(2, "perf dump"), {"a\xff": 1})

    def test_rank_that_gives_no_answer(self) -> None:
        for found, why in (((-110, b"", "went away"), "went away"), ((-110, b"{}", ""), "status -110"), ((0, b"", ""), "status 0")):
            self.lib.mds_command = lambda *_, found=found: found
            self.assertRaisesRegex(NoAnswer, f"^mds.lab:1 get subtrees: {why}$", self.cluster.roots, 1)

    def root(self, path: str, rank: int, **more: Any) -> None:
        """One more root of a subtree."""
        self.stored.roots[rank].append(dict(stand_in.root_at(path.encode("latin-1"), rank), **more))

    def test_roots_that_a_rank_has(self) -> None:
        self.root("/b\xff", 1, export_pin=1)
        self.root("/a", 1, auth_second=2)
        self.root("/c", 1, is_auth=False)
        dump, roots = self.cluster.roots(1)
        self.assertEqual(dump, self.stored.subtrees(1))
        self.assertEqual(roots, [Root("/a", 1, 2, -1), Root("/b\xff", 1, -2, 1), Root("~mds1", 1, -2, -1)])
        self.assertEqual(self.cluster.subtree_ranks(), {b"": 0, b"~mds0": 0, b"/a": 1, b"/b\xff": 1, b"~mds1": 1, b"~mds2": 2})

    def test_what_is_in_place(self) -> None:
        self.assertTrue(self.cluster.are_in_place())
        for more, is_so in (({"export_pin": 1}, True), ({"export_pin": 63}, True), ({"export_pin": 2}, False), ({"auth_second": 0}, False)):
            self.root("/a", 1, **more)
            self.assertEqual(self.cluster.are_in_place(), is_so, more)
            self.stored.roots[1].pop()
        self.daemons[1]["state"] = "up:rejoin"
        self.assertFalse(self.cluster.are_in_place())

    def test_balancer_of_ceph(self) -> None:
        intervals = {0: "0", 1: "10.5", 2: "3"}
        self.lib.mds_command = lambda whom, command, _: (0, json.dumps({"mds_bal_interval": intervals[int(whom[4:])]}).encode(), "")
        self.assertEqual(self.cluster.balancer(), (10, False))
        for automate, seconds, is_on in ((None, "10", True), (None, "0", False), (None, "1", True), (True, "10", True), (True, "0", False), (False, "10", False)):
            flags = {} if automate is None else {"balance_automate": automate}
            self.stored.map["flags_state"] = flags
            intervals[1], intervals[2] = seconds, "0"
            self.assertEqual((self.cluster.balancer(), self.cluster.is_balancer_on()), ((int(seconds), automate), is_on))
        del self.stored.map["flags_state"]
        self.assertEqual(self.cluster.balancer(), (10, None))
        self.lib.mds_command = unittest.mock.Mock(return_value=(0, b'{"mds_bal_interval": "0"}', ""))
        self.cluster.balancer()
        self.assertEqual([json.loads(it[0][1]) for it in self.lib.mds_command.call_args_list],
                         [{"var": "mds_bal_interval", "prefix": "config get", "format": "json"}] * 3)

    def test_why_no_pin_may_be_set(self) -> None:
        self.assertEqual(self.cluster.why_not(), "")
        self.stored.checks["MDS_TRIM"] = {"severity": "HEALTH_WARN"}
        self.assertEqual(self.cluster.why_not(), "")
        for value in ("false", "0", ""):  # nothing but true is known to be on
            self.stored.obeys[2] = value
            self.assertEqual(self.cluster.why_not(), "rank 2 does not move pinned directories (mds_bal_export_pin)")
        self.stored.obeys[2] = "true"
        self.assertEqual(self.cluster.why_not(), "")
        self.stored.obeys[1] = "false"
        self.stored.scrubs = True
        self.assertEqual(self.cluster.why_not(), "a scrub is running")
        self.assertEqual([it for it in self.stored.asked if "scrub" in it], ["0 scrub status"] * 7)  # rank 0 knows of all
        self.stored.checks["MDS_SLOW_REQUEST"] = {"severity": "HEALTH_WARN"}
        self.assertEqual(self.cluster.why_not(), "the ranks have slow requests (MDS_SLOW_REQUEST)")
        self.daemons[2]["state"] = "up:replay"
        self.assertEqual(self.cluster.why_not(), "lab is degraded: rank 2 is up:replay")
        self.stored.has_monitors = False
        self.assertEqual(self.cluster.why_not(), "the monitors do not answer")


class Directories(OnLibrary):
    PATH = b"/w/p05/d03"

    def test_facts(self) -> None:
        it = self.stored.directories[self.PATH]
        self.assertEqual(self.cluster.facts(self.PATH), Facts(it.inode, it.entries + 1, "-1", "0", "0"))
        it.pin, it.distributed, it.random = 2, "1", "0.5"
        self.assertEqual(self.cluster.facts(self.PATH), Facts(it.inode, it.entries + 1, "2", "1", "0.5"))
        self.assertEqual(self.cluster.pin_of(self.PATH), 2)

    def test_attributes_that_are_not_there_or_end_in_nul(self) -> None:
        def none(*_: Any, **__: Any) -> Any:
            raise cephfs.NoData(errno.ENODATA)
        inode = self.stored.directories[self.PATH].inode
        for getxattr, wanted in ((none, Facts(inode, 0, "-1", "0", "0")), (lambda *_, **__: b"", Facts(inode, 0, "-1", "0", "0")),
                                 (lambda *_, **__: b"7\0", Facts(inode, 7, "7", "7", "7"))):
            self.lib.getxattr = unittest.mock.Mock(side_effect=getxattr)
            self.assertEqual(self.cluster.facts(self.PATH), wanted)
            self.assertEqual([it[0] for it in self.lib.getxattr.call_args_list],
                             [(self.PATH, "ceph.dir." + name) for name in ("rentries", "pin", "pin.distributed", "pin.random")])

    def test_links_are_not_followed(self) -> None:
        self.lib.stat = unittest.mock.Mock(return_value=types.SimpleNamespace(st_ino=5, st_mode=stat.S_IFDIR))
        self.lib.getxattr = unittest.mock.Mock(return_value=b"0")
        self.cluster.facts(self.PATH)
        for it in self.lib.stat.call_args_list + self.lib.getxattr.call_args_list:
            self.assertEqual(it[1], {"follow_symlink": False})

    def test_what_is_no_directory_is_gone(self) -> None:
        self.lib.stat = lambda *_, **__: types.SimpleNamespace(st_ino=5, st_mode=stat.S_IFREG)
        self.assertEqual((self.cluster.facts(self.PATH), self.cluster.pin_of(self.PATH)), (None, None))

    def test_directory_that_can_not_be_read(self) -> None:
        for error, why in ((cephfs.Error(errno.ENOENT, ""), ""), (cephfs.Error(errno.ENOTDIR, ""), ""),
                           (cephfs.Error(errno.EACCES, "no"), r"^/w/p05/d03: \(13, 'no'\)$"),
                           (cephfs.Error(errno.ETIMEDOUT, "away"), "away")):
            self.lib.stat = unittest.mock.Mock(side_effect=error)
            if why:
                self.assertRaisesRegex(NoAnswer, why, self.cluster.facts, self.PATH)
            else:
                self.assertEqual((self.cluster.facts(self.PATH), self.cluster.pin_of(self.PATH)), (None, None))
        self.lib.stat = undecodable
        self.assertIsNone(self.cluster.facts(b"/\xff"))

    def test_get_and_set(self) -> None:
        it = self.stored.directories[self.PATH]
        self.lib.open = unittest.mock.Mock(side_effect=self.lib.open)
        self.lib.close = unittest.mock.Mock()
        self.assertEqual(self.cluster.get(self.PATH), f"found {it.inode} -1")
        self.assertEqual((self.cluster.set(self.PATH, 2), it.pin), ("done", 2))
        self.assertEqual(self.cluster.get(self.PATH), f"found {it.inode} 2")
        self.lib.open.assert_called_with(self.PATH, os.O_RDONLY | os.O_DIRECTORY | os.O_NOFOLLOW, 0)
        self.assertEqual([it[0] for it in self.lib.close.call_args_list], [(0,), (1,), (2,)])

    def test_what_is_written(self) -> None:
        lib = unittest.mock.Mock()
        lib.open.return_value, lib.fgetxattr.return_value, lib.fstat.return_value.st_ino = 9, b"12\0", 77
        cluster = Cluster(self.mgr, "lab", Direct(lib))  # type: ignore[arg-type]
        self.assertEqual((cluster.set(b"/a", -1), cluster.get(b"/a")), ("done", "found 77 12"))
        lib.fsetxattr.assert_called_once_with(9, "ceph.dir.pin", b"-1", 0)
        lib.fgetxattr.assert_called_once_with(9, "ceph.dir.pin")

    def test_get_and_set_that_fail(self) -> None:
        said = []  # type: List[Any]
        self.mgr.log.info = lambda *words: said.append(words)
        for error, answer in ((errno.ENOENT, "gone"), (errno.ENOTDIR, "gone"), (errno.ETIMEDOUT, "no-answer"), (errno.ENOTCONN, "no-answer"),
                              (errno.ESHUTDOWN, "no-answer"), (errno.EPERM, "refused"), (errno.EACCES, "refused"), (None, "refused")):
            with unittest.mock.patch.object(self.lib, "open", side_effect=cephfs.Error(error, "why")):
                self.assertEqual((self.cluster.get(self.PATH), self.cluster.set(self.PATH, 1)), (answer, answer))
        self.assertEqual((len(said), said[0][1], str(said[0][2])), (16, "/w/p05/d03", "(2, 'why')"))
        with unittest.mock.patch.object(self.lib, "open", undecodable):
            self.assertEqual(self.cluster.get(b"/\xff"), "no-answer")

    def test_file_is_closed_where_the_pin_is_refused(self) -> None:
        self.stored.refuse.add(self.PATH)
        self.lib.close = unittest.mock.Mock()
        self.assertEqual(self.cluster.set(self.PATH, 1), "refused")
        self.lib.close.assert_called_once_with(0)

    def test_error_without_a_number(self) -> None:
        class Numberless(cephfs.Error):  # type: ignore[misc, name-defined]
            def __init__(self) -> None:
                Exception.__init__(self, "why")
        self.lib.stat = self.lib.open = unittest.mock.Mock(side_effect=Numberless())
        self.assertRaisesRegex(NoAnswer, "^/a: why$", self.cluster.facts, b"/a")
        self.assertEqual(self.cluster.get(b"/a"), "refused")


class Limits(unittest.TestCase):
    """Calls of a client that take their time."""

    def setUp(self) -> None:
        stand_in.MgrModule.cluster = stand_in.Cluster(SAMPLE)
        self.hands = self.make(60)

    def make(self, limit: float) -> Any:
        made = Hands(stand_in.CephfsClient(stand_in.MgrModule()), "lab", limit)
        self.addCleanup(made.close)
        return made

    @staticmethod
    def threads() -> List[Any]:
        return [it for it in threading.enumerate() if it.name == "mdbal-lab"]

    def test_calls_share_a_mount_which_ends_with_them(self) -> None:
        before = self.threads()
        libs = [self.hands.call(lambda lib: lib) for _ in range(3)]
        self.assertIsInstance(libs[0], stand_in.Library)
        self.assertEqual(libs, libs[:1] * 3)
        made = [it for it in self.threads() if it not in before]
        self.assertEqual([it.daemon for it in made], [True])
        self.assertFalse(self.hands.is_left)
        self.hands.close()
        made[0].join(60)
        self.assertFalse(made[0].is_alive())

    def test_exception_is_that_of_the_call(self) -> None:
        def fails(lib: Any) -> None:
            raise KeyError("x")
        self.assertRaises(KeyError, self.hands.call, fails)
        self.assertEqual(self.hands.call(lambda lib: 5), 5)

    def test_call_that_takes_too_long_is_left_with_its_thread(self) -> None:
        slow, freed, before = self.make(0.3), threading.Event(), self.threads()
        with self.assertRaisesRegex(NoAnswer, "^lab does not answer within 0 seconds$"):
            slow.call(lambda lib: freed.wait(60))
        made = [it for it in self.threads() if it not in before]
        self.assertTrue(slow.is_left)
        asked = []  # type: List[int]
        self.assertRaisesRegex(NoAnswer, "^lab does not answer$", slow.call, lambda lib: asked.append(1))
        freed.set()
        made[0].join(60)
        self.assertEqual((made[0].is_alive(), asked), (False, []))

    def test_file_system_that_can_not_be_mounted(self) -> None:
        with unittest.mock.patch.object(hands, "open_filesystem", side_effect=OSError("no keyring")):
            self.assertRaisesRegex(NoAnswer, "^lab can not be mounted: no keyring$", self.hands.call, lambda lib: 1)
        self.assertRaisesRegex(NoAnswer, "^lab does not answer$", self.hands.call, lambda lib: 1)
