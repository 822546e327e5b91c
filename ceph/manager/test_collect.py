"""What mdbal_ceph is given of a file system, and trials that move directories without pins."""
import errno
import json
import os
import tempfile
import unittest
import unittest.mock
from typing import Any, Dict, List

import stand_in
from on_sample import OnLibrary

from mdbal import once
from mdbal.cluster import Facts
from mdbal.collect import Collector, blocks, own_entries, write
from mdbal.once import Trial, rank_in
from mdbal.programs import Stop
from mdbal.texts import Change, Refused, Trouble, read_plan


class Collecting(OnLibrary):
    def setUp(self) -> None:
        super().setUp()
        room = tempfile.TemporaryDirectory()
        self.addCleanup(room.cleanup)
        self.folder = room.name
        self.did = []  # type: List[Any]  # waits, what is said, and what the ranks are asked, in their order
        self.stored.asked = self.did
        self.collector = Collector(self.cluster, self.folder, self.did.append, self.did.append)

    def read(self, name: str) -> bytes:
        with open(os.path.join(self.folder, name), "rb") as it:
            return it.read()

    def test_what_ranks_are_asked_in_its_order(self) -> None:
        self.collector.dumps(2, 3.5, 1000)
        roots = [f"{rank} get subtrees" for rank in range(3)]
        loads = [f"{rank} dump loads" for rank in range(3)]
        first = [f"{rank} {what}" for rank in range(3) for what in ("get subtrees", "perf dump")]
        self.assertEqual(self.did, ["reading the ranks"] + first + loads + [3.5] + loads + roots + [f"{rank} config get" for rank in range(3)])

    def test_files_of_the_dumps(self) -> None:
        self.stored.loads[0] = [b"first\xff", b"second"]
        self.collector.dumps(2, 0, 1000)
        self.assertEqual(sorted(os.listdir(self.folder)), sorted(
            ["fs.json", "balancer"] + [f"subtrees.{rank}.json" for rank in range(3)] + [f"loads.{rank}.{sample}.json" for rank in range(3) for sample in (1, 2)]))
        self.assertEqual(json.loads(self.read("fs.json")), {"mdsmap": self.cluster.mds_map()})
        self.assertEqual([self.read(f"subtrees.{rank}.json") for rank in range(3)], [self.stored.subtrees(rank) for rank in range(3)])
        self.assertEqual([self.read(f"loads.0.{sample}.json") for sample in (1, 2)], [b"first\xff", b"second"])

    def test_without_samples_no_rank_is_asked_for_its_heat(self) -> None:
        self.collector.dumps(0, 3, 0)
        self.assertEqual([it for it in self.did if "perf" in str(it) or "loads" in str(it) or it == 3], [])
        self.assertEqual([self.read(f"loads.{rank}.1.json") for rank in range(3)], [b'{"dirfrags":[]}\n'] * 3)

    def test_rank_with_too_many_directories_is_not_asked_for_its_heat(self) -> None:
        self.collector.dumps(1, 3, 1000)  # it caches as many
        self.did.clear()
        with self.assertRaisesRegex(Trouble, "^rank 0 caches 1000 directories, more than mgr/mdbal/most_directories$"):
            self.collector.dumps(1, 3, 999)
        self.assertEqual([it for it in self.did if "loads" in it], [])
        self.lib.mds_command = unittest.mock.Mock(side_effect=self.lib.mds_command)
        self.collector.dumps(1, 3, 1000)
        asked = [json.loads(it[0][1]) for it in self.lib.mds_command.call_args_list]
        self.assertEqual([it["logger"] for it in asked if it["prefix"] == "perf dump"], ["mds_mem"] * 3)

    def test_balancer(self) -> None:
        for automate, text in ((True, b"10\nbalance_automate true\n"), (False, b"10\nbalance_automate false\n"), (None, b"10\n")):
            self.stored.map["flags_state"] = {} if automate is None else {"balance_automate": automate}
            self.collector.dumps(1, 3, 1000)
            self.assertEqual(self.read("balancer"), text)

    def changes(self, change: Any, times: int) -> Any:
        """While so many of the next samples are read, something changes."""
        real, left = self.stored.answer, [times]

        def answer(rank: int, command: Dict[str, str]) -> bytes:
            if command["prefix"] == "dump loads" and rank == 2 and left[0]:
                left[0] -= 1
                change()
            return bytes(real(rank, command))
        return unittest.mock.patch.object(self.stored, "answer", answer)

    def test_all_is_taken_again_where_something_changes_meanwhile(self) -> None:
        root = stand_in.root_at(b"/a", 1)
        for change in (lambda: self.stored.map.update(max_mds=self.stored.map["max_mds"] + 1),
                       lambda: self.stored.roots[1].append(root)):
            for times in (1, 2):
                self.did.clear()
                with self.changes(change, times):
                    self.collector.dumps(1, 3, 1000)
                self.assertEqual([it for it in self.did if it in (3, "reading the ranks")], ["reading the ranks"] + [3, "reading the ranks"] * times)
            with self.changes(change, 3), self.assertRaisesRegex(Refused, "^subtrees moved while they were read: try again later$"):
                self.did.clear()
                self.collector.dumps(1, 3, 1000)
            self.assertEqual(self.did.count(3), 2)
            self.setUp()
        self.stored.roots[1].append(dict(root, auth_second=2))
        self.assertRaises(Refused, self.collector.dumps, 1, 3, 1000)

    def test_listing(self) -> None:
        for path, it in list(self.stored.directories.items()):
            if path not in (b"", b"/w", b"/w/p05"):
                del self.stored.directories[path]
        here = self.stored.directories
        here[b""].entries, here[b"/w"].entries, here[b"/w/p05"].entries = 4, 12, 0
        here[b"/w/p05"].pin, here[b"/w"].distributed, here[b"/w"].random = 2, "1", "0.5"
        own = self.collector.listing([b"/w/p05", b"", b"/w", b"/w/p05", b"/gone"])
        self.assertEqual(own, {b"/w/p05": 0, b"": 4, b"/w": 12})
        values = [("w/p05", 0, 2, "0", "0"), (".", 4, -1, "0", "0"), ("w", 12, -1, "1", "0.5")]
        self.assertEqual(self.read("dirs").decode(), "".join(
            f'# file: {it[0]}\nceph.dir.{name}="{it[place]}"\n\n'
            for place, name in enumerate(("entries", "pin", "pin.distributed", "pin.random"), 1) for it in values))
        self.assertEqual(self.read("inodes"), f"{here[b'/w/p05'].inode} w/p05\0001 \000{here[b'/w'].inode} w\000".encode())

    def test_each_500_directories_are_told_and_may_be_stopped(self) -> None:
        facts = unittest.mock.Mock(return_value=Facts(5, 1, "-1", "0", "0"))
        with unittest.mock.patch.object(self.cluster, "facts", facts):
            self.collector.listing([b"/%d" % it for it in range(1001)])
            self.assertEqual(self.did, [0, "reading directories, 0 of 1001", 0, "reading directories, 500 of 1001", 0, "reading directories, 1000 of 1001"])
            self.collector.rest = unittest.mock.Mock(side_effect=Stop("it was turned off"))
            self.assertRaises(Stop, self.collector.listing, [b"/a"])

    def test_directory_that_was_emptied_while_it_was_read(self) -> None:
        with unittest.mock.patch.object(self.cluster, "facts", lambda path: Facts(5, 0, "-1", "0", "0")):
            self.assertEqual(self.collector.listing([b"/a"]), {b"/a": 0})

    def test_entries_without_those_of_listed_directories_below(self) -> None:
        below = {b"": 100, b"/a": 50, b"/a/b/c": 20, b"/a/b/c/d": 5, b"/ab": 7, b"/a/x": 60}
        self.assertEqual(own_entries(below), {b"": 43, b"/a": 0, b"/a/b/c": 15, b"/a/b/c/d": 5, b"/ab": 7, b"/a/x": 60})
        self.assertEqual(own_entries({b"/a/b": 3, b"/c": 2}), {b"/a/b": 3, b"/c": 2})

    def test_names_in_the_listing(self) -> None:
        self.assertEqual(list(blocks("pin", {b"/a\\\n": "1", b"": "0"})),
                         [b'# file: a\\134\\012\nceph.dir.pin="1"\n\n', b'# file: .\nceph.dir.pin="0"\n\n'])

    def test_end(self) -> None:
        write(self.folder, "complete", b"old and longer than that, which is replaced, as all of a file is")
        self.collector.end()
        self.assertEqual(self.read("complete"), f"lab {self.stored.fsid}\n".encode())


class Trials(OnLibrary):
    """A trial of a plan without pins."""

    def setUp(self) -> None:
        super().setUp()
        self.did = []  # type: List[Any]
        self.trial = Trial(self.cluster, self.did.append, self.did.append)
        self.looks = lambda: self.stored.asked.count("0 get subtrees")
        self.exports = []  # type: List[Any]  # those that ranks are asked for
        self.moves = lambda path: True  # type: Any  # whether a directory moves now
        self.said = {}  # type: Dict[bytes, Any]  # what a rank answers in place of that it tries
        self.mds_command, self.lib.mds_command = self.lib.mds_command, self.export

    def export(self, mds: str, command: str, data: bytes) -> Any:
        asked = json.loads(command)
        if asked["prefix"] != "export dir":
            return self.mds_command(mds, command, data)
        path = asked["path"].encode()
        self.exports.append((mds, path, asked["rank"]))
        if path in self.said:
            return 0, json.dumps(self.said[path]).encode(), ""
        if self.moves(path):
            self.stored.exported[path] = asked["rank"]
        return 0, b'{"return_code": 0}', ""

    def test_whether_a_plan_can_be_tried(self) -> None:
        self.assertEqual(once.why_not(read_plan("change 5 - 1 1 /a\nchange 6 - 2 1 /b\n")), "")
        for line in ("pin 6 2 /b\n", "change 5 1 2 1 /b\n", "change 5 0 - 1 /b\n"):
            self.assertEqual(once.why_not(read_plan("change 5 - 1 1 /a\n" + line)),
                             "pins of mdbal are set, and a directory with a pin goes back to its rank: rollback and plan again, or apply without --once")

    def test_rank_of_a_directory(self) -> None:
        ranks = {b"": 3, b"/a": 1, b"/a/b/c": 2}
        self.assertEqual([rank_in(ranks, it) for it in (b"", b"/x/y", b"/a", b"/a/b", b"/a/b/c", b"/a/b/c/d", b"/ab")], [3, 3, 1, 1, 2, 2, 3])
        self.assertEqual(rank_in({}, b"/a"), 0)

    def test_directories_that_are_at_their_ranks_are_not_asked_to_move(self) -> None:
        self.stored.exported[b"/b"] = 1
        said = self.trial.run([Change(-1, 0, b"/a"), Change(-1, 1, b"/b/c"), Change(1, -1, b"/d")], 5, 60)
        self.assertEqual(said, "3 of 3 directories are at their ranks, without pins: one that cools down goes back with the one above it")
        self.assertEqual((self.exports, self.did, self.looks()), ([], [], 3))

    def test_directories_move_in_their_order_from_where_they_are(self) -> None:
        self.stored.exported[b"/b"] = 2
        self.trial.run([Change(-1, 1, b"/a"), Change(-1, 0, b"/b/c"), Change(-1, 2, b"/d")], 5, 60)
        self.assertEqual(self.exports, [("lab:0", b"/a", 1), ("lab:2", b"/b/c", 0), ("lab:0", b"/d", 2)])
        self.assertEqual(self.did, [0, "moves directories, 0 of 3 in pass 1", 0, "moves directories, 1 of 3 in pass 1", 0, "moves directories, 2 of 3 in pass 1", 5])

    def test_batches_of_a_hundred_settle_before_the_next(self) -> None:
        self.trial.run([Change(-1, 1, b"/%d" % it) for it in range(201)], 5, 60)
        waits = [self.did[place - 1] for place, it in enumerate(self.did) if it == 5]
        self.assertEqual(waits, [f"moves directories, {it} of 201 in pass 1" for it in (99, 199, 200)])

    def test_those_that_stay_are_asked_three_times_and_told(self) -> None:
        self.moves = lambda path: False
        said = self.trial.run([Change(-1, 1, b"/%d x" % it) for it in range(5)], 5, 600)
        self.assertEqual(said, "0 of 5 directories are at their ranks, without pins: one that cools down goes back with the one above it"
                               "; not /0\\040x; not /1\\040x; not /2\\040x")
        self.assertEqual(len(self.exports), 15)
        self.assertEqual([it for it in self.did if "0 of 5" in str(it)], [f"moves directories, 0 of 5 in pass {it}" for it in (1, 2, 3)])
        self.assertEqual(self.did.count(5), 18)  # each pass waits until nothing moved for 30 seconds

    def test_one_that_comes_back_in_the_second_pass(self) -> None:
        """/a/b is to stay at rank 0, and goes with /a."""
        said = self.trial.run([Change(-1, 0, b"/a/b"), Change(-1, 1, b"/a")], 5, 60)
        self.assertIn("2 of 2 directories", said)
        self.assertEqual(self.exports, [("lab:0", b"/a", 1), ("lab:1", b"/a/b", 0)])

    def test_what_is_refused_is_told_once_and_not_waited_for(self) -> None:
        names = [b"/%d x" % it for it in range(5)]
        self.said = {it: {"return_code": -errno.EINVAL} for it in names}
        said = self.trial.run([Change(-1, 1, it) for it in names] + [Change(-1, 1, b"/\xff")], 5, 60)
        self.assertEqual(said.partition("; not ")[0], "0 of 6 directories are at their ranks, without pins: one that cools down goes back with the one above it")
        self.assertEqual(said.partition("/2\\040x")[2], "".join(f"; /{it}\\040x: {{'return_code': -22}}" for it in range(3)))
        self.assertNotIn(5, self.did)
        self.assertEqual(len(self.trial.refused), 6)
        self.assertEqual(self.trial.refused[5], "/\\377 is not UTF-8")

    def test_rank_that_says_nothing_of_a_return_code_tries(self) -> None:
        self.said = {b"/a": {"what": "else"}}
        self.trial.run([Change(-1, 1, b"/a")], 5, 60)
        self.assertEqual((self.trial.refused, self.did.count(5)), ([], 18))

    def settle(self, arrive: Dict[int, List[bytes]], count: int, wait: float) -> int:
        """How often it waits for so many directories; by the wait of a number, some arrive."""
        self.did.clear()
        self.stored.exported.clear()

        def rest(seconds: float) -> None:
            self.did.append(seconds)
            for path in arrive.get(len(self.did), []):
                self.stored.exported[path] = 1
        self.trial.rest = rest
        self.trial._settle([Change(-1, 1, b"/%d" % it) for it in range(count)], 5, wait)
        self.assertEqual(self.did, [5] * len(self.did))
        return len(self.did)

    def test_waits_until_all_arrive_or_nothing_moves(self) -> None:
        self.assertEqual(self.settle({}, 0, 60), 0)
        self.assertEqual(self.settle({3: [b"/0", b"/1"]}, 2, 60), 3)
        self.assertEqual(self.settle({3: [b"/0"]}, 2, 600), 9)  # six waits after the last arrival
        self.assertEqual(self.settle({6: [b"/0"], 12: [b"/1"]}, 2, 600), 12)
        self.assertEqual(self.settle({4: [b"/0", b"/1"]}, 2, 20), 4)  # by the last look
        self.assertRaisesRegex(Trouble, "^directories still move after 20 seconds$", self.settle, {5: [b"/0", b"/1"]}, 2, 20)

    def test_what_moves_longer_than_the_patience_is_waited_for(self) -> None:
        self.stored.slow_looks = 10**6
        self.stored.moved[b"/x"] = 2
        self.assertRaisesRegex(Trouble, "^directories still move after 60 seconds$", self.settle, {}, 1, 60)
        self.assertEqual(len(self.did), 12)
