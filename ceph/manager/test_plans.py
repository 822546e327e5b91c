"""Plans, and what stands in their way: ranks that hang, programs that fail."""
import json
import os
import shutil
import socket
import sys
import tempfile
import threading
import time
import types
import unittest
import unittest.mock
import urllib.request
from typing import Any

import stand_in
from on_sample import ROOM, SAMPLE, TOP, OnSample

from mdbal import programs
from mdbal.hours import packed, unpacked
from mdbal.jobs import Work
from mdbal.module import Job, Module
from mdbal.state import State
from mdbal.texts import escaped, read_plan


def rows_tool() -> Any:
    """The tool that writes the dumps of a stored cluster, without its runs."""
    made = types.ModuleType("ceph_rows")
    sys.modules["ceph_rows"] = made
    with open(f"{TOP}/checks/ceph_rows", encoding="utf-8") as it:
        text = it.read()
    made.__file__ = f"{TOP}/checks/ceph_rows"
    exec(compile(text.replace("\nsys.exit(main())", ""), made.__file__, "exec"), made.__dict__)
    return made


class Plans(OnSample):
    # the door: plan, show, status

    def test_plan_changes_nothing(self) -> None:
        self.assertRegex(self.do("plan"), r"^plan: plan [0-9a-f]{12}: \d+ pins to change$")
        self.assertEqual((self.cluster.sets, [it for it in self.cluster.kept if not it.startswith("fs.7.hour.")]), ([], []))

    def test_why_nothing_is_proposed(self) -> None:
        for name, value, why in (("least_heat", 10**6, "there is less heat than --least-heat asks for"),
                                 ("least_gain", 100, "the plan gains less than is asked for")):
            with unittest.mock.patch.dict(self.module.options, {name: value}):
                self.assertEqual(self.do("plan"), f"plan: nothing is proposed: {why}")
            self.assertIn("no pin changes", self.module.show("lab")[1])

    def test_plan_is_for_the_hours_that_were_seen(self) -> None:
        self.do("plan")
        self.assertEqual(len(self.cluster.kept), 1)
        key, value = self.cluster.kept.popitem()
        rows = [it for it in unpacked(value).split(b"\n")[3:] if it]
        other = sorted((it for it in rows if b"/" in it), key=lambda it: int(it.split(b" ")[0]))[0]
        hot = b"%d %s" % (10**7, other.partition(b" ")[2])
        for number, record in ((1000, rows), (2000, [hot] + rows), (3000, [b"5 /gone"])):
            text = b"\n".join(unpacked(value).split(b"\n")[:3] + record) + b"\n"
            self.module.set_store(f"fs.7.hour.{number}", packed(text))
        self.do("plan")
        told = self.record().planned.plan.told["hours"]
        self.assertEqual([it["name"].rpartition("/")[2] for it in told if it["seen"]][1:3], ["hour.1000", "hour.2000"])
        self.module.options.update(hours=1, made=0)
        self.do("plan")
        self.assertLessEqual(len(self.record().planned.plan.told.get("hours", [])), 1)

    def test_record_that_can_not_be_read(self) -> None:
        self.module.set_store("fs.7.hour.1000", "no record")
        self.assertRegex(self.do("plan"), "the record mgr/mdbal/fs.7.hour.1000 can not be read")

    def test_plan_is_that_of_the_recorded_folder(self) -> None:
        plan = self.module.records["lab"]
        self.planned()
        with tempfile.TemporaryDirectory() as room:
            shutil.copytree(SAMPLE, f"{room}/dumps")
            with open(f"{room}/dumps/balancer", "w", encoding="ascii") as it:
                it.write("10\nbalance_automate false\n")
            programs.run([f"{room}/dumps", "--made", "12", "--most-pins", "1000", "--pins", f"{room}/pins"], 60, (0,))
            with open(f"{room}/pins.plan", encoding="ascii") as it:
                wanted = read_plan(it.read())
        found = read_plan(plan.planned.plan.text)
        self.assertEqual((found.identity, found.changes, found.pins), (wanted.identity, wanted.changes, wanted.pins))

    def test_show_has_report_and_changes(self) -> None:
        self.assertEqual(self.module.show("lab")[0], -2)
        name = self.planned()
        status, text, _ = self.module.show("lab")
        self.assertEqual(status, 0)
        self.assertIn(f"plan {name}, ", text)
        self.assertIn("lower bound", text)
        for change in read_plan(self.record().planned.plan.text).changes:
            self.assertIn(f"{change.after:>5}     -  {escaped(change.path)}", text)
        self.assertEqual(json.loads(self.module.show("lab", "json")[1])["id"], name)

    def test_status_says_how_far(self) -> None:
        self.assertEqual(self.module.status()[1].split("\n")[1], "lab: off")
        self.planned()
        self.assertRegex(self.module.status("lab")[1], r"plan: the hottest rank is at 3\.00 of the mean; \d+ pins give 1\.\d\d, and no plan gets below 1\.\d\d")
        told = json.loads(self.module.status("lab", "json")[1])["file_systems"]["lab"]
        self.assertEqual(told["plan"]["greatest_to_mean"], 3.0)
        self.assertEqual(self.module.status("none"), (-2, "", "there is no file system none"))

    def test_status_says_what_is_set(self) -> None:
        name = self.planned()
        count = len(read_plan(self.record().planned.plan.text).changes)
        self.do("apply", name)
        self.assertIn(f"  set: {name}, done, {count} of {count} changes may be set\n", self.module.status("lab")[1])
        self.do("rollback")
        self.assertIn(f"  restore: {name}, done, 0 of {count} changes may be set\n", self.module.status("lab")[1])

    def test_status_of_an_idle_file_system(self) -> None:
        self.module.options["least_heat"] = 10**6
        self.do("plan")
        self.assertIn("  plan: idle: too little load to plan for\n", self.module.status("lab")[1])
        self.assertNotIn("greatest_to_mean", self.module.metrics()[1])

    def test_options_reach_the_program(self) -> None:
        asked = dict(least_gain=7, keep=9, most_pins=33, least_heat=44, most_inodes=55, mask="0x3", leave="/a\\040b /c\\134")
        with tempfile.TemporaryDirectory() as room, unittest.mock.patch.dict(self.module.options, asked):
            words = Work(self.module, self.record(), None).options(room)
            self.assertEqual(words, ["--least-gain", "7", "--keep", "9", "--most-pins", "33", "--least-heat", "44", "--most-inodes", "55",
                                     "--mask=0x3", "--leave", f"{room}/leave"])
            with open(f"{room}/leave", "rb") as it:
                self.assertEqual(it.read(), b"/a b\n/c\\134\n")
        with tempfile.TemporaryDirectory() as room:
            self.assertEqual(Work(self.module, self.record(), None).options(room)[-2:], ["--most-pins", "1000"])

    def test_directories_that_are_left_are_in_no_plan(self) -> None:
        path = self.change(0).path
        with unittest.mock.patch.dict(self.module.options, {"leave": escaped(path)}):
            self.do("plan")
            self.assertNotIn(path, [it.path for it in read_plan(self.record().planned.plan.text).changes])

    def test_metrics_have_the_names_of_the_rounds(self) -> None:
        self.planned()
        text = self.module.metrics()[1]
        for line in ('mdbal_greatest_to_mean{fs="lab"} 3.0', 'mdbal_on{fs="lab"} 0', 'mdbal_heat{fs="lab",rank="2",when="planned"}', "# TYPE mdbal_bound_to_mean gauge"):
            self.assertIn(line, text)

    def test_metrics_over_http(self) -> None:
        with socket.socket() as free:
            free.bind(("127.0.0.1", 0))
            port = free.getsockname()[1]
        self.module.endpoint.use(port)
        with urllib.request.urlopen(f"http://127.0.0.1:{port}/metrics") as it:
            self.assertEqual(it.read().decode(), self.module.metrics()[1])
        self.module.endpoint.use(0)
        self.assertRaises(OSError, urllib.request.urlopen, f"http://127.0.0.1:{port}/metrics")

    def test_warning_where_it_stays_uneven(self) -> None:
        self.module.options["warn_percent"] = 50
        for seen in (False, False, True):
            self.do("plan")
            self.assertEqual("MDBAL_UNEVEN" in self.module.health, seen)
        self.assertRegex(self.module.health["MDBAL_UNEVEN"]["detail"][0], r"file system lab: \d+ % above the bound at the last 3 plans")
        self.module.options["warn_percent"] = 0
        self.do("plan")
        self.assertEqual(self.module.health, {})

    def test_folders_of_a_killed_manager_go(self) -> None:
        others = [tempfile.mkdtemp(prefix=it) for it in ("mdbal-", "mdbal-of another-x-")]
        left = tempfile.mkdtemp(prefix=self.module.room())
        self.module.clear()
        self.assertEqual([os.path.exists(it) for it in [left, *others]], [False, True, True])
        for it in others:
            os.rmdir(it)

    # a rank that hangs

    def test_rank_that_hangs(self) -> None:
        self.module.options["call_limit"] = 2
        self.cluster.hangs = 1
        self.assertIn("lab does not answer within 2 seconds", self.do("plan"))
        self.assertIn("last: plan: lab does not answer", self.module.status()[1])
        self.cluster.hangs = None
        self.module.options["call_limit"] = 60
        self.assertRegex(self.do("plan"), "pins to change")
        self.cluster.freed.set()

    def test_status_answers_while_a_rank_hangs(self) -> None:
        self.cluster.hangs = 1
        thread = threading.Thread(target=self.module.serve, daemon=True)
        self.module.plan("lab")
        thread.start()
        end = time.time() + 30
        while "mdbal lab: reading the ranks" not in self.module.status()[1]:
            self.assertLess(time.time(), end)
            time.sleep(0.01)
        self.cluster.freed.set()
        self.module.shutdown()
        thread.join(10)
        self.assertFalse(thread.is_alive())

    # programs

    def test_programs_that_are_missing_or_fail(self) -> None:
        with tempfile.TemporaryDirectory() as room:
            programs.FOLDERS = [room]
            self.assertEqual(Module.can_run(), (False, f"no program mdbal_ceph in {room}"))
            programs.FOLDERS = [ROOM.name]
            self.assertEqual(Module.can_run(), (True, ""))
            programs.FOLDERS = [room]
            self.assertIn("no program mdbal_ceph", self.do("plan"))
            for text, why in (("exit 1", "ended with status 1: "), ("echo it broke >&2; exit 77", "status 77: it broke"), ("sleep 60", "ran longer than")):
                with open(f"{room}/mdbal_ceph", "w", encoding="ascii") as it:
                    it.write(f"#!/bin/sh\n{text}\n")
                os.chmod(f"{room}/mdbal_ceph", 0o755)
                self.module.options["program_limit"] = 2
                self.assertIn(why, self.do("plan"))

    def test_driver_that_ends_by_itself(self) -> None:
        name = self.planned()
        with tempfile.TemporaryDirectory() as room:
            programs.FOLDERS = [room]
            with open(f"{room}/mdbal_drive", "w", encoding="ascii") as it:
                it.write("#!/bin/sh\necho broken >&2; exit 1\n")
            os.chmod(f"{room}/mdbal_drive", 0o755)
            self.assertIn("no pin was changed", self.do("apply", name))


class OnClusters(unittest.TestCase):
    """On the stored clusters, the module proposes what mdbal_ceph proposes on their dumps."""

    def test_stored_clusters(self) -> None:
        programs.FOLDERS = [ROOM.name]
        rows = rows_tool()
        for name in ("lab", "balances", "again", "exchange", "ties", "others"):
            with self.subTest(name=name), tempfile.TemporaryDirectory() as room:
                with open(f"{TOP}/examples/ceph/{name}.cluster", encoding="utf-8") as it:
                    lines = it.read().split("\n")
                cluster = rows.Cluster()
                for line in lines[: next(at for at, line in enumerate(lines) if line.startswith("$"))]:
                    if line and not line.startswith("#"):
                        cluster.read(line)
                cluster.write(room)
                self.is_same(f"{room}/dumps", f"{room}/own" if "own" in cluster.own else "")

    def is_same(self, dumps: str, own: str) -> None:
        stand_in.MgrModule.cluster = stand_in.Cluster(dumps)
        module = Module("mdbal", 0, 0)  # type: Any
        module.sleep = lambda seconds: False
        if own:
            with open(own, encoding="ascii") as it:
                pins = [line.split(" ", 1) for line in it.read().split("\n") if line]
            state = State()
            state.text = f"mdbal_pins 1\nplan x\nmark 0 0\nchanges 0\npins {len(pins)}\n"
            state.text += "".join(f"pin - {rank} {path}\n" for rank, path in pins) + "end\n"
            module.store.save(7, state)
        module.meet()
        record = module.records["lab"]
        module.do(Job("plan", "lab"), record)
        self.assertEqual(module.raised, [])
        programs.run([dumps, "--least-gain", "5", "--keep", "5", "--most-pins", "1000", "--pins", f"{dumps}/pins"] + (["--own", own] if own else []), 60, (0, 3))
        with open(f"{dumps}/pins.plan", encoding="ascii") as it:
            wanted = read_plan(it.read())
        found = read_plan(record.planned.plan.text)
        self.assertEqual((record.said, found.changes, found.pins), (record.said, wanted.changes, wanted.pins))
