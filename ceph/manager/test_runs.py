"""Apply and rollback: what stops them, a manager that ends, and rounds."""
import json
import queue
import threading
import time
import unittest.mock
from typing import Any, Dict

import stand_in
from on_sample import Direct, OnSample

from mdbal import jobs, programs
from mdbal.cluster import Cluster
from mdbal.gain import after, percent
from mdbal.hours import unpacked
from mdbal.module import Job
from mdbal.state import State
from mdbal.texts import read_plan


class Runs(OnSample):
    # apply, check, rollback

    def test_apply_sets_all_in_order_and_rollback_takes_back_in_reverse(self) -> None:
        name = self.planned()
        changes = read_plan(self.record().planned.plan.text).changes
        said = self.do("apply", name)
        self.assertEqual(self.cluster.sets, [(it.path, it.after) for it in changes])
        self.assertEqual(said, f"apply: set {name}: {len(changes)} of {len(changes)} changes; {len(changes)} of {len(changes)} pins hold")
        self.assertEqual(self.own(), {it.path: it.after for it in changes})
        self.assertEqual(self.record().state.ended, "done")
        self.assertIn(("progress", "complete", "mdbal-lab"), self.module.events)
        self.cluster.sets.clear()
        self.do("rollback")
        self.assertEqual(self.cluster.sets, [(it.path, it.before) for it in reversed(changes)])
        self.assertEqual((self.own(), self.pins()), ({}, {}))
        self.assertEqual(self.do("rollback"), "rollback: nothing is set that could be restored")
        self.assertEqual(self.module.health, {})

    def test_second_plan_counts_the_pins_of_the_first_as_own(self) -> None:
        self.do("apply", self.planned())
        self.assertEqual(self.do("plan")[:6], "plan: ")
        self.assertEqual(read_plan(self.record().planned.plan.text).pins, self.pins())
        self.assertEqual(self.record().held, f"{len(self.pins())} of {len(self.pins())} pins hold")

    def test_plan_is_gone_once_its_pins_are_set(self) -> None:
        name = self.planned()
        self.do("apply", name)
        self.assertEqual(self.module.show("lab")[0], -2)
        self.assertRegex(self.do("apply", name), "is not the last plan")

    def test_apply_of_another_id_is_refused_at_once(self) -> None:
        self.planned()
        self.assertEqual(self.module.apply("lab", "0123456789ab"), (-2, "", "0123456789ab is not the last plan of lab"))

    def test_check_finds_what_does_not_hold(self) -> None:
        self.do("apply", self.planned())
        path = self.cluster.sets[0][0]
        self.cluster.moved.pop(path)
        self.cluster.directories[path].pin = -1
        self.assertRegex(self.do("check"), r"check: \d+ of \d+ pins hold")
        self.assertIn("MDBAL_NOT_HELD", self.module.health)
        self.do("rollback")
        self.assertNotIn("MDBAL_NOT_HELD", self.module.health)

    def test_apply_waits_for_pins_that_do_not_hold_and_no_longer(self) -> None:
        name, said = self.planned(), []
        self.module.say = lambda fs, doing: said.append(doing)
        self.do("apply", name)
        self.assertEqual([it for it in said if it.startswith("waits")], [])
        self.do("rollback")
        name = self.planned()
        path = read_plan(self.record().planned.plan.text).changes[0].path
        self.cluster.at_set = lambda at: self.cluster.late.add(path)
        self.module.options["wait"] = 20
        self.assertRegex(self.do("apply", name), r"; \d+ of \d+ pins hold$")
        self.assertEqual(len([it for it in said if it.startswith("waits")]), 4)
        self.assertIn("MDBAL_NOT_HELD", self.module.health)

    def test_looks_count_for_the_wait(self) -> None:
        name, said = self.planned(), []
        path = read_plan(self.record().planned.plan.text).changes[0].path
        self.cluster.at_set = lambda at: self.cluster.late.add(path)
        self.module.say = lambda fs, doing: said.append(doing)
        self.module.options["wait"] = 20
        clock = iter(range(0, 10**6, 10))  # each look takes ten seconds
        with unittest.mock.patch("mdbal.jobs.time.monotonic", lambda: next(clock)):
            self.do("apply", name)
        self.assertLessEqual(len([it for it in said if it.startswith("waits")]), 2)

    def test_wait_goes_on_while_subtrees_move(self) -> None:
        name, said = self.planned(), []
        count = len(read_plan(self.record().planned.plan.text).changes)

        def say(fs: str, doing: str) -> None:
            if len(self.cluster.sets) == count and doing == "reading the ranks" and doing not in said:
                self.cluster.slow_looks = 18  # the looks at roots of one check
            said.append(doing)
        self.module.say = say
        self.assertRegex(self.do("apply", name), r"; (\d+) of \1 pins hold$")
        self.assertIn("waits: not checked: subtrees moved while they were read: try again later", said)

    def test_run_that_off_ends_is_no_warning(self) -> None:
        name = self.planned()
        self.cluster.at_set = lambda path: self.module.off("lab")
        self.assertIn("it was turned off", self.do("apply", name))
        self.assertEqual(self.module.health, {})
        self.assertIn("  stopped: stopped it was turned off; up to ", self.module.status("lab")[1])
        self.assertIn('mdbal_stopped{fs="lab"} 0', self.module.metrics()[1])
        self.do("on")
        self.cluster.at_set = lambda path: None
        with unittest.mock.patch.dict(self.module.options, {"mask": "nonsense"}):
            self.do("round")  # that fails, and is one
        self.assertIn("MDBAL_STOPPED", self.module.health)
        self.assertRegex(self.do("apply", name), r"^apply: set \w+: \d+ of \d+ changes")
        self.assertEqual(self.module.health, {})

    def test_empty_directories_do_not_count(self) -> None:
        self.do("apply", self.planned())
        path = self.cluster.sets[-1][0]
        for name, it in self.cluster.directories.items():
            if name == path or name.startswith(path + b"/"):
                it.entries = 0
        del self.cluster.moved[path]
        self.assertRegex(self.do("check"), r"check: (\d+) of \1 pins hold, \d directories are empty$")
        self.assertEqual(self.module.health, {})

    # a trial without pins

    def test_once_moves_the_directories_and_sets_no_pin(self) -> None:
        name = self.planned()
        changes = read_plan(self.record().planned.plan.text).changes
        said = self.do("once", name)
        self.assertRegex(said, f"once: once {name}: {len(changes)} of {len(changes)} directories are at their ranks, without pins")
        self.assertEqual((self.cluster.sets, self.pins(), self.own()), ([], {}, {}))
        self.assertEqual(self.cluster.exported, {it.path: it.after for it in changes})
        self.do("apply", name)  # it may still be applied
        self.assertEqual(self.record().state.ended, "done")

    def test_once_says_what_is_refused(self) -> None:
        name = self.planned()
        path = read_plan(self.record().planned.plan.text).changes[0].path
        self.cluster.refuse.add(path)
        self.assertRegex(self.do("once", name), f"; not {path.decode()}.*; {path.decode()}: .*return_code")

    def test_once_is_refused_where_pins_are_set(self) -> None:
        self.do("apply", self.planned())
        for it in self.cluster.loads.values():
            it.reverse()
        self.do("plan")
        planned = self.record().planned
        self.assertRegex(self.do("once", planned.plan.id), "pins of mdbal are set")

    # what stops a run

    def stopped(self, why: str) -> None:
        """An apply that stops says so, warns, and keeps a list of what it set; a rollback restores that."""
        said = self.do("apply", self.planned())
        self.assertIn(why, said)
        self.assertIn("MDBAL_STOPPED", self.module.health)
        self.assertTrue(self.record().state.ended.startswith("stopped "))
        self.assertEqual(self.own(), {path: pin for path, pin in self.pins().items() if (path, pin) in self.cluster.sets})

    def test_refused_pin(self) -> None:
        path = self.change(3).path
        self.cluster.refuse.add(path)
        self.stopped("stopped refused")
        self.cluster.refuse.clear()
        self.cluster.directories[path].pin = 63  # somebody pins it meanwhile
        self.do("rollback")
        self.assertEqual(self.pins(), {path: 63})

    def test_pin_changed_by_hand(self) -> None:
        path = self.change(2).path

        def set_by_hand(at: bytes) -> None:
            self.cluster.directories[path].pin = 63
        self.cluster.at_set = set_by_hand
        self.assertIn("stopped pin-changed", self.do("apply", self.record().planned.plan.id))
        self.do("rollback")
        self.assertEqual(self.pins(), {path: 63})

    def test_other_directory_of_the_name(self) -> None:
        path = self.change(1).path
        self.planned()
        self.cluster.directories[path].inode += 1
        said = self.do("apply", self.record().planned.plan.id)
        self.assertIn("stopped other-directory", said)
        self.assertNotIn(path, self.pins())

    def test_directory_that_is_gone_is_passed_over(self) -> None:
        name, path = self.planned(), self.change(1).path
        del self.cluster.directories[path]
        self.assertRegex(self.do("apply", name), r"^apply: set \w+: (\d+) of (\d+) changes")
        self.assertEqual(self.record().state.ended, "done")

    def test_new_health_warning(self) -> None:
        self.cluster.at_set = lambda path: self.cluster.checks.update(MDS_SLOW_METADATA_IO={"severity": "HEALTH_WARN"})
        self.stopped("stopped new-warning")
        self.assertEqual(len(self.cluster.sets), 1)

    def test_rank_that_changes(self) -> None:
        self.cluster.at_set = lambda path: self.cluster.map.update(max_mds=2)
        self.stopped("stopped ranks-changed")

    def test_ranks_that_changed_since_the_plan(self) -> None:
        name = self.planned()
        self.cluster.map["max_mds"] = 2
        self.assertEqual(self.do("apply", name), f"apply: the ranks changed since the plan {name}: plan again")
        self.assertEqual(self.cluster.sets, [])

    def test_old_plan(self) -> None:
        name = self.planned()
        self.record().planned = self.record().planned._replace(time=time.time() - 1000)
        self.assertEqual(self.do("apply", name), f"apply: the plan {name} is too old: plan again")

    def test_batches_that_do_not_come_to_rest(self) -> None:
        self.cluster.slow_looks = 10 ** 6
        self.module.options.update(wait=20, batch=1)
        # the driver counts the seconds that it asks to wait, so this takes none
        self.stopped("stopped too-slow")

    def test_heat_is_recorded_while_a_run_waits(self) -> None:
        for cached, recorded in ((100, True), (200001, False)):  # and what keeps it from being read stops no run
            self.setUp()
            name = self.planned()
            for key in [it for it in self.cluster.kept if it.startswith("fs.7.hour.")]:
                del self.cluster.kept[key]
            self.cluster.slow_looks, self.cluster.cached = 2, cached
            self.module.options.update(interval=0, batch=1)
            self.do("apply", name)
            self.assertEqual(self.record().state.ended, "done")
            hours = [unpacked(it) for key, it in self.cluster.kept.items() if key.startswith("fs.7.hour.")]
            self.assertEqual((bool(hours), all(it.count(b" /w/p0") > 5 for it in hours)), (recorded, True))

    def test_no_monitors_within_a_run(self) -> None:
        def lose(path: bytes) -> None:
            self.cluster.has_monitors = False
        self.cluster.at_set = lose
        said = self.do("apply", self.planned())
        self.assertIn("no-answer", said)
        self.assertEqual(len(self.cluster.sets), 1)

    def test_state_that_the_monitors_refuse(self) -> None:
        name = self.planned()
        self.cluster.keeps = False
        said = self.do("apply", name)
        self.assertIn("no pin was changed", said)
        self.assertEqual((self.cluster.sets, [it for it in self.cluster.kept if not it.startswith("fs.7.hour.")]), ([], []))

    def test_refusals(self) -> None:
        name = self.planned()
        for change, back, why in (
            (lambda: setattr(self.cluster, "scrubs", True), lambda: setattr(self.cluster, "scrubs", False), "a scrub is running"),
            (self.automate(True), self.automate(False), "the balancer of Ceph is on"),
            (lambda: self.cluster.checks.update(MDS_SLOW_REQUEST={"severity": "HEALTH_WARN"}), self.cluster.checks.clear, "slow requests"),
            (lambda: setattr(self.cluster, "has_monitors", False), lambda: setattr(self.cluster, "has_monitors", True), "the monitors do not answer"),
        ):
            change()
            self.assertIn(why, self.do("apply", name))
            back()
            self.assertEqual((self.cluster.sets, self.module.health), ([], {}))

    def test_balancer_of_releases_before_18(self) -> None:
        del self.cluster.map["flags_state"]["balance_automate"]
        for interval, why in (("10", "the balancer of Ceph is on"), ("0", "changes; ")):
            self.cluster.interval = interval
            self.assertIn(why, self.do("apply", self.planned()))

    def test_degraded_file_system(self) -> None:
        self.cluster.map["info"]["gid_" + str(self.cluster.map["up"]["mds_1"])]["state"] = "up:rejoin"
        self.assertEqual(self.do("plan"), "plan: lab is degraded: rank 1 is up:rejoin")

    def test_too_many_directories(self) -> None:
        self.cluster.cached = 200001
        self.assertIn("caches 200001 directories", self.do("plan"))


class Ends(OnSample):
    # a manager that ends anywhere

    def test_manager_that_dies_before_a_set(self) -> None:
        for dies_at in (0, 1, 5):
            with self.subTest(dies_at=dies_at):
                self.setUp()
                name = self.planned()
                changes = read_plan(self.record().planned.plan.text).changes
                self.die_within_apply(name, dies_at)
                other = self.manager()
                record = other.records["lab"]
                self.assertIn("the manager stopped while pins were set", record.stopped)
                self.assertEqual(record.state.ended, "")
                self.assertEqual(self.own(), {it.path: it.after for it in changes[:dies_at]})
                self.do("apply", name, other)
                self.assertEqual(self.pins(), {it.path: it.after for it in changes})
                self.do("rollback", "", other)
                self.assertEqual(self.pins(), {})

    def die_within_apply(self, name: str, sets: int) -> None:
        """The manager ends before it sets one more pin: nothing answers, and nothing is stored any more."""
        is_dead = threading.Event()
        real, hook = self.module.store.save, threading.excepthook

        def die(path: bytes) -> None:
            if len(self.cluster.sets) == sets:
                is_dead.set()
                raise SystemExit

        def save(number: int, state: State) -> None:
            if is_dead.is_set():
                raise SystemExit
            real(number, state)
        self.cluster.at_set, self.module.store.save = die, save
        self.module.options["call_limit"] = 3
        threading.excepthook = lambda *_: None
        self.assertRaises(SystemExit, self.module.do, Job("apply", "lab", name), self.record())
        threading.excepthook = hook
        self.cluster.at_set = lambda path: None

    def test_manager_that_shuts_down_leaves_a_run_that_is_not_ended(self) -> None:
        name = self.planned()
        self.cluster.at_set = lambda path: self.module.is_ending.set()
        self.assertIn("the manager stops", self.do("apply", name))
        other = self.manager()
        self.assertIn("the manager stopped while pins were set", other.records["lab"].stopped)
        other.tell_health()
        self.assertIn("MDBAL_STOPPED", other.health)
        self.do("rollback", "", other)
        self.assertEqual((self.pins(), other.health), ({}, {}))

    def test_state_of_a_newer_module_is_refused(self) -> None:
        self.do("apply", self.planned())
        head = json.loads(self.cluster.kept["fs.7.head"])
        self.cluster.kept["fs.7.head"] = json.dumps(dict(head, version=2))
        other = self.manager()
        self.assertIn("the state has version 2", other.status()[1])
        self.assertEqual(other.rollback("lab")[0], -11)

    def test_new_file_system_of_the_same_name_has_no_pins(self) -> None:
        self.do("apply", self.planned())
        self.cluster.id = 8
        self.module.meet()
        self.assertEqual(self.record().text.begun, 0)


class Rounds(OnSample):
    # rounds

    def roots(self) -> Dict[bytes, int]:
        """The rank of each root of a subtree."""
        return Cluster(self.module, "lab", Direct(stand_in.Library(self.cluster))).subtree_ranks()  # type: ignore[arg-type]

    def test_on_makes_rounds(self) -> None:
        self.do("on")
        self.assertTrue(self.manager().records["lab"].state.on)
        self.module.look()
        self.assertEqual(self.module.jobs.get_nowait().what, "round")
        self.assertRegex(self.do("round"), r"^round: set \w+: (\d+) of \1 changes")
        self.assertIn('mdbal_round_status{fs="lab"} 0', self.module.metrics()[1])
        self.module.look()
        self.assertRaises(queue.Empty, self.module.jobs.get_nowait)
        self.do("off")
        self.assertFalse(self.manager().records["lab"].state.on)
        self.assertNotEqual(self.pins(), {})

    def test_round_leaves_alone_what_still_moves(self) -> None:
        self.do("on")
        self.do("round")
        self.cluster.moved.pop(self.cluster.sets[0][0])
        self.cluster.sets.clear()
        self.assertRegex(self.do("round"), r"^round: no pin is changed while directories of the last run move: \d+ of \d+ pins hold")
        self.assertEqual(self.cluster.sets, [])
        self.assertIn("MDBAL_NOT_HELD", self.module.health)
        self.assertIn('mdbal_round_status{fs="lab"} 3', self.module.metrics()[1])
        self.record().state.time -= 2 * int(self.module.options["wait"]) + 1
        self.assertNotIn("last run", self.do("round"))

    def test_round_leaves_alone_what_was_too_slow(self) -> None:
        self.do("on")
        self.cluster.slow_looks = 10**6
        self.module.options.update(wait=20, batch=1)
        self.assertIn("too-slow", self.do("round"))
        self.assertIn("MDBAL_STOPPED", self.module.health)
        self.cluster.slow_looks = 0
        path = self.cluster.sets[0][0]
        self.cluster.moved.pop(path)
        self.cluster.sets.clear()
        self.assertRegex(self.do("round"), r"^round: no pin is changed while directories of the last run move")
        self.assertEqual(self.cluster.sets, [])

    def test_small_gain_has_to_show_in_later_heat(self) -> None:
        warm, plan = self.cluster.loads, programs.plan
        cold = {rank: [b'{"dirfrags":[]}'] for rank in warm}
        self.do("on")
        for later, said, status in ((cold, r"^round: plan \w+ gains 0\.0 % in the heat that was read after it, and is left ", 3), (warm, "^round: set ", 0)):
            def planned(*words: Any, later: Any = later) -> Any:
                found = plan(*words)
                self.cluster.loads = later
                return found
            with unittest.mock.patch.object(jobs, "SURE", 101), unittest.mock.patch.object(programs, "plan", planned):
                self.assertRegex(self.do("round") + " ", said)
            self.assertEqual((self.pins() != {}, self.module.health), (status == 0, {}))
            self.assertIn(f'mdbal_round_status{{fs="lab"}} {status}', self.module.metrics()[1])
            self.cluster.loads = warm

    def test_gain_in_the_same_heat_is_that_of_the_plan(self) -> None:
        self.module.options.update(hours=1, made=0)
        for count in (1, 2):  # without pins of the program, and with them
            self.planned()
            planned, roots = self.record().planned, self.roots()
            gained = percent(planned.plan.hour, roots, after(planned.rules, read_plan(planned.plan.text).changes))
            self.assertAlmostEqual(gained, planned.plan.gain(), 2)
            self.do("apply", planned.plan.id)
            self.module.options.update(least_gain=0, keep=0, mask="0x3")

    def test_round_while_subtrees_move_is_no_warning(self) -> None:
        self.do("on")
        self.do("round")
        self.cluster.slow_looks = 10**6
        self.assertEqual(self.do("round"), "round: subtrees moved while they were read: try again later")
        self.assertEqual(self.module.health, {})

    def test_round_that_may_not_begin(self) -> None:
        self.do("on")
        self.automate(True)()
        self.assertEqual(self.do("round"), "round: the balancer of Ceph is on")
        self.assertEqual(list(self.module.health), ["MDBAL_BALANCER_ON"])
        self.assertIn('mdbal_round_status{fs="lab"} 1', self.module.metrics()[1])

    def test_round_that_fails_warns(self) -> None:
        self.do("on")
        self.module.options["mask"] = "nonsense"
        self.assertIn("mdbal_ceph ended with status", self.do("round"))
        self.assertIn("MDBAL_STOPPED", self.module.health)
        self.module.options["mask"] = ""
        self.do("round")
        self.assertEqual(self.module.health, {})

    def test_off_stops_a_run(self) -> None:
        self.do("on")
        self.cluster.at_set = lambda path: self.module.off("lab") if len(self.cluster.sets) == 2 else None
        self.assertIn("it was turned off", self.do("round"))
        self.assertEqual((len(self.cluster.sets), self.module.health), (3, {}))
        self.assertIn("  stopped: stopped it was turned off; up to ", self.module.status("lab")[1])
        self.do("off")
        self.do("rollback")
        self.assertEqual(self.pins(), {})

    def test_options_reach_the_program(self) -> None:
        self.module.options.update(leave="/w/p05 /a\\040b", mask="0x3", most_inodes=10 ** 6, least_heat=1)
        self.planned()
        changes = read_plan(self.record().planned.plan.text).changes
        self.assertFalse([it for it in changes if it.path.startswith(b"/w/p05") or it.after == 2])
