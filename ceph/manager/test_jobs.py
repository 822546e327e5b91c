"""Jobs, with the programs played: how they wait, what they plan and check, and what they refuse."""
import os
import tempfile
import time
import unittest.mock
from typing import Any, Dict, List

from on_job import HOUR, NAME, NOW, TEXT, Working, marked

from mdbal import jobs, programs
from mdbal.hours import packed, unpacked
from mdbal.jobs import Work
from mdbal.programs import Plan, Stop
from mdbal.texts import Refused, Trouble, id_of, read_plan


class Waits(Working):
    def test_rest_is_in_parts_of_a_second(self) -> None:
        for seconds, parts in ((2.5, [1, 1, 0.5]), (1, [1]), (0, [0]), (0.25, [0.25])):
            self.waited.clear()
            self.work.rest(seconds)
            self.assertEqual(self.waited, parts)

    def test_rest_ends_where_the_manager_stops_or_off_is_asked_for(self) -> None:
        self.record().is_to_stop = True
        self.assertRaisesRegex(Stop, "^it was turned off$", self.work.rest, 5)
        self.assertEqual(len(self.waited), 1)
        self.module.is_ending.set()
        self.assertRaisesRegex(Stop, "^the manager stops$", self.work.rest, 0)
        self.assertEqual(len(self.waited), 2)

    def test_heat_is_recorded_each_interval_while_a_run_waits(self) -> None:
        self.options["interval"] = 30
        recorded = self.patch(self.work, "record_hour", unittest.mock.Mock())
        for now, seconds, count in ((529.9, 5, 0), (530.0, 0, 0), (530.0, 5, 1)):
            self.now = now
            self.waited.clear()
            self.work.rest_of_run(seconds)
            self.assertEqual((recorded.call_count, sum(self.waited)), (count, seconds))

    def hours(self) -> Dict[str, bytes]:
        return {key: unpacked(it) for key, it in self.cluster.kept.items()}

    def test_record_of_the_heat(self) -> None:
        seen = []  # type: List[Any]

        def hour(folder: str, limit: float) -> bytes:
            self.assertTrue(folder.startswith(f"{self.room}/{self.module.room()}"), folder)
            seen.append((sorted(it for it in os.listdir(folder) if it.startswith(("loads.0", "complete"))), limit))
            return HOUR
        self.played("hour", hour)
        self.options.update(samples=2, pause=4, most_directories=1000, program_limit=70)
        self.work = Work(self.module, self.record(), self.work.cluster)
        self.now = 900.0
        read = self.work.read_heat
        self.patch(self.work, "read_heat", lambda collector: self.assertEqual(sum(self.waited), 30) or read(collector))  # its own reads are cold
        self.work.record_hour()
        self.assertEqual(seen, [(["complete", "loads.0.1.json", "loads.0.2.json"], 70.0)])
        self.assertEqual(self.hours(), {f"fs.7.hour.{NOW}": HOUR})
        self.assertEqual((os.listdir(self.room), self.said, sum(self.waited), self.work.recorded), ([], [], 34, 934.0))

    def test_record_that_fails_stops_nothing(self) -> None:
        said = []  # type: List[Any]
        self.module.log.info = lambda *words: said.append(words)
        for error in (Trouble("x"), OSError("x"), ValueError("x"), KeyError("x")):
            self.played("hour", unittest.mock.Mock(side_effect=error))
            self.now += 100
            self.work.record_hour()
            self.assertEqual((said.pop()[1:], self.hours(), os.listdir(self.room)), (("lab", error), {}, []))
            self.assertEqual(self.work.recorded, self.now)  # the next one is not at once
        for other in (Stop("x"), IndexError("x")):
            self.played("hour", unittest.mock.Mock(side_effect=other))
            self.assertRaises(type(other), self.work.record_hour)
            self.assertEqual(os.listdir(self.room), [])
        with unittest.mock.patch.object(tempfile, "mkdtemp", side_effect=OSError("full")):
            self.work.record_hour()
        self.assertEqual(str(said.pop()[2]), "full")


class Plans(Working):
    def test_pins_that_may_just_be_set_are_read_late(self) -> None:
        self.lib.sync_fs = unittest.mock.Mock()
        self.cluster.directories[b"/w/p05"].pin = 1
        for begun, certain, wait, own in ((2, 1, 10, {b"/w/p05": 1}), (2, 2, 0, {b"/w/p05": 1, b"/w/p06": 2}), (0, 0, 0, {})):
            self.stored(marked(begun, certain))
            self.waited.clear()
            self.lib.sync_fs.reset_mock()
            self.assertEqual(self.work.own(), own)
            self.assertEqual((sum(self.waited), self.lib.sync_fs.call_count), (wait, int(wait > 0)))

    def test_options_that_are_left_out(self) -> None:
        self.options.update(least_gain=0, keep=0, most_pins=1, least_heat=0, most_inodes=0, mask=None, leave=None)
        self.assertEqual(self.work.options("/none"), ["--least-gain", "0", "--keep", "0", "--most-pins", "1"])

    def play_plan(self, is_proposed: bool = True) -> Any:
        told = {"ranks": [{"now": 3000}], "bound": 1500, "idle": False, "changes": [{}, {}]}
        self.played("paths_of", [b"", b"/w", b"/w/\n"])
        self.played("check", (True, ["1 of 1 pins hold"]))
        return self.played("plan", lambda *_: Plan(NAME, TEXT, is_proposed, told, "report\nwhy\n", HOUR))

    def test_plan(self) -> None:
        for key, rows in (("fs.7.hour.1000", b"5 /w/\\012\n"), ("fs.7.hour.2000", b"5 /gone\n")):
            self.module.set_store(key, packed(b"mdbal-hour 1\nlab 0-1\n0 0\n" + rows))
        self.stored(marked(1, 1).replace("/w/p05", "/w/p05\\012"))
        self.options.update(hours=9, made=4, samples=2, pause=4, most_directories=1000, program_limit=70)
        self.work = Work(self.module, self.record(), self.work.cluster)
        self.cluster.directories[b"/w"].pin = 2
        made, paths_of = self.play_plan(), programs.paths_of
        self.now = 900.0
        self.assertEqual(self.work.plan(), f"plan {NAME}: 2 pins to change")
        past, folder, own, words, limit = made.call_args[0]
        self.assertTrue(folder.startswith(f"{self.room}/{self.module.room()}"), folder)
        self.assertEqual((past, own, limit), ([f"{folder}/hour.1000"], f"{folder}/own", 70.0))
        self.assertEqual(words, ["--hours", "9", "--made", "4"] + self.work.options(folder))
        paths_of.assert_called_once_with(folder, f"{folder}/own", 70.0)  # type: ignore[attr-defined]
        planned = self.record().planned
        self.assertEqual((planned.plan.text, planned.time, planned.word, self.record().above), (TEXT, NOW, self.work.cluster.word(), [100.0]))
        self.assertEqual(planned.rules, {b"/w": 2})
        self.assertEqual(unpacked(self.cluster.kept[f"fs.7.hour.{NOW}"]), HOUR)
        self.assertEqual((self.work.recorded, os.listdir(self.room)), (904.0, []))
        self.assertEqual(self.said, ["reading the ranks", "reading directories, 0 of 3", "planning"])

    def test_folder_of_a_plan(self) -> None:
        self.stored(marked(1, 1).replace("/w/p05", "/w/p05\\012"))
        self.options["leave"] = "/a"
        seen = {}  # type: Dict[str, bytes]

        def plan(past: List[str], folder: str, *_: Any) -> Any:
            for name in os.listdir(folder):
                with open(f"{folder}/{name}", "rb") as it:
                    seen[name] = it.read()
            raise Trouble("no plan")
        self.play_plan()
        self.played("plan", plan)
        self.assertRaisesRegex(Trouble, "^no plan$", self.work.plan)
        self.assertEqual(os.listdir(self.room), [])
        names = ["fs.json", "balancer", "own", "dirs", "inodes", "complete", "leave", "counted"]
        self.assertEqual(sorted(seen), sorted(names + [f"subtrees.{rank}.json" for rank in range(3)]
                                              + [f"loads.{rank}.{it}.json" for rank in range(3) for it in range(1, 7)]))
        self.assertEqual((seen["own"], seen["counted"], seen["leave"]), (b"1 /w/p05\\012\n", b"", b"/a\n"))
        self.assertEqual(seen["inodes"].count(b"\0"), 2)

    def test_plan_for_now_alone(self) -> None:
        self.module.set_store("fs.7.hour.1000", packed(HOUR))
        made = self.play_plan()
        for hours, past in ((1, 0), (2, 1)):
            self.options["hours"] = hours
            self.work.plan()
            self.assertEqual(len(made.call_args[0][0]), past)
            self.module.set_store(f"fs.7.hour.{NOW}", None)

    def test_plan_that_proposes_nothing(self) -> None:
        self.play_plan(is_proposed=False)
        self.assertEqual(self.work.plan(), "why")
        self.assertIsNotNone(self.record().planned)

    def judge(self, own: Dict[bytes, int], entries: Dict[bytes, int], answer: Any) -> Any:
        """What the last check said; those that do not hold; the list that was checked."""
        lists = []

        def check(folder: str, own: str, limit: float) -> Any:
            self.assertEqual((folder, limit), (self.room, 300.0))
            with open(own, "rb") as it:
                lists.append(it.read())
            return answer
        self.played("check", check)
        self.work.judge(self.room, own, entries)
        return self.record().held, self.record().not_held, lists

    def test_whether_pins_hold(self) -> None:
        own, entries = {b"/a": 1, b"/b": 2, b"/c": 0, b"/d": 3}, {b"/a": 5, b"/b": 0, b"/d": 1}
        found = self.judge(own, entries, (True, ["1 of 1 pins hold"]))  # /b is empty, /c is gone, and there is no rank 3
        self.assertEqual(found, ("1 of 1 pins hold, 1 directories are empty", [], [b"1 /a\n"]))
        found = self.judge({b"/a": 1}, entries, (False, ["/a: away", "0 of 1 pins hold"]))
        self.assertEqual(found, ("0 of 1 pins hold", ["/a: away"], [b"1 /a\n"]))
        self.assertEqual(self.judge({}, entries, (False, ["x"])), ("", [], []))
        self.cluster.map["info"].clear()
        self.assertRaisesRegex(Trouble, "degraded", self.work.judge, self.room, {}, {})

    def test_check(self) -> None:
        self.options.update(pause=4, most_directories=0)
        self.assertEqual(self.work.check(), "no pin is set")
        self.stored(marked(1, 1))
        check = self.played("check", (False, ["/w/p05: away", "0 of 1 pins hold"]))
        self.cluster.asked.clear()
        self.assertEqual(self.work.check(), "0 of 1 pins hold")
        folder = check.call_args[0][0]
        self.assertTrue(folder.startswith(f"{self.room}/{self.module.room()}"), folder)
        self.assertEqual([it for it in self.cluster.asked if "loads" in it or "perf" in it], [])
        self.assertEqual((self.record().not_held, os.listdir(self.room)), (["/w/p05: away"], []))
        self.assertEqual(self.said[-2:], ["reading the ranks", "reading directories, 0 of 1"])
        self.cluster.slow_looks = 10**6
        self.cluster.moved[b"/w/p05"] = 1
        self.waited.clear()
        self.refused("subtrees moved while they were read: try again later", self.work.check)
        self.assertEqual((sum(self.waited), os.listdir(self.room)), (8, []))


class Refusals(Working):
    """What may not be done now."""

    def setUp(self) -> None:
        super().setUp()
        self.driven = self.patch(self.work, "drive", unittest.mock.Mock(return_value="driven"))

    def test_while_the_balancer_or_a_scrub_runs(self) -> None:
        self.work.refuse()
        self.assertFalse(self.record().is_balancer_on)
        self.automate(True)()
        self.refused("the balancer of Ceph is on", self.work.refuse)
        self.assertTrue(self.record().is_balancer_on)
        self.cluster.scrubs = True
        self.automate(False)()
        self.refused("a scrub is running", self.work.refuse)
        self.assertTrue(self.record().is_balancer_on)  # it was not looked at

    def test_apply(self) -> None:
        self.refused(f"{NAME} is not the last plan", self.work.apply, NAME)
        self.take_plan()
        self.refused("other is not the last plan", self.work.apply, "other")
        self.cluster.scrubs = True
        self.refused("a scrub is running", self.work.apply, NAME)
        self.cluster.scrubs = False
        self.driven.assert_not_called()
        self.assertEqual(self.work.apply(NAME), "driven")
        self.driven.assert_called_once_with("set", TEXT)

    def test_apply_goes_on_with_what_was_not_ended(self) -> None:
        for ended in ("", "stopped refused"):
            self.stored(marked(2, 1), ended)
            self.work.apply(NAME)
            self.driven.assert_called_with("set", marked(2, 1))
        self.take_plan(ago=10**6)
        self.refused(f"the plan {NAME} is too old: plan again", self.work.apply, NAME)  # the last plan is the same one
        self.take_plan(TEXT.replace("/w/p05", "/w/p08"), ago=10**6)
        self.work.apply(NAME)
        self.driven.assert_called_with("set", marked(2, 1))
        self.cluster.scrubs = True
        self.refused("a scrub is running", self.work.apply, NAME)
        self.record().planned = None
        for text, ended in ((marked(3, 3), "done"), (marked(2, 1).replace("/w/p05", "/w/p08"), ""), ("", "stopped refused")):
            self.stored(text, ended)
            self.refused(f"{NAME} is not the last plan", self.work.apply, NAME)
        self.refused(f"{id_of('')} is not the last plan", self.work.apply, id_of(""))

    def test_plan_that_is_too_old_or_for_other_ranks(self) -> None:
        self.options["plan_age"] = 90
        self.take_plan(ago=90)
        self.assertEqual(self.work.fresh(NAME), TEXT)
        self.take_plan(ago=90.5)
        self.refused(f"the plan {NAME} is too old: plan again", self.work.fresh, NAME)
        self.take_plan()
        self.cluster.map["max_mds"] = 2
        self.refused(f"the ranks changed since the plan {NAME}: plan again", self.work.fresh, NAME)

    def test_once(self) -> None:
        ran = []  # type: List[Any]
        self.patch(jobs.Trial, "run", lambda trial, *words: ran.append((trial.rest, trial.say) + words) or "moved")
        self.options.update(poll=7, wait=70)
        self.take_plan()
        self.cluster.scrubs = True
        self.refused("a scrub is running", self.work.once, NAME)
        self.cluster.scrubs = False
        self.assertEqual(self.work.once(NAME), f"once {NAME}: moved")
        self.assertEqual(ran, [(self.work.rest, self.work.say, read_plan(TEXT).changes, 7.0, 70.0)])
        self.take_plan(TEXT.replace("pins 0", "pins 1\npin 8 1 /w/p08"))
        with self.assertRaisesRegex(Refused, "^pins of mdbal are set"):
            self.work.once(self.record().planned.plan.id)
        self.take_plan(ago=10**6)
        self.assertRaisesRegex(Refused, "too old", self.work.once, NAME)
        self.driven.assert_not_called()

    def test_rollback(self) -> None:
        for text in ("", TEXT):
            self.stored(text)
            self.refused("nothing is set that could be restored", self.work.rollback)
        self.stored(marked(1, 0), "")
        self.cluster.scrubs = True
        self.refused("a scrub is running", self.work.rollback)
        self.cluster.scrubs = False
        self.automate(True)()  # that is no reason to leave pins
        self.assertEqual(self.work.rollback(), "driven")
        self.driven.assert_called_once_with("restore", marked(1, 0))

    def play_round(self, is_proposed: bool = True, gain: float = 50.0) -> None:
        def plan() -> str:
            self.take_plan(is_proposed=is_proposed)
            return "why"
        self.patch(self.work, "plan", plan)
        self.patch(Plan, "gain", lambda plan: gain)

    def test_round(self) -> None:
        for proposed, said, count in ((False, "why", 0), (True, "driven", 1)):
            self.play_round(proposed)
            self.assertEqual((self.work.round(), self.driven.call_count), (said, count))
        self.driven.assert_called_once_with("set", TEXT)
        self.record().not_held, self.record().held = ["/a"], "1 of 2 pins hold"
        self.stored(TEXT)
        self.assertEqual(self.work.round(), "no pin is changed while directories of the last run move: 1 of 2 pins hold")
        self.assertEqual(self.driven.call_count, 1)
        self.record().planned, self.cluster.scrubs = None, True
        self.refused("a scrub is running", self.work.round)
        self.assertIsNone(self.record().planned)

    def test_small_gain_has_to_show_twice(self) -> None:
        self.options["least_gain"] = 6
        again = self.patch(self.work, "gain_again", unittest.mock.Mock())
        for gain, second, is_set, asks in ((20.0, None, True, 0), (19.9, 6.0, True, 1), (19.9, 5.9, False, 1), (6.0, -3.0, False, 1)):
            self.play_round(gain=gain)
            self.driven.reset_mock()
            again.reset_mock()
            again.return_value = second
            left = f"plan {NAME} gains {max(second or 0, 0):.1f} % in the heat that was read after it, and is left"
            self.assertEqual((self.work.round(), self.driven.call_count, again.call_count), ("driven" if is_set else left, is_set, asks))
            self.assertEqual(again.call_args, unittest.mock.call(self.record().planned) if asks else None)
            self.assertIsNotNone(self.record().planned)
        self.options["least_gain"] = 30  # what the program proposed at a sure gain is not judged again
        self.play_round(gain=29.999)
        self.assertEqual(self.work.round(), "driven")

    def test_round_at_a_time_at_which_none_may_set_pins(self) -> None:
        again = self.patch(self.work, "gain_again", unittest.mock.Mock(return_value=50))
        self.play_round(gain=10)
        asked = []  # type: List[Any]
        self.patch(jobs, "may_act", lambda mgr, now: bool(asked.append((mgr, now))))
        self.assertEqual(self.work.round(), "why, which no round does at this time")
        self.assertEqual((asked, self.driven.call_count, again.call_count), ([(self.module, time.localtime(NOW))], 0, 0))
        self.take_plan()
        self.work.apply(NAME)  # a person may
        self.driven.assert_called_once_with("set", TEXT)

    def test_gain_in_the_heat_of_now(self) -> None:
        self.patch(self.work.cluster, "subtree_ranks", lambda: {b"": 0, b"/w": 0})
        self.played("hour", b"mdbal-hour 1\nlab 0-1\n0 0 0\n60 /w/p06\n40 /w/p05/a\n")
        for rules, gained in (({}, 40.0), ({b"/w/p05/a": 2}, 0.0), ({b"/w/p06": 0}, 40.0)):  # a change comes after what was there
            self.take_plan()
            self.record().planned = self.record().planned._replace(rules=rules)
            self.assertEqual(self.work.gain_again(self.record().planned), gained)
        self.assertEqual((list(self.cluster.kept), os.listdir(self.room), set(self.said)), ([f"fs.7.hour.{NOW}"], [], {"reading the ranks"}))

    def test_how_long_pins_of_the_last_run_may_come_to_hold(self) -> None:
        self.options["wait"] = 100
        for ended, ago, not_held, is_so in (("done", 199, ["/a"], True), ("done", 200, ["/a"], False), ("stopped too-slow", 199, ["/a"], True),
                                            ("stopped refused", 0, ["/a"], False), ("", 0, ["/a"], False), ("done", 0, [], False)):
            self.stored(TEXT, ended, ago=ago)
            self.record().not_held = not_held
            self.assertIs(self.work.is_moving(), is_so)
