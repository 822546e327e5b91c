"""Jobs that set pins, with mdbal_drive played: what they store and say, and how long they wait for pins to hold."""
import unittest.mock
from typing import Any, List

from on_job import NAME, NOW, TEXT, Working, marked

from mdbal import programs
from mdbal.hands import NoAnswer
from mdbal.jobs import Run
from mdbal.programs import Stop
from mdbal.texts import Refused, Trouble


class Driven(Working):
    """Runs of mdbal_drive, which is played."""

    def setUp(self) -> None:
        super().setUp()
        self.take_plan()
        self.checks = self.patch(self.work, "check_again", unittest.mock.Mock(return_value="3 of 3 pins hold"))
        self.steps = [("store", marked(3, 0))] + [("note", f"set /w/p0{it}") for it in (5, 6, 7)] + [("store", marked(3, 3))]
        self.ended = "done"  # type: Any
        self.words = []  # type: List[Any]
        self.patch(programs, "drive", self.play)

    def play(self, what: str, text: str, options: List[str], host: Any) -> str:
        self.words.append((what, text, options, host.cluster, host.rest))
        for name, more in self.steps:
            getattr(host, name)(more)
        if isinstance(self.ended, Exception):
            raise self.ended
        return str(self.ended)

    def test_run(self) -> None:
        self.options.update(batch=7, poll=8, wait=9)
        self.assertEqual(self.work.drive("set", TEXT), f"set {NAME}: 3 of 3 changes; 3 of 3 pins hold")
        self.assertEqual(self.words, [("set", TEXT, ["--batch-inodes", "7", "--poll", "8", "--longest-wait", "9"], self.work.cluster, self.work.rest_of_run)])
        state = self.manager().records["lab"].state
        self.assertEqual((state.text, state.what, state.ended, state.time), (marked(3, 3), "set", "done", NOW))
        self.assertEqual((self.record().state.ended, self.record().stopped, self.record().planned), ("done", "", None))
        self.assertEqual(self.said, [f"set: {it} of 3 changes" for it in (1, 2, 3)])
        self.assertEqual([it[:2] for it in self.module.events], [("progress", "update")] * 3 + [("progress", "complete")])
        self.assertEqual([it[4] for it in self.module.events[:3]], [1 / 3, 2 / 3, 1.0])

    def test_changes_that_are_passed_over_are_not_counted_as_set(self) -> None:
        self.steps[1:4] = [("note", "set /a"), ("note", "gone /b"), ("note", "left /c"), ("note", "set /d")]
        said = []  # type: List[Any]
        self.module.log.info = lambda *words: said.append(words)
        self.assertEqual(self.work.drive("restore", TEXT), f"restore {NAME}: 2 of 3 changes; 3 of 3 pins hold")
        self.assertEqual(said[:2], [("%s: %s", "lab", "set /a"), ("%s: %s", "lab", "gone /b")])
        self.assertEqual(self.said[-1], "restore: 4 of 3 changes")
        self.assertEqual(self.module.events[3][4], 1.0)  # and not more
        self.assertEqual(self.manager().records["lab"].state.what, "restore")

    def test_run_is_kept_as_one_that_goes_on(self) -> None:
        for turned in (False, True):
            self.record().state.on = turned
            run = Run(self.work, "set", 3)
            run.store(marked(2, 1))
            state = self.manager().records["lab"].state
            self.assertEqual((state.on, state.text, state.what, state.ended), (turned, marked(2, 1), "set", ""))
            self.assertEqual((self.record().stopped, self.record().text.begun), ("", 2))

    def test_run_begins_to_count_anew(self) -> None:
        self.record().settled = 5
        Run(self.work, "set", 3).note("set /a")
        self.assertEqual(self.record().settled, 1)
        Run(self.work, "set", 0).note("set /a")
        self.assertEqual(self.module.events[-1][4], 1.0)

    def test_run_that_stops(self) -> None:
        how = f"up to 3 of 3 pins are set: `ceph fs mdbal apply lab {NAME}` goes on, `rollback` restores"
        for ended, notes, why, kept in (("stopped too-slow", [], "stopped too-slow", "stopped too-slow"),
                                        ("stopped no-answer", [("note", "no-answer lab is away")], "stopped no-answer", "stopped no-answer"),
                                        (Stop("it was turned off"), [], "stopped it was turned off", "stopped it was turned off")):
            self.steps, self.ended = [("store", marked(3, 0)), ("note", "set /a")] + notes, ended
            with self.assertRaises(Trouble) as raised:
                self.work.drive("set", TEXT)
            more = " (lab is away)" if notes else ""
            self.assertEqual((str(raised.exception), isinstance(raised.exception, Stop)), (f"set {NAME}: {why}; {how}{more}", isinstance(ended, Stop)))
            self.assertEqual((self.manager().records["lab"].state.ended, self.record().stopped), (kept, f"{why}; {how}"))
            self.assertEqual(self.module.events[-1], ("progress", "complete", "mdbal-lab"))
        self.checks.assert_not_called()

    def test_run_that_changed_no_pin(self) -> None:
        for ended, notes, why in (("stopped refused", [("note", "refused the store is full")], "stopped refused (the store is full)"),
                                  (Stop("it was turned off"), [], "stopped it was turned off"),
                                  (Trouble("mdbal_drive ended by itself"), [], "stopped mdbal_drive ended by itself")):
            self.steps, self.ended = notes, ended
            with self.assertRaises(Trouble) as raised:
                self.work.drive("set", TEXT)
            self.assertEqual((str(raised.exception), isinstance(raised.exception, Stop)), (f"set {NAME}: {why}, and no pin was changed", isinstance(ended, Stop)))
            self.assertEqual((self.record().state.what, self.cluster.kept), ("", {}))
            self.assertEqual(self.module.events[-1], ("progress", "complete", "mdbal-lab"))
            self.assertIsNotNone(self.record().planned)

    def test_run_of_a_manager_that_stops_is_not_ended(self) -> None:
        self.steps, self.ended = self.steps[:2], Stop("the manager stops")
        self.module.is_ending.set()
        self.assertRaisesRegex(Stop, "^the manager stops$", self.work.drive, "set", TEXT)
        self.assertEqual(self.manager().records["lab"].state.ended, "")
        self.assertEqual(self.module.events[-1], ("progress", "complete", "mdbal-lab"))

    def test_exception_that_nobody_expects(self) -> None:
        self.steps, self.ended = self.steps[:2], KeyError("x")
        self.assertRaises(KeyError, self.work.drive, "set", TEXT)
        self.assertEqual(self.module.events[-1], ("progress", "complete", "mdbal-lab"))

    def test_end_that_can_not_be_stored(self) -> None:
        run = Run(self.work, "set", 3)
        run.store(marked(3, 3))
        self.cluster.keeps = False
        self.assertRaisesRegex(Trouble, "^the monitors did not store the state$", run.end, "done")
        self.assertEqual(self.record().stopped, "done, and that is not stored: the monitors did not store the state; up to 3 of 3 pins are set: "
                                                f"`ceph fs mdbal apply lab {NAME}` goes on, `rollback` restores")

    def test_text_that_can_not_be_stored(self) -> None:
        run = Run(self.work, "set", 3)
        self.cluster.keeps = False
        self.assertRaises(Trouble, run.store, marked(3, 0))
        self.assertEqual((run.is_stored, self.record().state.text), (False, ""))
        self.assertIsNotNone(self.record().planned)


class Held(Working):
    """The wait for pins that do not hold yet."""

    def setUp(self) -> None:
        super().setUp()
        self.options["wait"] = 20
        self.looks = [([], "3 of 3 pins hold")]  # type: List[Any]  # those that do not hold, and what is said; the last one stays
        self.seconds = 0.0  # that a look takes
        self.patch(self.work, "check_again", self.look)

    def look(self) -> str:
        self.record().not_held, self.record().held = self.looks.pop(0) if len(self.looks) > 1 else self.looks[0]
        self.now += self.seconds
        return str(self.record().held)

    def wait(self, looks: List[Any], seconds: float = 0) -> Any:
        """What it comes to, and how often it waits for five seconds."""
        self.looks, self.seconds = looks, seconds
        self.waited.clear()
        self.said.clear()
        found = self.work.wait_until_held()
        self.assertEqual(len(self.waited), 5 * len(self.said))
        return found, len(self.said)

    def test_as_long_as_they_do_not_hold_but_no_longer_than_asked_for(self) -> None:
        away, held, unknown = (["/a: away"], "2 of 3 pins hold"), ([], "3 of 3 pins hold"), ([], "not checked: subtrees moved")
        self.assertEqual(self.wait([held]), ("3 of 3 pins hold", 0))
        self.assertEqual(self.wait([away, unknown, held]), ("3 of 3 pins hold", 2))
        self.assertEqual(self.wait([away]), ("2 of 3 pins hold", 4))
        self.assertEqual(self.said, ["waits: 2 of 3 pins hold"] * 4)
        self.assertEqual(self.wait([unknown]), ("not checked: subtrees moved", 4))

    def test_looks_count_with_the_wait(self) -> None:
        for seconds, waits in ((0, 4), (5, 2), (15, 1)):
            self.assertEqual(self.wait([(["/a"], "2 of 3 pins hold")], seconds)[1], waits)

    def test_what_goes_wrong_is_no_failure_of_the_run(self) -> None:
        with unittest.mock.patch.object(self.work, "check_again", side_effect=NoAnswer("lab does not answer")):
            self.assertEqual(self.work.wait_until_held(), "not checked: lab does not answer")
        self.assertEqual(self.record().held, "not checked: lab does not answer")
        self.looks, self.record().is_to_stop = [(["/a"], "2 of 3 pins hold")], True
        self.assertEqual(self.work.wait_until_held(), "not checked: it was turned off")

    def test_heat_is_recorded_meanwhile(self) -> None:
        recorded = self.patch(self.work, "record_hour", unittest.mock.Mock())
        self.options["interval"] = 10
        self.wait([(["/a"], "2 of 3 pins hold")])
        self.assertEqual(recorded.call_count, 2)  # each time, as it is played


class Again(Working):
    def test_check_that_is_refused_is_no_failure(self) -> None:
        for error, held in ((None, "3 of 3 pins hold"), (Refused("subtrees moved"), "not checked: subtrees moved")):
            with unittest.mock.patch.object(self.work, "check", side_effect=error, return_value="3 of 3 pins hold"):
                self.record().held = "3 of 3 pins hold"
                self.assertEqual((self.work.check_again(), self.record().held), (held, held))
        with unittest.mock.patch.object(self.work, "check", side_effect=Trouble("broken")):
            self.assertRaisesRegex(Trouble, "^broken$", self.work.check_again)
