"""What people and monitoring read, and what is known of a file system: records made by hand."""
import time
import unittest
import unittest.mock
from typing import Any, Dict, List, Tuple

import stand_in

stand_in.install()
from mdbal import telling  # noqa: E402
from mdbal.programs import Plan  # noqa: E402
from mdbal.record import Planned, Record  # noqa: E402
from mdbal.state import State  # noqa: E402
from mdbal.texts import id_of  # noqa: E402

TEXT = "mdbal_pins 1\nplan lab\\040f\nmark 2 1\nchanges 3\nchange 5 - 1 1 /a\\040b\nchange 6 2 - 1 /b\nchange 7 - 0 1 /c\npins 1\npin 6 2 /b\nend\n"
NAME = id_of(TEXT)
NOW = 10**9
RANKS = ((0, 3000, 1700), (1, 1000, 1500), (2, 500, 1300))  # each with its heat now and as planned


def planned(ranks: Tuple[Tuple[int, int, int], ...] = RANKS, **more: Any) -> Planned:
    """A plan that was made 12 seconds ago."""
    told = {"ranks": [{"rank": rank, "now": now, "planned": then} for rank, now, then in ranks], "bound": 1501, "idle": False,
            "changes": [{}, {}, {}], "inodes_moved": 41}  # type: Dict[str, Any]
    is_proposed = more.pop("is_proposed", True)
    return Planned(Plan(NAME, TEXT, is_proposed, dict(told, **more), "the report\nwhy\n", b""), NOW - 12, "the ranks", {})


def state(**more: Any) -> State:
    made = State()
    for name, value in more.items():
        setattr(made, name, value)
    return made


def record(name: str = "lab", **more: Any) -> Any:
    return Record(name, 7, state(**more))


class AtOneTime(unittest.TestCase):
    """The clocks stand still: just after NOW, and at 500 seconds of the one that only rises."""

    def setUp(self) -> None:
        for name, value in (("time", NOW + 0.75), ("monotonic", 500.0)):
            stops = unittest.mock.patch.object(time, name, lambda value=value: value)
            stops.start()
            self.addCleanup(stops.stop)


class Status(AtOneTime):
    def test_ratios_of_a_plan(self) -> None:
        always = {"id": NAME, "age_seconds": 12, "proposed": True, "pins_to_change": 3, "inodes_moved": 41}
        self.assertEqual(telling.ratios(planned()), dict(always, idle=False, greatest_to_mean=2.0, planned_to_mean=1.133, bound_to_mean=1.001))
        odd = telling.ratios(planned(((0, 3000, 1600), (1, 1000, 1500), (2, 700, 1300)), bound=1590))
        self.assertEqual([odd[it] for it in ("greatest_to_mean", "planned_to_mean", "bound_to_mean")], [1.915, 1.021, 1.015])
        self.assertEqual(telling.ratios(planned(((0, 3000, 3000),)))["greatest_to_mean"], 1.0)
        self.assertEqual(telling.ratios(planned(idle=True)), dict(always, idle=True))
        self.assertEqual(telling.ratios(planned(ranks=(), idle=True)), dict(always, idle=True))

    def test_status_of_one_that_is_off_and_was_never_set(self) -> None:
        wanted = {"on": False, "last": "", "last_seconds_ago": None, "stopped": "", "held": ""}
        self.assertEqual(telling.status(record()), wanted)
        self.assertEqual(telling.plain("lab", wanted), ["lab: off"])

    def test_status_of_one_that_is_on_with_a_plan_and_a_run(self) -> None:
        it = record(on=True, text=TEXT, what="set", ended="stopped refused")
        it.planned, it.held, it.settled = planned(), "1 of 2 pins hold", 4
        it.watch.next, it.watch.to_mean = 507.5, 1.25
        it.say("apply: no", False)
        stopped = f"stopped refused; up to 2 of 3 pins are set: `ceph fs mdbal apply lab {NAME}` goes on, `rollback` restores"
        found = telling.status(it)
        self.assertEqual(found, {
            "on": True, "last": "apply: no", "last_seconds_ago": 0, "stopped": stopped, "held": "1 of 2 pins hold",
            "set": {"id": NAME, "what": "set", "ended": "stopped refused", "changes": 3, "begun": 2, "certain": 1, "settled_now": 4},
            "plan": telling.ratios(planned()), "next_round_seconds": 7, "requests_to_mean": 1.25})
        self.assertEqual(telling.plain("lab", found), [
            "lab: on, next round in 7 s, requests at 1.25 of the mean",
            f"  plan: the hottest rank is at 2.00 of the mean; 3 pins give 1.13, and no plan gets below 1.00 (plan {NAME}, 12 s old)",
            f"  set: {NAME}, stopped refused, 2 of 3 changes may be set",
            "  held: 1 of 2 pins hold", "  stopped: " + stopped, "  last: apply: no (0 s ago)"])

    def test_round_that_is_overdue_and_requests_that_nobody_knows(self) -> None:
        it = record(on=True)
        it.watch.next = 400.0
        self.assertEqual(telling.plain("lab", telling.status(it)), ["lab: on, next round in 0 s"])

    def test_run_that_goes_on_is_not_ended(self) -> None:
        it = record(text=TEXT, what="restore")
        self.assertEqual(telling.status(it)["set"]["ended"], "not ended")

    def test_last_job_has_its_time(self) -> None:
        it = record()
        it.say("plan: done", True)
        it.time -= 30
        self.assertEqual(telling.status(it)["last_seconds_ago"], 30)

    def test_file_system_whose_state_is_refused(self) -> None:
        self.assertEqual(telling.plain("lab", {"refused": "not read yet"}), ["lab: not read yet"])

    def test_lines_of_plans(self) -> None:
        self.assertEqual(telling.plan_line(telling.ratios(planned(is_proposed=False))),
                         "the hottest rank is at 2.00 of the mean, and no plan gets below 1.00; nothing is proposed")
        self.assertEqual(telling.plan_line(telling.ratios(planned(idle=True))), "idle: too little load to plan for")

    def test_plan_as_it_is_shown(self) -> None:
        head = f"plan {NAME}, 12 seconds old\n\nthe report\nwhy\n\n"
        self.assertEqual(telling.show(planned()), head + "  pin   was  directory\n    1     -  /a\\040b\n    -     2  /b\n    0     -  /c")
        self.assertEqual(telling.show(planned(is_proposed=False)), head + "no pin changes")


class Health(AtOneTime):
    def of(self, records: List[Any], most_above: int = 0) -> Dict[str, Any]:
        return telling.health(records, most_above)

    def test_nothing_is_wrong(self) -> None:
        self.assertEqual(self.of([record(), record("b", on=True)]), {})

    def test_one_that_stopped(self) -> None:
        stopped = record(text=TEXT, what="set", ended="stopped refused")
        self.assertEqual(self.of([record("b"), stopped]), {"MDBAL_STOPPED": {
            "severity": "warning", "count": 1, "summary": "mdbal stopped before it was done", "detail": ["file system lab: " + stopped.stopped]}})
        self.assertEqual(self.of([record(text=TEXT, what="set", ended="stopped it was turned off")]), {})

    def test_pins_that_do_not_hold_are_named_up_to_ten(self) -> None:
        for count, shown, more in ((10, 10, []), (11, 10, ["and 1 more"]), (25, 10, ["and 15 more"])):
            it = record()
            it.not_held = [f"/{number}: away" for number in range(count)]
            self.assertEqual(self.of([it]), {"MDBAL_NOT_HELD": {
                "severity": "warning", "count": count, "summary": "directories are not at the rank of their pin",
                "detail": [f"file system lab: /{number}: away" for number in range(shown)] + more}})

    def test_balancer_counts_where_mdbal_is_on(self) -> None:
        on, off = record(on=True), record("b")
        on.is_balancer_on = off.is_balancer_on = True
        self.assertEqual(self.of([on, off]), {"MDBAL_BALANCER_ON": {
            "severity": "warning", "count": 1, "summary": "mdbal is on, and so is the balancer of Ceph",
            "detail": ["file system lab: turn the balancer of Ceph off"]}})

    def test_uneven_at_three_plans_in_a_row(self) -> None:
        it = record()
        for above, seen in (([90.0, 90.0], False), ([90.0, 51.4, 70.0], True), ([90.0, 50.0, 70.0], False)):
            it.above = above
            self.assertEqual("MDBAL_UNEVEN" in self.of([it], 50), seen)
            self.assertEqual(self.of([it]), {})
        it.above = [90.0, 51.4, 70.0]
        self.assertEqual(self.of([it], 50)["MDBAL_UNEVEN"], {
            "severity": "warning", "count": 1, "summary": "the hottest rank is far above what a plan could give",
            "detail": ["file system lab: 51 % above the bound at the last 3 plans"]})


class Metrics(AtOneTime):
    def rows(self, records: List[Any]) -> List[str]:
        return [it for it in telling.metrics(records).split("\n") if it and not it.startswith("#")]

    def test_without_plan_and_round(self) -> None:
        self.assertEqual(self.rows([record()]), ['mdbal_on{fs="lab"} 0', 'mdbal_stopped{fs="lab"} 0', 'mdbal_not_held{fs="lab"} 0'])

    def test_with_plan_and_round(self) -> None:
        it = record(on=True)
        it.planned, it.rounds, it.round_status, it.round_time, it.stopped, it.not_held = planned(), 5, 0, 77, "it broke", ["/a", "/b"]
        self.assertEqual(self.rows([it]), [
            'mdbal_greatest_to_mean{fs="lab"} 2.0', 'mdbal_planned_to_mean{fs="lab"} 1.133', 'mdbal_bound_to_mean{fs="lab"} 1.001',
            'mdbal_pins_changed{fs="lab"} 3', 'mdbal_inodes_moved{fs="lab"} 41',
            'mdbal_heat{fs="lab",rank="0",when="found"} 3.0', 'mdbal_heat{fs="lab",rank="0",when="planned"} 1.7',
            'mdbal_heat{fs="lab",rank="1",when="found"} 1.0', 'mdbal_heat{fs="lab",rank="1",when="planned"} 1.5',
            'mdbal_heat{fs="lab",rank="2",when="found"} 0.5', 'mdbal_heat{fs="lab",rank="2",when="planned"} 1.3',
            'mdbal_round_number{fs="lab"} 5', 'mdbal_round_status{fs="lab"} 0', 'mdbal_round_time_seconds{fs="lab"} 77',
            'mdbal_plan_taken{fs="lab"} 1', 'mdbal_on{fs="lab"} 1', 'mdbal_stopped{fs="lab"} 1', 'mdbal_not_held{fs="lab"} 2'])
        it.round_status = 1
        self.assertIn('mdbal_plan_taken{fs="lab"} 0', self.rows([it]))

    def test_idle_file_system_has_no_ratios(self) -> None:
        it = record()
        it.planned = planned(idle=True)
        self.assertEqual([row for row in self.rows([it]) if "_to_mean" in row], [])
        self.assertIn('mdbal_inodes_moved{fs="lab"} 41', self.rows([it]))

    def test_each_name_has_its_help_and_the_rows_of_all_file_systems(self) -> None:
        text = telling.metrics([record("a"), record("b", on=True)])
        self.assertTrue(text.startswith("# HELP mdbal_on Whether the file system is balanced by itself, 1 or 0.\n# TYPE mdbal_on gauge\n"
                                        'mdbal_on{fs="a"} 0\nmdbal_on{fs="b"} 1\n# HELP mdbal_stopped '))
        self.assertEqual(telling.metrics([]), "")


class Knowledge(AtOneTime):
    """What the module knows of a file system while it runs."""

    def test_new_one(self) -> None:
        it = record()
        self.assertEqual((it.planned, it.said, it.time, it.is_well, it.held, it.not_held, it.is_balancer_on, it.is_to_stop),
                         (None, "", 0, True, "", [], False, False))
        self.assertEqual((it.settled, it.rounds, it.round_status, it.round_time, it.stopped, it.above), (0, 0, 0, 0, "", []))

    def test_run_that_nobody_ended(self) -> None:
        how = f"up to 2 of 3 pins are set: `ceph fs mdbal apply lab {NAME}` goes on, `rollback` restores"
        for what, word in (("set", "set"), ("restore", "restored")):
            self.assertEqual(record(text=TEXT, what=what).stopped, f"the manager stopped while pins were {word}; {how}")
        it = record()
        it.take(state(text=TEXT, what="set"), is_running=True)
        self.assertEqual((it.stopped, it.text.begun), ("", 2))

    def test_run_that_ended(self) -> None:
        how = f"up to 2 of 3 pins are set: `ceph fs mdbal apply lab {NAME}` goes on, `rollback` restores"
        it = record(text=TEXT, what="set", ended="stopped refused")
        self.assertEqual((it.stopped, it.trouble()), (f"stopped refused; {how}", f"stopped refused; {how}"))
        it.take(state(text=TEXT, what="set", ended="done"))
        self.assertEqual((it.stopped, it.trouble()), ("", ""))
        it.take(state(text=TEXT, what="set", ended="stopped it was turned off"))
        self.assertEqual((it.stopped, it.trouble()), (f"stopped it was turned off; {how}", ""))

    def test_percent_above_the_bound_at_the_last_three_plans(self) -> None:
        it = record()
        for made, above in ((planned(bound=2000), [50]), (planned(bound=2500), [50, 20]), (planned(idle=True), [50, 20, 0]),
                            (planned(bound=1500), [20, 0, 100])):
            it.take_plan(made)
            self.assertIs(it.planned, made)
            self.assertEqual([round(one, 6) for one in it.above], above)

    def test_what_the_last_job_came_to(self) -> None:
        it = record()
        it.say("check: done", False)
        self.assertEqual((it.said, it.is_well, it.time), ("check: done", False, NOW))
