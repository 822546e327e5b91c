"""The module's thread: file systems that come and go, rounds, and what jobs come to. No program runs."""
import queue
import time
import unittest.mock
from typing import Any, List

import stand_in
from on_job import NAME, TEXT, OnModule

from mdbal.jobs import Work
from mdbal.module import Job, Module
from mdbal.programs import Stop
from mdbal.state import State
from mdbal.texts import Refused, Trouble


class Serving(OnModule):
    """The thread."""

    def test_jobs_are_done_until_the_manager_stops(self) -> None:
        did, made = [], Module("mdbal", 0, 0)  # type: List[Any], Any

        def do(job: Job, record: Any) -> None:
            did.append((job, record.name))
            made.doing = "lab: something"
            if job.what == "check":
                made.is_ending.set()
        made.do, made.clear = do, lambda: did.append("clear")
        made.endpoint.use = lambda port: did.append(port)
        made.tell_health = lambda: did.append("health")
        made.options["metrics_port"] = 9
        for job in (Job("plan", "lab"), Job("plan", "gone"), Job("check", "lab")):
            made.jobs.put(job)
        made.serve()
        self.assertEqual(did, ["clear", "health", 9, (Job("plan", "lab"), "lab"), "health", 9, 9, (Job("check", "lab"), "lab"), "health"])
        self.assertEqual((made.doing, made.raised), ("", []))

    def test_thread_goes_on_whatever_goes_wrong_and_waits_a_second_for_jobs(self) -> None:
        made = Module("mdbal", 0, 0)  # type: Any
        waits, error = [], KeyError("fs_map")

        def get(timeout: float) -> Any:
            waits.append(timeout)
            if len(waits) == 3:
                made.is_ending.set()
            raise queue.Empty
        made.jobs.get = get
        made.meet = unittest.mock.Mock(side_effect=[error, None, None])
        made.look = unittest.mock.Mock()
        made.serve()
        self.assertEqual((waits, made.raised, made.look.call_count), ([1, 1, 1], [error], 2))

    def test_shutdown(self) -> None:
        ended = self.patch(stand_in.MgrModule, "shutdown", unittest.mock.Mock())
        self.module.endpoint.use = unittest.mock.Mock()
        self.module.shutdown()
        self.assertTrue(self.module.is_ending.is_set())
        self.module.endpoint.use.assert_called_once_with(0)
        ended.assert_called_once_with()

    def test_file_systems_come_and_go(self) -> None:
        made = Module("mdbal", 0, 0)  # type: Any
        self.assertEqual((made.doing, made.records), ("starts", {}))
        with unittest.mock.patch.object(time, "monotonic", lambda: 500.0):
            made.meet()
        record = made.records["lab"]
        self.assertEqual((made.doing, record.name, record.number, record.watch.next), ("", "lab", 7, 560.0))
        made.doing = "lab: planning"
        made.meet()
        self.assertIs(made.records["lab"], record)
        self.assertEqual(made.doing, "lab: planning")
        self.cluster.id = 8
        made.meet()
        self.assertEqual(made.records["lab"].number, 8)
        self.patch(made, "get", lambda what: {"filesystems": []})
        made.meet()
        self.assertEqual(made.records, {})

    def test_state_that_can_not_be_read(self) -> None:
        made = Module("mdbal", 0, 0)  # type: Any
        made.store.load = unittest.mock.Mock(side_effect=[Trouble("it is not whole"), State()])
        made.meet()
        self.assertEqual((made.records, made.refused, made.health), ({}, {"lab": "it is not whole"}, {}))
        made.meet()
        self.assertEqual((list(made.records), made.refused), (["lab"], {}))

    def test_warning_of_a_run_that_the_last_manager_left(self) -> None:
        state = State()
        state.text, state.what = TEXT, "set"
        self.module.store.save(7, state)
        self.assertEqual(list(self.manager().health), ["MDBAL_STOPPED"])

    def look(self, now: float) -> List[Job]:
        """Those that it asks for."""
        with unittest.mock.patch.object(time, "monotonic", lambda: now):
            self.module.look()
        found = []
        while not self.module.jobs.empty():
            found.append(self.module.jobs.get_nowait())
        return found

    def test_rounds_come_each_interval_where_it_is_on(self) -> None:
        self.options["interval"] = 300
        self.record().watch.next = 500.0
        self.assertEqual(self.look(500.0), [])
        self.record().state.on = True
        for now, is_due in ((499.9, False), (500.0, True), (500.1, False), (799.9, False), (800.0, True)):
            self.assertEqual(self.look(now), [Job("round", "lab")] if is_due else [])

    def test_round_comes_at_once_where_it_is_uneven(self) -> None:
        watch, names = self.record().watch, [it["name"] for it in self.cluster.map["info"].values()]
        self.record().state.on, watch.next = True, 10**9
        for uneven, looks in ((150, 4), (301, None), (0, None)):
            self.options["uneven"] = uneven
            watch.after_round(0.0, 10**9, True)
            watch.time, watch.counts = 0.0, {}
            for number in range(1, 8):
                self.cluster.served = {names[0]: 10000 * number}
                self.assertEqual(bool(self.look(10.0 * number)), number == looks, (uneven, number))
                self.assertEqual(self.look(10.0 * number + 9.9), [])
                if number == looks:
                    self.assertEqual((watch.uneven, watch.next), (0, 10.0 * number + 300))
                    break

    def test_one_that_is_off_is_not_looked_at(self) -> None:
        self.look(10.0)
        self.assertEqual(self.record().watch.time, 0.0)


class Doing(OnModule):
    """What a job comes to."""

    def setUp(self) -> None:
        super().setUp()
        self.logged = []  # type: List[Any]
        self.module.log.info = lambda *words: self.logged.append(words)

    def plays(self, name: str, answer: Any) -> Any:
        """A job that comes to this."""
        return self.patch(Work, name, unittest.mock.Mock(**{"side_effect" if isinstance(answer, Exception) else "return_value": answer}))

    def test_answer(self) -> None:
        self.plays("plan", "it is made")
        self.record().stopped = "before"
        self.module.do(Job("plan", "lab"), self.record())
        self.assertEqual((self.record().said, self.record().is_well, self.module.doing), ("plan: it is made", True, "lab: plan"))
        self.assertEqual((self.record().stopped, self.record().rounds, self.logged), ("before", 0, [("%s: %s", "lab", "plan: it is made")]))

    def test_what_is_done_ends_the_warning(self) -> None:
        for what, more in (("apply", NAME), ("rollback", ""), ("round", "")):
            self.plays(what, "done")
            self.record().state.on, self.record().stopped = True, "before"
            self.module.do(Job(what, "lab", more), self.record())
            self.assertEqual(self.record().stopped, "")

    def test_failure(self) -> None:
        for what, error, stopped, raised in (
            ("plan", Trouble("no"), "", 0), ("round", Trouble("no"), "no", 0), ("round", Refused("not now"), "", 0),
            ("round", Stop("it was turned off"), "", 0), ("round", KeyError("x"), "'x'", 1), ("plan", KeyError("x"), "", 1),
        ):
            self.plays(what, error)
            self.record().state.on, self.record().stopped = True, ""
            self.module.raised.clear()
            self.module.do(Job(what, "lab"), self.record())
            self.assertEqual((self.record().said, self.record().is_well), (f"{what}: {error}", False))
            self.assertEqual((self.record().stopped, len(self.module.raised)), (stopped, raised))

    def test_run_that_ended_in_an_unknown_way_is_told_as_stopped(self) -> None:
        self.plays("rollback", KeyError("x"))
        for ended, before, why in (("", "", "the manager stopped while pins were set"), ("", "known", "known"), ("done", "", ""),
                                   ("stopped refused", "", "")):
            state = State()
            state.text, state.what, state.ended = TEXT, "set", ended
            self.record().take(state, is_running=True)
            self.record().stopped = before
            self.module.do(Job("rollback", "lab"), self.record())
            self.assertTrue(self.record().stopped.startswith(why) and bool(why) == bool(self.record().stopped), self.record().stopped)

    def test_on_and_off(self) -> None:
        record, self.options["interval"] = self.record(), 77
        for what, on, said in (("on", True, "on: a round each 77 s"), ("off", False, "off: the pins stay")):
            record.is_to_stop, record.watch.next = True, 10**9
            self.module.do(Job(what, "lab"), record)
            self.assertEqual((record.said, record.is_to_stop, self.manager().records["lab"].state.on), (said, False, on))
            self.assertEqual(record.watch.next <= time.monotonic(), on)
        self.plays("round", "done").assert_not_called()
        self.module.do(Job("round", "lab"), record)
        self.assertEqual(record.said, "round: it was turned off")
        record.is_to_stop = True
        self.plays("check", "held")
        self.module.do(Job("check", "lab"), record)
        self.assertTrue(record.is_to_stop)

    def test_turn_that_is_not_stored(self) -> None:
        self.cluster.keeps = False
        for before in (True, False):
            self.record().state.on = before
            self.module.do(Job("off" if before else "on", "lab"), self.record())
            self.assertIs(self.record().state.on, before)
            self.assertFalse(self.record().is_well)

    def test_round_is_counted(self) -> None:
        record, self.options["interval"] = self.record(), 300
        for is_well, planned, ended, status, rest in ((True, False, "done", 0, 500.0), (True, True, "done", 3, 800.0), (False, True, "done", 1, 800.0),
                                                      (False, False, "done", 1, 800.0), (False, True, "", 1, 800.0), (False, True, "stopped refused", 4, 800.0)):
            record.state.on, record.state.ended, record.planned, record.watch.uneven = True, ended, None, 2
            if planned:
                self.take_plan()
            self.plays("round", "done" if is_well else Refused("no"))
            with unittest.mock.patch.object(time, "monotonic", lambda: 500.0), unittest.mock.patch.object(time, "time", lambda: 77.9):
                self.module.do(Job("round", "lab"), record)
            self.assertEqual((record.round_status, record.watch.next, record.watch.rest, record.watch.uneven, record.round_time), (status, 800.0, rest, 0, 77))
        self.assertEqual(record.rounds, 6)

    def test_each_job_is_a_call_of_its_name(self) -> None:
        self.record().state.on = True
        for what, more in (("plan", ""), ("check", ""), ("rollback", ""), ("round", ""), ("apply", NAME), ("once", NAME)):
            made = self.plays(what, f"{what} is done")
            self.assertEqual(self.module.done(Job(what, "lab", more), self.record()), f"{what} is done")
            made.assert_called_once_with(*([more] if more else []))

    def test_client_is_kept_until_a_rank_hangs(self) -> None:
        self.options["call_limit"] = 7
        seen = []  # type: List[Any]

        def check(work: Work) -> str:
            hands = work.cluster.hands
            seen.append(hands)
            self.assertEqual((hands.fs, hands.limit, work.record, work.cluster.fs), ("lab", 7.0, self.record(), "lab"))
            hands.is_left = len(seen) == 2
            if len(seen) == 3:
                raise Trouble("no")
            return "held"
        self.patch(Work, "check", check)
        for _ in range(4):
            self.module.do(Job("check", "lab"), self.record())
        self.assertEqual(self.module.raised, [])
        clients = [it.client for it in seen]
        self.assertIs(clients[0], clients[1])
        self.assertIsNot(clients[1], clients[2])
        self.assertIs(clients[2], clients[3])
        self.assertEqual([it.asked.get_nowait() for it in seen], [None] * 4)  # each is closed
