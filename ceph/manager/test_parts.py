"""Texts, the store, and the clock of rounds, each by itself."""
import hashlib
import json
import os
import tempfile
import time
import unittest
import unittest.mock
from typing import Any, List, Optional

import stand_in
from on_sample import SAMPLE

from mdbal import hours
from mdbal.hours import HEAD, HOUR, NEWEST, WEEK, Hours, due, packed, unpacked
from mdbal.module import Module
from mdbal.rounds import Watch, is_within, may_act, served
from mdbal.state import CHUNK, State, Store
from mdbal.texts import Change, PlanText, Trouble, escaped, id_of, listed, own_pins, pins_list, read_plan, unescaped

TEXT = "mdbal_pins 1\nplan x\nmark 3 1\nchanges 4\nchange 5 - 1 1 /a\nchange 6 2 - 1 /b\nchange 7 - 1 1 /c\nchange 8 - 1 1 /d\npins 2\npin 6 2 /b\npin 9 0 /e\nend\n"


class Texts(unittest.TestCase):
    def test_names(self) -> None:
        path = b"/a\\b\nc\rd \xff"
        self.assertEqual(listed(path), b"/a\\134b\\012c\\015d \xff")
        self.assertEqual(escaped(path), "/a\\134b\\012c\\015d\\040\\377")
        self.assertEqual(unescaped(escaped(path)), path)

    def test_id_is_of_the_plan_and_not_of_the_mark(self) -> None:
        text = "mdbal_pins 1\nplan lab\\040f\nmark 0 0\nchanges 0\npins 0\nend\n"
        self.assertEqual(id_of(text), id_of(text.replace("0 0", "7 3")))
        self.assertNotEqual(id_of(text), id_of(text.replace("lab", "lib")))

    def test_each_byte_of_a_name(self) -> None:
        whole = bytes(range(256))
        self.assertEqual(unescaped(escaped(whole)), whole)
        self.assertEqual(escaped(b" !~\x7f"), "\\040!~\\177")
        self.assertEqual(unescaped("\\477\\380\\3"), b"\\477\\380\\3")

    def test_id_has_twelve_digits_of_a_digest(self) -> None:
        self.assertEqual(id_of("plan x\nmark 7 3\nend\n"), hashlib.sha256(b"plan x\nmark 0 0\nend\n").hexdigest()[:12])

    def test_text_of_a_plan(self) -> None:
        changes = [Change(-1, 1, b"/a"), Change(2, -1, b"/b"), Change(-1, 1, b"/c"), Change(-1, 1, b"/d e")]
        text = TEXT.replace("plan x", "plan lab\\040\\377").replace("/d", "/d\\040e")
        self.assertEqual(read_plan(text), PlanText("lab \xff", 3, 1, changes, {b"/b": 2, b"/e": 0}))
        self.assertEqual(read_plan(""), PlanText("", 0, 0, [], {}))

    def test_own_pins(self) -> None:
        self.assertEqual(own_pins(TEXT, {b"/b": -1, b"/c": 1}.get), {b"/a": 1, b"/c": 1, b"/e": 0})
        self.assertEqual(own_pins(TEXT, {b"/b": 2, b"/c": -1}.get), {b"/a": 1, b"/b": 2, b"/e": 0})
        self.assertEqual(own_pins(TEXT.replace("mark 3 1", "mark 2 2"), {}.get), {b"/a": 1, b"/e": 0})

    def test_list_of_pins(self) -> None:
        self.assertEqual(pins_list({b"/a\nb": 1, b"/c d": 12}), b"1 /a\\012b\n12 /c d\n")


class Records(unittest.TestCase):
    """The heat of earlier hours."""

    @staticmethod
    def record(count: int) -> bytes:
        rows = [b"%d /volumes/group/%08x/%d\n" % (1 + it * 7919 % count, it * 2654435761 % 2**32, it) for it in range(count)]
        return b"".join([b"mdbal-hour 1\n", b"lab 0d2c6f0e\n", b"0\n"] + rows)

    def test_small_record_is_kept_whole(self) -> None:
        for count in (0, 1, 500):
            self.assertEqual(unpacked(packed(self.record(count))), self.record(count))

    def test_large_record_keeps_the_hottest_in_their_order(self) -> None:
        whole = self.record(8000)
        value = packed(whole)
        self.assertLessEqual(len(value), CHUNK)
        lines, kept = whole.split(b"\n")[:-1], unpacked(value).split(b"\n")[:-1]
        self.assertEqual(kept[:HEAD], lines[:HEAD])
        names = set(kept)
        self.assertEqual(kept, [it for it in lines if it in names])
        self.assertGreater(len(kept), 1000)
        self.assertEqual(sorted(int(it.split()[0]) for it in kept[HEAD:]), list(range(8000 - len(kept) + HEAD + 1, 8001)))

    def test_newest_stay_and_one_an_hour_for_a_week(self) -> None:
        now = 10**9
        times = [now - 300 * it for it in range(3000)]
        gone = set(due(times, now))
        left = sorted(set(times) - gone)
        self.assertEqual(left[-NEWEST:], sorted(times)[-NEWEST:])
        old = left[:-NEWEST]
        self.assertEqual(len({it // HOUR for it in old}), len(old))
        self.assertGreaterEqual(old[0], now - WEEK)
        self.assertIn(len(old), range(WEEK // HOUR - 4, WEEK // HOUR + 1))
        self.assertEqual(due(left, now), [])

    def test_which_go(self) -> None:
        week, hour = 7 * 86400, 3600
        newest = list(range(10 * week, 10 * week + 32))
        now = 3 * week  # a whole hour
        for old, gone in (([], []), ([2 * week], []), ([2 * week - 1], [2 * week - 1]),
                          ([2 * week + 10, 2 * week + hour - 1, 2 * week + hour], [2 * week + hour - 1])):
            self.assertEqual(due(newest + old, now), gone)
        self.assertEqual(due([1] + newest[1:], now), [])

    def test_head_that_is_too_large_is_kept_alone(self) -> None:
        head = b"".join(os.urandom(40000).hex().encode() + b"\n" for _ in range(HEAD))
        self.assertEqual(unpacked(packed(head + b"5 /a\n")), head)

    def test_value_that_just_fits_is_kept_whole(self) -> None:
        whole = self.record(3000)
        value = packed(whole)
        with unittest.mock.patch.object(hours, "CHUNK", len(value)):
            self.assertEqual(packed(whole), value)
        with unittest.mock.patch.object(hours, "CHUNK", len(value) - 1):
            self.assertEqual(unpacked(packed(whole)).count(b"\n"), HEAD + 2250)


class HoursOfOne(unittest.TestCase):
    """The records of a file system, in the store."""

    def setUp(self) -> None:
        stand_in.MgrModule.cluster = stand_in.Cluster(SAMPLE)
        self.mgr = stand_in.MgrModule()  # type: Any
        self.hours = Hours(self.mgr, 7)

    def test_others_have_their_own(self) -> None:
        for key in ("fs.7.hour.30", "fs.7.hour.4", "fs.70.hour.5", "fs.7.head"):
            self.mgr.set_store(key, "x")
        self.assertEqual(self.hours.times(), [4, 30])

    def test_those_with_a_directory_of_now_are_written_oldest_first(self) -> None:
        texts = {number: b"mdbal-hour 1\nlab 0-1\n0 0\n" + rows for number, rows in (
            (30, b"7 /gone\n9 /a\\012b\n"), (4, b"1 /c d\n"), (5, b"7 /gone\n2 /c\n"), (6, b""))}
        for number, text in texts.items():
            self.mgr.set_store(f"fs.7.hour.{number}", packed(text))
        with tempfile.TemporaryDirectory() as room:
            self.assertEqual(self.hours.write(room, [b"", b"0", b"/a\\012b", b"/c d"]), [f"{room}/hour.4", f"{room}/hour.30"])
            self.assertEqual(sorted(os.listdir(room)), ["hour.30", "hour.4"])
            for number in (4, 30):
                with open(f"{room}/hour.{number}", "rb") as it:
                    self.assertEqual(it.read(), texts[number])

    def test_record_that_can_not_be_read(self) -> None:
        for value in ("\xff", "no record", "0", packed(b"a\n")[:-2]):
            self.mgr.set_store("fs.7.hour.4", value)
            self.assertRaisesRegex(Trouble, "^the record mgr/mdbal/fs.7.hour.4 can not be read: ", self.hours.write, "/", [])
        with unittest.mock.patch.object(self.mgr, "get_store", lambda key: None):  # it went meanwhile
            self.assertRaisesRegex(Trouble, "can not be read", self.hours.write, "/", [])

    def test_new_one_is_kept_and_those_that_are_due_go(self) -> None:
        for number in range(40):
            self.mgr.set_store(f"fs.7.hour.{number}", "x")
        self.hours.keep(b"mdbal-hour 1\n", 10**9)
        self.assertEqual(self.hours.times(), list(range(9, 40)) + [10**9])
        self.assertEqual(unpacked(self.mgr.get_store(f"fs.7.hour.{10**9}")), b"mdbal-hour 1\n")


class Stores(unittest.TestCase):
    def setUp(self) -> None:
        stand_in.MgrModule.cluster = stand_in.Cluster(SAMPLE)
        self.mgr = stand_in.MgrModule()  # type: Any
        self.kept = stand_in.MgrModule.cluster.kept
        self.store = Store(self.mgr, lambda key, value: self.kept.get(key) == value)

    def test_long_text_is_cut_and_old_parts_go(self) -> None:
        state = State()
        for size in (0, 1, CHUNK, CHUNK + 1, 10 * CHUNK + 7, 3):
            state.text = "x" * size
            self.store.save(7, state)
            self.assertEqual(Store(stand_in.MgrModule(), lambda *_: True).load(7).text, state.text)
            self.assertEqual(len(self.kept), 1 + (size + CHUNK - 1) // CHUNK)
            self.assertLessEqual(max(map(len, self.kept.values())), CHUNK)

    def test_store_that_ends_anywhere_has_the_old_state_or_the_new_one(self) -> None:
        state, texts = State(), ["a" * (3 * CHUNK), "b" * (2 * CHUNK + 5)]
        for ends_at in range(8):
            self.setUp()
            state.text = texts[0]
            self.store.save(7, state)
            real, count = self.mgr.set_store, [0]

            def ending(key: str, value: Optional[str], real: Any = real, count: List[int] = count) -> None:
                if count[0] == ends_at:
                    raise SystemExit
                count[0] += 1
                real(key, value)
            self.mgr.set_store = ending
            state.text = texts[1]
            try:
                self.store.save(7, state)
            except SystemExit:
                pass
            self.assertIn(Store(stand_in.MgrModule(), lambda *_: True).load(7).text, texts)

    def test_state_that_is_not_whole(self) -> None:
        state = State()
        state.text = "x" * (2 * CHUNK)
        self.store.save(7, state)
        del self.kept["fs.7.text.1.1"]
        self.assertRaisesRegex(Trouble, "^the state is not whole: ceph config-key ls, mgr/mdbal/fs.7$", Store(stand_in.MgrModule(), lambda *_: True).load, 7)

    def test_state_is_read_as_it_was_stored(self) -> None:
        new = self.store.load(7)
        self.assertEqual((new.on, new.text, new.what, new.ended, new.time), (False, "", "", "", 0))
        state = State()
        state.on, state.text, state.what, state.ended, state.time = True, "abc", "restore", "stopped refused", 77
        self.store.save(7, state)
        self.assertEqual(vars(self.store.load(7)), vars(state))
        self.assertEqual(vars(self.store.load(70)), vars(State()))
        self.assertEqual(json.loads(self.kept["fs.7.head"]), {
            "version": 1, "on": True, "what": "restore", "ended": "stopped refused", "time": 77, "generation": 1, "parts": ["fs.7.text.1.0"],
            "sha256": hashlib.sha256(b"abc").hexdigest()})

    def test_text_that_is_the_same_is_not_stored_again(self) -> None:
        state = State()
        for text, number in (("a", 1), ("a", 1), ("b", 2), ("a", 3)):
            state.text, state.on = text, not state.on
            self.store.save(7, state)
            self.assertEqual(sorted(self.kept), ["fs.7.head", f"fs.7.text.{number}.0"])
            self.assertEqual(self.store.load(7).on, state.on)

    def test_others_keep_their_texts(self) -> None:
        state = State()
        for number in (7, 70, 7):
            state.text += "x"
            self.store.save(number, state)
        self.assertEqual((self.store.load(7).text, self.store.load(70).text), ("xxx", "xx"))

    def test_state_of_a_newer_module(self) -> None:
        self.store.save(7, State())
        self.mgr.set_store("fs.7.head", self.kept["fs.7.head"].replace('"version": 1', '"version": 2'))
        why = "^the state has version 2, and this module knows only 1: restart this manager, so that it loads the module that is installed$"
        self.assertRaisesRegex(Trouble, why, self.store.load, 7)
        self.assertRaisesRegex(Trouble, why, self.store.save, 7, State())

    def test_value_that_the_monitors_do_not_take(self) -> None:
        state = State()
        state.text = "old"
        self.store.save(7, state)
        for refused in ("fs.7.text.2.0", "fs.7.head"):
            asked = []  # type: List[str]

            def is_kept(key: str, value: str, refused: str = refused, asked: List[str] = asked) -> bool:
                self.assertEqual(self.mgr.get_store(key), value)
                asked.append(key)
                return key != refused
            state.text = "new"
            self.assertRaisesRegex(Trouble, "^the monitors did not store the state$", Store(self.mgr, is_kept).save, 7, state)
            self.assertEqual(asked[-1], refused)
        self.assertIn("fs.7.text.1.0", self.kept)  # the old text stays while the head may still name it


class Times(unittest.TestCase):
    """When rounds may set pins."""

    def setUp(self) -> None:
        stand_in.MgrModule.cluster = stand_in.Cluster(SAMPLE)
        self.mgr = Module("mdbal", 0, 0)  # type: Any

    def may_act(self, when: str, **options: Any) -> bool:
        """Whether they may at a time of this month of December, in which the 6th is a Sunday."""
        self.mgr.options.update(options)
        return may_act(self.mgr, time.strptime("2026-12-" + when, "%Y-%m-%d %H:%M"))

    def test_within(self) -> None:
        for begin, end, inside, outside in ((2, 4, (2, 3), (1, 4, 5)), (4, 2, (4, 5, 0, 1), (2, 3)), (3, 3, (0, 3, 6), ())):
            for now in inside + outside:
                self.assertIs(is_within(begin, now, end), now in inside, (begin, now, end))

    def test_always_by_default(self) -> None:
        for when in ("05 00:00", "06 23:59", "07 12:00"):
            self.assertTrue(self.may_act(when))

    def test_times_of_a_day(self) -> None:
        for when, night, day in (("06 21:59", False, True), ("06 22:00", True, False), ("06 05:59", True, False), ("06 06:00", False, True)):
            self.assertIs(self.may_act(when, begin_time="2200", end_time="0600"), night)
            self.assertIs(self.may_act(when, begin_time="0600", end_time="2200"), day)

    def test_days_of_a_week(self) -> None:
        for day, work, weekend in (("05", False, True), ("06", False, True), ("07", True, False), ("11", True, False)):
            self.assertIs(self.may_act(day + " 12:00", begin_weekday=1, end_weekday=6), work)
            self.assertIs(self.may_act(day + " 12:00", begin_weekday=6, end_weekday=1), weekend)
        for begin, end, is_so in ((7, 1, True), (0, 1, True), (1, 7, False), (1, 0, False), (7, 0, True)):
            self.assertIs(self.may_act("06 12:00", begin_weekday=begin, end_weekday=end), is_so)
        self.assertFalse(self.may_act("07 12:00", begin_weekday=1, end_weekday=2, begin_time="1300"))

    def test_what_is_no_time_of_a_day(self) -> None:
        for value in ("", "7:30", "730", "2401", "1260", "07300", "x"):
            for name in ("begin_time", "end_time"):
                with self.assertRaisesRegex(Trouble, f"^mgr/mdbal/{name} is no time of a day as 0730: {value}$"):
                    self.may_act("06 12:00", **{"begin_time": "0000", "end_time": "2400", name: value})


class Watches(unittest.TestCase):
    def test_three_uneven_looks_make_a_round(self) -> None:
        watch = Watch()
        watch.after_round(0.0, 300.0, True)
        for look in range(1, 6):
            watch.look({1: 3000 * look, 2: 100 * look}, 10.0 * look, 1.5)
            self.assertEqual(watch.is_round_due(10.0 * look), look >= 4)
        watch.after_round(60.0, 300.0, False)
        for look in range(7, 12):
            watch.look({1: 3000 * look, 2: 100 * look}, 10.0 * look, 1.5)
        self.assertFalse(watch.is_round_due(110.0))
        self.assertTrue(watch.is_round_due(360.0))

    def test_even_idle_and_new_daemons_do_not_count(self) -> None:
        for rates in ((100, 90), (5, 0)):
            watch = Watch()
            watch.after_round(0.0, 300.0, True)
            for look in range(1, 9):
                watch.look({1: rates[0] * 10 * look if rates[0] > 5 else look, 2: rates[1] * 10 * look}, 10.0 * look, 1.5)
                self.assertFalse(watch.is_round_due(10.0 * look))
        watch = Watch()
        watch.after_round(0.0, 300.0, True)
        for look in range(1, 9):
            watch.look({look: 10000 * look, 99: 0}, 10.0 * look, 1.5)
            self.assertFalse(watch.is_round_due(10.0 * look))

    def test_new_watch(self) -> None:
        self.assertEqual(vars(Watch()), {"next": 0.0, "rest": 0.0, "counts": {}, "time": 0.0, "uneven": 0, "to_mean": None})

    def test_when_a_look_and_a_round_are_due(self) -> None:
        watch = Watch()
        watch.look({}, 50.0, 1.5)
        self.assertEqual([watch.is_look_due(it) for it in (59.9, 60.0)], [False, True])
        watch.next, watch.rest, watch.uneven = 100.0, 70.0, 2
        self.assertEqual([watch.is_round_due(it) for it in (99.9, 100.0)], [False, True])
        watch.uneven = 3
        self.assertEqual([watch.is_round_due(it) for it in (69.9, 70.0)], [False, True])

    def test_after_a_round(self) -> None:
        for has_set, rest in ((True, 50.0), (False, 350.0)):
            watch = Watch()
            watch.uneven = 2
            watch.after_round(50.0, 300.0, has_set)
            self.assertEqual((watch.next, watch.rest, watch.uneven), (350.0, rest, 0))

    def test_how_uneven_a_look_is(self) -> None:
        for first, second, limit, to_mean, uneven in (
            ({1: 50, 2: 50}, {1: 110, 2: 90}, 1.2, 1.2, 3),    # 6 and 4 a second: enough, and just uneven
            ({1: 50, 2: 50}, {1: 110, 2: 90}, 1.21, 1.2, 0),
            ({1: 50, 2: 50}, {1: 110, 2: 90}, 0, 1.2, 0),      # never
            ({1: 50, 2: 50}, {1: 110, 2: 89}, 1.2, None, 0),   # 9.9 a second
            ({1: 50, 2: 50}, {1: 1050, 2: 50}, 1.2, 2.0, 3),
            ({1: 50, 2: 50}, {1: 1050, 2: 49}, 1.2, None, 0),  # one began anew
            ({1: 50, 2: 50}, {1: 1050}, 0.5, None, 0),
            ({1: 50}, {1: 1050, 2: 50}, 0.5, None, 0),
            ({}, {}, 0.5, None, 0),
        ):
            watch = Watch()
            watch.counts, watch.time, watch.uneven, watch.to_mean = first, 100.0, 2, 5.0
            watch.look(second, 110.0, limit)
            self.assertEqual((watch.counts, watch.time, watch.to_mean, watch.uneven), (second, 110.0, to_mean, uneven), (second, limit))

    def test_what_daemons_have_served(self) -> None:
        info = {"a": {"gid": 11, "name": "x", "state": "up:active"}, "b": {"gid": 12, "name": "y", "state": "up:active"},
                "c": {"gid": 13, "name": "z", "state": "up:standby-replay"}}
        for call in ("get_latest", "get_unlabeled_counter_latest"):  # the second from Ceph 20 on
            asked = []

            def latest(*words: str, asked: List[Any] = asked) -> float:
                asked.append(words)
                return {"x": 5.7}[words[1]]
            mgr = unittest.mock.Mock(spec=["get_latest", call])
            getattr(mgr, call).side_effect = latest
            self.assertEqual(served(mgr, {"info": info}), {11: 5, 12: 0})  # y has told nothing yet
            self.assertEqual(asked, [("mds", it, "mds_server.handle_client_request") for it in "xy"])
