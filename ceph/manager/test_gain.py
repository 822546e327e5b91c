"""What pins gain in a heat, and what decides where directories are."""
import unittest
from typing import Any, Dict

import stand_in

stand_in.install()
from mdbal.cluster import Facts  # noqa: E402
from mdbal.collect import rules_of  # noqa: E402
from mdbal.gain import after, hottest, nearest, percent  # noqa: E402
from mdbal.programs import Plan  # noqa: E402
from mdbal.texts import Change  # noqa: E402

HEAD = b"mdbal-hour 1\nlab 0-1\n5 0 7 0\n"


def record(**heats: int) -> bytes:
    return HEAD + b"".join(b"%d %s\n" % (heat, path.replace("_", "/").encode()) for path, heat in heats.items())


class Gains(unittest.TestCase):
    def test_nearest(self) -> None:
        places = {b"/a": 1, b"/a/b/c": 2}
        for path, found in ((b"/a", 1), (b"/a/b", 1), (b"/a/b/c", 2), (b"/a/b/c/d/e", 2), (b"/ab", 9), (b"", 9), (b"/x/y", 9)):
            self.assertEqual(nearest(places, path, 9), found)
        self.assertEqual(nearest({b"": 3, b"/a": 1}, b"/b/c", 9), 3)

    def test_pins_after_changes(self) -> None:
        rules = {b"/a": 1, b"/b": 2, b"/c": -1}
        self.assertEqual(after(rules, [Change(1, -1, b"/a"), Change(2, 0, b"/b"), Change(-1, 3, b"/d"), Change(-1, -1, b"/e")]),
                         {b"/b": 0, b"/c": -1, b"/d": 3})
        self.assertEqual(rules, {b"/a": 1, b"/b": 2, b"/c": -1})

    def test_heat_of_the_hottest_rank(self) -> None:
        roots = {b"": 0, b"/a": 1, b"/a/x": 2}
        for heats, pins, found in (({}, {}, 7),                                         # what is spread stays
                                   (dict(_a=10, _a_x=1), {}, 10),
                                   (dict(_a=10, _a_y_z=1, _a_x_b=3), {}, 11),
                                   (dict(_b=10, _a=3), {}, 15),
                                   (dict(_b=10, _a=3), {b"/b": 1}, 13),
                                   (dict(_a=10, _a_x=30), {b"/a": 3}, 40),              # a root without a pin goes along
                                   (dict(_a=10, _a_x=30), {b"/a": 3, b"/a/x": -1}, 37),  # one that a policy leaves does not
                                   (dict(_a=10, _a_x=30), {b"/a": 3, b"/a/x": 1}, 30),
                                   (dict(_a=10), {b"/a": 64}, 10)):
            self.assertEqual(hottest(record(**heats), roots, pins), found, (heats, pins))

    def test_where_nothing_is_said_of_a_directory(self) -> None:
        self.assertEqual(hottest(record(_a=10), {}, {}), 15)
        self.assertEqual(hottest(HEAD + b"4 \n", {b"": 2}, {}), 11)  # the root

    def test_names_with_bytes_that_lists_escape(self) -> None:
        text = HEAD + b"9 /a\\012b\\134/c d\n"
        self.assertEqual(hottest(text, {b"": 0, b"/a\nb\\": 2}, {}), 16)
        self.assertEqual(hottest(text, {b"": 0}, {b"/a\nb\\": 1, b"/a": 2}), 9)

    def test_percent(self) -> None:
        roots = {b"": 0}
        self.assertEqual(percent(record(_a=15, _b=20), roots, {b"/b": 1}), 50.0)
        self.assertEqual(percent(record(_a=15, _b=20), roots, {}), 0.0)
        self.assertEqual(percent(record(_a=2, _b=3), roots, {b"/a": 2, b"/b": 2}), -20.0)
        self.assertEqual(percent(b"mdbal-hour 1\nlab 0-1\n0 0\n", roots, {b"/a": 1}), 0.0)

    def test_rules(self) -> None:
        found = {}  # type: Dict[bytes, Facts]
        for path, pin, distributed, random in ((b"", "-1", "0", "0"), (b"/a", "1", "0", "0"), (b"/b", "0", "0", "0.000000"), (b"/c", "7", "0", "0"),
                                               (b"/d", "-1", "1", "0"), (b"/e", "2", "0", "0.01"), (b"/f", "2", "1", "0")):
            found[path] = Facts(5, 1, pin, distributed, random)
        self.assertEqual(rules_of(found, [0, 1, 2]), {b"/a": 1, b"/b": 0, b"/c": -1, b"/d": -1, b"/e": -1, b"/f": -1})

    def test_gain_of_a_plan(self) -> None:
        def gain(**told: Any) -> float:
            return Plan("", "", True, told, "", b"").gain()
        ranks = [{"now": 3000, "planned": 900}, {"now": 0, "planned": 1200}]
        hours = [{"seen": True, "bound": 1000, "now": 1500, "planned": 1100}, {"seen": True, "bound": 100, "now": 160, "planned": 120},
                 {"seen": False, "bound": 100, "now": 900, "planned": 100}]
        self.assertEqual(gain(ranks=ranks, bound=1000), 60.0)
        self.assertEqual(gain(ranks=ranks, bound=1000, hours=[]), 60.0)
        self.assertAlmostEqual(gain(ranks=ranks, bound=1000, hours=hours), 25.0)
        self.assertAlmostEqual(gain(ranks=ranks, bound=1000, hours=hours[:1] + hours[2:]), 100 * 4 / 15)
