"""The programs, played by scripts of sh: how they are run, what is read of them, and what mdbal_drive is answered."""
import os
import subprocess
import tempfile
import unittest
import unittest.mock
from typing import Any, Dict, List, Tuple

import stand_in

stand_in.install()
from mdbal import programs  # noqa: E402
from mdbal.hands import NoAnswer  # noqa: E402
from mdbal.programs import Host, Plan, Stop  # noqa: E402
from mdbal.texts import Trouble, id_of  # noqa: E402

FOLDERS = programs.FOLDERS


class Played(unittest.TestCase):
    def setUp(self) -> None:
        room = tempfile.TemporaryDirectory()
        self.addCleanup(room.cleanup)
        self.room = room.name
        stops = unittest.mock.patch.object(programs, "FOLDERS", [self.room])
        stops.start()
        self.addCleanup(stops.stop)

    def play(self, name: str, text: str) -> None:
        """A program; $room is the folder of the test."""
        self.put(name, f"#!/bin/sh\nroom={self.room}\n{text}\n")
        os.chmod(f"{self.room}/{name}", 0o755)

    def put(self, name: str, text: str) -> None:
        with open(f"{self.room}/{name}", "w", encoding="utf-8") as it:
            it.write(text)

    def lines(self, name: str) -> List[str]:
        with open(f"{self.room}/{name}", encoding="utf-8") as it:
            return it.read().split("\n")[:-1]


class Planner(Played):
    """mdbal_ceph."""

    def test_programs_are_beside_the_module_or_in_usr_bin(self) -> None:
        self.assertEqual(FOLDERS, [os.path.dirname(os.path.abspath(programs.__file__)), "/usr/bin"])
        programs.FOLDERS = [f"{self.room}/a", f"{self.room}/b"]
        for name in "ab":
            os.mkdir(f"{self.room}/{name}")
            self.put(f"{name}/mdbal_ceph", "")
        self.assertRaisesRegex(Trouble, f"^no program mdbal_ceph in {self.room}/a or {self.room}/b$", programs.program, "mdbal_ceph")
        for name in "ba":  # a file that may not be run is none
            os.chmod(f"{self.room}/{name}/mdbal_ceph", 0o755)
            self.assertEqual(programs.program("mdbal_ceph"), f"{self.room}/{name}/mdbal_ceph")

    def test_what_it_is_run_with(self) -> None:
        self.play("mdbal_ceph", r"""printf '%s\n' "$@"; pwd; cat; cat /proc/$$/environ; echo no >&2; exit 3""")
        self.assertEqual(programs.run(["--a", "b c"], 60, (0, 3)), (3, b"--a\nb c\n/\nLC_ALL=C\0"))

    def test_status_that_is_no_good_one(self) -> None:
        self.play("mdbal_ceph", "echo out; printf 'first\\nwhy \\377\\n\\n' >&2; exit 77")
        self.assertRaisesRegex(Trouble, "^mdbal_ceph ended with status 77: why \xff$", programs.run, [], 60, (0, 3))
        self.assertEqual(programs.run([], 60, (77,)), (77, b"out\n"))

    def test_run_that_takes_too_long(self) -> None:
        self.play("mdbal_ceph", "exec sleep 20")
        self.assertRaisesRegex(Trouble, "^mdbal_ceph ran longer than 1 seconds$", programs.run, [], 0.6, (0,))

    def test_program_that_can_not_be_run(self) -> None:
        self.play("mdbal_ceph", "")
        self.put("mdbal_ceph", "no program")
        self.assertRaisesRegex(Trouble, r"^mdbal_ceph: \[Errno 8\]", programs.run, [], 60, (0,))

    def test_paths(self) -> None:
        self.play("mdbal_ceph", r"""printf '%s\n' "$@" > $room/words; printf './a/b c\0./\0.\0./d\n/\0'""")
        self.assertEqual(programs.paths_of("/f", "/own", 60), [b"/a/b c", b"", b"", b"/d\n"])
        self.assertEqual(self.lines("words"), ["/f", "--own", "/own", "--paths0"])
        self.play("mdbal_ceph", "exit 3")
        self.assertRaises(Trouble, programs.paths_of, "/f", "/own", 60)

    def play_plan(self, status: int, status_of_report: int) -> None:
        self.put("text", "mark 0 0\nend\n")
        self.play("mdbal_ceph", rf"""
            for it in "$@"; do printf '%s ' "$it"; done >> $room/words; echo >> $room/words
            case "$*" in
            *--json) cp $room/text $room/pins.plan; printf 'hour\377\n' > $room/hour; printf '{{"a": "\303\251"}}'; exit {status};;
            *) printf 'head\nwhy \377\n\n'; exit {status_of_report};;
            esac""")

    def test_plan(self) -> None:
        for status, is_proposed in ((0, True), (3, False)):
            self.play_plan(status, status)
            found = programs.plan(["/past 1", "/past 2"], self.room, "/own", ["--keep", "5"], 60)
            text = "mark 0 0\nend\n"
            self.assertEqual(found, Plan(id_of(text), text, is_proposed, {"a": "\xe9"}, "head\nwhy \xff\n\n", b"hour\xff\n"))
            self.assertEqual(found.why_not(), "why \xff")
            words = f"/past 1 /past 2 {self.room} --own /own --keep 5 "
            self.assertEqual(self.lines("words")[-2:], [words + f"--pins {self.room}/pins --record {self.room}/hour --json ", words])

    def test_plan_whose_report_differs_from_it(self) -> None:
        for status, of_report in ((0, 3), (3, 0), (1, 1), (4, 4)):
            self.play_plan(status, of_report)
            self.assertRaisesRegex(Trouble, "ended with status", programs.plan, [], self.room, "/own", [], 60)

    def test_hour(self) -> None:
        for status in (0, 3):
            self.play("mdbal_ceph", rf"""printf '%s\n' "$@" > $room/words; printf 'hour\377\n' > $3; exit {status}""")
            self.assertEqual(programs.hour(self.room, 60), b"hour\xff\n")
            self.assertEqual(self.lines("words"), [self.room, "--record", f"{self.room}/hour"])
        self.play("mdbal_ceph", "exit 4")
        self.assertRaises(Trouble, programs.hour, self.room, 60)

    def test_check(self) -> None:
        for status, hold in ((0, True), (4, False)):
            self.play("mdbal_ceph", rf"""printf '%s\n' "$@" > $room/words; printf 'a: away\n1 of 2 pins hold\n'; exit {status}""")
            self.assertEqual(programs.check("/f", "/own", 60), (hold, ["a: away", "1 of 2 pins hold"]))
            self.assertEqual(self.lines("words"), ["/f", "--check", "/own"])
        self.play("mdbal_ceph", "exit 3")
        self.assertRaises(Trouble, programs.check, "/f", "/own", 60)

    def test_limits_are_those_that_are_asked_for(self) -> None:
        for name in ("pins.plan", "hour"):
            self.put(name, "")
        for call, count in ((lambda: programs.paths_of("/f", "/own", 7), 1), (lambda: programs.plan([], self.room, "/own", [], 7), 2),
                            (lambda: programs.hour(self.room, 7), 1), (lambda: programs.check("/f", "/own", 7), 1)):
            with unittest.mock.patch.object(programs, "run", return_value=(0, b"{}")) as run:
                call()
                self.assertEqual([it[0][1] for it in run.call_args_list], [7] * count)


class Answers(unittest.TestCase):
    """What mdbal_drive is answered."""

    def setUp(self) -> None:
        self.cluster, self.did = unittest.mock.Mock(), []  # type: Any, List[Any]
        self.host = Host(self.cluster, lambda seconds: self.did.append(("rest", seconds)), lambda text: self.did.append(("store", text)),
                         lambda line: self.did.append(("note", line)))

    def test_each_question(self) -> None:
        self.cluster.word.return_value, self.cluster.warnings.return_value = "word", {"B", "A x"}
        self.cluster.get.return_value, self.cluster.set.return_value = "found 5 -1", "done"
        for line, answer, seconds in (("wait 2.5", "waited", 2.5), ("cluster", "cluster word A\\040x B", 0), ("get /a\\040b", "found 5 -1", 0),
                                      ("set -1 /a\\040b", "done", 0), ("what else", "refused", 0)):
            self.did.clear()
            self.assertEqual(self.host.safe_answer(line, iter([])), answer)
            self.assertEqual(self.did, [("rest", seconds)])
        self.cluster.get.assert_called_once_with(b"/a b")
        self.cluster.set.assert_called_once_with(b"/a b", -1)
        for is_so, answer in ((True, "in-place"), (False, "moving")):
            self.cluster.are_in_place.return_value = is_so
            self.assertEqual(self.host.answer("roots", iter([])), answer)

    def test_text_is_stored_once_it_is_whole(self) -> None:
        rest = iter(["a\n", "..\n", ".\n", "more\n"])
        self.assertEqual(self.host.answer("store", rest), "stored")
        self.assertEqual((self.did, next(rest)), ([("rest", 0), ("store", "a\n..\n")], "more\n"))
        self.did.clear()
        self.assertEqual(self.host.answer("store", iter(["a\n"])), "refused")
        self.assertEqual(self.did, [("rest", 0)])

    def test_nothing_is_known_without_the_monitors(self) -> None:
        self.cluster.mgr.have_mon_connection.return_value = False
        for line in ("cluster", "store", "get /a", "set 1 /a", "roots", "what else"):
            self.assertEqual(self.host.answer(line, iter([".\n"])), "no-answer")
        self.assertEqual(self.did, [("rest", 0)] * 6)
        self.assertEqual([it[0] for it in self.cluster.method_calls], ["mgr.have_mon_connection"] * 6)
        self.assertEqual(self.host.answer("wait 1", iter([])), "waited")

    def test_what_goes_wrong(self) -> None:
        for error, answer in ((NoAnswer("away"), "no-answer"), (Trouble("no"), "refused"), (KeyError("x"), "no-answer")):
            self.did.clear()
            self.cluster.get.side_effect = error
            self.assertEqual(self.host.safe_answer("get /a", iter([])), answer)
            self.assertEqual(self.did[1:], [("note", f"{answer} {error}")])
        self.cluster.mgr.log.exception.assert_called_once_with("get /a")
        self.host.rest = unittest.mock.Mock(side_effect=Stop("it was turned off"))
        self.assertRaises(Stop, self.host.safe_answer, "get /a", iter([]))


class Driver(Played):
    """mdbal_drive."""

    def setUp(self) -> None:
        super().setUp()
        self.notes = []  # type: List[str]
        self.host = Host(unittest.mock.Mock(), lambda seconds: None, lambda text: None, self.notes.append)
        self.answers = {}  # type: Dict[str, Any]
        self.host.safe_answer = self.answer  # type: ignore[method-assign]
        self.asked = []  # type: List[Tuple[str, List[str]]]

    def answer(self, line: str, rest: Any) -> str:
        self.asked.append((line, [next(rest), next(rest)] if line == "store" else []))
        found = self.answers.get(line, "done")
        if isinstance(found, Exception):
            raise found
        return str(found)

    def play_drive(self, text: str) -> None:
        self.play("mdbal_drive", r"""printf '%s\n' "$@" > $room/words; pwd >> $room/words; tr '\0' '\n' < /proc/$$/environ >> $room/words
            echo $$ > $room/pid
            take() { read -r it; printf '%s\n' "$it" >> $room/got; }
            while take; [ "$it" != . ]; do :; done
            """ + text)

    def test_dialogue(self) -> None:
        self.play_drive("echo 'get /a'; take; echo 'note set /a'; echo store; echo x; echo .; take; echo 'end stopped too-slow'; echo 'get /b'")
        self.answers = {"store": "stored"}
        self.assertEqual(programs.drive("set", "a\nb\n", ["--poll", "5"], self.host), "stopped too-slow")
        self.assertEqual((self.lines("words"), self.lines("got")), (["set", "--poll", "5", "/", "LC_ALL=C"], ["a", "b", ".", "done", "stored"]))
        self.assertEqual((self.asked, self.notes), ([("get /a", []), ("store", ["x\n", ".\n"])], ["set /a"]))

    def is_gone(self) -> bool:
        return not os.path.exists(f"/proc/{self.lines('pid')[0]}")

    def test_run_that_is_stopped_ends_the_program(self) -> None:
        self.play_drive("echo 'get /a'; take; exec sleep 0.2")
        self.answers = {"get /a": Stop("it was turned off")}
        self.assertRaisesRegex(Stop, "^it was turned off$", programs.drive, "set", "", [], self.host)
        self.assertTrue(self.is_gone())

    def test_program_that_ends_by_itself(self) -> None:
        for text, why in (("exit 1", "ended by itself"), ("echo ' broken ' >&2; echo >&2; exit 1", "broken"), ("echo 'note a b'", "ended by itself")):
            self.play_drive(text)
            self.assertRaisesRegex(Trouble, f"^mdbal_drive: {why}$", programs.drive, "set", "", [], self.host)
            self.assertTrue(self.is_gone())
        for text, why in (("exec <&-; exec sleep 0.2", "ended by itself"), ("echo broken >&2", "broken")):
            self.play("mdbal_drive", text)  # it reads nothing, of a text that no pipe holds
            self.assertRaisesRegex(Trouble, f"^mdbal_drive: {why}$", programs.drive, "set", "x" * 10**6, [], self.host)

    def test_program_that_can_not_be_run(self) -> None:
        self.play("mdbal_drive", "")
        self.put("mdbal_drive", "no program")
        self.assertRaisesRegex(Trouble, r"^mdbal_drive: \[Errno 8\]", programs.drive, "set", "", [], self.host)
        os.remove(f"{self.room}/mdbal_drive")
        self.assertRaisesRegex(Trouble, "^no program mdbal_drive in ", programs.drive, "set", "", [], self.host)

    def test_program_that_does_not_end_is_killed(self) -> None:
        made = unittest.mock.Mock()
        made.stdin.close.side_effect = BrokenPipeError
        made.wait.side_effect = [subprocess.TimeoutExpired("x", 10), 0]
        programs.end(made)
        self.assertEqual([it[0] for it in made.method_calls], ["stdin.close", "stdout.close", "stderr.close", "wait", "kill", "wait"])
        self.assertEqual(made.wait.call_args_list[0][0], (10,))
        made.wait.side_effect, made.kill.side_effect = [0], AssertionError
        programs.end(made)
