"""The module's commands, and what it asks of the manager. No program runs."""
import errno
import http.client
import importlib
import json
import os
import socket
import sys
import tempfile
import threading
import time
import types
import unittest.mock
from typing import Any, List

import stand_in
from on_job import NAME, OnModule, marked

import mdbal
from mdbal import cli, programs, telling
from mdbal.endpoint import Endpoint
from mdbal.hands import NoAnswer
from mdbal.module import Job, Module
from mdbal.programs import Plan
from mdbal.record import Planned
from mdbal.texts import id_of

BEGUN = (0, "begun: ceph fs mdbal status lab", "")


class Options(OnModule):
    def test_options(self) -> None:
        words = {"interval": ("secs", 300, 30), "uneven": ("uint", 150), "samples": ("uint", 6, 1, 60), "pause": ("secs", 3), "hours": ("uint", 24, 1, 32),
                 "made": ("uint", 12, None, 31), "least_gain": ("uint", 5, None, 100), "least_heat": ("uint", 0), "keep": ("uint", 5),
                 "most_pins": ("uint", 1000, 1, 65535), "most_inodes": ("uint", 0), "leave": ("str", ""), "mask": ("str", ""),
                 "batch": ("uint", 100000, 1), "poll": ("secs", 5, 1), "wait": ("secs", 600, 1), "plan_age": ("secs", 900, 1),
                 "program_limit": ("secs", 300, 1), "call_limit": ("secs", 60, 1), "most_directories": ("uint", 200000), "warn_percent": ("uint", 0),
                 "begin_time": ("str", "0000"), "end_time": ("str", "2400"), "begin_weekday": ("uint", 0, None, 7),
                 "end_weekday": ("uint", 7, None, 7), "metrics_port": ("uint", 0, None, 65535)}
        for it in Module.MODULE_OPTIONS:
            found = {name: value for name, value in it.items() if name != "desc"}
            wanted = dict(zip(("type", "default", "min", "max"), words.pop(it["name"])))
            self.assertEqual(found, {"name": it["name"], "runtime": True, **{name: value for name, value in wanted.items() if value is not None}})
        self.assertEqual(words, {})

    def test_commands_and_who_may_give_them(self) -> None:
        self.assertEqual(stand_in.DECLARED, {f"fs mdbal {name}": (perm, name) for name, perm in (
            ("status", "r"), ("plan", "rw"), ("show", "r"), ("apply", "rw"), ("rollback", "rw"), ("check", "rw"), ("on", "rw"), ("off", "rw"), ("metrics", "r"))})
        self.assertEqual((Module.CLICommand, Module.NOTIFY_TYPES, mdbal.Module), (stand_in.command, [], Module))

    def test_commands_from_ceph_20_on(self) -> None:
        base, made = unittest.mock.Mock(), types.ModuleType("mgr_module")
        made.CLICommandBase = base  # type: ignore[attr-defined]
        try:
            with unittest.mock.patch.dict(sys.modules, mgr_module=made):
                found = importlib.reload(cli)
                base.make_registry_subtype.assert_called_once_with("MdbalCLICommand")
                self.assertIs(found.Registry, base.make_registry_subtype.return_value)
                self.assertIs(found.command("fs x", "r"), found.Registry.return_value)
                found.Registry.assert_called_once_with("fs x", perm="r")
        finally:
            importlib.reload(cli)

    def test_programs_that_are_missing(self) -> None:
        with tempfile.TemporaryDirectory() as room:
            self.patch(programs, "FOLDERS", [room])
            for name in ("mdbal_ceph", "mdbal_drive"):
                self.assertEqual(Module.can_run(), (False, f"no program {name} in {room}"))
                with open(f"{room}/{name}", "wb"):
                    os.chmod(f"{room}/{name}", 0o755)
            self.assertEqual(Module.can_run(), (True, ""))


class Commands(OnModule):
    def jobs(self) -> List[Job]:
        """Those that were asked for."""
        found = []
        while not self.module.jobs.empty():
            found.append(self.module.jobs.get_nowait())
        return found

    def test_status(self) -> None:
        self.assertEqual(self.module.status(), (0, "mdbal does nothing now\nlab: off", ""))
        self.assertEqual(self.module.status("lab", "plain"), self.module.status())
        self.module.say("lab", "planning")
        self.module.jobs.put(Job("plan", "lab"))
        self.module.jobs.put(Job("check", "lab"))
        self.assertEqual(self.module.status(), (0, "mdbal lab: planning, 2 more to do\nlab: off", ""))
        for form in ("json", "json-pretty"):
            self.assertEqual(json.loads(self.module.status("lab", form)[1]),
                             {"doing": "lab: planning", "waiting": 2, "file_systems": {"lab": telling.status(self.record())}})
        self.assertEqual(self.module.status("lib"), (-errno.ENOENT, "", "there is no file system lib"))

    def test_status_of_several_and_of_one_that_was_not_read(self) -> None:
        found = self.module.get("fs_map")["filesystems"]
        other = json.loads(json.dumps(found[0]))
        other["id"], other["mdsmap"]["fs_name"] = 8, "a"
        self.patch(self.module, "get", lambda what: {"filesystems": found + [other]})
        self.assertEqual(self.module.status()[1].split("\n")[1:], ["a: not read yet", "lab: off"])
        self.assertEqual(self.module.status("lab")[1].split("\n")[1:], ["lab: off"])
        self.module.refused["a"] = "the state has version 2"
        self.assertEqual(self.module.status("a")[1].split("\n")[1:], ["a: the state has version 2"])
        self.assertEqual(self.module.plan("a"), (-errno.EAGAIN, "", "the state has version 2"))
        del self.module.refused["a"]
        self.assertEqual(self.module.plan("a"), (-errno.EAGAIN, "", "mdbal starts: try again"))
        self.module.meet()
        self.assertEqual(self.module.metrics_text(), telling.metrics([self.module.records["a"], self.record()]))

    def test_status_of_one_that_none_is_left_of(self) -> None:
        self.patch(self.module, "get", lambda what: {"filesystems": []})
        self.assertEqual(self.module.status(), (0, "mdbal does nothing now", ""))
        self.assertEqual(self.module.status("lab")[0], -errno.ENOENT)

    def test_jobs_that_are_asked_for(self) -> None:
        for name in ("plan", "rollback", "check", "on", "off"):
            self.assertEqual(getattr(self.module, name)("lab"), BEGUN)
            self.assertEqual(self.jobs(), [Job(name, "lab", "")])
            self.assertEqual(getattr(self.module, name)("lib"), (-errno.ENOENT, "", "there is no file system lib"))
        self.assertEqual(self.jobs(), [])

    def test_only_off_stops_what_runs(self) -> None:
        for name, is_to_stop in (("on", False), ("off", True)):
            getattr(self.module, name)("lab")
            self.assertIs(self.record().is_to_stop, is_to_stop)

    def test_show(self) -> None:
        self.assertEqual(self.module.show("lab"), (-errno.ENOENT, "", "there is no plan of lab: ceph fs mdbal plan lab"))
        self.assertEqual(self.module.show("lib"), (-errno.ENOENT, "", "there is no plan of lib: ceph fs mdbal plan lib"))
        self.take_plan()
        for form in (None, "plain"):
            self.assertEqual(self.module.show("lab", form), (0, telling.show(self.record().planned), ""))
        for form in ("json", "json-pretty"):
            status, text, _ = self.module.show("lab", form)
            self.assertEqual((status, json.loads(text)), (0, dict(self.record().planned.plan.told, id=NAME)))

    def test_apply(self) -> None:
        other = (-errno.ENOENT, "", f"{NAME} is not the last plan of lab")
        self.assertEqual(self.module.apply("lab", NAME), other)
        self.take_plan()
        for once, what in ((False, "apply"), (True, "once")):
            self.assertEqual(self.module.apply("lab", NAME, once), BEGUN)
            self.assertEqual(self.jobs(), [Job(what, "lab", NAME)])
        self.assertEqual(self.module.apply("lab", "other"), (-errno.ENOENT, "", "other is not the last plan of lab"))
        self.take_plan(is_proposed=False)
        self.assertEqual(self.module.apply("lab", NAME), (-errno.EINVAL, "", f"{NAME} changes no pin"))
        self.assertEqual(self.module.apply("lib", NAME), (-errno.ENOENT, "", "there is no file system lib"))
        self.assertEqual(self.jobs(), [])

    def test_apply_of_what_was_stopped(self) -> None:
        self.record().state.text = marked(1, 1)
        self.assertEqual(self.module.apply("lab", NAME), BEGUN)
        self.assertEqual(self.module.apply("lab", "other")[0], -errno.ENOENT)
        self.assertEqual(self.module.apply("lab", id_of(""))[0], -errno.ENOENT)
        self.record().planned = Planned(Plan("other", "", False, {}, "", b""), 0, "", {})
        self.assertEqual(self.module.apply("lab", NAME), BEGUN)
        self.record().state.text = ""
        self.assertEqual(self.module.apply("lab", id_of(""))[0], -errno.ENOENT)

    def test_metrics(self) -> None:
        self.assertEqual(self.module.metrics(), (0, telling.metrics([self.record()]), ""))


class Asked(OnModule):
    """What the manager is asked for."""

    def test_sleep(self) -> None:
        made = Module("mdbal", 0, 0)
        begun = time.monotonic()
        self.assertIs(made.sleep(0.05), False)
        self.assertGreaterEqual(time.monotonic() - begun, 0.05)
        made.shutdown()
        self.assertIs(made.sleep(60), True)

    def test_folders(self) -> None:
        self.assertEqual(self.module.room(), f"mdbal-{self.cluster.fsid}-x-")
        with tempfile.TemporaryDirectory() as room:
            self.patch(tempfile, "tempdir", room)
            for name in (self.module.room() + "1", "mdbal-other-x-1", "other" + self.module.room()):
                os.makedirs(f"{room}/{name}/full")
            self.module.clear()
            self.assertEqual(sorted(os.listdir(room)), ["mdbal-other-x-1", "other" + self.module.room()])

    def test_value_that_the_monitors_have(self) -> None:
        self.cluster.kept["fs.7.head"] = "x"
        self.assertIs(self.module.is_kept("fs.7.head", "x"), True)
        self.assertIs(self.module.is_kept("fs.7.head", "y"), False)
        real, asked = self.module.send_command, []  # type: Any, List[Any]

        def fails(result: Any, *words: Any) -> None:
            asked.append(words)
            real(result, *words)
            result.r = -errno.ENOENT
        self.patch(self.module, "send_command", fails)
        self.assertIs(self.module.is_kept("fs.7.head", "x"), False)
        self.assertEqual((asked[0][:2], json.loads(asked[0][2])), (("mon", ""), {"prefix": "config-key get", "key": "mgr/mdbal/fs.7.head"}))

    def test_monitors_that_do_not_answer(self) -> None:
        self.options["call_limit"] = 0.1
        self.patch(self.module, "send_command", lambda *_: None)
        begun = time.monotonic()
        self.assertRaisesRegex(NoAnswer, "^the monitors do not answer$", self.module.is_kept, "fs.7.head", "x")
        self.assertLess(time.monotonic() - begun, 50)

    def test_progress(self) -> None:
        self.module.progress("lab", 0.5)
        self.module.progress("lab", 0.0)
        self.module.progress("lab", None)
        update = ("progress", "update", "mdbal-lab", "mdbal: pins of lab")
        self.assertEqual(self.module.events, [update + (0.5, ["mdbal", "lab"], True), update + (0.0, ["mdbal", "lab"], True), ("progress", "complete", "mdbal-lab")])
        self.patch(self.module, "remote", unittest.mock.Mock(side_effect=RuntimeError("it is off")))
        self.module.progress("lab", 0.5)

    def test_health(self) -> None:
        self.record().above = [51.0, 51.0, 51.0]
        for percent, codes in ((0, []), (50, ["MDBAL_UNEVEN"]), (51, [])):
            self.options["warn_percent"] = percent
            self.module.tell_health()
            self.assertEqual(list(self.module.health), codes)


class Endpoints(OnModule):
    @staticmethod
    def port() -> int:
        with socket.socket() as free:
            free.bind(("127.0.0.1", 0))
            return int(free.getsockname()[1])

    def get(self, port: int) -> Any:
        made = http.client.HTTPConnection("127.0.0.1", port, timeout=60)
        self.addCleanup(made.close)
        made.request("GET", "/metrics")
        return made.getresponse()

    def test_what_is_served_where(self) -> None:
        made, ports = Endpoint(lambda: "text \xe9\n"), [self.port(), self.port()]
        self.addCleanup(lambda: made.use(0))
        made.use(0)
        self.assertIsNone(made.server)
        before = {it.ident for it in threading.enumerate()}
        made.use(ports[0])
        server = made.server
        threads = [it for it in threading.enumerate() if it.ident not in before]
        self.assertEqual([(it.name, it.daemon) for it in threads], [("mdbal-metrics", True)])
        made.use(ports[0])
        self.assertIs(made.server, server)
        with unittest.mock.patch.object(sys.stderr, "write") as written:
            found = self.get(ports[0])
            self.assertEqual((found.status, found.read()), (200, b"text \xc3\xa9\n"))
            written.assert_not_called()
        self.assertEqual((found.getheader("Content-Type"), found.getheader("Content-Length")), ("text/plain; version=0.0.4; charset=utf-8", "8"))
        made.use(ports[1])
        self.assertEqual(self.get(ports[1]).status, 200)
        made.use(0)
        self.assertEqual((made.server, made.port), (None, 0))
        threads[0].join(60)
        self.assertFalse(threads[0].is_alive())
        for port in ports:
            self.assertRaises(OSError, self.get, port)
        made.use(ports[0])
        self.assertEqual(self.get(ports[0]).status, 200)

    def test_port_that_is_taken_is_said_once_and_tried_each_minute(self) -> None:
        with socket.socket() as other, unittest.mock.patch("mdbal.endpoint.time.monotonic") as now:
            now.return_value = 1000.0
            other.bind(("", 0))
            other.listen()
            port, made = int(other.getsockname()[1]), Endpoint(lambda: "text\n")
            self.addCleanup(lambda: made.use(0))
            self.assertRaises(OSError, made.use, port)
            for seconds in (0, 59, 60, 119):  # the try after 60 seconds finds it taken, too
                now.return_value = 1000.0 + seconds
                made.use(port)
            other.close()
            made.use(port)
            self.assertIsNone(made.server)
            now.return_value = 1120.0
            made.use(port)
        self.assertEqual(self.get(port).status, 200)
        made.use(0)
        self.assertEqual((made.server, made.port), (None, 0))

    def test_port_that_is_taken_ends_the_one_before(self) -> None:
        made = Endpoint(lambda: "text\n")
        self.addCleanup(lambda: made.use(0))
        made.use(self.port())
        with socket.socket() as other:
            other.bind(("", 0))
            other.listen()
            self.assertRaises(OSError, made.use, int(other.getsockname()[1]))
        self.assertIsNone(made.server)
