"""The folder of state of ceph/balance, which only its owner may read:

  plan       the last plan and how far it is, as mdbal_drive stored it (docs/DRIVER.md): so it names the pins that rounds set
  own        the list of these pins; two lines of a directory that may have either. It is read where there is no plan, with pending,
             in which earlier versions kept the pin that was being set
  rounds/N   dumps, own (of before), report, plan.json, pins.sh, pins.sh.back, pins.sh.own, pins.sh.plan, log (all that mdbal_drive
             asked), waits (what was said of records that it made while it waited); after the last pin check (dumps without loads), held (what mdbal_ceph --check says of them), and empty
             (directories that move once they have an entry)
  hours/N    the heat of round N, as mdbal_ceph --record writes it, and hours/N.K what it recorded while it waited; the last 168
  history    a line a round: time, round, status, what happened
"""
import fcntl
import json
import os
import re
import shutil
import signal
import subprocess
import sys
import time
from typing import Any, Callable, Dict, List, Set, Tuple

from host import unescaped

HERE = os.path.dirname(os.path.realpath(__file__))
SIGNALS = (signal.SIGHUP, signal.SIGINT, signal.SIGTERM)
HOURS = 168  # so many records of the heat are kept
Pins = Dict[bytes, List[bytes]]  # the ranks of a directory's pin, by its path as in lists of pins


def pins_of(text: str) -> Pins:
    """The pins that a stored text says are ours: of each directory the rank, or two where it may have either."""
    if not text.startswith("mdbal_pins 1\n"):
        raise ValueError(f"the plan of another version: {text[:40].splitlines()[0]}")
    begun, certain = map(int, re.findall(r"^mark (\d+) (\d+)$", text, re.M)[0])
    pins = {path: [rank] for rank, path in re.findall(r"^pin \S+ (\d+) (\S+)$", text, re.M)}
    changes = re.findall(r"^change \S+ \S+ (\S+) \d+ (\S+)$", text, re.M)
    for place, (after, path) in enumerate(changes[:begun]):
        pins[path] = (pins.get(path, []) if place >= certain else []) + ([after] if after != "-" else [])
    listed = lambda path: re.sub(rb"[\\\n\r]", lambda it: b"\\%03o" % ord(it[0]), unescaped(path))
    return {listed(path): [it.encode() for it in ranks] for path, ranks in pins.items() if ranks}


def read_list(path: str) -> Pins:
    """A list of pins, of which the last line of a directory counts. It is empty where there is no such file."""
    if not os.path.exists(path):
        return {}
    with open(path, "rb") as it:
        lines = [line.rstrip(b"\n").partition(b" ") for line in it]
    return {place: [rank] for rank, _, place in lines if rank.isdigit()}


def write_list(path: str, pins: Pins) -> None:
    """Writes a list of pins, those of deeper directories first."""
    with open(f"{path}.new", "wb") as it:
        it.writelines(b"%s %s\n" % (rank, place) for place in sorted(pins, reverse=True) for rank in pins[place])
    os.rename(f"{path}.new", path)


def known_pins(state: str) -> Pins:
    """Those of a folder of state: by the text of its last plan, or where there is none as earlier versions wrote them."""
    if os.path.exists(f"{state}/plan"):
        with open(f"{state}/plan", encoding="ascii") as it:
            return pins_of(it.read())
    pins = read_list(f"{state}/own")
    for place, rank in read_list(f"{state}/pending").items():
        pins[place] = pins.get(place, []) + rank
    return pins


def attribute(dumps: str, name: str, pins: Pins) -> Dict[bytes, bytes]:
    """What ceph/collect read of these directories, by path."""
    found, place = {}, b""
    with open(f"{dumps}/dirs", "rb") as it:
        for line in it:
            if line.startswith(b"# file: "):
                place = b"/" + line[8:].rstrip(b"\n")
            elif line.startswith(f"{name}=".encode()) and place in pins:
                found[place] = line.split(b'"')[1]
    return found


def settled(pins: Pins, dumps: str) -> Pins:
    """The same, where a directory may have one of two pins with the one that it has."""
    found = attribute(dumps, "ceph.dir.pin", pins)
    return {place: [it for it in ranks if len(ranks) == 1 or found.get(place, it) == it][-1:] for place, ranks in pins.items()}


def records(state: str) -> List[str]:
    """The records of the heat, oldest first."""
    names = sorted(os.listdir(f"{state}/hours"), key=lambda it: [int(number) for number in it.split(".")])
    return [f"{state}/hours/{it}" for it in names]


def past_hours(state: str, dumps: str) -> List[str]:
    """The records of the heat, oldest first. One that has none of the directories that are there now is left out."""
    with open(f"{dumps}/dirs", "rb") as it:
        known = {b"/" + line[8:].rstrip(b"\n") for line in it if line.startswith(b"# file: ")}
    return [it for it in records(state) if is_of(it, known)]


def is_of(record: str, known: Set[bytes]) -> bool:
    """Whether a record of an hour's heat has one of these directories."""
    with open(record, "rb") as it:
        return any(line.rstrip(b"\n").partition(b" ")[2] in known for line in it)


def keep_hour(state: str, record: str, name: str) -> None:
    """Keeps a record of the heat by this name, and the last ones."""
    os.rename(record, f"{state}/hours/{name}")
    for old in records(state)[:-HOURS]:
        os.remove(old)


class Stopped(Exception):
    """A round that goes no further."""


class Round:
    """A round by a command line, which names a file system, a folder of state and a mount. `carry_out` carries it out."""

    def __init__(self, asked: Any) -> None:
        self.asked, self.state = asked, os.path.abspath(asked.state)
        self.earlier = sorted(map(int, os.listdir(f"{self.state}/rounds")), reverse=True)
        self.number = max(self.earlier, default=0) + 1
        self.folder, self.plan = f"{self.state}/rounds/{self.number}", f"{self.state}/plan"
        self.limit = ["--timeout", str(asked.timeout)]
        self.of_mount = ["--mount", asked.mount, *self.limit]
        os.mkdir(self.folder)

    def carry_out(self) -> Tuple[int, str]:
        """The status, and what happened."""
        raise NotImplementedError

    def run(self, *words: str, out: str = os.devnull, log: str = "log", meanwhile: Callable[[], None] = lambda: None) -> int:
        """The status of a step, which ends with the round. What it prints goes to a file of the round, what it says to the log. While it
        runs, `meanwhile` is called each second."""
        with open(os.path.join(self.folder, out), "wb") as printed, open(os.path.join(self.folder, log), "ab") as said:
            made = subprocess.Popen(words, stdin=subprocess.DEVNULL, stdout=printed, stderr=said)
            try:
                while True:
                    try:
                        return made.wait(1)
                    except subprocess.TimeoutExpired:
                        meanwhile()
            finally:
                made.terminate()
                made.wait()

    def collect(self, name: str, *words: str, log: str = "log") -> int:
        """Collects into a folder of the round, anew where it is there."""
        shutil.rmtree(f"{self.folder}/{name}", ignore_errors=True)
        return self.run(f"{HERE}/collect", self.asked.fs, f"{self.folder}/{name}", *words, log=log)

    def said(self, begin: str = "", file: str = "log") -> str:
        """The last line of a file of the round that begins so; empty where there is none."""
        with open(f"{self.folder}/{file}", "a+", encoding="utf-8", errors="replace") as it:
            it.seek(0)
            return ["", *(line.rstrip("\n") for line in it if line.startswith(begin))][-1]

    def may_hold(self) -> List[str]:
        """Writes the lists `checked` and `empty`, by the dumps `check`: pins of directories that are there, to ranks that are there, with
        an entry; and those without, whose directories are returned."""
        pins = known_pins(self.state)
        with open(f"{self.folder}/check/fs.json", encoding="latin-1") as it:
            ranks = [b"%d" % rank for rank in json.load(it)["mdsmap"]["in"]]
        entries = attribute(f"{self.folder}/check", "ceph.dir.entries", pins)
        write_list(f"{self.folder}/checked", {it: pins[it] for it, count in entries.items() if count != b"0" and pins[it][-1] in ranks})
        write_list(f"{self.folder}/empty", {it: pins[it] for it, count in entries.items() if count == b"0"})
        return [re.sub("[^ -~]", "?", it.decode("latin-1")) for it, count in entries.items() if count == b"0"]

    def end(self) -> int:
        """Carries it out, and ends it wherever that ends: its status."""
        try:
            status, told = self.carry_out()
        except (Stopped, OSError, ValueError, LookupError, subprocess.SubprocessError) as why:
            back = f"ceph/drive {self.asked.fs} restore --mount {self.asked.mount} --text {self.plan} takes back what was set"
            status, told = (4, f"{why}: {back}") if self.said("set ") else (1, str(why))
        ignore_signals()
        with open(f"{self.state}/history", "a", encoding="utf-8") as it:
            it.write(f"{time.strftime('%Y-%m-%dT%H:%M:%SZ', time.gmtime())} round {self.number} status {status} {told}\n")
        if told != "all pins hold":
            print(f"balance: {told}", file=sys.stderr)
        for number in self.earlier[self.asked.keep_rounds - 1 :]:
            shutil.rmtree(f"{self.state}/rounds/{number}")
        if self.asked.metrics:
            os.umask(0o022)
            with open(f"{self.asked.metrics}.new", "wb") as it:
                ran = subprocess.run([f"{HERE}/rounds", "metrics", self.state, self.asked.fs], stdout=it, check=False)
            if ran.returncode == 0:
                os.rename(f"{self.asked.metrics}.new", self.asked.metrics)
        return status


def ignore_signals() -> None:
    for it in SIGNALS:
        signal.signal(it, signal.SIG_IGN)


def on_signal(*_: Any) -> None:
    ignore_signals()
    raise Stopped("stopped by a signal")


def carried_out(kind: Any, asked: Any) -> int:
    """The status of a round of this kind; 5 where another round is running."""
    os.umask(0o077)
    for name in ("rounds", "hours"):
        os.makedirs(f"{asked.state}/{name}", exist_ok=True)
    with open(f"{asked.state}/lock", "w", encoding="ascii") as lock:
        try:
            fcntl.flock(lock, fcntl.LOCK_EX | fcntl.LOCK_NB)
        except OSError:
            print(f"balance: another round is running on {asked.state}", file=sys.stderr)
            return 5
        for it in SIGNALS:
            signal.signal(it, on_signal)
        return kind(asked).end()
