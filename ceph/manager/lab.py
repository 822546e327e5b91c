"""The cluster of ceph/manager/trials, and what its trials ask: two managers over ceph/trials/cluster, the module, and a load."""
import contextlib
import json
import os
import re
import select
import shutil
import signal
import subprocess
import sys
import threading
import time
from typing import Any, Callable, Dict, Iterator, List, Optional, Tuple

import cephfs

LAB, TOP = os.environ["LAB"], os.environ["TOP"]
CONF = LAB + "/ceph.conf"
ROOT = "/t"


class Differs(Exception):
    pass


def holds(what: str, is_so: Any, seen: Any = "") -> None:
    if not is_so:
        raise Differs("{}: not so; seen: {}".format(what, str(seen).strip()[-900:]))


def run(*words: str, limit: int = 60) -> Tuple[int, str]:
    """The status of a command, and what it prints, both streams together."""
    done = subprocess.run(words, env=dict(os.environ, CEPH_CONF=CONF), stdout=subprocess.PIPE, stderr=subprocess.STDOUT, timeout=limit, check=False)
    return done.returncode, done.stdout.decode("latin-1")


def ceph(*words: str, limit: int = 60) -> str:
    status, said = run("ceph", *words, limit=limit)
    holds("ceph " + " ".join(words), status == 0, said)
    return said


def told(*words: str) -> Any:
    done = subprocess.run(["ceph", *words, "--format", "json"], env=dict(os.environ, CEPH_CONF=CONF), stdout=subprocess.PIPE,
                          stderr=subprocess.DEVNULL, timeout=60, check=True)
    return json.loads(done.stdout.decode("latin-1"))


def until(what: str, seconds: float, test: Callable[[], Any]) -> Any:
    end, found = time.time() + seconds, None
    while True:
        with contextlib.suppress(subprocess.SubprocessError, ValueError, KeyError):
            found = test()
        if found:
            return found
        holds(what, time.time() < end, found)
        time.sleep(0.5)


# The cluster


def pid_of(name: str) -> int:
    with open(LAB + "/pids", encoding="ascii") as it:
        return [int(line.split()[0]) for line in it if line.split()[1] == name][-1]


def launch(name: str, *words: str) -> None:
    with open("{}/log/{}.out".format(LAB, name), "ab") as out:
        made = subprocess.Popen(words, stdout=out, stderr=out, stdin=subprocess.DEVNULL, start_new_session=True)
    with open(LAB + "/pids", "a", encoding="ascii") as it:
        it.write("{} {}\n".format(made.pid, name))
    threading.Thread(target=made.wait, daemon=True).start()


def end(name: str, number: int = signal.SIGTERM) -> None:
    os.kill(pid_of(name), number)
    until(name + " ends", 30, lambda: not is_running(name))


def is_running(name: str) -> bool:
    try:
        with open("/proc/{}/stat".format(pid_of(name)), encoding="ascii", errors="replace") as it:
            return it.read().rpartition(")")[2].split()[0] != "Z"
    except OSError:
        return False


def manager(name: str) -> None:
    launch("mgr." + name, "ceph-mgr", "-c", CONF, "-i", name, "-f")


def active() -> str:
    return str(told("mgr", "dump")["active_name"])


def start() -> None:
    subprocess.run([TOP + "/ceph/trials/cluster", "start"], check=True)
    module = "/usr/share/ceph/mgr/mdbal"  # that of the package
    if "MDBAL_CEPH" in os.environ:
        module = LAB + "/module/mdbal"
        shutil.rmtree(LAB + "/module", ignore_errors=True)
        shutil.copytree(TOP + "/ceph/manager/mdbal", module)
        for name in ("mdbal_ceph", "mdbal_drive"):
            shutil.copy(os.environ[name.upper()], module + "/" + name)
    with contextlib.suppress(FileNotFoundError):
        os.remove(LAB + "/modules/mdbal")
    os.symlink(module, LAB + "/modules/mdbal")
    with open(LAB + "/modules/bcrypt.py", "w", encoding="ascii"):
        pass  # on Debian 13 the one of the system is not imported twice
    end("mgr")
    key = ceph("auth", "get-or-create", "mgr.y", "mon", "allow profile mgr", "osd", "allow *", "mds", "allow *")
    with open(LAB + "/keyring", "a", encoding="ascii") as it:
        it.write(key)
    manager("x")
    until("a manager", 60, lambda: told("mgr", "dump")["available"] and active() == "x")
    manager("y")
    until("a standby", 60, lambda: told("mgr", "dump")["standbys"])
    ceph("mgr", "module", "enable", "mdbal")
    until("the module", 60, lambda: run("ceph", "fs", "mdbal", "status")[0] == 0)
    until("the module reads its state", 60, lambda: "not read" not in ceph("fs", "mdbal", "status"))
    option("batch", "6")  # two directories
    option("poll", "1")


def ready() -> None:
    """Both managers are there, all ranks are active and the module answers."""
    for name in "xy":
        if not is_running("mgr." + name):
            manager(name)
    until("managers", 90, lambda: told("mgr", "dump")["available"] and told("mgr", "dump")["standbys"])
    until("ranks", 90, lambda: sum(it["state"] == "up:active" for it in told("fs", "get", "lab")["mdsmap"]["info"].values()) == 3)
    until("the module", 90, lambda: run("ceph", "fs", "mdbal", "status", "lab")[0] == 0 and idle() is not None)


def restart_managers() -> None:
    for name in "xy":
        if is_running("mgr." + name):
            end("mgr." + name, signal.SIGKILL)
    for name in "xy":
        manager(name)
    time.sleep(5)
    ready()


# The module


def status(fs: str = "lab") -> Dict[str, Any]:
    found = told("fs", "mdbal", "status", fs)
    return dict(found["file_systems"][fs], doing=found["doing"], waiting=found["waiting"])


def idle(fs: str = "lab") -> Optional[Dict[str, Any]]:
    found = status(fs)
    return None if found["doing"] or found["waiting"] or "refused" in found else found


def mdbal(what: str, *words: str, fs: str = "lab", seconds: float = 240) -> str:
    """Asks for a job, and gives what it came to."""
    ceph("fs", "mdbal", what, fs, *words)
    time.sleep(0.3)
    return str(until("{} ends".format(what), seconds, lambda: idle(fs))["last"])


def plan(fs: str = "lab") -> str:
    said = mdbal("plan", fs=fs)
    holds("a plan is proposed", re.match(r"plan: plan [0-9a-f]{12}: \d+ pins to change", said), said)
    return said.split()[2].rstrip(":")


def begin(what: str, *words: str, settled: int = 1) -> None:
    """Asks for a job, and waits until it has set some pins."""
    ceph("fs", "mdbal", what, "lab", *words)
    until("some pins are set", 90, lambda: status().get("set", {}).get("settled_now", 0) >= settled)


def option(name: str, value: str) -> None:
    ceph("config", "set", "mgr", "mgr/mdbal/" + name, value)


def warned(code: str) -> bool:
    return code in told("health")["checks"]


# The file system


def client(fs: str = "lab") -> Any:
    lib = cephfs.LibCephFS(conffile=CONF, auth_id="admin")
    lib.mount(filesystem_name=fs.encode())
    return lib


def make(lib: Any, root: str, names: List[bytes], files: int = 3) -> None:
    for name in names:
        path = root.encode() + b"/" + name
        with contextlib.suppress(cephfs.ObjectExists):
            lib.mkdirs(path, 0o755)
        for number in range(files):
            lib.close(lib.open(path + b"/f%d" % number, os.O_CREAT | os.O_WRONLY, 0o644))


def pins_of(lib: Any) -> Dict[bytes, int]:
    """The pins in the tree of the trials."""
    lib.sync_fs()
    found = {}
    todo = [ROOT.encode()]
    while todo:
        path = todo.pop()
        pin = int(lib.getxattr(path, "ceph.dir.pin").decode().strip("\0"))
        if pin >= 0:
            found[path] = pin
        with lib.opendir(path) as entries:
            entry = lib.readdir(entries)
            while entry:
                if entry.is_dir() and entry.d_name not in (b".", b".."):
                    todo.append(path + b"/" + entry.d_name)
                entry = lib.readdir(entries)
    return found


def home(lib: Any) -> None:
    """Brings all directories of the trials to rank 0, without a pin: what is not pinned stays where it was."""
    for path in pins_of(lib):
        lib.setxattr(path, "ceph.dir.pin", b"-1", 0)
    lib.setxattr(ROOT, "ceph.dir.pin", b"0", 0)
    for rank in (1, 2):
        until("all is at rank 0", 120, lambda: not [it for it in told("tell", "mds.lab:{}".format(rank), "get", "subtrees")
                                                    if it["is_auth"] and it["dir"]["path"].startswith(ROOT)])
    lib.setxattr(ROOT, "ceph.dir.pin", b"-1", 0)


@contextlib.contextmanager
def heated(names: List[bytes], fs: str = "lab") -> Iterator[None]:
    """Creates and removes a file in these directories in turn, some 150 times a second, in a process of its own."""
    load = subprocess.Popen([sys.executable, os.path.dirname(os.path.abspath(__file__)) + "/trials", "--heat", fs] + [name.hex() for name in names],
                            stdout=subprocess.PIPE)
    assert load.stdout
    try:
        begun = select.select([load.stdout], [], [], 120)[0]  # a busy cluster takes its time until a client is mounted
        holds("the load has begun", begun and load.stdout.readline())
        time.sleep(15)
        yield
    finally:
        load.kill()
        load.wait()


def heat(fs: str, names: List[bytes]) -> None:
    lib = client(fs)
    begin_at, done = time.time(), 0
    while True:
        for place, name in enumerate(names):
            if place and done % (place % 4 + 1):
                continue
            with contextlib.suppress(cephfs.Error):
                path = ROOT.encode() + b"/" + name + b"/.heat"
                lib.close(lib.open(path, os.O_CREAT | os.O_WRONLY, 0o644))
                lib.unlink(path)
        done += 1
        if done == 1:
            print("begun", flush=True)
        time.sleep(max(0.0, begin_at + done * len(names) / 75 - time.time()))


NAMES = [b"p%d/d%d" % (a, b) for a in range(4) for b in range(5)]
