"""What mdbal_drive asks, answered by a cluster and a mount of it, for ceph/drive and ceph/balance."""
import concurrent.futures
import json
import os
import re
import subprocess
import sys
import time
from typing import Any, List

HANGS = "the mount does not answer (was its client evicted? mount it again)"
# a touch of the mount in a process of its own, as one that hangs can't be ended
TOUCH = """
import errno, os, sys
what, mount, path = sys.argv[1], os.fsencode(sys.argv[2]), os.fsencode(sys.argv[3])
def named(name):
    try:
        return os.getxattr(mount, name).decode().strip(chr(0)) or "-"
    except OSError:
        return "-"
if what == "whose":
    os.listdir(mount) # so that the ranks know this client
    print(named("ceph.cluster_fsid"), named("ceph.client_id"))
    sys.exit()
try:
    place = os.open(mount + path, os.O_RDONLY | os.O_DIRECTORY | os.O_NOFOLLOW)
    if what == "get":
        print("found", os.fstat(place).st_ino, os.getxattr(place, "ceph.dir.pin").decode().strip(chr(0)))
    else:
        os.setxattr(place, "ceph.dir.pin", what.encode())
        print("done")
except OSError as it:
    if it.errno in (errno.ENOENT, errno.ENOTDIR) and os.path.ismount(mount):
        print("refused" if os.path.lexists(mount + path) else "gone") # a link, or a file
    else:
        print("no-answer" if it.errno in (errno.ENOENT, errno.ENOTCONN, errno.ESHUTDOWN, errno.ETIMEDOUT) else "refused")
"""


def unescaped(text: str) -> bytes:
    return re.sub(rb"\\([0-3][0-7][0-7])", lambda it: bytes([int(it[1], 8)]), text.encode("ascii"))


def escaped(text: str) -> str:
    return "".join(chr(it) if 32 < it < 127 and it != 92 else f"\\{it:03o}" for it in text.encode())


class Host:
    """What mdbal_drive asks, answered by a cluster and a mount of it."""

    def __init__(self, fs: str, mount: str, text: str, limit: int) -> None:
        self.fs, self.mount, self.text, self.limit = fs, mount.rstrip("/"), text, limit

    def ceph(self, *words: str) -> Any:
        ran = subprocess.run(["ceph", *words], stdout=subprocess.PIPE, stderr=subprocess.DEVNULL, timeout=self.limit, check=True)
        return json.loads(ran.stdout.decode("latin-1"))

    def side_by_side(self, *calls: List[str]) -> List[Any]:
        """The answers to calls of ceph, each of which takes some tenths of a second."""
        with concurrent.futures.ThreadPoolExecutor(len(calls)) as pool:
            return list(pool.map(lambda words: self.ceph(*words), calls))

    def refusal(self) -> str:
        """Why the mount is not the root of the file system of the text; empty where nothing says so."""
        with open(self.text, encoding="ascii") as it:
            name = unescaped(it.read().split("\n")[1].partition(" ")[2]).decode()
        fsid = self.ceph("fsid", "-f", "json")["fsid"]
        if name != f"{self.fs} {fsid}":
            return f"{self.text} is of {name}, not of {self.fs} {fsid}"
        cluster, _, client = self.touch("whose", "").partition(" ")
        if not client:
            return f"{self.mount}: {HANGS}"
        if cluster not in ("-", fsid):
            return f"{self.mount} is of cluster {cluster}"
        if client == "-":
            return ""
        found = [it for it in self.ceph("tell", f"mds.{self.fs}:0", "client", "ls") if f"client{it['id']}" == client]
        if not found:
            return f"{self.mount} is not of the file system {self.fs}"
        root = found[0].get("client_metadata", {}).get("root", "/")
        return "" if root == "/" else f"{self.mount} is not the root of {self.fs}: its client says {root}"

    def not_moving(self) -> str:
        """Why pins would move nothing, not even when the option is true again; empty where nothing says so."""
        ranks = self.ceph("fs", "get", self.fs, "-f", "json")["mdsmap"]["in"]
        found = self.side_by_side(*(["tell", f"mds.{self.fs}:{rank}", "config", "get", "mds_bal_export_pin"] for rank in ranks))
        still = [rank for rank, it in zip(ranks, found) if it["mds_bal_export_pin"] != "true"]
        return f"rank {still[0]} does not move pinned directories (mds_bal_export_pin)" if still else ""

    def is_scrubbed(self) -> bool:
        return "no active scrubs" not in self.ceph("tell", f"mds.{self.fs}:0", "scrub", "status")["status"]

    def wait(self, seconds: str) -> str:
        time.sleep(int(seconds))
        return "waited"

    def counts(self, code: str, check: Any, daemons: List[str]) -> bool:
        """Whether a health warning is to stop a run: an error, or one of file systems, unless each line of it names another one."""
        if not code.startswith(("MDS_", "FS_")):
            return check["severity"] == "HEALTH_ERR"
        named = [re.match(r"mds\.?(\S+)\(mds\.\d+\): |fs (\S+) ", it["message"]) for it in check.get("detail", [])]
        return not named or any(it is None or it[1] in daemons or it[2] == self.fs for it in named)

    def cluster(self) -> str:
        answer, health = self.side_by_side(["fs", "get", self.fs, "-f", "json"], ["health", "detail", "-f", "json"])
        found, checks = answer["mdsmap"], health["checks"]
        daemons = sorted((it["rank"], it["name"], it["state"]) for it in found["info"].values())
        ranks = json.dumps([found["max_mds"], found["in"], daemons], separators=(",", ":"))
        counted = sorted(code for code, it in checks.items() if self.counts(code, it, [name for _, name, _ in daemons]))
        return " ".join(["cluster", *map(escaped, [ranks, *counted])])

    def roots(self) -> str:
        ranks = self.ceph("fs", "get", self.fs, "-f", "json")["mdsmap"]["in"]
        found = self.side_by_side(*(["tell", f"mds.{self.fs}:{rank}", "get", "subtrees"] for rank in ranks))
        for root in (root for roots in found for root in roots if root["is_auth"]):
            if root["auth_second"] != -2 or root["export_pin"] in ranks and root["export_pin"] != root["auth_first"]:
                return "moving"
        return "in-place"

    def store(self, lines: List[str]) -> str:
        with open(f"{self.text}.new", "w", encoding="ascii") as it:
            it.write("".join(lines))
            it.flush()
            os.fsync(it.fileno())
        os.rename(f"{self.text}.new", self.text)
        return "stored"

    def touch(self, what: str, path: str) -> str:
        """A look at a directory, or a pin that is set."""
        words = [sys.executable, "-c", TOUCH, what, self.mount, os.fsdecode(unescaped(path))]
        made = subprocess.Popen(words, stdout=subprocess.PIPE, stderr=subprocess.DEVNULL, universal_newlines=True)
        answer = ""
        try:
            answer = made.communicate(timeout=self.limit)[0].strip()
        except subprocess.TimeoutExpired:
            made.kill()
        if answer in ("", "no-answer"):
            print(f"drive: {self.mount}: {HANGS}", file=sys.stderr, flush=True)
        return answer or "no-answer"

    def answer(self, line: str, rest: Any) -> str:
        word, _, more = line.partition(" ")
        if word == "store":
            lines: List[str] = []
            for one in rest:
                if one == ".\n":
                    return self.store(lines)
                lines.append(one)
        if word == "get":
            return self.touch("get", more)
        if word == "set":
            pin, _, path = more.partition(" ")
            return self.touch(pin, path)
        return self.wait(more) if word == "wait" else self.cluster() if word == "cluster" else self.roots()
