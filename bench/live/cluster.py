"""What the ranks of a file system say, asked through their admin sockets: cheaper than `ceph tell`."""
import glob
import json
import socket
import struct


def ask(path, prefix):
    """The answer of a daemon to a command, as Ceph prints it."""
    with socket.socket(socket.AF_UNIX) as it:
        it.settimeout(20)
        it.connect(path)
        it.sendall(json.dumps({"prefix": prefix, "format": "json"}).encode() + b"\0")
        size, = struct.unpack(">I", it.recv(4, socket.MSG_WAITALL))
        found = b""
        while len(found) < size:
            found += it.recv(size - len(found))
    return json.loads(found.decode(errors="surrogateescape"))


def ranks(folder, name):
    """The admin socket of each rank of a file system, of all in a folder (`run_dir` of start scripts)."""
    found = {}
    for path in glob.glob(f"{folder}/mds.*.asok"):
        try:
            status = ask(path, "status")
        except (OSError, ValueError):
            continue
        if status.get("state") == "up:active" and status.get("fs_name", name) == name:
            found[status["whoami"]] = path
    return dict(sorted(found.items()))


def roots(sockets):
    """The roots of subtrees: (path, fragment) to rank."""
    found = {}
    for rank, path in sockets.items():
        for it in ask(path, "get subtrees"):
            if it["is_auth"] and not it["dir"]["path"].startswith("~"):
                fragment = it["dir"]["dirfrag"].partition(".")[2]
                found[it["dir"]["path"], fragment] = rank
    return found


def ranks_of(found, path):
    """The ranks that have the content of a directory, by the roots at and above it: several where it is spread in fragments."""
    while True:
        at = sorted({rank for (root, _), rank in found.items() if root == path})
        if at or not path:
            return at
        path = path.rpartition("/")[0]
