#!/usr/bin/env python3
"""Asks the ranks of a file system every 5 seconds what they served and what they have, and writes a line each time that all answer.

    watch.py RUN_DIR FSNAME SECONDS OUT.jsonl

RUN_DIR is the folder of the daemons' admin sockets.
"""
import json
import struct
import sys
import time

import cluster

STEP = 5


def main():
    folder, name, seconds, out = sys.argv[1], sys.argv[2], float(sys.argv[3]), sys.argv[4]
    sockets = cluster.ranks(folder, name)
    end = time.time() + seconds
    with open(out, "w") as to:
        while time.time() < end:
            at = time.time()
            ranks = {}
            try:
                for rank, path in sockets.items():
                    found = cluster.ask(path, "perf dump")["mds"]
                    ranks[rank] = {it: found[it] for it in ("reply", "exported", "exported_inodes", "forward", "subtrees")}
                roots = [[path, fragment, rank] for (path, fragment), rank in cluster.roots(sockets).items()]
            except (OSError, struct.error):  # a rank that is too busy to answer in time is asked again
                time.sleep(STEP)
                continue
            with open("/proc/loadavg") as it:
                load = float(it.read().split()[0])
            with open("/proc/stat") as it:
                ticks = [int(word) for word in it.readline().split()[1:]]
            to.write(json.dumps({"at": at, "ranks": ranks, "roots": roots, "load": load, "ticks": ticks}) + "\n")
            to.flush()
            time.sleep(max(0, at + STEP - time.time()))


main()
