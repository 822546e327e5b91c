#!/usr/bin/env python3
"""Prints how well weights of Ceph's counters tell what the ranks serve: weights.py LOAD.jsonl WATCH.jsonl DUMPS..

LOAD.jsonl is of load.py, WATCH.jsonl of watch.py, and DUMPS are folders that ceph/collect wrote meanwhile. A line for each choice
of weights (read, write, readdir, fetch, store), averages over the folders: the part of the heat that lies at another rank than
the replies, at another rank than the operations that the client did, and at another directory than these.
"""
import collections
import json
import os
import statistics
import sys

import figures

CHOICES = {"Ceph's": (1, 2, 1, 2, 4), "reads and writes": (1, 1, 0, 0, 0), "writes": (0, 1, 0, 0, 0), "all alike": (1, 1, 1, 1, 1)}
BEFORE = 5  # seconds: the half-life of the counters


def counters(folder):
    """The five counters by rank and directory, summed over the samples, and when the samples were taken."""
    found, times = collections.defaultdict(lambda: [0.0] * 5), []
    for file in filter(lambda it: it.startswith("loads."), os.listdir(folder)):
        times.append(os.path.getmtime(f"{folder}/{file}"))
        with open(f"{folder}/{file}", "rb") as it:
            text = it.read().decode(errors="surrogateescape")
        # what follows this list isn't JSON in Ceph 16
        for fragment in json.JSONDecoder().raw_decode(text, text.index('"dirfrags":') + 11)[0]:
            if fragment["path"][:1] in ("", "/"):
                total = found[int(file.split(".")[1]), fragment["path"]]
                for at, it in enumerate(next(iter(fragment["pop_me"].values()))[:5]):
                    total[at] += it["value"]
    return found, times


def apart(one, other):
    """The part of the first that lies elsewhere than the second."""
    sums = [sum(it.values()) or 1 for it in (one, other)]
    return sum(abs(one.get(key, 0) / sums[0] - other.get(key, 0) / sums[1]) for key in {*one, *other}) / 2


def distances(counted, weights, served, offered, by_path):
    ranks, paths = collections.Counter(), collections.Counter()
    for (rank, path), values in counted.items():
        heat = sum(weight * it for weight, it in zip(weights, values))
        ranks[rank] += heat
        paths[path] += heat
    return apart(ranks, served), apart(ranks, offered), apart(paths, by_path)


def seen(load, watch, folder):
    """The counters of a folder, and the replies and operations by rank, and the operations by directory, of that time."""
    counted, times = counters(folder)
    first, last = min(times) - BEFORE, max(times)
    rows = list(figures.rows_of(load, watch, first - load[0]["at"], last - load[0]["at"]))
    offered, served = ({rank: sum(row["ranks"][kind][rank] for row in rows) for rank in range(len(watch[0]["ranks"]))} for kind in (0, 1))
    by_path = sum((collections.Counter(it["offered"]) for it in load if first <= it["at"] < last), collections.Counter())
    return counted, served, offered, by_path


def main():
    load, watch = figures.read(sys.argv[1]), figures.read(sys.argv[2])
    found = [it for it in (seen(load, watch, folder) for folder in sys.argv[3:]) if it[3]]
    for name, weights in CHOICES.items():
        means = [statistics.mean(it) for it in zip(*(distances(counted, weights, *rest) for counted, *rest in found))]
        print(f"{name:16} {means[0]:.1%} at another rank than the replies, {means[1]:.1%} than the operations, "
              f"{means[2]:.1%} at another directory; {len(found)} folders")


if __name__ == "__main__":
    main()
