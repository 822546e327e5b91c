#!/usr/bin/env python3
"""Prints how even a load was on the ranks: figures.py LOAD.jsonl WATCH.jsonl [--series] [FROM [TO]]

LOAD.jsonl is of load.py and WATCH.jsonl of watch.py. FROM and TO are seconds after the first line of LOAD.jsonl. `offered`
is greatest/mean of the operations that the client did, each at the rank that had its directory; `served` is that of the ranks'
replies. Where a directory is in fragments at several ranks, `offered` counts them alike, so it says nothing below a distributed
pin: take `served` there.
"""
import collections
import json
import statistics
import sys

import cluster

BUCKET, PROCESSES = 10, 2
SERIES = ("{t:5.0f} s  offered {offered:.2f}  served {served:.2f}  operations {operations:6.0f}  exports {exports:3}  "
          "inodes {inodes:6}  roots {roots:3}  load {load:.1f}")


def read(path):
    with open(path) as it:
        return [json.loads(line) for line in it]


def uneven(loads):
    return max(loads) * len(loads) / sum(loads) if sum(loads) else 1.0


def by_rank(counts, seen):
    """The operations of each rank."""
    roots = {(path, fragment): rank for path, fragment, rank in seen["roots"]}
    found = dict.fromkeys(map(int, seen["ranks"]), 0)
    for path, count in counts.items():
        ranks = cluster.ranks_of(roots, path)
        for rank in ranks:
            found[rank] += count / len(ranks)
    return list(found.values())


def row(counts, before, inside):
    """What happened in ten seconds: between the last look before them and the last one in them."""
    last = inside[-1]

    def change(name):
        return [last["ranks"][it][name] - before["ranks"][it][name] for it in last["ranks"]]
    offered, served = by_rank(counts, inside[0]), change("reply")
    return {"offered": uneven(offered), "operations": sum(offered), "served": uneven(served), "replies": sum(served),
            "ranks": (offered, served), "exports": sum(change("exported")), "inodes": sum(change("exported_inodes")),
            "roots": len(last["roots"]), "load": last["load"], "span": last["at"] - before["at"], "ticks": last["ticks"]}


def rows_of(load, watch, first, last):
    offered = collections.defaultdict(collections.Counter)
    for it in load:
        offered[it["at"]].update(it["offered"])
    start = min(offered)
    for at in sorted(offered):
        inside = [it for it in watch if at <= it["at"] < at + BUCKET]
        before = [it for it in watch if it["at"] < at]
        if first <= at - start < last and inside and before:
            yield {"t": at - start, **row(offered[at], before[-1], inside)}


def main():
    words = [it for it in sys.argv[1:] if it != "--series"]
    load, watch = read(words[0]), read(words[1])
    first, last = ([float(it) for it in words[2:]] + [0.0, 1e9][len(words) - 2:])[:2]
    rows = list(rows_of(load, watch, first, last))

    def total(name):
        return sum(it[name] for it in rows)
    if "--series" in sys.argv:
        for it in rows:
            print(SERIES.format(**it))
    sums = [[sum(rank) for rank in zip(*(it["ranks"][kind] for it in rows))] for kind in (0, 1)]
    for name in ("offered", "served"):
        values = sorted(it[name] for it in rows)
        print(f"{name} greatest/mean: mean {statistics.mean(values):.2f} median {statistics.median(values):.2f} "
              f"least {values[0]:.2f} worst {values[-1]:.2f}, of the sums {uneven(sums[name == 'served']):.2f}, "
              f"at most 1.25 in {sum(it <= 1.25 for it in values) / len(values):.0%} of the time")
    seconds = BUCKET * len(rows)
    ticks = [last - first for first, last in zip(rows[0]["ticks"], rows[-1]["ticks"])]
    print(f"{seconds} s, operations/s {total('operations') / seconds:.0f}, replies/s {total('replies') / total('span'):.0f}, "
          f"exports {total('exports')}, inodes {total('inodes')}, roots at the end {rows[-1]['roots']}, "
          f"errors {sum(it['errors'] for it in load)}, load left out {sum(it['left_out'] for it in load) / PROCESSES:.0f} s, "
          f"load of the machine {total('load') / len(rows):.1f}, idle {ticks[3] / max(1, sum(ticks)):.0%}, "
          f"stolen {ticks[7] / max(1, sum(ticks)):.1%}")


if __name__ == "__main__":
    main()
