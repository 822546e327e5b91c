#!/usr/bin/env python3
"""Writes what ceph/collect would write of a file system with n directories on 8 ranks: dumps.py DIR N [SEED [HOURS]].

The tree is broad and shallow. Each of the root's children is at some rank with all below it. Heat is by Zipf's law over the
directories in random order. A directory's fragment has the counters that Ceph 16.2 prints of it, and a dump ends in a bare
`-inf`, as 16.2 prints it. With HOURS there are as many records of earlier hours, hour.1 and so on, each with the same heats at
other directories.
"""
import json
import random
import sys

RANKS = 8
POPULATIONS = ("pop_me", "pop_nested", "pop_auth_subtree", "pop_auth_subtree_nested")
COUNTERS = 5
COMPLETE = "lab 0d2c6f0e-1a53-4c3c-9d83-5f6a1d1f2a77\n"


def tree(n, rng):
    """The path of each directory, parents first, and the rank that has it."""
    paths, ranks = [""], [0]
    for number in range(1, n):
        parent = rng.randrange(max(1, number // 16)) if number > 16 else 0
        word = rng.choice(("src", "lib", "doc", "data", "home"))
        paths.append(f"{paths[parent]}/{word}{number}")
        ranks.append(rng.randrange(RANKS) if parent == 0 else ranks[parent])
    return paths, ranks


def counters(heat, rng):
    """Five counters, of reads, writes, readdirs, fetches and stores, that come to a heat; zeros where there is none."""
    values = [0] * COUNTERS
    if heat > 0:
        values[0] = heat * rng.random()
        values[1] = (heat - values[0]) / 2
    return {"Decay Counters": [{"value": value, "halflife": 5} for value in values]}


def fragment(path, number, heat, rng):
    """A directory's fragment with its counters, of which the first are its own."""
    heats = (heat, 2 * heat, heat, 2 * heat)
    found = {"path": path, "dirfrag": f"0x{0x10000000000 + number:x}"}
    found.update((name, counters(value, rng)) for name, value in zip(POPULATIONS, heats))
    return found


def root(path, rank):
    """The root of a subtree, as the rank that has it tells it."""
    return {"is_auth": True, "auth_first": rank, "auth_second": -2, "export_pin": -1, "distributed_ephemeral_pin": False,
            "random_ephemeral_pin": False, "export_pin_target": -1, "dir": {"path": path}}


def write(path, text):
    with open(path, "w") as to:
        to.write(text)


def write_hours(folder, paths, heats, hours, rng):
    """Records of earlier hours, as `--record` of mdbal_ceph writes them."""
    for hour in range(1, hours + 1):
        rng.shuffle(heats)
        lines = [f"{int(1000 * heat)} {path}\n" for path, heat in zip(paths, heats)]
        write(f"{folder}/hour.{hour}", f"mdbal-hour 1\n{COMPLETE}{' '.join('0' * 64)}\n{''.join(lines)}")


def main():
    folder, n = sys.argv[1], int(sys.argv[2])
    rng = random.Random(int(sys.argv[3]) if len(sys.argv) > 3 else 1)
    paths, ranks = tree(n, rng)
    heats = [1000 / place for place in range(1, n + 1)]
    rng.shuffle(heats)
    daemons = {f"gid_{100 + rank}": {"rank": rank, "state": "up:active"} for rank in range(RANKS)}
    members = {"max_mds": RANKS, "in": list(range(RANKS)), "info": daemons, "bal_rank_mask": "-1"}
    write(f"{folder}/fs.json", json.dumps({"mdsmap": members, "id": 1}))
    write(f"{folder}/complete", COMPLETE)
    for rank in range(RANKS):
        mine = [number for number in range(n) if ranks[number] == rank]
        fragments = [fragment(paths[number], number, heats[number], rng) for number in mine]
        text = json.dumps({"dirfrags": fragments}, separators=(",", ":"))
        write(f"{folder}/loads.{rank}.1.json", text[:-1] + ',"mds_load":{"mds.0":{"halflife":-inf}}}')
        roots = [root(paths[number], rank) for number in mine if paths[number].count("/") < 2]
        write(f"{folder}/subtrees.{rank}.json", json.dumps(roots))
    names = (path[1:] or "." for path in paths)
    write(f"{folder}/dirs", "".join(f'# file: {name}\nceph.dir.entries="{1 + rng.randrange(1000)}"\n\n' for name in names))
    if len(sys.argv) > 4:
        write_hours(folder, paths, heats, int(sys.argv[4]), rng)


main()
