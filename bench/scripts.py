#!/usr/bin/env python3
"""Writes a script of n directories, n loads and a `go`, and then what is asked: scripts.py SHAPE WHAT N [SEED].

WHAT: cost (of 1,000 tops), stat (a tick and a report), plan, replan (a plan, its moves, n // 10 more loads, and a plan again),
hits (60,000,000 of them in the loads).

Shapes: fs (broad and shallow, as a file system's top), usr (deeper, names of several letters), star (all below the root).
"""
import random
import sys


def parents(shape, n, rng):
    """Yields a parent for each directory from 1 on."""
    for number in range(1, n):
        if shape == "star":
            yield 0
        elif shape == "fs":
            yield rng.randrange(max(1, number // 16)) if number > 16 else 0
        else:
            yield rng.randrange(max(0, number - 400), number)


def main():
    shape, what, n = sys.argv[1], sys.argv[2], int(sys.argv[3])
    rng = random.Random(int(sys.argv[4]) if len(sys.argv) > 4 else 1)
    paths, lines = [""], ["ranks 8", "mask -1"]
    depth = [0]
    for number, parent in enumerate(parents(shape, n, rng), 1):
        while depth[parent] > 30:
            parent = rng.randrange(number)
        depth.append(depth[parent] + 1)
        paths.append(f"{paths[parent]}/{rng.choice(['src', 'lib', 'doc', 'data', 'home'])}{number}")
        lines.append(f"dir {paths[number]} {rng.randrange(1000)}")
    for _ in range(n):
        hits = 60_000_000 // n if what == "hits" else 1 + rng.randrange(1000)
        lines.append(f"load {rng.choice(paths) or '/'} {hits}")
    lines.append("go")
    if what == "stat":
        lines += ["tick", "stat"]
    elif what == "plan":
        lines.append("plan")
    elif what == "replan":
        loads = [f"load {rng.choice(paths) or '/'} {1 + rng.randrange(1000)}" for _ in range(n // 10)]
        lines += ["plan", "move", *loads, "go", "plan"]
    else:
        lines.append("cost " + " ".join(rng.sample(paths[1:], min(1000, n - 1))))
    print("\n".join(lines))


main()
