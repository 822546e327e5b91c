#!/usr/bin/env python3
"""Creates and unlinks files in directories of a CephFS, and writes what it offered to each of them, a line every 10 seconds.

    load.py CONF make TREE
    load.py CONF run TREE SECONDS RATE OUT.jsonl [MOVE]

CONF is a ceph.conf, and the client is admin. TREE is 12x20 (/w/p00/d00 .. /w/p11/d19), a number of children of one directory
(400: /volumes/c000 ..), or @FILE with a JSON list of [path, weight]. Weights are by Zipf's law over a fixed shuffle. RATE is
operations a second in all; what falls more than a second behind is left out. With MOVE half of them go to one project (of a
flat tree, to 20 children in a row), another one every MOVE seconds: one of all, by chance, or with MOVE/N the first N in turn.
Needs python3-cephfs.
"""
import collections
import json
import multiprocessing
import os
import random
import sys
import time

import cephfs

PROCESSES, BUCKET = 2, 10


def tree(word):
    """The directories that get load with their weights, and which of them are hot together."""
    if word.startswith("@"):
        with open(word[1:]) as it:
            found = json.load(it)
        return [it[0] for it in found], [it[1] for it in found], 20
    if "x" in word:
        projects, per = map(int, word.split("x"))
        paths = [f"/w/p{p:02}/d{d:02}" for p in range(projects) for d in range(per)]
    else:
        per = 20
        paths = [f"/volumes/c{number:03}" for number in range(int(word))]
    places = list(range(1, len(paths) + 1))
    random.Random(7).shuffle(places)
    return paths, [1 / it for it in places], per


def connect(conf):
    client = cephfs.LibCephFS(conffile=conf, auth_id="admin")
    client.mount()
    return client


def touch(client, path):
    client.close(client.open(os.fsencode(path), os.O_CREAT | os.O_WRONLY, 0o644))


def make(conf, word):
    client = connect(conf)
    paths = tree(word)[0]
    for path in paths:
        client.mkdirs(os.fsencode(path), 0o755)
        for number in range(5 + random.Random(path).randrange(30)):
            touch(client, f"{path}/f{number}")
    client.unmount()
    print(len(paths), "directories with load")


def spot_of(now, move, spots):
    """The project that has half of the load. `move` is SECONDS, or SECONDS/N for the first N in turn."""
    seconds, _, turns = move.partition("/")
    number = int(now / float(seconds))
    return number % int(turns) if turns else random.Random(number).randrange(spots)


def work(conf, word, end, rate, move, number, to):
    client = connect(conf)
    paths, weights, per = tree(word)
    rng = random.Random(number)
    start, done, serial, late = time.time(), 0, 0, 0
    counts, errors, bucket = collections.Counter(), 0, int(start) // BUCKET
    while time.time() < end:
        now = time.time()
        wait = start + done / rate - now
        if wait > 0:
            time.sleep(wait)
        elif wait < -1:  # what couldn't be done in time is left out, and isn't made up for
            late -= wait
            start -= wait
        chosen = rng.choices(paths, weights, k=16)
        if float(move.partition("/")[0]):
            spot = spot_of(now, move, len(paths) // per)
            chosen[:8] = rng.choices(paths[spot * per:(spot + 1) * per], k=8)
        for path in chosen:
            serial += 1
            name = f"{path}/t{number}_{serial}"
            try:
                touch(client, name)
                client.unlink(os.fsencode(name))
                counts[path] += 2
            except cephfs.Error:
                errors += 1
        done += 2 * len(chosen)
        if int(time.time()) // BUCKET != bucket:
            to.put((bucket * BUCKET, dict(counts), errors, round(late, 1)))
            counts, errors, late, bucket = collections.Counter(), 0, 0, int(time.time()) // BUCKET
    to.put(None)
    client.unmount()


def run(conf, word, seconds, rate, out, move="0"):
    results = multiprocessing.Queue()
    end = time.time() + seconds
    workers = [multiprocessing.Process(target=work, args=(conf, word, end, rate / PROCESSES, move, it, results), daemon=True)
               for it in range(PROCESSES)]
    for it in workers:
        it.start()
    with open(out, "w") as to:
        left = PROCESSES
        while left:
            found = results.get()
            if found is None:
                left -= 1
                continue
            at, counts, errors, late = found
            to.write(json.dumps({"at": at, "offered": counts, "errors": errors, "left_out": late}) + "\n")
            to.flush()
    for it in workers:
        it.join(20)


if __name__ == "__main__":
    if sys.argv[2] == "make":
        make(sys.argv[1], sys.argv[3])
    else:
        run(sys.argv[1], sys.argv[3], float(sys.argv[4]), float(sys.argv[5]), sys.argv[6], *sys.argv[7:])
