#!/usr/bin/env python3
"""Plans and applies once beside what mdbal_ceph must leave alone, and compares each subtree root with the plan.

    held.py CONF RUN_DIR FSNAME MOUNT FOLDER [OPTION OF mdbal_ceph..]

CONF is a ceph.conf of a throw-away cluster with three active ranks, no standby and the balancer off, on which
mds_export_ephemeral_random_max is 1. RUN_DIR has the admin sockets, MOUNT is the root of the file system, and FOLDER is for the
results. mdbal_ceph is on PATH. The tree gets a random policy (/rnd), distributed ones (/dist with content, /dorm without),
pins of others to a rank that is there (/theirs) and to ones that aren't (/arch, /late), names that shells and terminals know,
and a planned directory that is a link by the time the script runs. max_mds becomes 4. Run it as root, with the python that has
python3-cephfs.
"""
import json
import os
import subprocess
import sys
import time

import cluster

HERE = os.path.dirname(os.path.abspath(__file__))
COLLECT = f"{HERE}/../../ceph/collect"
RANKS, SECONDS, RATE = (0, 1, 2), 300, 300
ODD = [b"it's", b'"quoted"', b"new\nline", b"at the end\n", b"$(touch mdbal-was-here)", b"`id`", b"\xff\xfe", b"\x1b[31mred",
       b"-n", b" blank ", b"back\\slash\\134", b"*", b"\r", "ü".encode(), b"a;b&c|d"]
PINS = {b"/theirs": 2, b"/arch": 5, b"/late": 3}
POLICIES = {b"/rnd": ("random", b"1.0"), b"/dist": ("distributed", b"1"), b"/dorm": ("distributed", b"1")}
wrong = []


def tell(text):
    print(text, flush=True)


def check(name, holds):
    tell(f"{'holds' if holds else 'FAILS'}: {name}")
    if not holds:
        wrong.append(name)


def run(*words):
    """A command, and the seconds that it took."""
    start = time.time()
    found = subprocess.run(words, capture_output=True, check=False)
    return found, round(time.time() - start, 1)


def says(name, found, took):
    tell(f"{name}: status {found.returncode}, {took} s\n{(found.stdout + found.stderr).decode(errors='replace')}")


# The tree.


def fill(path, files=8):
    os.makedirs(path, exist_ok=True)
    for number in range(files):
        with open(os.path.join(path, b"f%d" % number), "w"):
            pass


def weights():
    """The directories that get load."""
    found = {b"/w/p%02d/d%02d" % divmod(it, 8): 30 / (1 + it) for it in range(96)}
    found.update({name % it: 0.3 for it in range(30) for name in (b"/rnd/u%02d", b"/dist/h%02d")})
    found.update({name + b"/box": 3 for name in PINS})
    found.update({b"/odd/" + name: 8 for name in ODD})
    return {**found, b"/links/real": 8}


def build(top):
    for path, (name, value) in POLICIES.items():
        os.makedirs(top + path, exist_ok=True)
        os.setxattr(top + path, f"ceph.dir.pin.{name}", value)
    for path in weights():
        fill(top + path)
    for path, rank in PINS.items():
        os.setxattr(top + path, "ceph.dir.pin", b"%d" % rank)


def is_held(path):
    """Whether a policy has the directory."""
    return any((path + b"/").startswith(it + b"/") for it in POLICIES)


def pin(path):
    return int(os.getxattr(path, "ceph.dir.pin") or b"-1")


def pins_below(top):
    """Each directory's path below the mount, and its pin."""
    return {path[len(top):]: pin(path) for path, _, _ in os.walk(top)}


# Where directories lie.


def roots(sockets):
    """The rank of each root outside of policies, and of those inside."""
    plain, held = {}, {}
    for (path, fragment), rank in cluster.roots(sockets).items():
        path = os.fsencode(path)
        if is_held(path):
            held[path, fragment] = rank
        else:
            plain[path] = rank
    return plain, held


def map_of(sockets, names):
    """The rank of each directory outside of policies."""
    plain, found = roots(sockets)[0], {}
    for path in names:
        at = path
        while at not in plain:
            at = at.rpartition(b"/")[0]
        if not is_held(path):
            found[path] = plain[at]
    return found


def by_rule(pins, present):
    """Ceph's rule: the nearest pin to a rank that is there decides; without one a directory stays."""
    def target(path):
        at = path
        while at and pins[at] not in RANKS:
            at = at.rpartition(b"/")[0]
        return pins[at] if at else present[path]
    return {path: target(path) for path in present}


def wait_for(sockets, wanted):
    """Seconds until all lie where they should, and what doesn't after 120 s."""
    start = time.time()
    while True:
        found = map_of(sockets, wanted)
        bad = [path for path in wanted if found[path] != wanted[path]]
        if not bad or time.time() - start > 120:
            return round(time.time() - start, 1), bad
        time.sleep(1)


def heat(folder, found):
    """greatest/mean of the heat in the dumps by a map of directories to ranks; of others the rank that tells it."""
    total = dict.fromkeys(RANKS, 0.0)
    for file in filter(lambda it: it.startswith("loads."), os.listdir(folder)):
        with open(f"{folder}/{file}", "rb") as it:
            text = it.read().decode(errors="surrogateescape")
        # what follows this list isn't JSON in Ceph 16
        for fragment in json.JSONDecoder().raw_decode(text, text.index('"dirfrags":') + 11)[0]:
            counters = next(iter(fragment["pop_me"].values()))
            rank = found.get(os.fsencode(fragment["path"]), int(file.split(".")[1]))
            total[rank] += sum(weight * it["value"] for weight, it in zip((1, 2, 1, 2, 4), counters))
    return f"{max(total.values()) * len(total) / sum(total.values()):.3f}"


# The steps.


def plan(out, mount, options):
    """Collects and plans: the changes of pins."""
    says("collect", *run("sh", COLLECT, name_of_fs(), f"{out}/dumps", "--samples", "4", "--mount", mount))
    says("plan", *run("mdbal_ceph", f"{out}/dumps", "--pins", f"{out}/pins.sh", "--mount", mount, *options))
    found = json.loads(run("mdbal_ceph", f"{out}/dumps", "--mount", mount, "--json", *options)[0].stdout)
    changes = {path_of(it): it["pin_after"] for it in found["changes"]}
    tell(f"{len(changes)} changes, {sum(it.startswith(b'/odd/') for it in changes)} of them on odd names")
    check("no pin to an absent rank", all(it in (-1, *RANKS) for it in changes.values()))
    check("nothing of policies or other people's pins is changed",
          not any(is_held(it) or b"/" + it.split(b"/")[1] in PINS for it in changes))
    return changes


def path_of(it):
    """The path of a directory in the plan."""
    return it["path"].encode() if "path" in it else bytes.fromhex(it["path_bytes"])


def name_of_fs():
    return sys.argv[3]


def try_refusals(out, mount, options, before):
    """What the script must refuse, or do without a change."""
    top = os.fsencode(mount)
    os.mkdir(f"{out}/empty")
    run("mdbal_ceph", f"{out}/dumps", "--pins", f"{out}/elsewhere.sh", "--mount", f"{out}/empty", *options)
    found, _ = run("sh", f"{out}/elsewhere.sh")
    check("a mount point without a mount: status 1", found.returncode == 1 and not os.listdir(f"{out}/empty"))
    found, _ = run("sh", f"{out}/pins.sh", "--dry-run")
    check("another word than -n: status 2, nothing changed", found.returncode == 2 and pins_below(top) == before)
    found, _ = run("sh", f"{out}/pins.sh", "-n")
    check("-n: status 0, printable, nothing changed", found.returncode == 0 and pins_below(top) == before and
          all(it in b"\n\t" or 32 <= it < 127 for it in found.stdout + found.stderr))


def apply(out, top, changes):
    """Runs the script while a planned directory is a link, and then pins that one, too."""
    moved = next((it for it in (b"/links", b"/links/real") if it in changes), None)
    if moved is None:
        check("a directory that becomes a link is planned", False)
        says("pins.sh", *run("sh", f"{out}/pins.sh"))
        return
    wanted = changes.get(b"/w/p11", pin(top + b"/w/p11"))
    os.rename(top + moved, top + b"/aside")
    os.symlink(top + b"/w/p11", top + moved)
    found, took = run("sh", f"{out}/pins.sh")
    says("pins.sh", found, took)
    check("a link in place of a directory: status 1, its target is not pinned",
          found.returncode == 1 and pin(top + b"/w/p11") == wanted)
    os.unlink(top + moved)
    os.rename(top + b"/aside", top + moved)
    os.setxattr(top + moved, "ceph.dir.pin", b"%d" % changes[moved])


def go_back(out, top, sockets, before, wanted, held):
    says("pins.sh.back", *run("sh", f"{out}/pins.sh.back"))
    time.sleep(15)
    check("pins are those of before", pins_below(top) == before)
    check("no root of a policy moved on the way back", roots(sockets)[1] == held)
    check("what has no pin stayed where the plan brought it, or is with its parent's pin",
          map_of(sockets, wanted) == by_rule(before, wanted))


def main():
    conf, folder, name, mount, out, *options = sys.argv[1:]
    os.environ["CEPH_CONF"], top = conf, os.fsencode(mount)
    os.makedirs(out)
    build(top)
    with open(f"{out}/weights", "w") as to:
        json.dump([[os.fsdecode(path), weight] for path, weight in weights().items()], to)
    run("ceph", "fs", "set", name, "max_mds", "4")
    words = (conf, "run", f"@{out}/weights", str(SECONDS), str(RATE), f"{out}/load.jsonl")
    load = subprocess.Popen([sys.executable, f"{HERE}/load.py", *words])
    watch = subprocess.Popen([sys.executable, f"{HERE}/watch.py", folder, name, str(SECONDS), f"{out}/watch.jsonl"])
    time.sleep(45)
    sockets, began = cluster.ranks(folder, name), time.time()
    changes = plan(out, mount, options)
    before, held = pins_below(top), roots(sockets)[1]
    present = map_of(sockets, before)
    after = {path: changes.get(path, it) for path, it in before.items()}
    wanted = by_rule(after, present)
    tell(f"heat, greatest/mean: before {heat(f'{out}/dumps', present)}, promised {heat(f'{out}/dumps', wanted)}")
    try_refusals(out, mount, options, before)
    apply(out, top, changes)
    took, bad = wait_for(sockets, wanted)
    check(f"the map is the plan's, after {took} s: {len(wanted)} directories, elsewhere {bad[:5]}", not bad)
    check("pins are those of the plan", pins_below(top) == after)
    check("no root of a policy moved", roots(sockets)[1] == held)
    check("no name was run", not os.path.exists("mdbal-was-here"))
    tell(f"collecting began {began - os.path.getmtime(f'{out}/weights'):.0f} s after the load, and all lay right "
         f"{time.time() - began:.0f} s later")
    time.sleep(60)
    go_back(out, top, sockets, before, wanted, held)
    load.wait()
    watch.wait()
    tell(f"{len(wrong)} wrong: {wrong}")
    sys.exit(bool(wrong))


main()
