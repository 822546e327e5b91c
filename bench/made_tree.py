"""Made trees for the benchmarks of mdbal_ceph: their dumps, and the plans of them."""
import json
import os
import sys

HERE = os.path.dirname(os.path.abspath(__file__))
MDBAL_CEPH = os.environ.get("MDBAL_CEPH", f"{HERE}/../crates/mdbal_ceph/out/mdbal_ceph")


class Tree:
    """Directories with parents before children, the rank that has each, its heat and inodes."""

    def __init__(self, kind, count, law, rng):
        self.parent, self.name = [0], [""]
        if kind == "flat":
            self.add(0, "w")
            for number in range(count):
                self.add(1, f"c{number}")
        else:
            depth, level = int(kind.split()[1]), [0]
            while len(self.parent) < count:
                up = rng.randrange(len(self.parent))
                if level[up] < depth:
                    level.append(level[up] + 1)
                    self.add(up, f"d{len(self.parent)}")
        rows = len(self.parent)
        self.inodes = [1 + int(rng.lognormvariate(4, 1.2)) for _ in range(rows)]
        heats = {"equal": [100.0] * rows, "Zipf": [10000.0 / place for place in range(1, rows + 1)],
                 "lognormal": [100 * rng.lognormvariate(0, 1.5) for _ in range(rows)]}[law]
        rng.shuffle(heats)
        self.heat = [0.0 if kind == "flat" and row < 2 else round(one, 3) for row, one in enumerate(heats)]
        self.at = [0] * rows
        # the pins in force, by path
        self.pins = {}

    def add(self, up, name):
        self.parent.append(up)
        self.name.append(f"{self.name[up]}/{name}")

    def loads(self, ranks, at):
        found = [0.0] * ranks
        for row, heat in enumerate(self.heat):
            found[at[row]] += heat
        return found

    def change(self, rng):
        self.heat = [round(one * rng.lognormvariate(0, 0.3), 3) for one in self.heat]

    def after(self, pins):
        """The rank of each directory with these pins."""
        held = [None] * len(self.at)
        for row in range(1, len(self.at)):
            held[row] = pins.get(self.name[row], held[self.parent[row]])
        return [was if pin is None else pin for was, pin in zip(self.at, held)]

    def write(self, folder, ranks):
        """Writes what ceph/collect would write."""
        daemons = {f"gid_{100 + rank}": {"rank": rank, "state": "up:active"} for rank in range(ranks)}
        members = {"max_mds": ranks, "in": list(range(ranks)), "info": daemons, "bal_rank_mask": "-1"}
        texts = {"fs.json": json.dumps({"mdsmap": members, "id": 1}), "balancer": "0\n",
                 "complete": "lab 0d2c6f0e-1a53-4c3c-9d83-5f6a1d1f2a77\n"}
        for rank in range(ranks):
            fragments, roots = [], []
            for row, at in enumerate(self.at):
                if at == rank:
                    counters = [{"value": value, "halflife": 5} for value in (self.heat[row], 0, 0, 0, 0)]
                    fragments.append({"path": self.name[row], "dirfrag": hex(0x10000000000 + row),
                                      "pop_me": {"Decay Counters": counters}})
                    if row == 0 or self.at[self.parent[row]] != rank:
                        roots.append({"is_auth": True, "auth_first": rank, "auth_second": -2, "export_pin": self.pins.get(self.name[row], -1),
                                      "distributed_ephemeral_pin": False, "random_ephemeral_pin": False,
                                      "export_pin_target": -1, "dir": {"path": self.name[row]}})
            texts[f"loads.{rank}.1.json"] = json.dumps({"dirfrags": fragments})
            texts[f"subtrees.{rank}.json"] = json.dumps(roots)
        pins = {name: f'# file: {name[1:]}\nceph.dir.pin="{rank}"\n\n' for name, rank in self.pins.items()}
        texts["dirs"] = "".join(f'# file: {name[1:] or "."}\nceph.dir.entries="{inodes}"\n\n{pins.get(name, "")}'
                                for name, inodes in zip(self.name, self.inodes))
        for name, text in texts.items():
            with open(f"{folder}/{name}", "w") as it:
                it.write(text)


def planned(folder, own, room, *more):
    """The plan as JSON, its list of pins, and processor seconds. More options, and earlier hours, go before the folder."""
    words = [MDBAL_CEPH, *more, folder, "--json", "--least-gain", "0", "--pins", f"{room}/pins.sh"]
    words += ["--own", own] if own else []
    with open(f"{room}/json", "wb") as printed:
        pid = os.posix_spawn(words[0], words, os.environ, file_actions=[(os.POSIX_SPAWN_DUP2, printed.fileno(), 1),
                             (os.POSIX_SPAWN_OPEN, 2, f"{room}/errors", os.O_WRONLY | os.O_CREAT | os.O_TRUNC, 0o600)])
        _, status, used = os.wait4(pid, 0)
    if os.waitstatus_to_exitcode(status) not in (0, 3):
        with open(f"{room}/errors") as it:
            sys.exit(f"{words}: status {status}: {it.read()}")
    with open(f"{room}/json", encoding="utf-8") as it:
        plan = json.load(it)
    pins = None
    if plan["proposed"]:
        with open(f"{room}/pins.sh.own") as it:
            pins = {path: int(rank) for rank, path in (line.rstrip("\n").split(" ", 1) for line in it)}
    return plan, pins, used.ru_utime + used.ru_stime
