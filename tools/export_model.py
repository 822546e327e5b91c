"""The exports of a cluster by plain lists: a second reading of docs/EXPORT_PROTOCOL.md, for checks/judge_scripts."""
import dataclasses

# a message, and its receiver's state: the next state, what is journaled, and what is sent; else the message is ignored
AT_IMPORTER = {
    ("Discover", "unknown"): ("discovered", None, "DiscoverAck"),
    ("Prep", "discovered"): ("prepared", None, "PrepAck"),
    ("Export", "prepared"): ("started", "Started", "ExportAck"),
    ("Finish", "started"): ("imported", "Imported", None),
    ("Cancel", "unknown"): ("dropped", None, None),
    ("Cancel", "discovered"): ("dropped", None, None),
    ("Cancel", "prepared"): ("dropped", None, None),
    ("Cancel", "started"): ("dropped", "Dropped", None),
}
AT_EXPORTER = {
    ("DiscoverAck", "discovering"): ("freezing", None, None),
    ("PrepAck", "preparing"): ("exporting", None, "Export"),
    ("ExportAck", "exporting"): ("logged", "Exported", None),
    ("Query", "done"): ("done", None, "Finish"),
    ("Query", "aborted"): ("aborted", None, "Cancel"),
}
BEFORE_LOG = ("discovering", "freezing", "preparing", "exporting")
HELD_BACK = ("freezing", "preparing", "exporting")
ROUNDS = 8


@dataclasses.dataclass
class Export:
    """An export, with its state at each of its ranks."""

    source: int
    to: int
    dirs: list
    exporter: str = "discovering"
    importer: str = "unknown"

    def is_awaited(self):
        """Whether messages about it may still do something."""
        return self.importer not in ("imported", "dropped") and (self.exporter, self.importer) != ("aborted", "unknown")

    def is_settled(self):
        return self.exporter in ("done", "aborted") and not self.is_awaited()


class Exports:
    """What the ranks have journaled and sent. `named` is the rank that the map names, by directory."""

    def __init__(self, named, refuse):
        self.named, self.refuse = named, refuse
        self.exports, self.sent, self.requests, self.stopped, self.delivered = [], [], [], set(), set()
        self.journals = {0: [("Made", 0)]}

    def journal(self, rank):
        return self.journals.setdefault(rank, [])

    def has(self, rank, kind, number):
        return (kind, number) in self.journal(rank)

    def owns(self, rank, dir):
        owned = False
        for kind, number in self.journal(rank):
            if kind in ("Made", "Gone"):
                owned = (kind == "Made") if number == dir else owned
            elif kind in ("Imported", "Exported"):
                owned = (kind == "Imported") if dir in self.exports[number].dirs else owned
        return owned

    def takes_over(self, rank, number):
        it = self.exports[number]
        is_open = self.has(rank, "Started", number) and not self.has(rank, "Imported", number) and not self.has(rank, "Dropped", number)
        return it.to == rank and is_open and self.has(it.source, "Exported", number)

    def authority(self, dir):
        ranks = {rank for rank in self.journals if self.owns(rank, dir)}
        ranks |= {it.to for number, it in enumerate(self.exports) if dir in it.dirs and self.takes_over(it.to, number)}
        assert len(ranks) < 2, f"directory {dir} has authorities {ranks}"
        return next(iter(ranks), None)

    def open_export(self, dir):
        """The open export that a directory is in."""
        return next((number for number, it in enumerate(self.exports) if dir in it.dirs and it.exporter != "aborted" and not self.has(it.to, "Imported", number)), None)

    def serves(self, rank, dir):
        return self.owns(rank, dir) and not any(it.source == rank and dir in it.dirs and it.exporter in HELD_BACK for it in self.exports)

    def running(self, dirs):
        return sum(it is not None and it[1] in dirs for it in self.requests)

    # Refusals.

    def unless_stopped(self, rank):
        if rank in self.stopped:
            self.refuse(f"28 Stopped {rank}")

    def export(self, number):
        if number >= len(self.exports):
            self.refuse("17 NoExport")
        return self.exports[number]

    def unless_late(self, it, state, states):
        if state not in states:
            self.refuse(f"23 Late {it.exporter}")

    # Events. Each returns its reply.

    def send(self, kind, number):
        self.sent.append((kind, number))
        return f"sent {len(self.sent) - 1}"

    def make(self, parent, dir):
        rank = self.authority(parent)
        if not self.serves(rank, parent):
            self.refuse(f"20 Frozen {self.open_export(parent)}")
        self.unless_stopped(rank)
        self.journal(rank).append(("Made", dir))
        return rank

    def remove(self, dir):
        if self.open_export(dir) is not None:
            self.refuse(f"19 Busy {self.open_export(dir)}")
        if self.running([dir]):
            self.refuse(f"22 NotYet {self.running([dir])}")
        rank = self.authority(dir)
        self.unless_stopped(rank)
        self.journal(rank).append(("Gone", dir))

    def begin(self, rank, dir):
        self.unless_stopped(rank)
        authority = self.authority(dir)
        if authority != rank:
            self.refuse(f"18 Elsewhere {authority}")
        if not self.serves(rank, dir):
            self.refuse(f"20 Frozen {self.open_export(dir)}")
        self.requests.append((rank, dir))
        return f"ticket {len(self.requests) - 1}"

    def end(self, ticket):
        if ticket >= len(self.requests) or self.requests[ticket] is None:
            self.refuse("25 NoTicket")
        self.requests[ticket] = None
        return "changed"

    def start(self, source, to, dirs, parents):
        self.unless_stopped(source)
        if source == to:
            self.refuse("21 SameRank")
        tops = [dir for dir in dirs if dir == 0 or parents[dir] not in dirs]
        if len(set(dirs)) < len(dirs) or len(tops) != 1:
            self.refuse("26 NotConnected")
        for dir in sorted(dirs):
            if self.open_export(dir) is not None:
                self.refuse(f"19 Busy {self.open_export(dir)}")
            if self.authority(dir) != source:
                self.refuse(f"18 Elsewhere {self.authority(dir)}")
        self.exports.append(Export(source, to, dirs))
        self.send("Discover", len(self.exports) - 1)
        return f"export {len(self.exports) - 1} message {len(self.sent) - 1}"

    def deliver(self, message):
        if message >= len(self.sent):
            self.refuse("24 NoMessage")
        self.delivered.add(message)
        kind, number = self.sent[message]
        it = self.exports[number]
        is_for_importer = kind in {message for message, _ in AT_IMPORTER}
        rank = it.to if is_for_importer else it.source
        found = AT_IMPORTER.get((kind, it.importer)) if is_for_importer else AT_EXPORTER.get((kind, it.exporter))
        if rank in self.stopped or found is None:
            return "ignored"
        state, entry, answer = found
        setattr(it, "importer" if is_for_importer else "exporter", state)
        if entry:
            self.journal(rank).append((entry, number))
        return self.send(answer, number) if answer else "changed"

    def froze(self, number):
        it = self.export(number)
        self.unless_stopped(it.source)
        self.unless_late(it, it.exporter, ["freezing"])
        if self.running(it.dirs):
            self.refuse(f"22 NotYet {self.running(it.dirs)}")
        it.exporter = "preparing"
        return self.send("Prep", number)

    def notify(self, number):
        it = self.export(number)
        self.unless_stopped(it.source)
        self.unless_late(it, it.exporter, ["logged"])
        it.exporter = "done"
        self.journal(it.source).append(("Notified", number))
        for dir in it.dirs:
            self.named[dir] = it.to
        return self.send("Finish", number)

    def abort(self, number):
        it = self.export(number)
        self.unless_stopped(it.source)
        self.unless_late(it, it.exporter, BEFORE_LOG)
        it.exporter = "aborted"
        return self.send("Cancel", number)

    def ask(self, number):
        it = self.export(number)
        self.unless_stopped(it.to)
        self.unless_late(it, it.importer, ["started"])
        return self.send("Query", number)

    def stop(self, rank):
        self.unless_stopped(rank)
        self.requests = [None if it and it[0] == rank else it for it in self.requests]
        for number, it in enumerate(self.exports):
            if it.source == rank and it.exporter in BEFORE_LOG:
                it.exporter = "aborted"
            if it.to == rank and it.importer in ("discovered", "prepared", "dropped") and not self.has(rank, "Dropped", number):
                it.importer = "unknown"
        self.stopped.add(rank)

    # Looks.

    def facts(self, number, path):
        """An export as it is printed, with the paths of its directories."""
        it = self.export(number)
        lines = [f"export {number} from {it.source} to {it.to}", f"exporter {it.exporter}", f"importer {it.importer}"]
        lines += [f"dir {dir} {path(dir)}" for dir in it.dirs]
        messages = [(place, kind) for place, (kind, about) in enumerate(self.sent) if about == number]
        return lines + [f"message {place} {kind} {'delivered' if place in self.delivered else 'sent'}" for place, kind in messages]

    def journal_lines(self, rank, path):
        entries = [(kind, f"{number} {path(number)}" if kind in ("Made", "Gone") else number) for kind, number in self.journal(rank)]
        return [f"journal {rank} {kind} {what}" for kind, what in entries]

    # A move, in rounds.

    def is_settled(self):
        return all(it.is_settled() for it in self.exports)

    def record(self, source, to, dirs, word):
        """An export that a move carried out by itself, with its messages."""
        number = len(self.exports)
        is_done = word != "aborted"
        self.exports.append(Export(source, to, dirs, *(("done", "imported") if is_done else ("aborted", "unknown"))))
        kinds = "Discover DiscoverAck Prep PrepAck Export ExportAck Finish" if is_done else "Discover Cancel"
        # where the importer is stopped, no message comes
        self.delivered |= set(range(len(self.sent), len(self.sent) + len(kinds.split()))) if is_done else set()
        self.sent += [(kind, number) for kind in kinds.split()]
        if is_done:
            self.journal(source).extend([("Exported", number), ("Notified", number)])
            self.journal(to).extend([("Started", number), ("Imported", number)])

    def tried(self, event, *given):
        """A step of a move: one that is refused is passed over."""
        try:
            return event(*given)
        except Exception as cause:
            if not str(cause).startswith("refused"):
                raise
            return str(cause)

    def move_in_rounds(self, orders, parents, stops=()):
        """Carries out orders beside the exports that are open, while ranks stop, each before its round; None is one for which
        memory is refused. Returns what became of each order, and what stops were answered."""
        earlier, started, seen, told = len(self.exports), {}, 0, []
        asking = [number for number, it in enumerate(self.exports) if it.importer == "started"]
        for at in range(ROUNDS):
            told += ["refused 0 Memory" if rank is None else self.tried(self.stop, rank) for rank, round in stops if round == at + 1]
            taken, seen = self.sent[seen:], len(self.sent)
            first = seen - len(taken)
            ranks = sorted({*self.journals, *(order[0] for order in orders), *(it.to for it in self.exports)})
            # a message to a rank that is stopped stays on no desk
            come = [(first + place, self.exports[number], kind) for place, (kind, number) in enumerate(taken) if self.exports[number].is_awaited()]
            for rank in ranks:
                if at == 0:
                    for number, (source, to, dirs) in enumerate(orders):
                        if source == rank:
                            started[number] = self.tried(self.start, source, to, dirs, parents)
                    for number in asking:
                        if self.exports[number].to == rank:
                            self.tried(self.ask, number)
                for message, it, kind in come:
                    is_for_importer = kind in {message for message, _ in AT_IMPORTER}
                    if (it.to if is_for_importer else it.source) == rank and rank not in self.stopped and it.is_awaited():
                        self.deliver(message)
                for number, it in enumerate(self.exports):
                    if it.source == rank and it.exporter == "freezing":
                        self.tried(self.froze, number)
                for number, it in enumerate(self.exports):
                    if it.source == rank and it.exporter == "logged":
                        self.tried(self.notify, number)
        for number in range(earlier, len(self.exports)):
            if self.exports[number].exporter in BEFORE_LOG:
                self.tried(self.abort, number)
        return [self.word(started[number]) for number in range(len(orders))], [it for it in told if it]

    def word(self, told):
        if told.startswith("refused"):
            return told
        it = self.exports[int(told.split()[1])]
        return "aborted" if it.exporter == "aborted" else "done" if it.importer == "imported" else "open"
