"""The tables of a volume by the definitions of pf_tree and pf_file_calls, and a mount as one pure machine over any layout of the journal: at one place, or over three anchors of which two are needed."""

MOST = 196608


def block_count(size):
    return (size + 4095) // 4096


# --- the tables, as defined


class Tables:
    def __init__(self, blocks, first=513):
        self.blocks, self.first = blocks, first
        self.inodes = ["dir"] + [None] * 1023
        self.entries = [[] for _ in range(1024)]
        self.tags = [None] * blocks

    def copy(self):
        new = Tables(self.blocks, self.first)
        new.inodes, new.entries, new.tags = list(self.inodes), [list(it) for it in self.entries], list(self.tags)
        return new

    def walk(self, path):
        at = 0
        for name in path:
            at = dict(self.entries[at]).get(name)
            if at is None:
                return None
        return at

    def node(self, path):
        at = self.walk(path)
        return None if at is None else self.inodes[at]

    def block_of(self, inode, index):
        return next((b for b, tag in enumerate(self.tags) if tag == (inode, index)), self.blocks)

    def free(self):
        return [b for b in range(self.first, self.blocks) if self.tags[b] is None]

    def change(self, c):
        if c[0] == "inode" and c[3] <= MOST and (c[1] > 0 or c[2] > 1):
            self.inodes[c[1]] = None if c[2] == 0 else c[3] if c[2] == 1 else "dir"
        elif c[0] == "add":
            self.entries[c[1]] = [it for it in self.entries[c[1]] if it[0] != c[3]] + [(c[3], c[2])]
        elif c[0] == "delete":
            self.entries[c[1]] = [it for it in self.entries[c[1]] if it[0] != c[2]]
        elif c[0] == "tag":
            self.tags[c[1]] = None if c[2] == 65535 else (c[2], c[3])


def walk_refusal(t, path):
    for k in range(len(path)):
        if t.node(path[:k]) not in ("dir", None):
            return 84
        if t.node(path[: k + 1]) is None:
            return 82
    return None


def place_refusal(t, path):
    if not path:
        return 83
    return walk_refusal(t, path[:-1]) or (84 if t.node(path[:-1]) != "dir" else None) or (83 if t.node(path) is not None else None)


def written_size(size, offset, count):
    return size if count == 0 else max(size, offset + count)


def refusal(t, call):
    word, path = call[0], call[1]
    if word in ("mkdir", "create"):
        return place_refusal(t, path) or (87 if None not in t.inodes else None)
    if word == "rename":
        below = call[2][: len(path)] == path and len(call[2]) > len(path)
        return walk_refusal(t, path) or (89 if below else None) or place_refusal(t, call[2])
    found = walk_refusal(t, path)
    if found or word == "stat":
        return found
    if word in ("list", "rmdir"):
        if t.node(path) != "dir":
            return 84
        return 86 if word == "rmdir" and t.entries[t.walk(path)] else None
    if t.node(path) == "dir":
        return 85
    if word in ("write", "truncate"):
        past = call[2] + call[4] if word == "write" else call[2]
        if past > MOST:
            return 88
        size = written_size(t.node(path), call[2], call[4]) if word == "write" else call[2]
        return 87 if block_count(t.node(path)) + len(t.free()) < block_count(size) else None
    return None


def changes(t, call):
    word, path = call[0], call[1]
    if word in ("mkdir", "create"):
        inode = t.inodes.index(None)
        return [("inode", inode, 2 if word == "mkdir" else 1, 0), ("add", t.walk(path[:-1]), inode, path[-1])]
    if word == "rename":
        return [("delete", t.walk(path[:-1]), path[-1]), ("add", t.walk(call[2][:-1]), t.walk(path), call[2][-1])]
    if word in ("unlink", "rmdir"):
        inode = t.walk(path)
        blocks = [t.block_of(inode, k) for k in range(block_count(t.inodes[inode]))] if word == "unlink" else []
        return [("delete", t.walk(path[:-1]), path[-1])] + [("tag", b, 65535, 0) for b in blocks] + [("inode", inode, 0, 0)]
    if word in ("write", "truncate"):
        inode = t.walk(path)
        old = t.inodes[inode]
        size = written_size(old, call[2], call[4]) if word == "write" else call[2]
        if size == old:
            return []
        have, want = block_count(old), block_count(size)
        freed = [t.block_of(inode, k) for k in range(want, have)]
        given = t.free()[: max(0, want - have)]
        return [("inode", inode, 1, size)] + [("tag", b, 65535, 0) for b in freed] + [("tag", b, inode, have + k) for k, b in enumerate(given)]
    return []


class Refusal(int):
    """The number of what refuses a call."""


# --- where the journal of a volume lies


class Layout:
    """The sectors from which each anchor counts, how many of them a ballot and a sync need, the count of positions, the first block of file data, and whether there is a superblock."""

    def __init__(self, anchors, quorum, positions, first, has_super):
        self.anchors, self.quorum, self.positions, self.first, self.has_super = anchors, quorum, positions, first, has_super

    def place(self, anchor, position):
        return self.anchors[anchor] + 8 + 16 * position


PLAIN = Layout((0,), 1, 256, 513, True)
THREE = Layout((0, 4096, 8192), 2, 255, 1536, False)


# --- a mount


class Mount:
    """Each step gives None, ("ready",) or ("done", answer). What it asks, it asks at its ports: one into each anchor, and the last one for file data. An ask may outlive the work for which it was made: it is late then."""

    def __init__(self, number, blocks, layout=PLAIN):
        self.number, self.layout, self.tables = number, layout, Tables(blocks, layout.first)
        self.upto, self.calls, self.pending, self.planned_at = 0, 0, None, 0
        self.errands, self.data = ["free"] * len(layout.anchors), None
        self.new_position()
        self.work = ("super",)
        if not layout.has_super:
            self.syncs()

    def new_position(self):
        self.own, self.seen, self.aborts, self.phase, self.value = (0, 0, None), 0, 0, "resting", None
        self.parts = [{"stage": "writes", "asked": None, "late": True, "best": self.own} for _ in self.layout.anchors]

    def starting(self, call):
        self.calls += 1
        self.pending = (self.calls, call)
        return self.syncs()

    def syncs(self):
        if self.upto == self.layout.positions:
            return self.synced()
        self.errands = ["late" if it in ("sync", "pause") else it for it in self.errands]
        self.work = ("sync", [["low", False] for _ in self.layout.anchors])
        return None

    def synced(self):
        if self.pending is None:
            self.work = ("rests",)
            return ("ready",)
        return self.plans()

    def done(self, answer):
        self.pending, self.work = None, ("rests",)
        return ("done", answer)

    def plans(self):
        number, call = self.pending
        self.planned_at = self.upto
        refused = refusal(self.tables, call)
        if refused:
            return self.done(Refusal(refused))
        wanted = changes(self.tables, call)
        if not wanted:
            return self.moves(self.tables.node(call[1]), call)
        if self.upto == self.layout.positions:
            return self.done(Refusal(90))
        return self.ballots((self.number, number, tuple(wanted)))

    # ballots

    def in_phase(self, phase, own):
        """A phase begins at each anchor with the write. What is asked still is late from then on."""
        self.phase, self.own = phase, own
        for part in self.parts:
            part.update(stage="writes", late=True, best=own)

    def ballots(self, value):
        floor = max(self.seen, self.own[0])
        ballot = 16 + self.number
        while ballot <= floor:
            ballot += 16
        self.value = value
        self.in_phase("claiming", (ballot, self.own[1], self.own[2]))
        self.work = ("ballot", value)
        return None

    def aborted(self, value):
        self.aborts = min(16, self.aborts + 1)
        self.work = ("pause", value, 8 * self.aborts * (self.number + 1) - 1)
        return None

    def phase_ended(self):
        if self.phase == "proposing":
            value = self.own[2]
            self.in_phase("resting", self.own)
            return self.decided(value)
        best = self.own
        for part in self.parts:
            if part["stage"] == "done" and best[1] < part["best"][1]:
                best = part["best"]
        if self.value is None and not best[1]:
            self.in_phase("resting", self.own)
            return self.synced()
        self.in_phase("proposing", (self.own[0], self.own[0], best[2] if best[1] else self.value))
        return None

    def decided(self, txn):
        self.errands = ["late" if part["asked"] or it in ("sync", "pause") else it for it, part in zip(self.errands, self.parts)]
        before, value = self.tables, self.work[1]
        self.tables = before.copy()
        for c in txn[2]:
            self.tables.change(c)
        self.upto += 1
        self.new_position()
        if value is None or self.pending is None:
            return self.syncs()
        own, call = self.pending
        if txn[0] == self.number and txn[1] == own:
            return self.moves(before.node(call[1]), call)
        return self.plans()

    # file data

    def moves(self, size, call):
        return self.moved(self.next_data(size, call))

    def moved(self, step):
        """A step of file data: what it asks waits at the last port."""
        if step[0] == "done":
            return step
        self.data = step
        return None

    def next_data(self, size, call):
        word = call[0]
        if word == "write" and call[4]:
            self.fill = (self.tables.walk(call[1]), size, call[2], call[3], call[4])
            return self.fills(min(size, call[2]) // 4096)
        if word == "truncate" and size < call[2]:
            self.fill = (self.tables.walk(call[1]), size, call[2], 0, 0)
            return self.fills(min(size, call[2]) // 4096)
        if word == "read":
            offset, to = call[2], min(size, call[2] + call[3])
            if offset >= to:
                return self.done(b"")
            return self.gathers(self.tables.walk(call[1]), offset, to, offset // 4096, b"")
        if word == "stat":
            return self.done("dir" if size == "dir" else size)
        if word == "list":
            return self.done(sorted(it[0] for it in self.tables.entries[self.tables.walk(call[1])]))
        return self.done("ok")

    def filled(self, index, old):
        _, size, start, byte, count = self.fill
        place = 4096 * index
        return bytes(byte if start <= place + k < start + count else 0 if size <= place + k < start else b for k, b in enumerate(old))

    def fills(self, index):
        inode, size, start, _, count = self.fill
        if index >= block_count(start + count):
            return self.done("ok")
        block = self.tables.block_of(inode, index)
        if block_count(size) <= index:
            self.work = ("store", index)
            return ("write", 8 * block, self.filled(index, bytes(4096)))
        self.work = ("fetch", index)
        return ("read", 8 * block, 8)

    def gathers(self, inode, offset, to, index, got):
        if index >= block_count(to):
            return self.done(got[offset % 4096 :][: to - offset])
        self.work = ("gather", inode, offset, to, index, got)
        return ("read", 8 * self.tables.block_of(inode, index), 8)

    def stored(self):
        return self.fills(self.work[1] + 1)

    def fetched(self, sectors):
        if self.work[0] == "fetch":
            index = self.work[1]
            self.work = ("store", index)
            return ("write", 8 * self.tables.block_of(self.fill[0], index), self.filled(index, b"".join(sectors)))
        _, inode, offset, to, index, got = self.work
        return self.gathers(inode, offset, to, index + 1, got + b"".join(sectors))

    # what is to be asked at a port

    def is_free(self, anchor):
        return self.errands[anchor] == "free" and not self.parts[anchor]["asked"]

    def peek(self, port):
        """The next ask at a port, if there is one."""
        if port == len(self.layout.anchors):
            return self.data
        if not self.is_free(port):
            return None
        kind, place = self.work[0], self.layout.place(port, self.upto)
        if kind == "super":
            return ("read", 0, 1)
        if kind == "fills super":
            return ("super", 0, None)
        if kind == "sync":
            stage = self.work[1][port][0]
            return None if stage == "done" else ("read", place + (8 if stage == "high" else 0), 8)
        if kind == "pause":
            least = next((it for it in range(len(self.errands)) if self.is_free(it)), None)
            return None if "pause" in self.errands or port != least else ("read", place, 1)
        if kind == "ballot" and self.parts[port]["stage"] != "done":
            stage = self.parts[port]["stage"]
            return ("block", place + self.number, self.own) if stage == "writes" else ("read", place + (8 if stage == "high" else 0), 8)
        return None

    def ask(self, port):
        """The same, handed out: the port waits for its answer from then on."""
        ask = self.peek(port)
        if ask is None:
            return None
        if port == len(self.layout.anchors):
            self.data = None
        elif self.work[0] == "ballot":
            self.parts[port].update(asked=self.parts[port]["stage"], late=False)
        else:
            self.errands[port] = self.work[0]
        return ask

    # answers

    def on_answer(self, port, reply):
        if port == len(self.layout.anchors):
            return self.moved(self.stored() if reply == "written" else self.fetched(reply))
        errand = self.errands[port]
        if errand == "free":
            return self.ballot_written(port) if reply == "written" else self.ballot_read(port, self.blocks(reply))
        self.errands[port] = "free"
        if errand == "super":
            if reply[0] == "super":
                return self.syncs()
            self.work = ("fills super",)
            return None
        if errand == "fills super":
            return self.syncs()
        if errand == "sync" and self.work[0] == "sync":
            return self.looked(port, self.blocks(reply))
        if errand == "pause" and self.work[0] == "pause":
            if self.work[2] == 0:
                return self.ballots(self.work[1])
            self.work = ("pause", self.work[1], self.work[2] - 1)
        return None

    def blocks(self, sectors):
        return [it if isinstance(it, tuple) else (0, 0, None) for it in sectors]

    def has_quorum(self, done):
        return sum(done) >= self.layout.quorum

    def looked(self, anchor, blocks):
        self.seen = max(self.seen, max(it[0] for it in blocks))
        looks = self.work[1]
        stage, found = looks[anchor]
        looks[anchor] = ["high" if stage == "low" else "done", found or any(it[1] for it in blocks)]
        if not self.has_quorum([it[0] == "done" for it in looks]):
            return None
        return self.ballots(None) if any(it[0] == "done" and it[1] for it in looks) else self.synced()

    def ballot_written(self, anchor):
        part = self.parts[anchor]
        part["asked"] = None
        if not part["late"]:
            part["stage"] = "low"
        return None

    def ballot_read(self, anchor, blocks):
        part = self.parts[anchor]
        part["asked"] = None
        if part["late"]:
            return None
        greatest = max(it[0] for it in blocks)
        self.seen = max(self.seen, greatest)
        if greatest > self.own[0]:
            self.in_phase("resting", self.own)
            return self.aborted(self.work[1])
        for block in blocks:
            part["best"] = block if part["best"][1] < block[1] else part["best"]
        part["stage"] = "high" if part["stage"] == "low" else "done"
        return self.phase_ended() if self.has_quorum([it["stage"] == "done" for it in self.parts]) else None
