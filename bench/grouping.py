"""The rules of a group of three servers, word for word, over disks that never fail."""

MOST_PACKETS, MOST_BYTES, MOST_LOG, WINDOW = 65_536, 134_217_728, 67_108_864, 4_096
ALL, NONE = (0, 255), (0, 0)


def overlap(a, b):
    if NONE in (a, b):
        return False
    return ALL in (a, b) or (a[0] < b[0] + b[1] and b[0] < a[0] + a[1])


def range_of(op):
    return op[1] if op[0] == "w" else NONE if op[0] == "n" else ALL


class Entry:
    def __init__(self, slot, term, first, look, op):
        self.slot, self.term, self.first, self.look, self.op = slot, term, first, look, op

    def size(self):
        return 25 + 13 * len(self.look) + (6 + 512 * self.op[1][1] if self.op[0] == "w" else 1)


def entries_size(entries):
    return 4 + sum(it.size() for it in entries)


class Server:
    def __init__(self, group, number):
        self.group, self.number = group, number
        self.term, self.base, self.log, self.starts, self.generation = 1, 0, {}, {}, 0
        self.image = (set(), [bytes(512)] * group.sectors)
        self.used = 9 + 6 + self.image_size(0, {})
        self.format = group.format
        self.runs = True
        self.begin()

    def image_size(self, applied, log):
        return 24 + 2 + 16 * len(self.starts) + 4 + 8 * applied + entries_size(log.values()) + 4 + 512 * self.group.sectors

    def begin(self):
        self.role, self.first, self.next, self.b0, self.acks, self.known = "follower", 0, 0, 0, {}, {}
        self.committed, self.reads, self.snapshots = set(), [], {}
        self.applied, self.sectors = set(self.image[0]), list(self.image[1])

    def follow(self):
        self.role, self.reads = "follower", []

    def rise(self, term):
        self.term = term
        self.follow()

    def is_applied(self, slot):
        return slot <= self.base or slot in self.applied

    def upto(self):
        slot = self.base
        while slot + 1 in self.applied:
            slot += 1
        return slot

    def others(self):
        return [it for it in range(3) if it != self.number]

    def leads(self):
        return self.role in ("merging", "serving")

    def free(self, entry):
        named = dict((slot, range_) for slot, range_ in entry.look)
        for slot in range(self.base + 1, entry.slot):
            if slot not in self.applied and (slot not in named or overlap(named[slot], range_of(entry.op))):
                return False
        return True

    def claimable(self, in_hand):
        for slot in sorted(self.committed):
            if not self.is_applied(slot) and slot not in in_hand and self.free(self.log[slot]):
                return slot
        return None

    def finish(self, slot, op):
        if op[0] == "w":
            first, count = op[1]
            self.sectors[first : first + count] = op[2]
        if op[0] == "m":
            self.snapshots[slot] = list(self.sectors)
            for it in sorted(self.snapshots)[:-4]:
                del self.snapshots[it]
        self.applied.add(slot)
        self.settle()

    def settle(self):
        for read in list(self.reads):
            if read["confirmed"] and all(self.is_applied(it) for it in read["names"]):
                first, count = read["range"]
                self.group.answered.append((read["number"], b"".join(self.sectors[first : first + count])))
                self.reads.remove(read)

    def save(self, base, applied, sectors, term):
        """A new half with this image; the log above the base stays."""
        log = {slot: it for slot, it in self.log.items() if slot > base}
        self.used = 9 + 6 + self.image_size(len(applied), log)
        self.format, self.generation = 2, self.generation + 1
        self.term, self.base, self.log, self.image = term, base, log, (set(applied), list(sectors))
        self.committed = {it for it in self.committed if it > base}


def packet_size(body):
    kind = body[0]
    if kind == "vote":
        return 11 + 8 + 2 + 16 * len(body[2]) + entries_size(body[3].values())
    if kind == "accept":
        return 11 + body[1].size()
    if kind == "image":
        return 11 + 8 + 4 + 8 * len(body[2]) + 4 + 512 * len(body[3])
    return 11 + 8 * (len(body) - 1)


class Refused(Exception):
    pass


class Group:
    def __init__(self, number, sectors, names, format_):
        self.number, self.sectors, self.names, self.format = number, sectors, names, format_
        self.packets, self.bytes, self.acked, self.elections, self.reads, self.answered = [], 0, [], 0, 0, []
        self.acked_set = set()
        self.servers = [Server(self, it) for it in range(3)]
        leader = self.servers[0]
        leader.role, leader.first, leader.next, leader.known = "serving", 1, 1, {1: 0, 2: 0}

    # --- what a step sends and stores: all or nothing

    def send(self, out):
        size = sum(packet_size(it[3]) for it in out)
        if len(self.packets) + len(out) > MOST_PACKETS or self.bytes + size > MOST_BYTES:
            raise Refused("packets full")

    def sent(self, out):
        self.bytes += sum(packet_size(it[3]) for it in out)
        self.packets += [[it, "left"] for it in out]

    def room(self, server, payload):
        if server.used + 6 + payload > MOST_LOG:
            raise Refused("log full")

    def stored(self, server, payload):
        server.used += 6 + payload

    def leader(self):
        serving = [it for it in self.servers if it.runs and it.role == "serving"]
        return max(serving, key=lambda it: it.term) if serving else None

    # --- events

    def event(self, word, *given):
        """The answer. What it made free is applied."""
        try:
            answer = getattr(self, word)(*given)
        except Refused as refused:
            answer = str(refused)
        self.apply()
        return answer

    def apply(self):
        while True:
            jobs, hands = [], [set(), set(), set()]
            for server in self.servers:
                while server.runs and (slot := server.claimable(hands[server.number])) is not None:
                    hands[server.number].add(slot)
                    jobs.append((server, slot, server.log[slot].op))
            for server, slot, op in jobs:
                server.finish(slot, op)
            if not jobs:
                return

    def running(self, i):
        if not self.servers[i].runs:
            raise Refused("down")
        return self.servers[i]

    def submit(self, i, op):
        s = self.running(i)
        if op[0] == "m" and self.format == 1:
            raise Refused("old format")
        if op[0] == "w" and op[1][0] + op[1][1] > self.sectors:
            raise Refused("bad range")
        if s.role != "serving":
            raise Refused("not leader")
        if s.next > s.base + WINDOW:
            raise Refused("window full")
        look = [(slot, range_of(s.log[slot].op)) for slot in range(max(1, s.base + 1, s.next - self.names), s.next)]
        entry = Entry(s.next, s.term, s.first, look, op)
        out = [(i, j, s.term, ("accept", entry)) for j in s.others()]
        self.send(out)
        self.room(s, entry.size())
        self.stored(s, entry.size())
        s.log[entry.slot], s.starts[s.term] = entry, s.first
        s.next += 1
        s.acks[entry.slot] = {i}
        self.sent(out)
        s.settle()
        return f"slot {entry.slot}"

    def fetch(self, i, range_):
        s = self.running(i)
        if range_[0] + range_[1] > self.sectors:
            raise Refused("bad range")
        if s.role != "serving":
            raise Refused("not leader")
        names = {it for it in s.committed if not s.is_applied(it) and overlap(range_of(s.log[it].op), range_)}
        number = self.reads
        out = [(i, j, s.term, ("probe", number)) for j in s.others()]
        self.send(out)
        self.reads += 1
        s.reads.append({"number": number, "range": range_, "names": names, "confirmed": False})
        self.sent(out)
        s.settle()
        return f"read {number}"

    def elect(self, i):
        s = self.running(i)
        if self.elections == 64:
            raise Refused("elections full")
        out = [(i, j, s.term + 1, ("request", s.base)) for j in s.others()]
        self.send(out)
        self.room(s, 8)
        self.stored(s, 8)
        self.elections += 1
        s.rise(s.term + 1)
        s.role, s.vote = "candidate", (s.base, dict(s.starts), dict(s.log))
        self.sent(out)
        return f"term {s.term}"

    def resend(self, i):
        s = self.running(i)
        out = []
        if s.role == "candidate":
            out = [(i, j, s.term, ("request", s.base)) for j in s.others()]
        elif s.role == "follower":
            out = [(i, j, s.term, ("ack", s.base, s.upto())) for j in s.others()]
        else:
            for j in s.others():
                if s.known[j] < s.base:
                    out.append((i, j, s.term, ("image", s.base, set(s.applied), list(s.sectors))))
                for slot in range(s.base + 1, s.next):
                    if j not in s.acks.get(slot, ()):
                        out.append((i, j, s.term, ("accept", s.log[slot])))
                    elif slot > s.known[j]:
                        out.append((i, j, s.term, ("commit", slot)))
                out += [(i, j, s.term, ("probe", it["number"])) for it in s.reads if not it["confirmed"]]
        self.send(out)
        self.sent(out)
        return "ok"

    def checkpoint(self, i):
        s = self.running(i)
        upto = s.upto()
        if upto == s.base or s.leads() and s.next <= upto:
            return f"base {s.base}"
        applied = {it for it in s.applied if it > upto}
        s_size = s.image_size(len(applied), {slot: it for slot, it in s.log.items() if slot > upto})
        if 9 + 6 + s_size > MOST_LOG:
            raise Refused("log full")
        s.save(upto, applied, s.sectors, s.term)
        s.applied = applied
        s.settle()
        return f"base {upto}"

    def stop(self, i):
        self.running(i).runs = False
        return "ok"

    def restart(self, i):
        s = self.servers[i]
        s.runs = True
        if s.format == 1:
            s.save(s.base, s.image[0], s.image[1], s.term)
        s.begin()
        return "ok"

    def lose(self, k):
        if k >= len(self.packets):
            raise Refused("no packet")
        if self.packets[k][1] == "lost":
            raise Refused("lost packet")
        self.packets[k][1] = "lost"
        return "ok"

    def deliver(self, k):
        if k >= len(self.packets):
            raise Refused("no packet")
        if self.packets[k][1] == "lost":
            raise Refused("lost packet")
        j, i, term, body = self.packets[k][0]
        s = self.servers[i]
        if s.runs:
            getattr(self, "on_" + body[0])(s, j, term, *body[1:])
            s.settle()
        self.packets[k][1] = "delivered"
        return "ok" if s.runs else "down"

    # --- the rows of a delivery: what is refused changes nothing

    def on_request(self, s, j, term, base):
        if term <= s.term or base < s.base:
            return self.reply(s, j, s.term, ("nack",))
        out = [(s.number, j, term, ("vote", s.base, dict(s.starts), dict(s.log)))]
        self.send(out)
        self.room(s, 8)
        self.stored(s, 8)
        s.rise(term)
        self.sent(out)

    def reply(self, s, j, term, body):
        out = [(s.number, j, term, body)]
        self.send(out)
        self.sent(out)

    def on_vote(self, s, j, term, base, starts, log):
        if s.role != "candidate" or term != s.term or base > s.base:
            return
        merged = merge(s.base, s.vote, (base, starts, log))
        first = max(merged, default=s.base) + 1
        entries = [Entry(slot, term, first, [], merged[slot].op if slot in merged else ("n",)) for slot in range(s.base + 1, first)]
        out = [(s.number, it, term, ("accept", entry)) for entry in entries for it in s.others()]
        self.send(out)
        payload = 16 + entries_size(entries)
        self.room(s, payload)
        self.stored(s, payload)
        for entry in entries:
            s.log[entry.slot] = entry
        if entries:
            s.starts[term] = first
        s.role, s.first, s.next, s.b0 = "merging" if entries else "serving", first, first, s.base
        s.acks, s.known = {it.slot: {s.number} for it in entries}, {it: 0 for it in s.others()}
        self.sent(out)

    def on_accept(self, s, j, term, entry):
        if term < s.term:
            return self.reply(s, j, s.term, ("nack",))
        ack = lambda: [(s.number, j, term, ("ack", entry.slot, s.upto()))]
        if entry.slot <= s.base:
            self.send(ack())
            if term > s.term:
                self.room(s, 8)
                self.stored(s, 8)
                s.rise(term)
            return self.sent(ack())
        if entry.slot > s.base + WINDOW:
            return None
        held = s.log.get(entry.slot)
        if held and held.term == term:
            return self.reply(s, j, s.term, ("ack", entry.slot, s.upto()))
        self.send(ack())
        self.room(s, entry.size())
        self.stored(s, entry.size())
        s.rise(term)
        s.log[entry.slot], s.starts[term] = entry, entry.first
        return self.sent(ack())

    def on_ack(self, s, j, term, slot, upto):
        if not s.leads() or term != s.term:
            return
        is_own = s.b0 < slot < s.next
        if is_own:
            out = [(s.number, j, term, ("commit", slot))]
            self.send(out)
            self.sent(out)
        s.known[j] = upto
        if not is_own:
            return
        s.acks.setdefault(slot, {s.number}).add(j)
        if slot in s.log and s.log[slot].term == s.term:
            s.committed.add(slot)
        if s.role == "serving" and slot >= s.first and (term, slot) not in self.acked_set:
            self.acked_set.add((term, slot))
            self.acked.append(slot)
        if s.role == "merging" and all(len(s.acks[it]) > 1 for it in range(s.b0 + 1, s.first)):
            s.role = "serving"

    def on_nack(self, s, j, term):
        if term > s.term:
            self.room(s, 8)
            self.stored(s, 8)
            s.rise(term)

    def on_commit(self, s, j, term, slot):
        if slot in s.log and s.log[slot].term == term:
            s.committed.add(slot)

    def on_probe(self, s, j, term, number):
        if term < s.term:
            return self.reply(s, j, s.term, ("nack",))
        return self.reply(s, j, term, ("probed", number, s.upto()))

    def on_probed(self, s, j, term, number, upto):
        if s.role != "serving" or term != s.term:
            return
        s.known[j] = upto
        for read in s.reads:
            read["confirmed"] |= read["number"] == number

    def on_image(self, s, j, term, base, applied, sectors):
        if term < s.term:
            return self.reply(s, j, s.term, ("nack",))
        if base <= s.upto():
            out = [(s.number, j, term, ("ack", base, s.upto()))]
            self.send(out)
            if term > s.term:
                self.room(s, 8)
                self.stored(s, 8)
                s.rise(term)
            return self.sent(out)
        after = base
        while after + 1 in applied:
            after += 1
        out = [(s.number, j, term, ("ack", base, after))]
        self.send(out)
        if 15 + s.image_size(len(applied), {slot: it for slot, it in s.log.items() if slot > base}) > MOST_LOG:
            raise Refused("log full")
        s.save(base, applied, sectors, term)
        s.follow()
        s.applied, s.sectors, s.snapshots = set(applied), list(sectors), {}
        return self.sent(out)


def merge(base, own, other):
    starts = [*own[1].items(), *other[1].items()]
    taken = {}
    for log in (own[2], other[2]):
        for slot, entry in log.items():
            if slot <= base or any(t > entry.term and f <= slot for t, f in starts):
                continue
            if slot not in taken or taken[slot].term < entry.term:
                taken[slot] = entry
    return taken
