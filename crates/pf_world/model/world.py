#!/usr/bin/env python3
"""Follows crates/pf_world/specs definition by definition, over a model of pf_protocol's rules. It shares no code with the project."""
import sys, glob
from dataclasses import dataclass, replace, field
from typing import Any

# ---- pf_base, pf_entry ----
def overlaps(a, b):
    if a[1] == 0 or b[1] == 0: return False
    if a[1] == 255 or b[1] == 255: return True
    return a[0] < b[0] + b[1] and b[0] < a[0] + a[1]
def fits_in(r, n): return r[1] == 255 or r[0] + r[1] <= n
NOOP, MARK = ('n',), ('m',)
def range_of(op): return op[1] if op[0] == 'w' else (0, 0) if op[0] == 'n' else (0, 255)
ZERO = bytes(512)
@dataclass(frozen=True)
class Entry: slot: int; term: int; first: int; look: tuple; op: tuple
@dataclass(frozen=True)
class Vote: base: int; starts: dict; log: dict
@dataclass(frozen=True)
class Durable:
    format: int; used: int; generation: int; term: int; base: int; starts: dict; log: dict; saved: frozenset; sectors: list
def op_size(op): return 6 + 512 * len(op[2]) if op[0] == 'w' else 1
def entry_size(e): return 25 + 13 * len(e.look) + op_size(e.op)
def entries_size(es): return 4 + sum(map(entry_size, es))
def vote_size(v): return 8 + 2 + 16 * len(v.starts) + entries_size(v.log.values())
def slots_size(s): return 4 + 8 * len(s)
def sectors_size(s): return 4 + 512 * len(s)
def message_size(b):
    k = b[0]
    if k == 'RequestVote': return 8
    if k == 'Vote': return vote_size(b[1])
    if k == 'Accept': return entry_size(b[1])
    if k in ('Ack', 'ProbeOk'): return 16
    if k == 'Nack': return 0
    if k in ('Commit', 'Probe'): return 8
    return 8 + slots_size(b[2]) + sectors_size(b[3])
@dataclass(frozen=True)
class Packet: frm: int; to: int; term: int; body: tuple
def packet_size(p): return 11 + message_size(p.body)
def body_size(r):
    k = r[0]
    if k == 'Image': return 6 + 16 + vote_size(r[3]) + slots_size(r[4]) + sectors_size(r[5])
    if k == 'Term': return 6 + 8
    if k == 'Entry': return 6 + entry_size(r[1])
    return 6 + 16 + entries_size(r[3])
def vote_of(d): return Vote(d.base, d.starts, d.log)
def image_of(d): return ('Image', d.generation, d.term, vote_of(d), d.saved, d.sectors)
def above(base, log): return {s: e for s, e in log.items() if s > base}
def stored(d, r):
    if r[0] == 'Image':
        _, gen, term, v, applied, sectors = r
        return Durable(2, 9 + body_size(r), gen, term, v.base, v.starts, v.log, applied, sectors)
    used = d.used + body_size(r)
    if r[0] == 'Term': return replace(d, used=used, term=r[1])
    if r[0] == 'Entry':
        e = r[1]
        return replace(d, used=used, term=e.term, starts={**d.starts, e.term: e.first}, log={**d.log, e.slot: e})
    _, term, first, es = r
    return replace(d, used=used, term=term, starts={**d.starts, term: first} if es else d.starts, log={**d.log, **{e.slot: e for e in es}})
def holds(d, slot, term): return slot in d.log and d.log[slot].term == term
def is_void(starts, slot, term): return any(t > term and f <= slot for t, f in starts.items())
def left_of(base, own, other, slot, e):
    if e is None: return None
    return e if slot > base and not (is_void(own.starts, slot, e.term) or is_void(other.starts, slot, e.term)) else None
def taken(base, own, other, slot):
    a = left_of(base, own, other, slot, own.log.get(slot)); b = left_of(base, own, other, slot, other.log.get(slot))
    if a is None: return b
    if b is None: return a
    return b if a.term < b.term else a
def merged_first(base, own, other):
    return 1 + max([base] + [s for s in list(own.log) + list(other.log) if taken(base, own, other, s) is not None])
def merged_entries(term, base, own, other):
    first = merged_first(base, own, other); out = []
    for slot in range(base + 1, first):
        t = taken(base, own, other, slot)
        out.append(Entry(slot, term, first, (), t.op if t else NOOP))
    return out

# ---- pf_protocol: Servers, Outcomes ----
@dataclass(frozen=True)
class Setup: names: int; window: int; chunk: int; format: int; failed: tuple
@dataclass(frozen=True)
class Leader: first: int; next: int; b0: int; acks: dict; known: dict
@dataclass(frozen=True)
class Read: number: int; range: tuple; waits_for: frozenset; confirmed: bool
@dataclass(frozen=True)
class Server:
    number: int; life: int; durable: Durable; role: tuple; committed: frozenset; applied: frozenset
    sectors: list; in_hand: dict; reads: tuple; snapshots: dict
@dataclass(frozen=True)
class Stopped: life: int; before: Durable; after: Durable
UNFORMATTED = 'unformatted'
FOLLOWER = ('F',)
def has_applied(s, slot): return slot <= s.durable.base or slot in s.applied
def upto(s):
    n = s.durable.base
    while n + 1 in s.applied: n += 1
    return n
@dataclass(frozen=True)
class Outcome: server: Server; packets: list; answer: tuple; acked: Any = None
DONE = ('Done',)
def R(name, *a): return ('Refused', name) + a
def others(me): return [i for i in (0, 1, 2) if i != me]
def to_one(s, to, body): return Packet(s.number, to, s.durable.term, body)
def to_others(s, body): return [to_one(s, i, body) for i in others(s.number)]
def sends(s, ps): return Outcome(s, ps, DONE)
def nothing(s): return sends(s, [])
def refused(s, answer): return Outcome(s, [], answer)
def store(s, r): return replace(s, durable=stored(s.durable, r))
def step_down(s): return replace(s, role=FOLLOWER, reads=())
def raise_term(s, term): return step_down(store(s, ('Term', term)))

# ---- Leading ----
def op_at(log, slot): return log[slot].op if slot in log else NOOP
def look_behind(names, s, nxt):
    lo = max(nxt - names, 0)
    return tuple((slot, range_of(op_at(s.durable.log, slot))) for slot in range(lo, nxt) if slot > s.durable.base)
def acknowledged(acks, server, slot): return {**acks, slot: acks.get(slot, frozenset()) | {server}}
def has_acked(l, server, slot): return server in l.acks.get(slot, frozenset())
def knows(l, server): return l.known.get(server, 0)
def on_submit(setup, s, op, role):
    if role[0] != 'S': return refused(s, R('NotLeader'))
    l = role[1]
    if l.next > s.durable.base + setup.window: return refused(s, R('WindowFull'))
    e = Entry(l.next, s.durable.term, l.first, look_behind(setup.names, s, l.next), op)
    a = store(s, ('Entry', e))
    a = replace(a, role=('S', replace(l, next=l.next + 1, acks=acknowledged(l.acks, s.number, l.next))))
    return Outcome(a, to_others(s, ('Accept', e)), ('Slot', l.next))
def on_fetch(s, rng, number, role):
    if role[0] != 'S': return refused(s, R('NotLeader'))
    waits = frozenset(x for x in s.committed if not has_applied(s, x) and overlaps(range_of(op_at(s.durable.log, x)), rng))
    return Outcome(replace(s, reads=s.reads + (Read(number, rng, waits, False),)), to_others(s, ('Probe', number)), ('Read', number))
def on_elect(s):
    a = replace(raise_term(s, s.durable.term + 1), role=('C', vote_of(s.durable)))
    return Outcome(a, to_others(a, ('RequestVote', s.durable.base)), ('Term', s.durable.term + 1))
def resent(s, l, to):
    ps = []
    if knows(l, to) < s.durable.base: ps.append(to_one(s, to, ('Image', s.durable.base, s.applied, s.sectors)))
    for slot in range(s.durable.base + 1, l.next):
        e = s.durable.log.get(slot)
        if e is None: continue
        if not has_acked(l, to, slot): ps.append(to_one(s, to, ('Accept', e)))
        elif knows(l, to) < slot: ps.append(to_one(s, to, ('Commit', slot)))
    return ps + [to_one(s, to, ('Probe', r.number)) for r in s.reads if not r.confirmed]
def on_resend(s, role):
    if role[0] == 'F': return sends(s, to_others(s, ('Ack', s.durable.base, upto(s))))
    if role[0] == 'C': return sends(s, to_others(s, ('RequestVote', s.durable.base)))
    return sends(s, [p for i in others(s.number) for p in resent(s, role[1], i)])
def on_vote(s, term, vote, role):
    if role[0] != 'C' or term != s.durable.term or vote.base > s.durable.base: return nothing(s)
    own = role[1]; base = s.durable.base
    first = merged_first(base, own, vote); es = merged_entries(term, base, own, vote)
    a = store(s, ('Merged', term, first, es))
    l = Leader(first, first, base, {slot: frozenset([s.number]) for slot in range(base + 1, first)}, {})
    a = replace(a, role=('M' if base + 1 < first else 'S', l))
    return sends(a, [p for e in es for p in to_others(s, ('Accept', e))])
def other_acked(l, me, slot): return any(has_acked(l, i, slot) for i in others(me))
def is_own(l, slot): return l.b0 < slot < l.next
def counted(l, frm, slot, u):
    return replace(l, known={**l.known, frm: u}, acks=acknowledged(l.acks, frm, slot) if is_own(l, slot) else l.acks)
def on_ack(s, frm, term, slot, u, role):
    if role[0] not in 'SM' or term != s.durable.term: return nothing(s)
    l = role[1]
    m = replace(s, committed=s.committed | {slot} if is_own(l, slot) and holds(s.durable, slot, s.durable.term) else s.committed)
    c = counted(l, frm, slot, u)
    ps = [to_one(s, frm, ('Commit', slot))] if is_own(l, slot) else []
    if role[0] == 'S':
        acked = slot if is_own(l, slot) and l.first <= slot and not other_acked(l, s.number, slot) else None
        return Outcome(replace(m, role=('S', c)), ps, DONE, acked)
    done = all(other_acked(c, s.number, x) for x in range(c.b0 + 1, c.first))
    return sends(replace(m, role=('S' if done else 'M', c)), ps)
def on_probe_ok(s, frm, term, number, u, role):
    if role[0] != 'S' or term != s.durable.term: return nothing(s)
    l = role[1]
    return nothing(replace(s, role=('S', replace(l, known={**l.known, frm: u})),
                           reads=tuple(replace(r, confirmed=True) if r.number == number else r for r in s.reads)))
# ---- Following ----
def meets_term(s, term): return raise_term(s, term) if s.durable.term < term else s
def ack(s, to, slot): return sends(s, [to_one(s, to, ('Ack', slot, upto(s)))])
def nack(s, to): return sends(s, [to_one(s, to, ('Nack',))])
def on_request_vote(s, frm, term, base):
    if term <= s.durable.term or base < s.durable.base: return nack(s, frm)
    a = raise_term(s, term)
    return sends(a, [to_one(a, frm, ('Vote', vote_of(s.durable)))])
def on_accept(setup, s, frm, e):
    if e.term < s.durable.term: return nack(s, frm)
    if e.slot <= s.durable.base: return ack(meets_term(s, e.term), frm, e.slot)
    if e.slot > s.durable.base + setup.window: return nothing(s)
    if holds(s.durable, e.slot, e.term): return ack(s, frm, e.slot)
    return ack(step_down(store(s, ('Entry', e))), frm, e.slot)
def on_nack(s, term): return nothing(meets_term(s, term))
def on_commit(s, term, slot): return nothing(replace(s, committed=s.committed | {slot}) if holds(s.durable, slot, term) else s)
def on_probe(s, frm, term, number):
    if term < s.durable.term: return nack(s, frm)
    return sends(s, [Packet(s.number, frm, term, ('ProbeOk', number, upto(s)))])
def on_image(s, frm, term, base, applied, sectors):
    if term < s.durable.term: return nack(s, frm)
    if base <= upto(s): return ack(meets_term(s, term), frm, base)
    d = s.durable
    image = replace(d, generation=d.generation + 1, term=term, base=base, log=above(base, d.log), saved=applied, sectors=sectors)
    a = step_down(store(s, image_of(image)))
    a = replace(a, life=s.life + 1, committed=frozenset(x for x in s.committed if x > base), applied=applied, sectors=sectors, in_hand={}, snapshots={})
    return ack(a, frm, base)
# ---- Saving ----
def on_checkpoint(s):
    u = upto(s)
    short = s.role[0] in 'SM' and s.role[1].next <= u
    if u == s.durable.base or short: return refused(s, ('Base', s.durable.base))
    d = s.durable; saved = frozenset(x for x in s.applied if x > u)
    image = replace(d, generation=d.generation + 1, base=u, log=above(u, d.log), saved=saved, sectors=s.sectors)
    a = store(s, image_of(image))
    return refused(replace(a, committed=frozenset(x for x in s.committed if x > u), applied=saved), ('Base', u))
def renewed(d): return stored(d, image_of(replace(d, generation=d.generation + 1))) if d.format == 1 else d
def restarted(number, life, d): return Server(number, life, d, FOLLOWER, frozenset(), d.saved, d.sectors, {}, (), {})
def passes(look, slot, rng): return any(n == slot and not overlaps(r, rng) for n, r in look)
def is_free(s, e):
    rng = range_of(e.op)
    return all(has_applied(s, p) or passes(e.look, p, rng) for p in range(s.durable.base + 1, e.slot))
def claimable(window, s):
    for slot in sorted(s.committed):
        if s.durable.base < slot <= s.durable.base + window and slot in s.durable.log and not has_applied(s, slot) \
                and slot not in s.in_hand and is_free(s, s.durable.log[slot]): return slot
    return None
def changed(op, sectors):
    if op[0] != 'w': return sectors
    (f, n), payload = op[1], op[2]
    out = list(sectors)
    for x in range(len(out)):
        if f <= x < f + n: out[x] = payload[x - f]
    return out
def on_finish(s, life, slot):
    if life != s.life: return refused(s, R('Stale', s.life))
    op = s.in_hand.get(slot)
    if op is None: return sends(s, [])
    snaps = s.snapshots
    if op[0] == 'm':
        snaps = {**snaps, slot: s.sectors}
        if len(snaps) > 4: snaps = {k: v for k, v in snaps.items() if k != min(snaps)}
    return sends(replace(s, in_hand={k: v for k, v in s.in_hand.items() if k != slot}, applied=s.applied | {slot},
                         sectors=changed(op, s.sectors), snapshots=snaps), [])
# ---- Rows ----
def on_packet(setup, s, p):
    b = p.body; k = b[0]
    if k == 'RequestVote': return on_request_vote(s, p.frm, p.term, b[1])
    if k == 'Vote': return on_vote(s, p.term, b[1], s.role)
    if k == 'Accept': return on_accept(setup, s, p.frm, b[1])
    if k == 'Ack': return on_ack(s, p.frm, p.term, b[1], b[2], s.role)
    if k == 'Nack': return on_nack(s, p.term)
    if k == 'Commit': return on_commit(s, p.term, b[1])
    if k == 'Probe': return on_probe(s, p.frm, p.term, b[1])
    if k == 'ProbeOk': return on_probe_ok(s, p.frm, p.term, b[1], b[2], s.role)
    return on_image(s, p.frm, p.term, b[1], b[2], b[3])
def is_ready(s, r): return r.confirmed and all(has_applied(s, x) for x in r.waits_for)
# ---- Groups ----
@dataclass(frozen=True)
class Sent: packet: Packet; delivered: bool; lost: bool
@dataclass(frozen=True)
class Group: servers: tuple; packets: list; size: int; acked: list; answered: list; elections: int; reads: int
def put(xs, i, x):
    if i >= len(xs): return xs
    ys = list(xs); ys[i] = x
    return type(xs)(ys)
def get(xs, i): return xs[i] if 0 <= i < len(xs) else None
def runs(c): return isinstance(c, Server)
def ending(answer):
    if answer[0] != 'Refused': return 'Whole'
    return {'Halted': 'CutOff', 'Down': 'Missed'}.get(answer[1], 'Untouched')
def answer_of(s, r): return dict(number=r.number, server=s.number, term=s.durable.term, bytes=s.sectors[r.range[0]:r.range[0] + r.range[1]])
def acted(g, i, o):
    s = o.server
    return Group(put(g.servers, i, replace(s, reads=tuple(r for r in s.reads if not is_ready(s, r)))),
                 g.packets + [Sent(p, False, False) for p in o.packets], g.size + sum(map(packet_size, o.packets)),
                 g.acked + ([(s.durable.term, o.acked)] if o.acked is not None else []),
                 g.answered + [answer_of(s, r) for r in s.reads if is_ready(s, r)],
                 g.elections, g.reads + (o.answer[0] == 'Read'))
def at_server(how, g, i, rule):
    s = get(g.servers, i)
    if not runs(s): return g
    if how == 'Whole': return acted(g, i, rule(s))
    if how == 'CutOff': return replace(g, servers=put(g.servers, i, Stopped(s.life + 1, s.durable, rule(s).server.durable)))
    return g
def begun(how, g, i, life, d, before, after):
    if how == 'Whole': return replace(g, servers=put(g.servers, i, restarted(i, life + 1, renewed(d))))
    if how == 'CutOff': return replace(g, servers=put(g.servers, i, Stopped(life + 1, before, after)))
    return g
def happens(setup, g, ev, how):
    k = ev[0]
    if k == 'Submit': return at_server(how, g, ev[1], lambda s: on_submit(setup, s, ev[2], s.role))
    if k == 'Fetch': return at_server(how, g, ev[1], lambda s: on_fetch(s, ev[2], g.reads, s.role))
    if k == 'Deliver':
        p = get(g.packets, ev[1])
        if p is None or p.lost: return g
        g2 = g if how == 'Untouched' else replace(g, packets=put(g.packets, ev[1], replace(p, delivered=True)))
        return at_server(how, g2, p.packet.to, lambda s: on_packet(setup, s, p.packet))
    if k == 'Lose':
        p = get(g.packets, ev[1])
        return g if how != 'Whole' or p is None else replace(g, packets=put(g.packets, ev[1], replace(p, lost=True)))
    if k == 'Elect': return at_server(how, replace(g, elections=g.elections + (how in ('Whole', 'CutOff'))), ev[1], on_elect)
    if k == 'Resend': return at_server(how, g, ev[1], lambda s: on_resend(s, s.role))
    if k == 'Stop':
        s = get(g.servers, ev[1])
        return replace(g, servers=put(g.servers, ev[1], Stopped(s.life + 1, s.durable, s.durable))) if how == 'Whole' and runs(s) else g
    if k == 'Restart':
        c = get(g.servers, ev[1])
        if runs(c): return begun(how, g, ev[1], c.life, c.durable, c.durable, c.durable)
        if isinstance(c, Stopped): return begun(how, g, ev[1], c.life, c.after if ev[2] else c.before, c.before, c.after)
        return g
    if k == 'Claim':
        if how != 'Whole': return g
        for i in (0, 1, 2):
            s = get(g.servers, i)
            slot = claimable(setup.window, s) if runs(s) else None
            if slot is not None:
                return replace(g, servers=put(g.servers, i, replace(s, in_hand={**s.in_hand, slot: op_at(s.durable.log, slot)})))
        return g
    if k == 'Finish': return at_server(how, g, ev[1], lambda s: on_finish(s, ev[2], ev[3]))
    if k == 'Checkpoint': return at_server(how, g, ev[1], on_checkpoint)
def opening_disk(setup):
    d = Durable(setup.format, 0, 0, 1, 0, {}, {}, frozenset(), [ZERO] * setup.chunk)
    return replace(d, used=9 + body_size(image_of(d)))
def opening(setup):
    d = opening_disk(setup)
    ss = [replace(restarted(0, 0, d), role=('S', Leader(1, 1, 0, {}, {}))), restarted(1, 0, d), restarted(2, 0, d)]
    return Group(tuple(UNFORMATTED if i in setup.failed else s for i, s in enumerate(ss)), [], 0, [], [], 0, 0)
# ---- Answers ----
def room_refusal(g, o):
    if len(g.packets) + len(o.packets) > 65536 or g.size + sum(map(packet_size, o.packets)) > 134217728: return R('PacketsFull')
    if o.server.durable.used > 67108864: return R('LogFull')
    return None
def submit_refusal(setup, g, op, s):
    if op[0] == 'm' and setup.format == 1: return R('OldFormat')
    if not fits_in(range_of(op), setup.chunk): return R('BadRange')
    if s.role[0] != 'S': return R('NotLeader')
    if s.role[1].next > s.durable.base + setup.window: return R('WindowFull')
    return room_refusal(g, on_submit(setup, s, op, s.role))
def turn(setup, g, ev):
    """the server, its rule and which refusal comes first; or None"""
    k = ev[0]
    if k == 'Submit': return ev[1], lambda s: on_submit(setup, s, ev[2], s.role), lambda s: submit_refusal(setup, g, ev[2], s)
    if k == 'Fetch':
        def ref(s):
            if not fits_in(ev[2], setup.chunk): return R('BadRange')
            if s.role[0] != 'S': return R('NotLeader')
            return room_refusal(g, on_fetch(s, ev[2], g.reads, s.role))
        return ev[1], lambda s: on_fetch(s, ev[2], g.reads, s.role), ref
    if k == 'Elect': return ev[1], on_elect, lambda s: R('ElectionsFull') if g.elections >= 64 else room_refusal(g, on_elect(s))
    if k == 'Resend': return ev[1], lambda s: on_resend(s, s.role), lambda s: room_refusal(g, on_resend(s, s.role))
    if k == 'Checkpoint': return ev[1], on_checkpoint, lambda s: room_refusal(g, on_checkpoint(s))
    if k == 'Deliver':
        p = get(g.packets, ev[1]).packet
        return p.to, lambda s: on_packet(setup, s, p), lambda s: room_refusal(g, on_packet(setup, s, p))
def answer_at(g, t):
    i, rule, refusal = t
    s = get(g.servers, i)
    if not runs(s): return R('Down')
    return refusal(s) or rule(s).answer
def halts_at(g, t):
    i, rule, refusal = t
    s = get(g.servers, i)
    if not runs(s) or refusal(s) is not None: return False
    d = rule(s).server.durable
    return not (d.used == s.durable.used and d.generation == s.durable.generation)
def answer_to(setup, g, ev):
    k = ev[0]
    if k in ('Deliver', 'Lose'):
        p = get(g.packets, ev[1])
        if p is None: return R('NoPacket')
        if p.lost: return R('LostPacket')
        return DONE if k == 'Lose' else answer_at(g, turn(setup, g, ev))
    if k == 'Stop': return DONE if runs(get(g.servers, ev[1])) else R('Down')
    if k == 'Restart': return R('NotOurs') if get(g.servers, ev[1]) in (UNFORMATTED, None) else DONE
    if k == 'Claim':
        for i in (0, 1, 2):
            s = get(g.servers, i)
            slot = claimable(setup.window, s) if runs(s) else None
            if slot is not None: return ('Job', (i, s.life, slot, op_at(s.durable.log, slot)))
        return R('NoneFree')
    if k == 'Finish':
        c = get(g.servers, ev[1])
        if runs(c): return on_finish(c, ev[2], ev[3]).answer
        return R('Stale', c.life) if isinstance(c, Stopped) else R('Down')
    return answer_at(g, turn(setup, g, ev))
def may_halt(setup, g, ev):
    k = ev[0]
    if k in ('Submit', 'Elect', 'Checkpoint'): return halts_at(g, turn(setup, g, ev))
    if k == 'Deliver':
        p = get(g.packets, ev[1])
        return p is not None and not p.lost and halts_at(g, turn(setup, g, ev))
    if k == 'Restart': return get(g.servers, ev[1]) not in (UNFORMATTED, None)
    return False

# ======== pf_world/specs ========
# ---- Halts: (group, place, server, found), place None for the making ----
def failed_by(halts, group): return tuple(h[2] for h in halts if h[0] == group and h[1] is None)
def is_cut(halts, group, n): return any(h[0] == group and h[1] == n for h in halts)
def last_halt(halts, group, n, server):
    o = None
    for h in halts:
        if h[0] == group and h[2] == server and h[1] is not None and h[1] < n: o = h
    return o
def found_by(halts, group, n, server):
    h = last_halt(halts, group, n, server)
    return False if h is None else h[3]
# ---- Chunks ----
@dataclass(frozen=True)
class Chunk: number: int; setup: Setup; state: Group; events: int; waiting: tuple = ()  # reads of lines; no line touches a port
def setup_with(sectors, names, fmt, failed): return Setup(names, 4096, sectors, fmt, failed)
def made_chunk(halts, sectors, names, fmt, number):
    setup = setup_with(sectors, names, fmt, failed_by(halts, number))
    return Chunk(number, setup, opening(setup), 0)
def listed(halts, c, ev): return ('Restart', ev[1], found_by(halts, c.number, c.events, ev[1])) if ev[0] == 'Restart' else ev
def answered(halts, c, ev):
    if is_cut(halts, c.number, c.events) and may_halt(c.setup, c.state, ev): return R('Halted')
    return answer_to(c.setup, c.state, ev)
def after(halts, c, ev):
    return replace(c, state=happens(c.setup, c.state, listed(halts, c, ev), ending(answered(halts, c, ev))), events=c.events + 1)
# ---- Rounds ----
ENOUGH = 12289
def claims_to(n, halts, c):
    jobs = []
    while True:
        if n == 0: return c, jobs
        a = answered(halts, c, ('Claim',)); c = after(halts, c, ('Claim',)); n -= 1
        if a[0] != 'Job': return c, jobs
        jobs.append(a[1])
def finished(halts, c, job): return after(halts, c, ('Finish', job[0], job[1], job[2]))
def rounds_to(n, halts, c):
    while n > 0:
        c, jobs = claims_to(ENOUGH, halts, c); n -= 1
        if not jobs: return c
        for job in jobs: c = finished(halts, c, job)
    return c
def applied(halts, c): return rounds_to(ENOUGH, halts, c)
# ---- Happenings ----
def decimal(n): return str(n)
def runs_text(bs):
    if not bs: return 'none'
    out = []; i = 0
    while i < len(bs):
        j = i
        while j < len(bs) and bs[j] == bs[i]: j += 1
        out.append('%02x*%d' % (bs[i], j - i)); i = j
    return ' '.join(out)
def read_text(group, number, sectors): return 'read %d %d %s' % (group, number, runs_text(b''.join(sectors)))
def read_line(chunk, a): return '- ' + read_text(chunk, a['number'], a['bytes']) + '\n'
def answers_of(g, number): return [a for a in g.answered if a['number'] == number]
def told_of(chunk, g, waiting): return ''.join(read_line(chunk, a) for number, _, _ in waiting for a in answers_of(g, number))
def may_wait(g, read):
    number, server, term = read; s = get(g.servers, server)
    return not answers_of(g, number) and runs(s) and s.durable.term == term
def read_of(s, server, a): return ((a[1], server, s.durable.term),) if runs(s) and a[0] == 'Read' else ()
def followed(halts, c, a):
    nxt = applied(halts, c)
    return replace(nxt, waiting=tuple(w for w in c.waiting if may_wait(nxt.state, w))), a, told_of(c.number, nxt.state, c.waiting)
def happened(halts, c, ev): return followed(halts, after(halts, c, ev), answered(halts, c, ev))
def fetched(halts, server, rng, c):
    ev = ('Fetch', server, rng); a = answered(halts, c, ev); mid = after(halts, c, ev)
    return followed(halts, replace(mid, waiting=mid.waiting + read_of(get(mid.state.servers, server), server, a)), a)
# ---- Worlds: a world is the list of its chunks ----
TEXTS = dict(BadRange='bad range', WindowFull='window full', LogFull='log full', NotOurs='not ours', NotLeader='not leader', Down='down', Halted='halted',
             NoPacket='no packet', LostPacket='lost packet', PacketsFull='packets full', ElectionsFull='elections full', OldFormat='old format')
def answer_text(a):
    if a == DONE: return 'ok'
    if a[0] in ('Slot', 'Term', 'Read', 'Base'): return '%s %d' % (a[0].lower(), a[1])
    return TEXTS.get(a[1]) if a[0] == 'Refused' else None
def said(a): return answer_text(a) or ''
def line_of(number, text): return '%d %s\n' % (number, text)
def answer_line(number, a): return line_of(number, said(a))
def made(halts, chunks, sectors, names, fmt): return [made_chunk(halts, sectors, names, fmt, g) for g in range(chunks)]
def made_answer(w): return R('Halted') if [i for c in w for i in c.setup.failed] else DONE
def with_chunk(w, c): return put(w, c.number, c)
def at_chunk(w, number, chunk, step):
    c = get(w, chunk)
    if c is None: return w, ''
    nxt, a, text = step(c)
    return with_chunk(w, nxt), text + answer_line(number, a)
# ---- Settling ----
def is_left(p): return p is not None and not (p.delivered or p.lost)
def least_left(passed, c):
    for k, p in enumerate(c.state.packets):
        if not (p.delivered or p.lost) and (c.number, k) not in passed: return k
    return None
def next_of(passed, chunks):
    for c in chunks:
        k = least_left(passed, c)
        if k is not None: return c, k
    return None
def is_passed_over(a): return a in (R('LogFull'), R('PacketsFull'))
def settle_to(tries, halts, limit, passed, w):
    out = []
    while tries > 0:
        tries -= 1
        n = next_of(passed, w)
        if n is None: return w, ''.join(out), False
        if limit == 0: return w, ''.join(out), True
        nxt, a, text = happened(halts, n[0], ('Deliver', n[1]))
        out.append(text)
        w = with_chunk(w, nxt)
        if is_passed_over(a): passed = passed | {(nxt.number, n[1])}
        else: limit -= 1
    return w, ''.join(out), True
def settled(halts, limit, w): return settle_to(limit + 8 * 65536 + 1, halts, limit, frozenset(), w)
# ---- Showing ----
def of_server(c, server, text):
    s = get(c.state.servers, server)
    return text(s) if runs(s) else said(R('Down'))
def op_text(op): return 'w%dx%d' % op[1] if op[0] == 'w' else op[0]
def log_shown(s):
    d = s.durable
    return 'log %d %d' % (d.term, d.base) + ''.join(' %d:%d:%s%s' % (slot, e.term, op_text(e.op), '+' if slot in s.committed else '-') for slot, e in sorted(d.log.items()))
def applied_shown(s): return 'applied %d' % s.durable.base + ''.join(' %d' % x for x in sorted(s.applied) if x > s.durable.base)
def sectors_shown(s): return 'sectors ' + runs_text(b''.join(s.sectors))
def mark_shown(slot):
    return lambda s: 'mark %d %s' % (slot, runs_text(b''.join(s.snapshots[slot])) if slot in s.snapshots else 'none')
def acked_shown(c): return 'acked' + ''.join(' %d' % x for _, x in c.state.acked)
# ---- Lines ----
def is_range(first, count): return 1 <= count <= 8 and first + count <= 4096
def filled(first, byte, count): return ('w', (first, count), tuple(bytes([byte]) * 512 for _ in range(count)))
def no_range(server, c): return c, R('BadRange') if runs(get(c.state.servers, server)) else R('Down'), ''
def submits(halts, server, first, byte, count, c):
    return happened(halts, c, ('Submit', server, filled(first, byte, count))) if is_range(first, count) else no_range(server, c)
def fetches(halts, server, first, count, c):
    return fetched(halts, server, (first, count), c) if is_range(first, count) else no_range(server, c)
def shows(w, number, chunk, text):
    c = get(w, chunk)
    return (w, '') if c is None else (w, line_of(number, text(c)))
def line_told(halts, w, number, cmd):
    k, a = cmd[0], cmd[1:]
    if k == 'volume':
        v = made(halts, *a)
        return v, answer_line(number, made_answer(v))
    if k in ('elect', 'resend', 'stop', 'checkpoint', 'deliver', 'lose'):
        return at_chunk(w, number, a[0], lambda c: happened(halts, c, (k.capitalize(), a[1])))
    if k == 'restart': return at_chunk(w, number, a[0], lambda c: happened(halts, c, ('Restart', a[1], False)))
    if k == 'mark': return at_chunk(w, number, a[0], lambda c: happened(halts, c, ('Submit', a[1], MARK)))
    if k == 'submit': return at_chunk(w, number, a[0], lambda c: submits(halts, a[1], a[2], a[3], a[4], c))
    if k == 'fetch': return at_chunk(w, number, a[0], lambda c: fetches(halts, a[1], a[2], a[3], c))
    if k == 'settle':
        v, text, stopped = settled(halts, a[0], w)
        return v, text + line_of(number, 'stopped' if stopped else 'quiet')
    if k == 'show log': return shows(w, number, a[0], lambda c: of_server(c, a[1], log_shown))
    if k == 'show applied': return shows(w, number, a[0], lambda c: of_server(c, a[1], applied_shown))
    if k == 'show sectors': return shows(w, number, a[0], lambda c: of_server(c, a[1], sectors_shown))
    if k == 'show acked': return shows(w, number, a[0], acked_shown)
    if k == 'show mark': return shows(w, number, a[0], lambda c: of_server(c, a[1], mark_shown(a[2])))
    raise ValueError(cmd)
# ---- Reports ----
def world_run(halts, lines):
    w, out = [], []
    for number, cmd in lines:
        w, text = line_told(halts, w, number, cmd)
        out.append(text)
    return w, ''.join(out)
def report_of(halts, lines): return world_run(halts, lines)[1]

# ======== a plain reader of accepted scripts ========
def read(script):
    lines = []
    for number, line in enumerate(script.split('\n'), 1):
        ws = line.rstrip('\r').split()
        if not ws or ws[0].startswith('#'): continue
        if ws[0] == 'show': cmd = ('show ' + ws[1],) + tuple(map(int, ws[2:]))
        elif ws[0] == 'submit': cmd = ('submit', *map(int, ws[1:4]), int(ws[4], 16), int(ws[5]))
        elif ws[0] == 'volume' and len(ws) == 3: cmd = ('volume', int(ws[1]), int(ws[2]), 2, 2)
        else: cmd = (ws[0],) + tuple(map(int, ws[1:]))
        lines.append((number, cmd))
    return lines
def halts_cases():
    q = 'submit 0 0 0 41 1\n'
    # a submission's packet 0 cut off at place 2 (submit, claim; deliver), found or not; a making that failed
    base = 'volume 1 16\n' + q + 'deliver 0 0\nshow log 0 1\nrestart 0 1\nshow log 0 1\ndeliver 0 0\nshow log 0 1\n'
    yield 'cut off, not found', [(0, 2, 1, False)], base, '1 ok\n2 slot 1\n3 halted\n4 down\n5 ok\n6 log 1 0\n7 ok\n8 log 1 0 1:1:w0x1-\n'
    yield 'cut off, found', [(0, 2, 1, True)], base, '1 ok\n2 slot 1\n3 halted\n4 down\n5 ok\n6 log 1 0 1:1:w0x1-\n7 ok\n8 log 1 0 1:1:w0x1-\n'
    yield 'not made', [(0, None, 0, False)], 'volume 1 16\n' + q + 'restart 0 0\nelect 0 1\n', '1 halted\n2 down\n3 not ours\n4 term 2\n'
    yield 'cut off, and the restart too', [(0, 2, 1, True), (0, 4, 1, True)], 'volume 1 16\n' + q + 'deliver 0 0\nrestart 0 1\nshow log 0 1\nrestart 0 1\nshow log 0 1\n', \
        '1 ok\n2 slot 1\n3 halted\n4 halted\n5 down\n6 ok\n7 log 1 0 1:1:w0x1-\n'
    yield 'found, and then stopped', [(0, 2, 1, True)], 'volume 1 16\n' + q + 'deliver 0 0\nrestart 0 1\nstop 0 1\nrestart 0 1\nshow log 0 1\n', \
        '1 ok\n2 slot 1\n3 halted\n4 ok\n5 ok\n6 ok\n7 log 1 0 1:1:w0x1-\n'
if __name__ == '__main__':
    good = bad = skipped = 0
    for name, halts, script, report in halts_cases():
        got = report_of(halts, read(script))
        if got == report: good += 1
        else: bad += 1; print('HALTS', name, repr(got))
    for path in sys.argv[1:] or sorted(glob.glob('examples/*/*.script')):
        stem = path[:-len('.script')]
        if open(stem + '.status').read().strip() != '0': skipped += 1; continue
        script = open(path).read()
        got = report_of([], read(script)); want = open(stem + '.report').read()
        if got == want: good += 1
        else:
            bad += 1
            for a, b in zip(got.split('\n'), want.split('\n')):
                if a != b: print('DIFFERS', stem, '\n  run   ', a[:160], '\n  report', b[:160]); break
            else: print('LENGTH', stem, len(got), len(want))
        print(stem.split('/')[-1], 'good' if got == want else 'BAD', flush=True)
    print('good', good, 'bad', bad, 'skipped', skipped)
