#!/usr/bin/env python3
"""Random scripts under random halts: the list that is read off the histories gives the same report."""
import random, sys
import world as W
def acts_at(g, ev):
    if ev[0] == 'Deliver':
        p = W.get(g.packets, ev[1]); return None if p is None else p.packet.to
    return ev[1] if ev[0] not in ('Lose', 'Claim') else None
class Drawn(list): pass
def main(seeds):
    halted = found_n = 0
    for seed in seeds:
        rnd = random.Random(seed); hist = {}; draws = []
        def answered(halts, c, ev):
            key = (c.number, c.events)
            if key not in drawn:
                cut = W.may_halt(c.setup, c.state, ev) and rnd.random() < 0.15
                drawn[key] = cut
                if cut: draws.append((c.number, c.events, acts_at(c.state, ev), rnd.random() < 0.5))
            return W.R('Halted') if drawn[key] else W.answer_to(c.setup, c.state, ev)
        def after(halts, c, ev):
            a = answered(halts, c, ev)
            e = W.listed(draws, c, ev)
            real = e
            if e[0] == 'Restart':
                s = W.get(c.state.servers, e[1])
                same = W.runs(s) or (isinstance(s, W.Stopped) and s.before == s.after) or a != W.DONE
                if same: real = ('Restart', e[1], rnd.random() < 0.5)   # what a history may say where there was nothing to be found
            hist.setdefault(c.number, []).append((real, a, acts_at(c.state, ev)))
            return W.replace(c, state=W.happens(c.setup, c.state, e, W.ending(a)), events=c.events + 1)
        chunks = rnd.choice([1, 1, 2]); fmt = rnd.choice([1, 2, 2])
        lines = ['volume %d 16 %d %d' % (chunks, rnd.randint(0, 2), fmt)]
        for _ in range(60):
            g = rnd.randrange(chunks); i = rnd.randrange(3)
            lines.append(rnd.choice(['submit %d %d %d 4%d %d' % (g, rnd.choice([0, 0, i]), rnd.randrange(15), rnd.randrange(9), rnd.randint(1, 2)), 'mark %d %d' % (g, i),
                'fetch %d %d 0 8' % (g, i), 'elect %d %d' % (g, i), 'restart %d %d' % (g, i), 'restart %d %d' % (g, i), 'stop %d %d' % (g, i), 'checkpoint %d %d' % (g, i),
                'resend %d %d' % (g, i), 'deliver %d %d' % (g, rnd.randrange(30)), 'settle %d' % rnd.randint(1, 12), 'show log %d %d' % (g, i), 'show sectors %d %d' % (g, i)]))
        for g in range(chunks):
            for i in range(3): lines += ['restart %d %d' % (g, i), 'show log %d %d' % (g, i), 'show sectors %d %d' % (g, i)]
        script = W.read('\n'.join(lines)); making = [(0, None, rnd.randrange(3), False)] if rnd.random() < 0.2 else []
        draws += making; drawn = {}
        keep = W.answered, W.after; W.answered, W.after = answered, after
        try: first = W.report_of(draws, script)
        finally: W.answered, W.after = keep
        told = list(making)
        for g, hs in hist.items():
            for n, (ev, a, i) in enumerate(hs):
                if a == W.R('Halted'):
                    nxt = [e[2] for e, b, _ in hs[n + 1:] if e[0] == 'Restart' and e[1] == i and b == W.DONE]
                    told.append((g, n, i, nxt[0] if nxt else False)); halted += 1; found_n += told[-1][3]
        if W.report_of(told, script) != first: print('DIFFERS', seed); return 1
    print('same reports for', len(seeds), 'scripts,', halted, 'halts,', found_n, 'found')
sys.exit(main(range(int(sys.argv[1]))))
