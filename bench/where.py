"""where.py PROGRAM ONE ELEVEN: where the instructions of one message go, by function and by call, from callgrind's files of one and eleven."""
import bisect
import subprocess
import sys
from collections import Counter


def load(path):
    """Instructions by address; times and instructions by call (its place and its target)."""
    own, times, inside, at, call = Counter(), Counter(), Counter(), 0, None
    for line in open(path):
        if line.startswith('calls='):
            n, t = line[6:].split()[:2]
            call = int(n), at + int(t, 0) if t[0] in '+-' else at if t == '*' else int(t, 16)
        elif line[0] in '0123456789+-*':
            place, cost = line.split()[0], int(line.split()[-1])
            at = at + int(place, 0) if place[0] in '+-' else at if place == '*' else int(place, 16)
            if call:
                times[at, call[1]] += call[0]
                inside[at, call[1]] += cost
                call = None
            else:
                own[at] += cost
    return own, times, inside


program, *files = sys.argv[1:]
(own1, times1, inside1), (own, times, inside) = map(load, files)
names = [l.split(None, 2) for l in subprocess.run(['nm', '-nC', program], capture_output=True, text=True, check=True).stdout.splitlines()]
names = [(int(a, 16), n) for a, kind, n in names if kind in 'tT']


def name(at):
    return names[bisect.bisect(names, (at, '~')) - 1][1]


by = Counter()
for at in own:
    by[name(at)] += (own[at] - own1[at]) / 10
print('%9.1f in all\n' % sum(by.values()))
for n, c in by.most_common():
    if c:
        print('%9.1f %s' % (c, n))
print('\nCalls: how often, the instructions inside, from, to')
calls = {k: ((times[k] - times1[k]) / 10, (inside[k] - inside1[k]) / 10) for k in times}
for (at, to), (n, c) in sorted(calls.items(), key=lambda x: -x[1][1]):
    if n:
        print('%7.1f %9.1f %s -> %s' % (n, c, name(at), name(to)))
