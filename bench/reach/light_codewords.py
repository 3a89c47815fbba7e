"""Fire codewords of a block whose 456 coded bits have little weight: what a wrong word can be that the CRC does not see.

usage: light_codewords.py HEAVIEST HEAVIEST_PAIR [light.json]

It takes the error events of the convolutional code (inputs whose output has at most weight HEAVIEST), at all places, and sums of two, three
and four events whose syndromes cancel (meet in the middle). Prints how many codewords have each coded weight."""
import sys
import numpy as np

G = (1 << 40) | (1 << 26) | (1 << 23) | (1 << 17) | (1 << 3) | 1
HEAVIEST = int(sys.argv[1]) if len(sys.argv) > 1 else 10
HEAVIEST_PAIR = int(sys.argv[2]) if len(sys.argv) > 2 else 17


def events():
    """Inputs that begin with 1 and whose path first comes back to state 0 after them: (bits, weight), by search."""
    out, todo = [], [((1,), (1, 0, 0, 0), 2)]
    while todo:
        bits, st, w = todo.pop()
        # st: last four inputs, newest first
        for b in (0, 1):
            g0, g1 = b ^ st[2] ^ st[3], b ^ st[0] ^ st[2] ^ st[3]
            nw, ns = w + g0 + g1, (b,) + st[:3]
            if nw > HEAVIEST or len(bits) > 60:
                continue
            if ns == (0, 0, 0, 0):
                out.append((bits[:len(bits) - 3 + 0], nw))
            else:
                todo.append((bits + (b,), ns, nw))
    res = []
    for b, w in out:
        b = list(b)
        while b and b[-1] == 0:
            b.pop()
        res.append((tuple(b), w))
    return sorted(set(res), key=lambda x: (x[1], len(x[0])))


def coded_weight(word):
    """word: sorted places of ones, of 224"""
    u = np.zeros(228, int)
    u[list(word)] = 1
    p = np.concatenate([[0] * 4, u])
    g0 = p[4:] ^ p[1:-3] ^ p[:-4]
    g1 = p[4:] ^ p[3:-1] ^ p[1:-3] ^ p[:-4]
    return int(g0.sum() + g1.sum())


ev = events()
by = {}
for b, w in ev:
    by[w] = by.get(w, 0) + 1
print("events by weight", by, "the lightest", ev[:4])
power = [1]
for i in range(223):
    v = power[-1] << 1
    power.append(v ^ G if v >> 40 & 1 else v)
# place p of the word (first sent 0) is D^(223 - p)
syn, wt, ident = [], [], []
for k, (b, w) in enumerate(ev):
    for p in range(224 - len(b) + 1):
        s = 0
        for i, x in enumerate(b):
            if x:
                s ^= power[223 - p - i]
        syn.append(s)
        wt.append(w)
        ident.append((k, p))
syn, wt = np.array(syn, np.int64), np.array(wt, np.int16)
print("events at places", len(syn), "of syndrome 0:", int((syn == 0).sum()))
start = np.array([p for k, p in ident])
stop = np.array([p + len(ev[k][0]) for k, p in ident])
I, J = [], []
order = np.argsort(start, kind="stable")
syn, wt, start, stop = syn[order], wt[order], start[order], stop[order]
ident = [ident[i] for i in order]
for i in range(len(syn)):
    j = np.nonzero((start >= stop[i] + 4) & (wt + wt[i] <= HEAVIEST_PAIR))[0]
    I.append(np.full(len(j), i, np.int32))
    J.append(j.astype(np.int32))
I, J = np.concatenate(I), np.concatenate(J)
S = syn[I] ^ syn[J]
print("pairs", len(S), "that cancel:", int((S == 0).sum()))
found = set()


def places(*es):
    out = set()
    for e in es:
        k, p = ident[e]
        for i, x in enumerate(ev[k][0]):
            if x:
                out ^= {p + i}
    return tuple(sorted(out))


# three events
o = np.argsort(syn)
ss = syn[o]
at = np.searchsorted(ss, S)
at[at == len(ss)] = 0
for q in np.nonzero(ss[at] == S)[0]:
    found.add(places(I[q], J[q], o[at[q]]))
o = np.argsort(S, kind="stable")
ss = S[o]
same = np.nonzero(ss[1:] == ss[:-1])[0]
a = 0
while a < len(same):
    b = a
    while b + 1 < len(same) and same[b + 1] == same[b] + 1:
        b += 1
    group = o[same[a]:same[b] + 2]
    for x in range(len(group)):
        for y in range(x):
            w = places(I[group[x]], J[group[x]], I[group[y]], J[group[y]])
            if w:
                found.add(w)
    a = b + 1
hist = {}
for w in found:
    s = 0
    for p in w:
        s ^= power[223 - p]
    assert s == 0
    c = coded_weight(w)
    hist[c] = hist.get(c, 0) + 1
print("codewords found by coded weight", dict(sorted(hist.items())))
if len(sys.argv) > 3:
    import json
    json.dump([[coded_weight(w), w] for w in sorted(found)], open(sys.argv[3], "w"), default=int)
light = sorted(found, key=coded_weight)[:6]
for w in light:
    print(coded_weight(w), w)
