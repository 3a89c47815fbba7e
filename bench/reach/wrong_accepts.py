"""How often a block in Gaussian noise is accepted wrongly because of a light codeword, by importance sampling: the noise is drawn around
the middle between the block sent and the other one, and each acceptance of the other one weighs its likelihood ratio. With one word and
with 64, each with and without four erasures (E).

usage: wrong_accepts.py light.json SAMPLES SIGMA..

light.json comes from light_codewords.py. With JAM=1 in the environment one burst of each block is random bits."""
import json
import math
import os
import sys
import numpy as np
import um

light = json.load(open(sys.argv[1]))
N = int(sys.argv[2])
BIAS = float(os.environ.get("BIAS", 0.5))                # 0: around the block sent, 1: around the other one
JAM = os.environ.get("JAM") == "1"
rng = np.random.default_rng(11)
coded = np.zeros((4, 148), bool)
coded[:, 3:60] = coded[:, 88:145] = True
kinds = {}
for w, places in light:
    kinds.setdefault(w, []).append(places)


def sent(data):
    return 1 - 2.0 * um.send_blocks(np.packbits(data, axis=1, bitorder="little"), 0)


def heard(mean, sigma):
    """Blocks with noise around these values, and which bursts have it; the others are random bits."""
    x = mean + sigma * rng.standard_normal(mean.shape)
    clear = np.ones(mean.shape, bool)
    if JAM:
        clear[np.arange(len(x)), rng.integers(0, 4, len(x))] = False
        x = np.where(clear, x, 1 - 2.0 * rng.integers(0, 2, x.shape))
    return x, clear


def received(soft):
    """The octets of each block, and whether they are accepted: by 1 and 64 words, and with erasures, 1E and 64E."""
    out = {}
    for most in (1, 64):
        r = um.receive_blocks_among(soft, most)
        octets, accepted = r["octets"].copy(), r["accepted"].astype(bool)
        out[str(most)] = octets, accepted
        octets, accepted = octets.copy(), accepted.copy()
        for i in np.flatnonzero(~accepted):
            report = um.receive_block_erasing(soft[i], most, 4)[0]
            if report.accepted:
                octets[i], accepted[i] = np.frombuffer(report.accepted, np.uint8), True
        out[f"{most}E"] = octets, accepted
    return out


for sigma in map(float, sys.argv[3:]):
    o = rng.integers(0, 2, (20000, 184), dtype=np.uint8)
    q = np.clip(np.rint(32 * heard(sent(o), sigma)[0]), -127, 127).astype(np.int8)
    lost = {name: 1 - accepted.mean() for name, (_, accepted) in received(q).items()}
    total, spread = dict.fromkeys(lost, 0.0), dict.fromkeys(lost, 0.0)
    for w in map(int, os.environ.get("WEIGHTS", "26 30 32 34 36").split()):
        words = kinds.get(w, [])
        p = {name: [] for name in lost}
        for _ in range(N // 4000):
            n = 4000
            o = rng.integers(0, 2, (n, 184), dtype=np.uint8)
            e = np.zeros((n, 224), np.uint8)
            for i, k in enumerate(rng.integers(0, len(words), n)):
                e[i, words[k]] = 1
            o2 = o ^ e[:, :184]
            a, b = sent(o), sent(o2)
            d = (a != b) & coded
            assert (d.sum(axis=(1, 2)) == w).all()
            mean = np.where(d, (1 - 2 * BIAS) * a, a)
            x, clear = heard(mean, sigma)
            ll = np.where(d & clear, -(x - a) ** 2 + (x - mean) ** 2, 0).sum(axis=(1, 2)) / (2 * sigma ** 2)
            q = np.clip(np.rint(32 * x), -127, 127).astype(np.int8)
            other = np.packbits(o2, axis=1, bitorder="little")
            for name, (octets, accepted) in received(q).items():
                p[name].append(np.where(accepted & (octets == other).all(axis=1), np.exp(ll), 0))
        for name in p:
            v = np.concatenate(p[name]) * len(words)
            total[name] += v.mean()
            spread[name] += v.var() / len(v)
    print(f"sigma {sigma} (Es/N0 {10 * math.log10(0.5 / sigma ** 2):.2f} dB): " + "; ".join(
        f"{name}: not accepted {lost[name]:.5f}, accepted wrongly {total[name]:.1e} +- {math.sqrt(spread[name]):.0e}, "
        f"1 in {lost[name] / total[name] if total[name] else 0:.1e} of those not accepted" for name in lost), flush=True)
