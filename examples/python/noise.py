"""Encodes blocks, adds noise and decodes them, once by maximum likelihood and once by list decoding with 64 words.

    PYTHONPATH=bindings/python python3 examples/python/noise.py"""
import um
from air import Air


def run(air, strength):
    alone = among = wrong = 0
    for _ in range(100):
        octets = bytes(air.random() >> 24 for _ in range(23))
        soft = air.soften(um.send_block(octets, tsc=7), strength)
        alone += um.receive_block(soft).accepted is not None
        report, rank = um.receive_block_among(soft, 64)
        among += report.accepted is not None
        wrong += report.accepted not in (None, octets)
    print(f"noise {strength}: of 100 blocks {alone} by the most likely word, {among} among 64 words, {wrong} wrong")


air = Air()
for strength in (40, 45, 50, 55):
    run(air, strength)
