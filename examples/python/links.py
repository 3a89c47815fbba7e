"""64 links over a channel that loses one block in ten: each mobile opens its link, sends a message, and closes when it is acknowledged.

    PYTHONPATH=bindings/python python3 examples/python/links.py"""
import um
from air import Air

LINKS, SLOTS, MESSAGE = 64, 1000, bytes(100)
air, got, closed, slot = Air(), 0, 0, 0
sides = [um.DataLink(role, um.SDCCH, 4, 6) for _ in range(LINKS) for role in ("mobile", "network")]
arriving = [None] * len(sides)
for mobile in sides[::2]:
    mobile.open(b"\x05\x24")


def handle(side, notices):
    global got, closed
    for sapi, notice in notices:
        if notice.kind == "opened" and side.role == "mobile":
            side.send(sapi, MESSAGE)
        elif notice.kind == "acked":
            side.close(sapi)
        got += notice.kind == "got" and notice.message == MESSAGE
        closed += notice.kind == "closed" and notice.reason == "released"


while closed < len(sides) and slot < SLOTS:
    slot += 1
    for side, block in zip(sides, arriving):
        if block:
            handle(side, side.take(block))
    for at, side in enumerate(sides):
        sent = side.next()
        handle(side, sent.notices)
        arriving[at ^ 1] = sent.block if air.random() % 10 else None
print(f"{LINKS} links, one block in ten lost: after {slot} slots {got} messages have arrived and {closed} sides are closed")
raise SystemExit(closed < len(sides))
