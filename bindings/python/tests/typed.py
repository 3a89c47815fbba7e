"""A user's program as `mypy --strict` sees it: it passes, and each line with `type: ignore` is an error that mypy finds. Never run."""
import array
from typing import Optional, Tuple

import numpy
import numpy.typing

import um

Soft = numpy.typing.NDArray[numpy.int8]


def said(notice: um.Notice) -> str:
    if notice.kind == "acked":
        return str(notice.number)
    if notice.kind == "closed":
        return notice.reason
    if notice.kind == "oversize":
        return ""
    return notice.message.hex()


def session(soft: Soft) -> Tuple[str, int]:
    mobile = um.End("mobile", channel=um.SACCH)
    again: um.End = um.End.from_bytes(mobile.to_bytes())
    side: um.Side = um.Side.from_bytes(um.Side("network").to_bytes())
    report, rank = um.receive_block_among(soft, 64)
    effects = again.open([1, 2]) if report.accepted else again.idle()
    return " ".join(map(said, effects.notices)), rank + side.timer_runs(3)


def arrays(ratios: "numpy.typing.NDArray[numpy.float32]", octets: "numpy.typing.NDArray[numpy.uint8]") -> Soft:
    reports = um.receive_blocks_among(um.soft_from_llr(ratios, scale=8), 64)
    um.send_blocks(reports["octets"], 7)
    um.read_frames(octets)
    return um.soft_from_bits(um.send_blocks(octets, 3))


def rows() -> "array.array[int]":
    um.receive_block([bytes(148), array.array("b", bytes(148)), [0] * 148, memoryview(bytes(148))])
    um.receive_block(um.soft_from_bits(um.send_block(bytes(23), 7)))
    return um.soft_from_llr([1.0, -2.5])


def receiver(soft: Soft) -> bytes:
    sender = um.TrafficSender("full_rate", "uplink", tsc=5)
    given: bool = sender.facch(bytes(23)) and sender.speech([bytes(148)] * 4)
    burst: Optional[bytes] = um.TrafficSender.from_bytes(sender.to_bytes()).burst(4) if given else None
    assert um.Traffic.from_bytes(um.Traffic("half_rate_0").to_bytes()).channel and burst is None
    slot = um.Slot("sdcch8", "uplink", words=16, erasures=4)
    block = slot.take(3, soft[0]) or slot.take(4)
    place = um.place_frame("bcch_ccch", "downlink", 0, 7)
    if block and place and block.channel == um.SACCH:
        return bytes(um.read_frame(block.report.accepted or bytes(23), block.channel).info)
    return um.write_b4(um.read_b4(bytes(23)) or bytes(19)) if place else um.write_ra(um.read_ra([0] * 8))


def assigned(old: um.DataLink) -> bool:
    new = um.DataLink("mobile", um.SDCCH, t200=11, establishment="normal")
    new.establish(0)
    sent = new.next()
    told = [said(notice) for sapi, notice in sent.notices if sapi == 0]
    for message in old.unacked(0) if new.state(0) == "open" else [sent.block[1:3]]:
        new.send(3, message)
    return new.idle and new.establishment == "normal" and um.DataLink.from_bytes(old.to_bytes()).idle and told == [] and new.fault(bytes(23)) != "nr"


def wrong(octets: "numpy.typing.NDArray[numpy.uint8]") -> None:
    um.Frame("sabbm")  # type: ignore[arg-type]
    um.End("mobil")  # type: ignore[arg-type]
    um.End("mobile", 1)  # type: ignore[arg-type]
    um.receive_block("abc")  # type: ignore[arg-type]
    um.receive_block(octets)  # type: ignore[arg-type]
    um.send_block({1, 2}, 7)  # type: ignore[arg-type]
    um.Side("mobile").send(1, b"a")  # type: ignore[arg-type]
    um.DataLink("mobile", establishment="handover")  # type: ignore[arg-type]
    um.DataLink("mobile").establish(1)  # type: ignore[arg-type]
    um.Slot("sdcch")  # type: ignore[arg-type]
    um.soft_from_llr("x")  # type: ignore[arg-type]
    um.Refused("send", "not open")  # type: ignore[arg-type]
