"""What the calls of an endpoint return: blocks to send and notices; and why a call is refused."""
import struct
from typing import TYPE_CHECKING, Any, List, NamedTuple, Tuple, Union

if TYPE_CHECKING:
    from typing import Literal

    Reason = Literal["contention", "failed", "refused", "released"]
    Refusal = Literal["notidle", "notopen", "notrunning", "empty", "toolong", "full", "noend", "nocall", "noframe"]
    SlotRefusal = Literal["noslot", "notraffic", "doubled", "late"]

REASONS: "Tuple[Reason, ...]" = ("contention", "failed", "refused", "released")
NOTICES = ("opened", "got", "unit", "acked", "oversize", "closed")
REFUSALS: "Tuple[Refusal, ...]" = ("notidle", "notopen", "notrunning", "empty", "toolong", "full", "noend", "nocall", "noframe")
SLOT_REFUSALS: "Tuple[SlotRefusal, ...]" = ("noslot", "doubled", "late")
TRAFFIC_REFUSALS: "Tuple[SlotRefusal, ...]" = ("notraffic", "doubled", "late")
_WHY = {
    "notidle": "the link was opened already",
    "notopen": "the link is not open",
    "notrunning": "T200 does not run: no frame awaits an answer",
    "empty": "the message is empty; expected at least one octet",
    "toolong": "the message is too long; send takes at most 251 octets, open and unit 20 (18 on SACCH)",
    "full": "eight messages are not completely acknowledged yet",
    "noend": "the state is not valid",
    "nocall": "the mobile opens the link of SAPI 0 with open; either end opens the link of SAPI 3 with open_bare",
    "noframe": "the octets are not an LAPDm frame",
    "noslot": "the state is not valid",
    "notraffic": "the state is not valid",
    "doubled": "this frame was taken last",
    "late": "this frame is before the one that was taken last",
}

# the structs of um.h
_NOTICE = struct.Struct("<QBBB255s6x")
EFFECTS_SIZE, _COUNTS, _FRAMES = 864, 816, 818


class Received(NamedTuple):
    """The link is open, with the information of the SABM; a message was received completely; or one in a UI frame."""

    kind: "Literal['opened', 'got', 'unit']"
    message: bytes


class Acked(NamedTuple):
    """A message is completely acknowledged; its number is 1 for the first message sent."""

    kind: "Literal['acked']"
    number: int


class Oversize(NamedTuple):
    """A received message was too long and is discarded."""

    kind: "Literal['oversize']"
    message: None


class Closed(NamedTuple):
    """The link is closed; one of REASONS."""

    kind: "Literal['closed']"
    reason: "Reason"


Notice = Union[Received, Acked, Oversize, Closed]
"""An event that an endpoint reports: a pair, whose `kind` is one of NOTICES."""


class Effects(NamedTuple):
    """The result of a call: blocks to send, and notices."""

    frames: List[bytes]
    """At most two blocks of 23 octets, in the order in which to send them."""
    notices: List[Notice]
    """At most three."""


class Refused(ValueError):
    """An endpoint or a slot refused a call; its state is unchanged. `reason` is one of REFUSALS or SLOT_REFUSALS."""

    def __init__(self, call: str, reason: "Union[Refusal, SlotRefusal]", why: str = ""):
        self.call, self.reason, self.why = call, reason, why or _WHY[reason]
        super().__init__(f"{call}: {reason}: {self.why}")

    def __reduce__(self) -> Any:
        return Refused, (self.call, self.reason, self.why)


def effects_of(raw: bytes) -> Effects:
    """The effects in a um_effects."""
    notice_count, frame_count = raw[_COUNTS], raw[_COUNTS + 1]
    frames = [raw[at : at + 23] for at in range(_FRAMES, _FRAMES + 23 * frame_count, 23)]
    notices = [notice_of(raw, at) for at in range(0, _NOTICE.size * notice_count, _NOTICE.size)]
    return Effects(frames, notices)


def notice_of(raw: bytes, at: int) -> Notice:
    """The notice in a um_notice at an offset."""
    number, kind, reason, count, octets = _NOTICE.unpack_from(raw, at)
    if kind == 4:
        return Acked("acked", number)
    if kind == 5:
        return Oversize("oversize", None)
    if kind == 6:
        return Closed("closed", REASONS[reason])
    opened: "Tuple[Literal['opened', 'got', 'unit'], ...]" = ("opened", "got", "unit")
    return Received(opened[kind - 1], octets[:count])
