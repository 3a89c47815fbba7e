"""A data link: one side of a channel with its loop. It holds the endpoints of SAPI 0 and SAPI 3, counts T200 in slots, and decides what
goes into each slot."""
import ctypes
from typing import TYPE_CHECKING, Any, List, NamedTuple, Optional, Tuple

from ._library import lib
from ._saved import Saved
from ._values import choice, number, octets as octets_of
from .effects import REFUSALS, Notice, Refused, notice_of
from .ends import ROLES, STATES, End, message_of, sapi_number
from .frames import SDCCH, Channel, NoFrame, channel_number, read_frame

if TYPE_CHECKING:
    from typing import Literal

    from ._types import Octets
    from .ends import Role, Sapi, State

    Establishment = Literal["contention", "normal"]
    Fault = Literal["nr", "ua", "dm"]

ESTABLISHMENTS: "Tuple[Establishment, ...]" = ("contention", "normal")
FAULTS: "Tuple[Fault, ...]" = ("nr", "ua", "dm")

# um_datalink of um.h: two um_timed_end, each a um_end with padding and 28 octets more, and two octets; and um_report
_END, _END_FIELDS, _TIMED, _SIZE = 2584, 2581, 2616, 5240
_REPORT, _NOTICE = 824, 272
_HEAD = b"umL2"
_PARTS = (
    (0, _END_FIELDS), (_END, _END + 28), (_TIMED, _TIMED + _END_FIELDS), (_TIMED + _END, _TIMED + _END + 28), (2 * _TIMED, 2 * _TIMED + 2),
)
_OWED = _END + 3
_SAPI = 9
_MESSAGE = 256
_FREE = 10


class LinkNotice(NamedTuple):
    """A notice of a link."""

    sapi: int
    notice: Notice


class Sent(NamedTuple):
    """What goes into a slot."""

    block: bytes
    """The 23 octets to send."""
    free: bool
    """Whether the slot is free, and the block is the fill frame: `unit` may make another."""
    notices: List[LinkNotice]
    """The links that were given up."""


class DataLink(Saved):
    """One side of a channel, a "mobile" or the "network", with its loop.

    A slot is the time of one block each way: 51 TDMA frames on SDCCH, 102 on SACCH. In each slot call `take` with what arrived, if anything
    did, then the calls of layer 3, then `next` for the block to send. There is no queue and no timer. T200 counts slots: it is at least
    2 + 2d, where a block arrives d slots later than the slot after it was sent, and the same at both sides; two more for SAPI 3.

    `establishment` is how the link of SAPI 0 is opened: by "contention", with `open` at the mobile, on the channel of an immediate
    assignment; "normal", with `establish(0)` at either side, on the channel of an assignment or a handover. A mobile that returns to the
    channel that it left calls `establish(0)` there: the link is of normal establishment from then on, at both sides.

    At a mobile, a frame of SAPI 3 is dropped while SAPI 0 is not established: on SDCCH the data link knows; on SACCH say it with `main`.
    After the notice `closed` go on with `take` and `next`: the answer to the other side's release goes out in the next slot. Go on until
    `idle`, and for two T200 more where blocks are lost, since the other side repeats a release whose answer did not arrive.

    A data link is a value: copy, deepcopy and pickle copy it. A call that is refused raises Refused, a ValueError. Each call keeps the
    interpreter's lock, so threads that share a data link never see it half changed; a Python without that lock needs a lock of yours."""

    __slots__ = ()

    def __init__(
        self, role: "Role", channel: int = SDCCH, t200: int = 4, t200_sapi3: Optional[int] = None,
        establishment: "Establishment" = "contention",
    ) -> None:
        self._state = ctypes.create_string_buffer(_SIZE)
        first = number("t200", t200, 1, 255)
        third = min(first + 2, 255) if t200_sapi3 is None else number("t200_sapi3", t200_sapi3, 1, 255)
        kind = choice("establishment", establishment, ESTABLISHMENTS)
        lib.um_datalink_new_for(self._state, choice("role", role, ROLES), channel_number(channel), kind, first, third)

    def open(self, info: "Octets") -> None:
        """Opens the link of SAPI 0 by contention, at the mobile, with 1 to 20 octets of information (18 on SACCH)."""
        self._call("open", message_of("info", info))

    def establish(self, sapi: "Sapi") -> None:
        """Opens the link of a SAPI without information, at either side. If it is closed or open, its end starts afresh first: fetch what
        is not acknowledged with `unacked` before. The other side reports "opened" again if its end is closed, or is open by contention, or
        is open and has received an I, RR, RNR or REJ. Refused while the link is being opened or released."""
        self._call("establish", sapi_number(sapi))

    def open_bare(self) -> None:
        """`establish(3)`."""
        self._call("open_bare")

    def send(self, sapi: "Sapi", message: "Octets") -> None:
        """Sends a message of 1 to 251 octets over the link of a SAPI, which holds at most eight that are not acknowledged."""
        self._call("send", sapi_number(sapi), message_of("message", message))

    def unacked(self, sapi: "Sapi") -> List[bytes]:
        """The messages that were passed to `send` and are not completely acknowledged, oldest first: what to send again over another link.
        The other side may have received the first of them. They can be read after the notice `closed` too, until a new opening or
        `close_local`."""
        # of a copy, so that threads that share a data link see the messages of one time
        state, number_of_sapi = self._state.raw, sapi_number(sapi)
        messages: List[bytes] = []
        message = ctypes.create_string_buffer(_MESSAGE)
        while lib.um_datalink_unacked(state, number_of_sapi, len(messages), message) == 0:
            messages.append(message.raw[1 : 1 + message.raw[0]])
        return messages

    def unit(self, sapi: "Sapi", message: "Octets", layer1: "Octets" = b"\0\0") -> bytes:
        """A UI frame with 1 to 20 octets (18 on SACCH), for a slot in which `next` says that it is free."""
        block = ctypes.create_string_buffer(23)
        self._call("unit", sapi_number(sapi), message_of("message", message), octets_of("layer1", layer1, 2), block)
        return block.raw

    def close(self, sapi: "Sapi") -> None:
        """Releases the link of a SAPI. Messages not acknowledged are discarded."""
        self._call("close", sapi_number(sapi))

    def close_local(self, sapi: "Sapi") -> None:
        """Local end release: the end of this SAPI starts afresh. Nothing is sent and nothing reported."""
        self._call("close_local", sapi_number(sapi))

    def main(self, established: bool) -> None:
        """At a mobile on SACCH: says whether SAPI 0 of the main channel is established. It has no effect elsewhere."""
        self._call("main", bool(established))

    def take(self, block: "Octets") -> List[LinkNotice]:
        """Processes a received block of 23 octets."""
        report = ctypes.create_string_buffer(_REPORT)
        self._call("take", octets_of("block", block, 23), report)
        return _notices_of(report.raw)

    def fault(self, block: "Octets") -> "Optional[Fault]":
        """What a received block shows of the other side, if that breaks the rules on an open link, one of FAULTS: an N(R) outside V(A) to
        V(S), a UA, or a DM with F = 1 that answers no repeat with P = 1. Ask before `take`, which takes the block in any case."""
        found = lib.um_datalink_fault(self._state, octets_of("block", block, 23))
        return FAULTS[found - 1] if found else None

    def next(self, layer1: "Octets" = b"\0\0") -> Sent:
        """The block for this slot. On SACCH it begins with the two octets of `layer1`."""
        block, report = ctypes.create_string_buffer(23), ctypes.create_string_buffer(_REPORT)
        answer = self._call("next", octets_of("layer1", layer1, 2), block, report)
        return Sent(block.raw, answer == _FREE, _notices_of(report.raw))

    @property
    def role(self) -> "Role":
        """One of ROLES."""
        return ROLES[self._state.raw[8]]

    @property
    def channel(self) -> Channel:
        """SDCCH or SACCH."""
        return Channel(self._state.raw[10])

    @property
    def establishment(self) -> "Establishment":
        """How the link of SAPI 0 is opened, one of ESTABLISHMENTS."""
        return ESTABLISHMENTS[self._state.raw[_SAPI] == 3]

    def state(self, sapi: "Sapi") -> "State":
        """The state of the link of a SAPI, one of STATES."""
        return STATES[self._state.raw[11 + (_TIMED if sapi_number(sapi) else 0)]]

    @property
    def idle(self) -> bool:
        """Whether nothing waits for a slot and no frame awaits an answer: each next slot is free until a call or a block changes it."""
        raw = self._state.raw
        return not any(raw[at + _OWED] or End._of(raw[at : at + _END]).timer_runs for at in (0, _TIMED))

    def __repr__(self) -> str:
        return f"<um.DataLink {self.role}, {self.channel.name}, SAPI 0 {self.state(0)}, SAPI 3 {self.state(3)}>"

    @classmethod
    def from_bytes(cls, octets: "Octets") -> "DataLink":
        """Restores what `to_bytes`, or the call of another language, saved. ValueError if the octets are not a valid state."""
        data = octets_of("octets", octets)
        if not data.startswith(_HEAD):
            raise ValueError(f"octets: begins with {data[:4]!r}; expected {_HEAD!r}, as to_bytes writes it")
        octets_of("octets", data, len(_HEAD) + sum(to - start for start, to in _PARTS))
        state, at = bytearray(_SIZE), len(_HEAD)
        for start, to in _PARTS:
            state[start:to] = data[at : at + to - start]
            at += to - start
        link = cls.__new__(cls)
        link._state = ctypes.create_string_buffer(bytes(state), _SIZE)
        if not lib.um_datalink_valid(link._state):
            raise Refused("from_bytes", "noend")
        return link

    def to_bytes(self) -> bytes:
        """The state in the form that all languages read, for `from_bytes`."""
        raw = self._state.raw
        return _HEAD + b"".join(raw[start:to] for start, to in _PARTS)

    def _call(self, name: str, *arguments: Any) -> int:
        answer: int = getattr(lib, "um_datalink_" + name)(self._state, *arguments)
        if answer not in (0, _FREE):
            reason = REFUSALS[answer - 1]
            raise Refused(name, reason, self._why(name, reason, arguments))
        return answer

    def _why(self, name: str, reason: str, arguments: Tuple[Any, ...]) -> str:
        if reason == "noframe":
            return _why_no_frame(arguments[0], self.channel)
        if (name, reason) == ("open", "nocall"):
            who = "the network" if self.role == "network" else "a link of normal establishment"
            return f"open is for a mobile, by contention; {who} is opened with establish(0)"
        if reason == "notidle" and name != "open":
            state = self.state(arguments[0] if arguments else 3)
            return f"the link is {state}; establish expects one that is idle, open or closed"
        return ""


def _why_no_frame(octets: bytes, channel: Channel) -> str:
    try:
        read_frame(octets, channel)
    except NoFrame as error:
        return str(error)
    raise AssertionError("the library reads these octets as a frame")


class LastAnswer:
    """The last answer of a data link, which goes once more into the next slot if that is free. An RR that is lost costs the other side a
    T200; one that comes twice changes nothing there. Make one for each data link, and call its `next` in place of that of the data link."""

    __slots__ = ("_said",)

    def __init__(self) -> None:
        self._said = ctypes.create_string_buffer(24)

    def next(self, link: DataLink, layer1: "Octets" = b"\0\0") -> Sent:
        """The block for this slot, as `DataLink.next` says it."""
        sent = link.next(layer1)
        block = ctypes.create_string_buffer(sent.block, 23)
        answer = lib.um_say_again(self._said, link.channel, _FREE if sent.free else 0, block)
        return Sent(block.raw, answer == _FREE, sent.notices)


def _notices_of(raw: bytes) -> List[LinkNotice]:
    sapis: Tuple[int, ...] = tuple(raw[3 * _NOTICE : 3 * _NOTICE + 3])
    return [LinkNotice(sapis[at], notice_of(raw, at * _NOTICE)) for at in range(raw[3 * _NOTICE + 3])]
