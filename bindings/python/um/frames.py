"""LAPDm frames, formats A, B and B4 (3GPP TS 44.006)."""
import ctypes
import enum
import struct
from typing import TYPE_CHECKING, Any, NamedTuple, Optional, Tuple

from ._library import lib
from ._values import choice, name_of, number, octets as octets_of, one_of

if TYPE_CHECKING:
    from typing import Literal

    from ._types import Octets

    Kind = Literal["i", "rr", "rnr", "rej", "sabm", "dm", "ui", "disc", "ua"]
    Unread = Literal["lpd", "ea", "control", "el", "length", "empty", "more"]

KINDS: "Tuple[Kind, ...]" = ("i", "rr", "rnr", "rej", "sabm", "dm", "ui", "disc", "ua")
UNREAD: "Tuple[Unread, ...]" = ("lpd", "ea", "control", "el", "length", "empty", "more")
_REASONS = {
    "lpd": "another link protocol",
    "ea": "the address field continues (EA is 0); is this a block of SACCH, with two layer 1 octets first?",
    "control": "undefined control octet",
    "el": "the length field continues (EL is 0)",
    "length": "more information than fits, or than the kind carries",
    "empty": "an I frame without information",
    "more": "M is set in a frame other than I",
}
_FRAME = struct.Struct("<8B20s")


class Channel(enum.IntEnum):
    """The channel. SDCCH or SACCH decides where the frame starts in its block: on SACCH two layer 1 octets come first. A time slot has
    others too, whose blocks carry no LAPDm."""

    SDCCH = 0
    SACCH = 1
    BCCH = 2
    CCCH = 3
    FCCH = 4
    SCH = 5
    RACH = 6
    FACCH = 7


SDCCH, SACCH = Channel.SDCCH, Channel.SACCH


class Frame(NamedTuple):
    """The fields of a frame. Fields that the kind does not have are 0, and `info` is empty."""

    kind: "Kind"
    """One of KINDS."""
    sapi: int = 0
    cr: int = 0
    """Command/response."""
    pf: int = 0
    """Poll or final."""
    ns: int = 0
    nr: int = 0
    more: int = 0
    """M of an I frame."""
    info: "Octets" = b""
    """At most 20 octets on SDCCH, 18 on SACCH."""


class NoFrame(ValueError):
    """The octets are not a frame; `reason` is one of UNREAD."""

    def __init__(self, reason: "Unread"):
        super().__init__(f"octets: not an LAPDm frame ({reason}): {_REASONS[reason]}")
        self.reason = reason

    def __reduce__(self) -> Any:
        return NoFrame, (self.reason,)


def channel_number(channel: Any) -> int:
    """The number of a Channel, 0 or 1."""
    return one_of("channel", channel, (0, 1), "um.SDCCH or um.SACCH")


def read_frame(octets: "Octets", channel: int = SDCCH) -> Frame:
    """Decodes the frame in a block of 23 octets. Raises NoFrame, a ValueError, if the octets are not a frame."""
    raw = ctypes.create_string_buffer(28)
    answer = lib.um_read_frame(octets_of("octets", octets, 23), channel_number(channel), raw)
    if answer:
        raise NoFrame(UNREAD[answer - 1])
    kind, sapi, cr, pf, ns, nr, more, count, info = _FRAME.unpack(raw)
    return Frame(KINDS[kind], sapi, cr, pf, ns, nr, more, info[:count])


def write_frame(frame: Frame, channel: int = SDCCH) -> bytes:
    """Encodes a frame into its canonical block: layer 1 octets 00, fill octets 2b."""
    if not isinstance(frame, Frame):
        raise TypeError(f"frame: {name_of(frame)}; expected a um.Frame")
    kind, room = choice("frame.kind", frame.kind, KINDS), 18 if channel_number(channel) else 20
    limits = {"sapi": 7, "cr": 1, "pf": 1, "ns": 7, "nr": 7, "more": 1}
    fields = [number(f"frame.{name}", getattr(frame, name), 0, most) for name, most in limits.items()]
    info = octets_of("frame.info", frame.info)
    if len(info) > room:
        raise ValueError(f"frame.info: {len(info)} octets; expected at most {room} on {Channel(channel).name}")
    raw = ctypes.create_string_buffer(23)
    if not lib.um_write_frame(_FRAME.pack(kind, *fields, len(info), info), channel_number(channel), raw):
        wanted = "at least 1 octet" if frame.kind == "i" else f"none, since {frame.kind} carries no information"
        raise ValueError(f"frame.info: {len(info)} octets; expected {wanted}")
    return raw.raw


def read_b4(octets: "Octets") -> Optional[bytes]:
    """The 19 octets of a UI frame of format B4, such as system information, in a block of SACCH from a network. None if the address or the
    control octet is of another frame."""
    raw = ctypes.create_string_buffer(19)
    return raw.raw if lib.um_read_b4(octets_of("octets", octets, 23), raw) else None


def write_b4(info: "Octets", layer1: "Octets" = b"\0\0") -> bytes:
    """A block of SACCH from a network: two layer 1 octets and a UI frame of format B4 with 19 octets. System information begins with its
    L2 pseudo length."""
    raw = ctypes.create_string_buffer(23)
    lib.um_write_b4(octets_of("layer1", layer1, 2), octets_of("info", info, 19), raw)
    return raw.raw
