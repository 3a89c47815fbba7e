"""TDMA frames, synchronisation channel, random access and the channels of a time slot (3GPP TS 45.002, 3.3.2, 4.3.3, 6.4 and 7; TS 44.018,
9.1.30)."""
import ctypes
import struct
from typing import TYPE_CHECKING, Any, NamedTuple, Optional, Tuple

from ._library import lib
from ._values import bits, choice, number, one_of
from .frames import Channel

if TYPE_CHECKING:
    from typing import Literal

    from ._types import Bits

    Combination = Literal["bcch_ccch", "bcch_ccch_sdcch4", "sdcch8", "tch_f", "tch_h"]
    Direction = Literal["downlink", "uplink"]

FRAMES = 2715648
"""The frames of a hyperframe: frame numbers are 0 to FRAMES - 1."""
COMBINATIONS: "Tuple[Combination, ...]" = ("bcch_ccch", "bcch_ccch_sdcch4", "sdcch8", "tch_f", "tch_h")
DIRECTIONS: "Tuple[Direction, ...]" = ("downlink", "uplink")

# the structs of um.h
_TIME = struct.Struct("<HBB")
_SCH = struct.Struct("<IBBBx")
_PLACE = struct.Struct("<IBBBx")


class Time(NamedTuple):
    """A frame number as T1 (frame / 1326), T2 (frame % 26) and T3 (frame % 51)."""

    t1: int
    t2: int
    t3: int


class Sch(NamedTuple):
    """What a synchronisation burst says."""

    frame: int
    """The frame number; its T3 is 1, 11, 21, 31 or 41."""
    bsic: int
    """The base station identity code, 0 to 63: 8 * ncc + bcc."""
    ncc: int
    bcc: int
    """The base station colour code: the training sequence of BCCH and CCCH."""


class Place(NamedTuple):
    """The place of a frame in its channel."""

    first: int
    """The frame number of the block's first burst; for FCCH, SCH and RACH that of the burst."""
    channel: Channel
    subchannel: int
    """Of SDCCH and SACCH; for CCCH the number of the block in the multiframe, 0 to 8; else 0."""
    burst: int
    """Which burst of the block, 0 to 3; for FCCH, SCH and RACH 0."""


def frame_number(name: str, frame: Any) -> int:
    """A frame number."""
    return number(name, frame, 0, FRAMES - 1)


def combined(combination: Any, direction: Any, timeslot: Any) -> Tuple[int, int, int]:
    """The numbers of a channel combination, a direction and a time slot."""
    return choice("combination", combination, COMBINATIONS), choice("direction", direction, DIRECTIONS), number("timeslot", timeslot, 0, 7)


def time_of_frame(frame: int) -> Time:
    """Splits a frame number into T1, T2 and T3."""
    raw = ctypes.create_string_buffer(_TIME.size)
    lib.um_time_of_frame(frame_number("frame", frame), raw)
    return Time(*_TIME.unpack(raw))


def frame_of_time(t1: int, t2: int, t3: int) -> int:
    """The frame number with this T1 (0 to 2047), T2 (0 to 25) and T3 (0 to 50)."""
    raw, frame = _TIME.pack(number("t1", t1, 0, 2047), number("t2", t2, 0, 25), number("t3", t3, 0, 50)), ctypes.c_uint32()
    lib.um_frame_of_time(raw, ctypes.byref(frame))
    return frame.value


def read_sch(info: "Bits") -> Optional[Sch]:
    """Reads the 25 data bits of a synchronisation burst. None if no frame number has these bits: T2 is above 25 or T3' above 4."""
    raw = ctypes.create_string_buffer(_SCH.size)
    return Sch(*_SCH.unpack(raw)) if lib.um_read_sch(bits("info", info, 25), raw) else None


def write_sch(bsic: int, frame: int) -> bytes:
    """Writes the 25 data bits for `send_sync`. ValueError if the frame has no synchronisation burst: its T3 is not 1, 11, 21, 31 or 41."""
    raw = ctypes.create_string_buffer(25)
    if not lib.um_write_sch(number("bsic", bsic, 0, 63), frame_number("frame", frame), raw):
        raise ValueError(f"frame: {frame}, with a T3 of {frame % 51}; expected a T3 of 1, 11, 21, 31 or 41")
    return raw.raw


def write_ra(ra: int) -> bytes:
    """Writes RA, the octet of a CHANNEL REQUEST, as the eight data bits of `send_access`, least significant bit first."""
    raw = ctypes.create_string_buffer(8)
    lib.um_write_ra(number("ra", ra, 0, 255), raw)
    return raw.raw


def read_ra(info: "Bits") -> int:
    """Reads RA from the data bits of an access burst."""
    ra = ctypes.c_uint8()
    lib.um_read_ra(bits("info", info, 8), ctypes.byref(ra))
    return ra.value


def write_bsic(bsic: int) -> bytes:
    """Writes a base station identity code as the six bits of `send_access` and `receive_access`, most significant bit first."""
    raw = ctypes.create_string_buffer(6)
    lib.um_write_bsic(number("bsic", bsic, 0, 63), raw)
    return raw.raw


def read_bsic(code: "Bits") -> int:
    """Reads a base station identity code from six bits."""
    bsic = ctypes.c_uint8()
    lib.um_read_bsic(bits("code", code, 6), ctypes.byref(bsic))
    return bsic.value


def place_frame(combination: "Combination", direction: "Direction", timeslot: int, frame: int) -> Optional[Place]:
    """The channel and the burst that a frame of a time slot carries. None if it has none of these channels: it is idle, or carries traffic.
    The time slot matters only for "tch_f" and "tch_h"."""
    raw = ctypes.create_string_buffer(_PLACE.size)
    if lib.um_place_frame(*combined(combination, direction, timeslot), frame_number("frame", frame), raw):
        return None
    first, channel, subchannel, burst = _PLACE.unpack(raw)
    return Place(first, Channel(channel), subchannel, burst)


def next_block(
    combination: "Combination", direction: "Direction", timeslot: int, channel: Channel, subchannel: int, frame: int
) -> int:
    """The first frame number, at or after `frame`, of a block (or burst) of this channel and subchannel. ValueError if the combination has
    no such channel in this direction."""
    first, wanted = ctypes.c_uint32(), Channel(one_of("channel", channel, range(len(Channel)), "a um.Channel"))
    arguments = (*combined(combination, direction, timeslot), int(wanted), number("subchannel", subchannel, 0, 255))
    if not lib.um_next_block(*arguments, frame_number("frame", frame), ctypes.byref(first)):
        raise ValueError(f"channel: {wanted.name}, subchannel {subchannel}; expected a channel of {combination} in the {direction}")
    return first.value
