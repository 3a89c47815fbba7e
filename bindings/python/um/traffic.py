"""Traffic channels and ciphering (3GPP TS 45.002, 7; TS 45.003, 4.2 and 4.3; TS 43.020, C.1): FACCH in stolen halves of bursts, the traffic
frames of a multiframe, a receiver of FACCH and SACCH by frame numbers, a sender, and bursts ciphered by a key stream. Speech is the
caller's."""
import array
import ctypes
import struct
from typing import TYPE_CHECKING, Any, List, NamedTuple, Optional, Tuple

from ._library import lib
from ._saved import Saved, headed
from ._values import are_hard_bits, bits, choice, hard_bits, is_row, minus_128, number, octets as octets_of, soft, soft_values
from .effects import TRAFFIC_REFUSALS, Refused
from .blocks import Report, block_report
from .slot import BLOCK_SIZE, LIMIT, Erasure, SlotBlock, block_of
from .tdma import DIRECTIONS, frame_number

if TYPE_CHECKING:
    from typing import Literal

    from ._types import Bits, Octets, SoftBits, SoftRow
    from .tdma import Direction

    TrafficChannel = Literal["full_rate", "half_rate_0", "half_rate_1"]
    TrafficKind = Literal["sacch", "facch", "stolen", "speech"]

TRAFFIC_CHANNELS: "Tuple[TrafficChannel, ...]" = ("full_rate", "half_rate_0", "half_rate_1")
TRAFFIC_KINDS: "Tuple[TrafficKind, ...]" = ("sacch", "facch", "stolen", "speech")

# um_traffic of um.h: a um_slot, then the first burst, the channel and nine octets; um_traffic_block: a um_slot_block, flags, kind, bursts,
# and a um_facch_erasure, which is the burst erased and eight counts
_SIZE, _CHANNEL, _BURSTS, _LIMIT = 1808, 612, 622, 606
_TRAFFIC = struct.Struct(f"<{BLOCK_SIZE}siB592s9s2x")
# um_traffic_sender: the first burst, the channel, the direction, tsc, three blocks of 593 octets
_SENDER, _SENDER_FIELDS, _SENDER_HEAD = 1788, 1786, b"umO1"
# their saved forms
_SACCH, _FIELDS, _HEAD = 607, 1805, b"umC1"
_REFUSALS = dict(zip((4, 6, 7), TRAFFIC_REFUSALS))


class TrafficPlace(NamedTuple):
    """The traffic burst of a frame."""

    burst: int
    """Its number in the 26-multiframe: 0 to 23, at half rate 0 to 11."""
    begins: Optional[int]
    """The number of the block of FACCH that begins with it: 0 to 5, at half rate 0 to 2."""
    ends: Optional[int]
    """The number of the block of FACCH that ends with it."""


class TrafficBlock(NamedTuple):
    """What a receiver of a traffic channel reports."""

    kind: "TrafficKind"
    """"sacch"; "facch", whose CRC holds; "stolen": no CRC holds, but the flags rather say FACCH; "speech": other traffic."""
    block: SlotBlock
    """Of SACCH as a slot reports it; else that of `receive_facch_erasing`, with the channel FACCH."""
    flags: Optional[int]
    """The sum of the eight stealing flags, negative if they rather say FACCH; None of SACCH."""
    bursts: Optional[List[bytes]]
    """The halves joined to a block of four normal bursts, as octets in two's complement; None of SACCH."""


class Traffic(Saved):
    """A receiver of a traffic channel, one of TRAFFIC_CHANNELS: collects the bursts of FACCH and of SACCH by their frame numbers.

    The frames come as those of a Slot do, and words, erasures and limit are those of a Slot. A block is decoded as FACCH whatever its flags
    say. It is a value: copy, deepcopy and pickle copy it. One thread at a time may use it."""

    __slots__ = ()

    def __init__(
        self, channel: "TrafficChannel", direction: "Direction" = "downlink", timeslot: int = 0, words: int = 1, erasures: int = 0,
        limit: int = LIMIT,
    ) -> None:
        self._state = ctypes.create_string_buffer(_SIZE)
        way = choice("direction", direction, DIRECTIONS)
        settings = choice("channel", channel, TRAFFIC_CHANNELS), way, number("timeslot", timeslot, 0, 7)
        lib.um_traffic_new(self._state, *settings, number("words", words, 1, 64), number("erasures", erasures, 0, 4))
        self._state[_LIMIT] = bytes([number("limit", limit, 0, LIMIT)])

    def take(self, frame: int, burst: "Optional[SoftRow]" = None) -> List[TrafficBlock]:
        """Takes the 148 soft bits of the burst of a frame, or None if it did not come. Returns the blocks that ended before this frame, and
        the one that it completes: at most three. Refused with the reason `doubled` or `late` as by a Slot; nothing changes then."""
        at, state = frame_number("frame", frame), self._copy()
        if burst is None:
            self._state, blocks, _ = state, *_blocks_of(lambda raw: lib.um_traffic_miss(state, at, raw), self._count)
            return blocks
        values = soft_values("burst", burst, 1, 148)
        blocks, answer = _blocks_of(lambda raw: lib.um_traffic_take(state, at, values, raw), self._count)
        if answer == 3:
            raise minus_128("burst", values, 1, 148)
        # of a block that ended before this frame its burst is not to blame
        if answer == 1 and blocks[-1].bursts and are_hard_bits(b"".join(blocks[-1].bursts)):
            raise hard_bits("burst")
        self._state = state
        return blocks

    def end(self) -> List[TrafficBlock]:
        """Ends the blocks being collected, at the end of a recording."""
        state, raw = self._copy(), ctypes.create_string_buffer(BLOCK_SIZE)
        blocks, _ = _blocks_of(lambda found: lib.um_traffic_end(state, found), self._count)
        if lib.um_slot_end(state, raw) == 1:
            blocks.append(TrafficBlock("sacch", block_of(raw.raw), None, None))
        self._state = state
        return blocks

    def restart(self) -> None:
        """Forgets the frames taken and the blocks being collected; the settings stay."""
        state = self._copy()
        lib.um_traffic_restart(state)
        self._state = state

    @property
    def channel(self) -> "TrafficChannel":
        """One of TRAFFIC_CHANNELS."""
        return TRAFFIC_CHANNELS[self._state.raw[_CHANNEL]]

    @property
    def bursts(self) -> List[bytes]:
        """The bursts of the block that was reported last, as they came, eight or at half rate six; until the next call."""
        return [self._state.raw[at : at + 148] for at in range(_BURSTS, _BURSTS + 148 * self._count, 148)]

    @property
    def _count(self) -> int:
        """How many bursts carry a block of FACCH."""
        return 8 if self.channel == "full_rate" else 6

    def __repr__(self) -> str:
        return f"<um.Traffic {self.channel}, {DIRECTIONS[self._state.raw[9]]}, time slot {self._state.raw[10]}>"

    @classmethod
    def from_bytes(cls, octets: "Octets") -> "Traffic":
        """Restores what `to_bytes`, or the call of another language, saved. ValueError if the octets are not a valid state."""
        data = headed(octets_of("octets", octets), _HEAD, _FIELDS)
        traffic = cls.__new__(cls)
        # the receiver of SACCH, an octet of padding, and the other fields
        traffic._state = ctypes.create_string_buffer(data[:_SACCH] + b"\0" + data[_SACCH:], _SIZE)
        # a call on a copy tests the state
        if lib.um_traffic_end(traffic._copy(), ctypes.create_string_buffer(_TRAFFIC.size)) == 4:
            raise Refused("from_bytes", "notraffic")
        return traffic

    def to_bytes(self) -> bytes:
        """The state in the form that all languages read, for `from_bytes`."""
        raw = self._state.raw
        return _HEAD + raw[:_SACCH] + raw[_SACCH + 1 : _FIELDS + 1]

    def _copy(self) -> Any:
        return ctypes.create_string_buffer(self._state.raw, _SIZE)


class TrafficSender(Saved):
    """A sender of a traffic channel, one of TRAFFIC_CHANNELS: makes of blocks the bursts of FACCH and speech, by their frame numbers. tsc
    is the training sequence of FACCH. SACCH is the caller's.

    Each fourth traffic burst begins a block of four joined bursts, as `send_block` makes them. The block that was given last waits for the
    next such frame; FACCH goes before speech. At half rate a block of speech is two frames, which FACCH steals both. It is a value: copy,
    deepcopy and pickle copy it."""

    __slots__ = ()

    def __init__(self, channel: "TrafficChannel", direction: "Direction" = "downlink", tsc: int = 0) -> None:
        self._state = ctypes.create_string_buffer(_SENDER)
        settings = choice("channel", channel, TRAFFIC_CHANNELS), choice("direction", direction, DIRECTIONS)
        lib.um_traffic_sender_new(self._state, *settings, number("tsc", tsc, 0, 7))

    def facch(self, octets: "Octets") -> bool:
        """Gives a block of FACCH, 23 octets, in place of speech that waits. False: a block of FACCH waits."""
        return bool(lib.um_traffic_sender_facch(self._state, octets_of("octets", octets, 23)))

    def speech(self, block: Any) -> bool:
        """Gives a block of speech: its four joined bursts, at half rate of two frames, whose stealing flags are 0. False: a block of FACCH
        waits, which steals its place."""
        return bool(lib.um_traffic_sender_speech(self._state, _bits_of("block", block, 4)))

    def burst(self, frame: int) -> Optional[bytes]:
        """The 148 bits of a frame's burst; None if nothing is to be sent: no block has a half in it, or the frame is none of the traffic
        channel. If a block may begin in this frame, the one that waits begins. Refused with the reason `late` if the frame is before those
        of the blocks being sent."""
        bits_of_burst = ctypes.create_string_buffer(148)
        answer = lib.um_traffic_sender_burst(self._state, frame_number("frame", frame), bits_of_burst)
        if answer == 5:
            raise Refused("burst", "late")
        return None if answer else bits_of_burst.raw

    @property
    def channel(self) -> "TrafficChannel":
        """One of TRAFFIC_CHANNELS."""
        return TRAFFIC_CHANNELS[self._state.raw[4]]

    def __repr__(self) -> str:
        return f"<um.TrafficSender {self.channel}, {DIRECTIONS[self._state.raw[5]]}, tsc {self._state.raw[6]}>"

    @classmethod
    def from_bytes(cls, octets: "Octets") -> "TrafficSender":
        """Restores what `to_bytes`, or the call of another language, saved. ValueError if the octets are not a valid state."""
        data = headed(octets_of("octets", octets), _SENDER_HEAD, _SENDER_FIELDS)
        sender = cls.__new__(cls)
        sender._state = ctypes.create_string_buffer(data, _SENDER)
        # a call on a copy tests the state
        copy = ctypes.create_string_buffer(data, _SENDER)
        if lib.um_traffic_sender_burst(copy, 0, ctypes.create_string_buffer(148)) == 3:
            raise Refused("from_bytes", "notraffic")
        return sender

    def to_bytes(self) -> bytes:
        """The state in the form that all languages read, for `from_bytes`."""
        return _SENDER_HEAD + self._state.raw[:_SENDER_FIELDS]


def place_traffic(channel: "TrafficChannel", direction: "Direction", frame: int) -> Optional[TrafficPlace]:
    """The traffic burst that a frame carries, and the blocks of FACCH that begin and end with it. None if the frame is of SACCH, of the
    other half or idle."""
    raw = ctypes.create_string_buffer(3)
    settings = choice("channel", channel, TRAFFIC_CHANNELS), choice("direction", direction, DIRECTIONS)
    if lib.um_place_traffic(*settings, frame_number("frame", frame), raw):
        return None
    burst, begins, ends = raw.raw
    return TrafficPlace(burst, None if begins == 255 else begins, None if ends == 255 else ends)


def next_facch(channel: "TrafficChannel", direction: "Direction", frame: int) -> int:
    """The first frame number, at or after `frame`, in which a block of FACCH begins."""
    first = ctypes.c_uint32()
    settings = choice("channel", channel, TRAFFIC_CHANNELS), choice("direction", direction, DIRECTIONS)
    lib.um_next_facch(*settings, frame_number("frame", frame), ctypes.byref(first))
    return first.value


def steal_facch(block: Any, bursts: Any) -> List[bytes]:
    """Writes a block of four bursts (`send_block`) into the bursts of a traffic channel that carry it, eight at full rate or six at half
    rate, and returns them: its halves of their bits and flags, the tail bits and the training sequence. The other halves stay as they
    are."""
    rows = _rows_of(bursts)
    call = lib.um_steal_facch_f if len(rows) == 8 else lib.um_steal_facch_h
    given = _bits_of("block", block, 4)
    carrying = ctypes.create_string_buffer(_bits_of("bursts", rows, len(rows)), 148 * len(rows))
    call(given, carrying)
    return [carrying.raw[at : at + 148] for at in range(0, 148 * len(rows), 148)]


def join_facch(bursts: "SoftBits") -> List[bytes]:
    """Joins the halves of eight received bursts, or at half rate six, to the four bursts of a block, as octets in two's complement: for
    `receive_block` and all other calls on four bursts."""
    rows = _rows_of(bursts)
    values, joined = soft("bursts", rows, len(rows), 148), ctypes.create_string_buffer(592)
    if not (lib.um_join_facch_f if len(rows) == 8 else lib.um_join_facch_h)(values, joined):
        raise minus_128("bursts", values, len(rows), 148)
    return [joined.raw[at : at + 148] for at in range(0, 592, 148)]


def receive_facch_erasing(bursts: "SoftBits", most: int, erasures: int) -> Tuple[Report, int, Erasure]:
    """Receives a block of FACCH from the eight bursts that carry it, or at half rate six: joins their halves and decodes them as
    `receive_block_among` does. If no word's CRC holds, decodes the block again with one of these bursts set to zeros, for each of at most
    `erasures` bursts (0 to 8, at half rate 0 to 6) in turn, the burst with the most wrong training bits first, until the CRC of a word
    holds. The report's training bits are those of all these bursts."""
    rows = _rows_of(bursts)
    values = soft("bursts", rows, len(rows), 148)
    tried, times = number("most", most, 1, 64), number("erasures", erasures, 0, len(rows))
    raw, rank, erasure = ctypes.create_string_buffer(268), ctypes.c_uint32(), ctypes.create_string_buffer(9)
    call = lib.um_receive_facch_f_erasing if len(rows) == 8 else lib.um_receive_facch_h_erasing
    if not call(values, tried, times, raw, ctypes.byref(rank), erasure):
        raise minus_128("bursts", values, len(rows), 148)
    return block_report(raw.raw), rank.value, _erasure(erasure.raw, len(rows))


def stealing_flags(block: "SoftBits") -> Tuple[int, int]:
    """The sum of a joined block's eight stealing flags, negative if they rather say FACCH, and how many of them do not say so."""
    values, total, wrong = soft("block", block, 4, 148), ctypes.c_int32(), ctypes.c_uint8()
    if not lib.um_stealing_flags(values, ctypes.byref(total), ctypes.byref(wrong)):
        raise minus_128("block", values, 4, 148)
    return total.value, wrong.value


def cipher_bits(burst: "Bits", stream: "Bits") -> bytes:
    """Ciphers or deciphers the 114 coded bits of a burst of 148 bits by a key stream of 114 (libosmogsm's osmo_a5)."""
    raw = ctypes.create_string_buffer(bits("burst", burst, 148), 148)
    lib.um_cipher_bits(raw, bits("stream", stream, 114))
    return raw.raw


def soft_cipher(burst: "SoftRow", stream: "Bits") -> "array.array[int]":
    """Deciphers the 114 coded bits of a burst of 148 soft bits by a key stream of 114: changes their signs where the stream has 1."""
    values = soft_values("burst", burst, 1, 148)
    raw = ctypes.create_string_buffer(values, 148)
    if not lib.um_soft_cipher(raw, bits("stream", stream, 114)):
        raise minus_128("burst", values, 1, 148)
    return array.array("b", raw.raw)


def _rows_of(bursts: Any) -> List[Any]:
    rows = list(bursts) if is_row(bursts) else []
    if len(rows) not in (6, 8):
        raise ValueError(f"bursts: {len(rows)} bursts; expected 8 at full rate, or 6 at half rate")
    return rows


def _bits_of(name: str, rows: Any, count: int) -> bytes:
    given = list(rows) if is_row(rows) else []
    if len(given) != count:
        raise ValueError(f"{name}: {len(given)} bursts; expected {count}")
    return b"".join(bits(f"{name}[{i}]", row, 148) for i, row in enumerate(given))


def _blocks_of(call: Any, count: int) -> Tuple[List[TrafficBlock], int]:
    """The blocks that a call reports, and its last answer: it is made again as long as a block ended before."""
    blocks: List[TrafficBlock] = []
    raw = ctypes.create_string_buffer(_TRAFFIC.size)
    answer = 2
    while answer == 2:
        answer = call(raw)
        if answer in _REFUSALS:
            raise Refused("take", _REFUSALS[answer])
        if answer in (1, 2):
            blocks.append(_traffic_block(raw.raw, count))
    return blocks, answer


def _traffic_block(raw: bytes, count: int) -> TrafficBlock:
    """The block in a um_traffic_block of a channel whose blocks have so many bursts."""
    block, flags, kind, joined, erasure = _TRAFFIC.unpack(raw)
    if kind == 0:
        return TrafficBlock("sacch", block_of(block), None, None)
    rows = [joined[at : at + 148] for at in range(0, 592, 148)]
    return TrafficBlock(TRAFFIC_KINDS[kind], block_of(block)._replace(erasure=_erasure(erasure, count)), flags, rows)


def _erasure(raw: bytes, count: int) -> Erasure:
    """The erasure in a um_facch_erasure of so many bursts."""
    return Erasure(None if raw[0] == 8 else raw[0], tuple(raw[1 : 1 + count]))
