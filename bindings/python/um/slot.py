"""A receiver of one time slot, which collects the bursts of each block by their frame numbers and decodes it; and a block decoded again
with one of its bursts erased."""
import ctypes
import struct
from typing import TYPE_CHECKING, Any, NamedTuple, Optional, Tuple

from ._library import lib
from ._saved import Saved, headed
from ._values import are_hard_bits, hard_bits, minus_128, number, octets as octets_of, soft, soft_values
from .blocks import Report, block_report
from .effects import SLOT_REFUSALS, Refused
from .frames import Channel
from .tdma import COMBINATIONS, DIRECTIONS, FRAMES, combined, frame_number, place_frame

if TYPE_CHECKING:
    from ._types import Octets, SoftBits, SoftRow
    from .tdma import Combination, Direction

# the structs of um.h
_SLOT, _BURSTS, _FIELDS = struct.Struct("<II6B"), 606, 607
_BLOCK = struct.Struct("<268sII3BB4s")
BLOCK_SIZE = _BLOCK.size
_HEAD = b"umT2"
LIMIT = 78
"""All wrong training bits of three bursts: no limit."""
_REFUSALS = dict(zip((3, 5, 6), SLOT_REFUSALS))


class Erasure(NamedTuple):
    """Which burst was erased, and how well the bursts fit the training sequence."""

    erased: Optional[int]
    """The burst that was set to zeros, 0 to 3, of FACCH 0 to 7 as they were sent, at half rate 0 to 5; None if none was."""
    wrong_training: Tuple[int, ...]
    """Bit errors in the 26 training bits of each burst as received; 26 in a burst that never came."""


class SlotBlock(NamedTuple):
    """A block of a time slot."""

    report: Report
    rank: int
    """The rank of the word, 1 for the most likely one."""
    first: int
    """The frame number of the first burst."""
    channel: Channel
    """SDCCH, SACCH, BCCH or CCCH."""
    subchannel: int
    """Of SDCCH and SACCH; for CCCH the number of the block in the multiframe; else 0."""
    heard: int
    """How many of the four bursts came."""
    erasure: Erasure


def receive_block_erasing(bursts: "SoftBits", most: int, erasures: int) -> Tuple[Report, int, Erasure]:
    """Decodes four bursts as `receive_block_among` does. If no word's CRC holds, decodes the block again with one burst set to zeros, for
    each of at most `erasures` bursts (0 to 4) in turn, the burst with the most wrong training bits first, until the CRC of a word holds."""
    values = soft("bursts", bursts, 4, 148)
    tried, times = number("most", most, 1, 64), number("erasures", erasures, 0, 4)
    raw, rank, erasure = ctypes.create_string_buffer(268), ctypes.c_uint32(), ctypes.create_string_buffer(5)
    if not lib.um_receive_block_erasing(values, tried, times, raw, ctypes.byref(rank), erasure):
        raise minus_128("bursts", values, 4, 148)
    return block_report(raw.raw), rank.value, _erasure(*struct.unpack("<B4s", erasure.raw))


def detect_training(bursts: "SoftBits") -> Tuple[int, Tuple[int, ...]]:
    """The training sequence of four bursts, 0 to 7, and the wrong training bits of each burst, without decoding them. The sum of the
    counts is the block's `wrong_training`."""
    values, tsc, wrong = soft("bursts", bursts, 4, 148), ctypes.c_uint8(), ctypes.create_string_buffer(4)
    if not lib.um_detect_training(values, ctypes.byref(tsc), wrong):
        raise minus_128("bursts", values, 4, 148)
    return tsc.value, tuple(wrong.raw)


class Slot(Saved):
    """A receiver of one time slot with a channel combination, in one direction.

    The bursts come in the order of their frame numbers. Frames may be left out: a burst that never came is zeros. A block is decoded with
    its fourth burst, or with the first later frame that is of another block; frames without a place only keep the order. If `words` is more
    than 1, blocks are decoded by list decoding; if `erasures` is above 0, a block that is not accepted is decoded again without single
    bursts, the least trusted first. More words and erasures are tried only if the three best bursts have at most `limit` wrong training
    bits together, of 78: with 20 an idle channel costs what one word costs (docs/RECEIVING.md). A slot is a value: copy, deepcopy and
    pickle copy it. One thread at a time may use it: of two that call `take` at once, one burst can be lost."""

    __slots__ = ()

    def __init__(
        self, combination: "Combination", direction: "Direction" = "downlink", timeslot: int = 0, words: int = 1, erasures: int = 0,
        limit: int = LIMIT,
    ) -> None:
        self._state = ctypes.create_string_buffer(608)
        settings = (*combined(combination, direction, timeslot), number("words", words, 1, 64), number("erasures", erasures, 0, 4))
        if combination == "tch_h":
            even = timeslot & 6
            raise ValueError(
                f"combination: 'tch_h'; for subchannel 0 or 1 expected 'tch_f' with time slot {even} or {even + 1}, or um.Traffic")
        lib.um_slot_new(self._state, *settings)
        self._state[_BURSTS] = bytes([number("limit", limit, 0, LIMIT)])

    def take(self, frame: int, burst: "Optional[SoftRow]" = None) -> Optional[SlotBlock]:
        """Takes the 148 soft bits of the burst of a frame, or None if it did not come. Returns the block that is then complete, or None.
        Refused with the reason `doubled` if the frame was taken last, `late` if it is before that one; the slot is unchanged then."""
        place, raw = frame_number("frame", frame), ctypes.create_string_buffer(_BLOCK.size)
        # the call decodes, so other threads run meanwhile: it changes a copy
        state = ctypes.create_string_buffer(self._state.raw, 608)
        if burst is None:
            block = _taken(lib.um_slot_miss(state, place, raw), raw)
        else:
            values = soft_values("burst", burst, 1, 148)
            answer = lib.um_slot_take(state, place, values, raw)
            if answer == 2:
                raise minus_128("burst", values, 1, 148)
            block = _taken(answer, raw)
            if block and not values.strip(b"\0\1") and are_hard_bits(self._soft_bits(block, frame, values)):
                raise hard_bits("burst")
        self._state = state
        return block

    def end(self) -> Optional[SlotBlock]:
        """Ends the block being collected, at the end of a recording; None if there is none."""
        state, raw = ctypes.create_string_buffer(self._state.raw, 608), ctypes.create_string_buffer(_BLOCK.size)
        block = _taken(lib.um_slot_end(state, raw), raw)
        self._state = state
        return block

    def restart(self) -> None:
        """Forgets the frames taken and the block being collected; the settings stay. After several late frames in a row (8, say) a frame
        number was false, or there was a long pause: restart, and take the frame again."""
        lib.um_slot_restart(self._state)

    def _soft_bits(self, block: SlotBlock, frame: int, values: bytes) -> bytes:
        """The soft bits of a block that the burst of this frame completes. Empty if the frame is of a later block: its burst is not to
        blame, and if it were refused, so would be every later one."""
        held, (combination, direction, timeslot, *_) = self._state.raw, self._settings()
        place = place_frame(COMBINATIONS[combination], DIRECTIONS[direction], timeslot, frame)
        if not place or place.first != block.first:
            return b""
        soft_bits = bytearray(held[_SLOT.size : _BURSTS] if _SLOT.unpack_from(held)[1] == block.first else 592)
        soft_bits[148 * place.burst : 148 * place.burst + 148] = values
        return bytes(soft_bits)

    @property
    def combination(self) -> "Combination":
        """One of COMBINATIONS."""
        return COMBINATIONS[self._settings()[0]]

    @property
    def limit(self) -> int:
        """How many wrong training bits the three best bursts may have before no more words are tried."""
        return self._state.raw[_BURSTS]

    @property
    def direction(self) -> "Direction":
        """One of DIRECTIONS."""
        return DIRECTIONS[self._settings()[1]]

    def _settings(self) -> Tuple[int, ...]:
        return _SLOT.unpack_from(self._state)[2:]

    def __repr__(self) -> str:
        _, _, timeslot, words, erasures, _ = self._settings()
        return f"<um.Slot {self.combination}, {self.direction}, time slot {timeslot}, words {words}, erasures {erasures}>"

    @classmethod
    def from_bytes(cls, octets: "Octets") -> "Slot":
        """Restores what `to_bytes`, or the call of another language, saved. ValueError if the octets are not a valid state."""
        data = headed(octets_of("octets", octets), _HEAD, _FIELDS)
        slot = cls.__new__(cls)
        slot._state = ctypes.create_string_buffer(data, 608)
        # a call on a copy tests the state
        copy, last = ctypes.create_string_buffer(slot._state.raw, 608), _SLOT.unpack_from(slot._state)[0]
        if lib.um_slot_miss(copy, (last + 1) % FRAMES, ctypes.create_string_buffer(_BLOCK.size)) == 3:
            raise Refused("from_bytes", "noslot")
        return slot

    def to_bytes(self) -> bytes:
        """The state in the form that all languages read, for `from_bytes`."""
        return _HEAD + self._state.raw[:_FIELDS]


def _erasure(erased: int, wrong_training: bytes) -> Erasure:
    return Erasure(None if erased == 4 else erased, tuple(wrong_training))


def _taken(answer: int, raw: Any) -> Optional[SlotBlock]:
    if answer in _REFUSALS:
        raise Refused("take", _REFUSALS[answer])
    return block_of(raw.raw) if answer == 1 else None


def block_of(raw: bytes) -> SlotBlock:
    """The block in a um_slot_block."""
    report, rank, first, channel, subchannel, heard, erased, wrong = _BLOCK.unpack(raw)
    return SlotBlock(block_report(report), rank, first, Channel(channel), subchannel, heard, _erasure(erased, wrong))
