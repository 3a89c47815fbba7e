"""Blocks and bursts: encoding, decoding, the decoding margin, and error correction by the CRC.

A bit is 0 or 1 in the order of sending. Soft bits are int8 memory (a numpy array, array('b'), a memoryview), bytes in two's complement,
or ints, in a row for each burst or all in one row."""
import ctypes
import struct
from typing import TYPE_CHECKING, Any, List, NamedTuple, Optional, Tuple

from ._library import lib
from ._values import bits, minus_128, number, octets as octets_of, soft

if TYPE_CHECKING:
    from ._types import Bits, Octets, SoftBits, SoftRow

# the structs of um.h
_BLOCK = struct.Struct("<iIIBB23s228s3x")
_ACCESS = struct.Struct("<iIIB8s18sx")
_SYNC = struct.Struct("<iIIB25s39s3x")
_MARGIN = struct.Struct("<i228s228s")
_REPAIR = struct.Struct("<BB224s")


class Report(NamedTuple):
    """What the decoder reports for a block or a burst."""

    accepted: Optional[bytes]
    """The octets of a block, or the bits of a burst, if the CRC holds; else None."""
    metric: int
    """The path metric: sum of the soft bits, each negated where the coded bit is 1."""
    wrong_training: int
    """Bit errors in the training sequence; a soft bit of 0 counts as an error."""
    wrong_coded: int
    """Bit errors in the coded bits, against the word re-encoded; a soft bit of 0 counts as an error."""
    word: bytes
    """The decoded word, one octet per bit: data, CRC, tail."""
    tsc: Optional[int] = None
    """The detected training sequence; blocks only."""


class Margin(NamedTuple):
    """The decoding margin of a block."""

    margin: int
    """The metric of the word minus that of the next one; 0 if and only if another word has the same metric."""
    word: bytes
    next: bytes
    """The second most likely word."""


class Repair(NamedTuple):
    """A word whose CRC holds."""

    word: bytes
    first: int
    """The index of the first wrong bit."""
    span: int
    """The number of bits from the first wrong one to the last, both included; 0 if none was wrong."""


def send_block(octets: "Octets", tsc: int) -> List[bytes]:
    """Encodes a block of 23 octets into four bursts of 148 bits, with training sequence 0 to 7."""
    bursts = ctypes.create_string_buffer(592)
    lib.um_send_block(octets_of("octets", octets, 23), number("tsc", tsc, 0, 7), bursts)
    return [bursts.raw[at : at + 148] for at in range(0, 592, 148)]


def receive_block(bursts: "SoftBits") -> Report:
    """Decodes four bursts of 148 soft bits by maximum likelihood. The block is accepted if its CRC holds."""
    values, raw = soft("bursts", bursts, 4, 148), ctypes.create_string_buffer(268)
    if not lib.um_receive_block(values, raw):
        raise minus_128("bursts", values, 4, 148)
    return block_report(raw)


def receive_block_among(bursts: "SoftBits", most: int) -> Tuple[Report, int]:
    """Decodes four bursts by list decoding: the first of the `most` likeliest words (1 to 64) whose CRC holds, or the most likely word
    if none matches. Returns the report and the word's rank, 1 for the most likely word."""
    values, tried = soft("bursts", bursts, 4, 148), number("most", most, 1, 64)
    raw, rank = ctypes.create_string_buffer(268), ctypes.c_uint32()
    if not lib.um_receive_block_among(values, tried, raw, ctypes.byref(rank)):
        raise minus_128("bursts", values, 4, 148)
    return block_report(raw), rank.value


def margin_block(bursts: "SoftBits") -> Margin:
    """Decodes four bursts and reports the margin between the two most likely words."""
    values, raw = soft("bursts", bursts, 4, 148), ctypes.create_string_buffer(460)
    if not lib.um_margin_block(values, raw):
        raise minus_128("bursts", values, 4, 148)
    return Margin(*_MARGIN.unpack(raw))


def repair(word: "Bits") -> Optional[Repair]:
    """Corrects a word of 224 bits, data and CRC, with an error burst of at most twelve bits. None if no codeword is that near."""
    given, raw = bits("word", word, 224), ctypes.create_string_buffer(226)
    answer = lib.um_repair(given, raw)
    if answer == 0:
        return Repair(given, 0, 0)
    if answer == 1:
        first, span, right = _REPAIR.unpack(raw)
        return Repair(right, first, span)
    return None


def send_access(info: "Bits", bsic: "Bits") -> bytes:
    """Encodes the eight bits of RA, least significant first, into an access burst of 88 bits.

    `bsic` is the base station's identity code, six bits, most significant first."""
    burst = ctypes.create_string_buffer(88)
    lib.um_send_access(bits("info", info, 8), bits("bsic", bsic, 6), burst)
    return burst.raw


def receive_access(burst: "SoftRow", bsic: "Bits") -> Report:
    """Decodes an access burst of 88 soft bits for a base station's identity code; the orders of bits are those of send_access."""
    values, raw = soft("burst", burst, 1, 88), ctypes.create_string_buffer(40)
    if not lib.um_receive_access(values, bits("bsic", bsic, 6), raw):
        raise minus_128("burst", values, 1, 88)
    return _burst_report(_ACCESS, raw)


def send_sync(info: "Bits") -> bytes:
    """Encodes 25 bits into a synchronisation burst of 148 bits.

    In frame FN, with s = FN // 1326, m = FN % 26 and r = (FN % 51 - 1) // 10, they are bits 9 and 10 of s, BSIC, bits 1 to 8 of s, bits
    1 and 2 of r, m, bit 0 of s, and bit 0 of r, each field least significant bit first."""
    burst = ctypes.create_string_buffer(148)
    lib.um_send_sync(bits("info", info, 25), burst)
    return burst.raw


def receive_sync(burst: "SoftRow") -> Report:
    """Decodes a synchronisation burst of 148 soft bits."""
    values, raw = soft("burst", burst, 1, 148), ctypes.create_string_buffer(80)
    if not lib.um_receive_sync(values, raw):
        raise minus_128("burst", values, 1, 148)
    return _burst_report(_SYNC, raw)


def block_report(raw: Any) -> Report:
    """The report in a um_block_report."""
    metric, wrong_training, wrong_coded, tsc, accepted, data, word = _BLOCK.unpack(raw)
    return Report(data if accepted else None, metric, wrong_training, wrong_coded, word, tsc)


def _burst_report(form: struct.Struct, raw: Any) -> Report:
    metric, wrong_training, wrong_coded, accepted, data, word = form.unpack(raw)
    return Report(data if accepted else None, metric, wrong_training, wrong_coded, word)
