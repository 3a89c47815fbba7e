"""Reads the bursts in a recording: gr-gsm's burst files, captures of the TRX protocol, arrays of numpy, and records of one burst each."""
import io
import os
import struct
import sys
from typing import Any, Callable, Dict, Iterator, List, NamedTuple, Optional, Tuple, Union

from .gsmtap import NORMAL, UPLINK, Header
from .soft import soft_from_bits, soft_from_sbits, soft_from_trx
from .tdma import FRAMES

# what bytes.translate makes soft bits with
_HARD = soft_from_bits(b"\0\1").tobytes() + bytes(254)
_SBITS, _TRX = soft_from_sbits(bytes(range(256))).tobytes(), soft_from_trx(bytes(range(256))).tobytes()
# gr-gsm's records: a pair of PMT, nothing and a vector of 164 octets
_PAIR = bytes.fromhex("07060a000000 00a40100")
_PCAP = {b"\xd4\xc3\xb2\xa1": "<", b"\x4d\x3c\xb2\xa1": "<", b"\xa1\xb2\xc3\xd4": ">", b"\xa1\xb2\x3c\x4d": ">"}
_PCAPNG = b"\x0a\x0d\x0d\x0a"
_NPY = b"\x93NUMPY"
# by the link type of a capture: the octets in front of an IP packet
_LINKS = {0: 4, 1: 14, 12: 0, 101: 0, 113: 16, 228: 0, 276: 20}
# by the version and the octets of a message of the TRX protocol: where its 148 values begin, and whether it is uplink, with soft bits
_MESSAGES = {(0, 154): (6, False), (0, 156): (8, True), (0, 158): (8, True), (1, 154): (6, False), (1, 159): (11, True)}


class Burst(NamedTuple):
    """A burst: the header of GSMTAP, whose channel is the kind of burst, and 148 soft bits as octets in two's complement. A time slot of
    -1 is not known."""

    header: Header
    soft: bytes


class Block(NamedTuple):
    """The four bursts of a block whose frame numbers are not known, 4 x 148 soft bits."""

    number: int
    soft: Any


Items = Iterator[Union[Burst, Block]]


def soft_of_bits(bits: bytes) -> bytes:
    """Hard bits as soft bits. ValueError if an octet is above 1."""
    if bits.translate(None, b"\0\1"):
        at = next(at for at, bit in enumerate(bits) if bit > 1)
        raise ValueError(f"bit {at} is {bits[at]}; expected 0 or 1")
    return bits.translate(_HARD)


def soft_of_grgsm(values: bytes) -> bytes:
    """The values of a burst of gr-gsm: hard bits, or soft bits of libosmocore, of which the last, a tail bit, is 127."""
    return values.translate(_SBITS) if values[-1] > 1 else soft_of_bits(values)


# by the name of a form: how a record of frame number and burst makes soft bits
RECORDS: Dict[str, Callable[[bytes], bytes]] = {
    "trx": lambda octets: octets.translate(_TRX), "int8": lambda octets: octets.translate(_SBITS), "bits": soft_of_bits,
}


class Recording:
    """The bursts of a file, "-" for standard input, in its order. The first octets tell what it is, except for records of a frame number
    in four octets, most significant first, and 148 values, whose form is "trx", "int8" or "bits". ValueError says which record is wrong,
    and what was expected."""

    def __init__(self, path: str, form: str = "") -> None:
        self._path, self._form, self._file = path, form, sys.stdin.buffer if path == "-" else open(path, "rb")
        self._size = 0 if path == "-" else os.fstat(self._file.fileno()).st_size
        self._read = 0

    @property
    def share(self) -> Optional[float]:
        """Which share of the file was read; None if that is not known."""
        return min(1.0, self._read / self._size) if self._size else None

    def close(self) -> None:
        if self._path != "-":
            self._file.close()

    def __iter__(self) -> Items:
        start = self._octets(8)
        if self._form:
            return self._records(start, RECORDS[self._form])
        if start[:4] in _PCAP or start.startswith(_PCAPNG):
            return self._captured(start)
        if start.startswith(_NPY):
            return self._arrays(start)
        if start.startswith(_PAIR[:8]):
            return self._grgsm(start)
        if not start:
            return iter(())
        raise ValueError(
            f"it begins with {start.hex()}, as no form of recording does; expected a burst file of gr-gsm, a capture in pcap or pcapng, or "
            f"an array in .npy. Name the form of records of a frame number and a burst: {', '.join(RECORDS)}")

    def _octets(self, count: int, start: bytes = b"") -> bytes:
        """So many octets, which begin with `start`, or as many as there are."""
        data = start
        while len(data) < count:
            more = self._file.read(count - len(data))
            if not more:
                break
            data += more
            self._read += len(more)
        return data

    def _rows(self, start: bytes, size: int) -> Iterator[Tuple[int, bytes]]:
        number, row = 1, self._octets(size, start)
        while row:
            if len(row) != size:
                raise ValueError(f"record {number}, the last one, has {len(row)} octets; expected {size}")
            yield number, row
            number, row = number + 1, self._octets(size)

    def _grgsm(self, start: bytes) -> Items:
        for number, row in self._rows(start, 174):
            try:
                if not row.startswith(_PAIR):
                    raise ValueError(f"it begins with {row[:10].hex()}; expected {_PAIR.hex()}")
                yield Burst(_checked(Header.read(row[10:26])), soft_of_grgsm(row[26:]))
            except ValueError as error:
                raise ValueError(f"record {number}: {error}") from None

    def _records(self, start: bytes, soft_of: Callable[[bytes], bytes]) -> Items:
        for number, row in self._rows(start, 152):
            try:
                yield Burst(_checked(Header(-1, 0, 0, 0, int.from_bytes(row[:4], "big"), NORMAL)), soft_of(row[4:]))
            except ValueError as error:
                raise ValueError(f"record {number}: {error}") from None

    def _captured(self, start: bytes) -> Items:
        packets = self._pcapng(start) if start.startswith(_PCAPNG) else self._pcap(start)
        number = count = 0
        for number, (link, packet) in enumerate(packets, 1):
            if link not in _LINKS:
                raise ValueError(f"packet {number} has the link type {link}; expected one of {', '.join(map(str, _LINKS))}")
            burst = _trx_message(_payload(packet[_LINKS[link] :]))
            if burst:
                count += 1
                yield burst
        if not count:
            raise ValueError(f"none of its {number} packets has a burst of the TRX protocol, version 0 or 1, over UDP and IPv4")

    def _pcap(self, start: bytes) -> Iterator[Tuple[int, bytes]]:
        order, head = _PCAP[start[:4]], self._octets(24, start)
        link = struct.unpack(order + "I", head[20:])[0] & 0xFFFF
        for head in iter(lambda: self._octets(16), b""):
            yield link, self._octets(struct.unpack(order + "IIII", head)[2])

    def _pcapng(self, start: bytes) -> Iterator[Tuple[int, bytes]]:
        order, head = "<", start
        links: List[int] = []
        while head:
            if head.startswith(_PCAPNG):
                head = self._octets(12, head)
                order, links = "<" if head[8:] == b"\x4d\x3c\x2b\x1a" else ">", []
            kind, length = struct.unpack(order + "II", head[:8])
            body = self._octets(length - 4, head)[8:]
            self._octets(4)
            if kind == 1:
                links.append(struct.unpack(order + "H", body[:2])[0])
            if kind == 6:
                interface, _, _, size = struct.unpack(order + "IIII", body[:16])
                yield links[interface], body[20 : 20 + size]
            head = self._octets(8)

    def _arrays(self, start: bytes) -> Items:
        import numpy

        array: Any = numpy.load(io.BytesIO(start + self._file.read())) if self._path == "-" else numpy.load(self._path, mmap_mode="r")
        fields = array.dtype.names or ()
        if array.dtype == numpy.int8 and array.shape[1:] in ((4, 148), (592,)):
            items: Items = (Block(number, block.reshape(4, 148)) for number, block in enumerate(array))
        elif {"frame", "burst"} <= set(fields) and array.dtype["burst"] == numpy.dtype((numpy.int8, 148)):
            items = map(_burst_of_row, array)
        else:
            raise ValueError(
                f"it is a {array.dtype} array of shape {array.shape}; expected int8, n x 4 x 148 or n x 592, or n rows with the fields "
                f"`frame` and `burst` (148 int8), and perhaps `timeslot` and `uplink`")
        for number, item in enumerate(items):
            self._read = self._size * number // len(array)
            yield item


def _checked(header: Header) -> Header:
    if header.frame >= FRAMES:
        raise ValueError(f"frame {header.frame}; expected 0 to {FRAMES - 1}")
    return header


def _burst_of_row(row: Any) -> Burst:
    fields = row.dtype.names
    timeslot, uplink = int(row["timeslot"]) if "timeslot" in fields else -1, "uplink" in fields and bool(row["uplink"])
    header = Header(timeslot, UPLINK if uplink else 0, 0, 0, int(row["frame"]), NORMAL)
    return Burst(_checked(header), row["burst"].tobytes().translate(_SBITS))


def _payload(packet: bytes) -> bytes:
    """What a packet of UDP over IPv4 carries, or nothing."""
    if len(packet) < 28 or packet[0] >> 4 != 4 or packet[9] != 17:
        return b""
    udp = packet[4 * (packet[0] & 15) :]
    return udp[8 : int.from_bytes(udp[4:6], "big")]


def _trx_message(octets: bytes) -> Optional[Burst]:
    """The burst in a message of the TRX protocol, if it is one."""
    place = _MESSAGES.get((octets[0] >> 4, len(octets))) if octets else None
    frame = int.from_bytes(octets[1:5], "big")
    if place is None or frame >= FRAMES:
        return None
    at, uplink = place
    values = octets[at : at + 148]
    if not uplink and values.translate(None, b"\0\1"):
        return None
    header = Header(octets[0] & 7, UPLINK if uplink else 0, -(octets[5] & 127) if uplink else 0, 0, frame, NORMAL)
    return Burst(header, values.translate(_TRX) if uplink else soft_of_bits(values))
