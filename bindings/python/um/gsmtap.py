"""GSMTAP, the header that gr-gsm and Wireshark expect before a message or a burst, as UDP packets and as a capture file of pcapng."""
import socket
import struct
from typing import BinaryIO, NamedTuple, Tuple

UPLINK = 0x4000
"""The bit of `arfcn` that says uplink."""
PORT = 4729
NORMAL, DUMMY = 6, 7
"""Kinds of bursts (GSMTAP_BURST_*)."""
# GSMTAP_CHANNEL_*; the flag of an associated channel
_TYPES = {"BCCH": 1, "CCCH": 2}
_DEDICATED = {"bcch_ccch_sdcch4": 7, "sdcch8": 8, "tch_f": 9, "tch_h": 10}
_SACCH = 0x80
# the header of 16 octets: version, words, type, time slot, ARFCN, dBm, SNR, frame number, channel, antenna, subchannel, reserved
_HEADER = struct.Struct(">BBBBHbbIBBBB")
_BLOCK = struct.Struct("<II")


class Header(NamedTuple):
    """What GSMTAP says of a message or a burst."""

    timeslot: int
    arfcn: int
    dbm: int
    snr: int
    frame: int
    channel: int
    """One of GSMTAP's channel types; of a burst its kind, such as NORMAL and DUMMY."""
    subchannel: int = 0

    def octets(self) -> bytes:
        """The header before a message of the Um interface."""
        return _HEADER.pack(2, 4, 1, *self[:6], 0, self.subchannel, 0)

    @classmethod
    def read(cls, octets: bytes) -> "Header":
        """Reads 16 octets. ValueError: another version or length."""
        version, words, _, timeslot, arfcn, dbm, snr, frame, channel, _, subchannel, _ = _HEADER.unpack(octets)
        if (version, words) != (2, 4):
            raise ValueError(f"a GSMTAP header of version {version} with {4 * words} octets; expected version 2 with 16")
        return cls(timeslot, arfcn, dbm, snr, frame, channel, subchannel)


def channel_type(combination: str, channel: str) -> int:
    """GSMTAP's type of a channel ("BCCH", "CCCH", "SDCCH", "SACCH", "FACCH") in a time slot with this combination."""
    if channel in _TYPES:
        return _TYPES[channel]
    return _DEDICATED[combination] | (_SACCH if channel == "SACCH" else 0)


class Sender:
    """Sends messages to a port, as gr-gsm does; nobody need listen."""

    def __init__(self, address: Tuple[str, int]) -> None:
        self._address = socket.getaddrinfo(*address, type=socket.SOCK_DGRAM)[0][4]
        self._socket = socket.socket(socket.AF_INET6 if len(self._address) == 4 else socket.AF_INET, socket.SOCK_DGRAM)

    def write(self, header: Header, octets: bytes) -> None:
        try:
            self._socket.sendto(header.octets() + octets, self._address)
        except ConnectionRefusedError:  # said of a packet before, if nobody listens
            pass


class Capture:
    """A capture file: pcapng with IP packets, whose time is that of the frame, from frame 0 on."""

    def __init__(self, file: BinaryIO) -> None:
        self._file = file
        self._block(0x0A0D0D0A, struct.pack("<IHHq", 0x1A2B3C4D, 1, 0, -1))  # a section of unknown length
        self._block(1, struct.pack("<HHI", 101, 0, 0))  # an interface for raw IP, times in microseconds

    def write(self, header: Header, octets: bytes) -> None:
        data = header.octets() + octets
        data = struct.pack(">HHHH", PORT, PORT, 8 + len(data), 0) + data
        data = struct.pack(">BBHHHBBH4s4s", 0x45, 0, 20 + len(data), 0, 0, 64, 17, 0, b"\x7f\0\0\1", b"\x7f\0\0\1") + data
        time = header.frame * 120000 // 26  # a frame takes 120 / 26 ms
        padding = bytes(-len(data) % 4)
        self._block(6, struct.pack("<IIIII", 0, time >> 32, time & 0xFFFFFFFF, len(data), len(data)) + data + padding)
        self._file.flush()

    def close(self) -> None:
        self._file.close()

    def _block(self, kind: int, body: bytes) -> None:
        length = len(body) + 12
        self._file.write(_BLOCK.pack(kind, length) + body + struct.pack("<I", length))
