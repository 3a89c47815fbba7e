"""The commands that move a mobile to another channel: ASSIGNMENT COMMAND and HANDOVER COMMAND (44.018, 9.1.2 and 9.1.15)."""
from typing import NamedTuple, Optional

CHANNEL_MODE = 0x63
UNSPECIFIED = 0x6F  # cause of a failure: protocol error


class Change(NamedTuple):
    """What a command says, and how the mobile answers it."""

    number: int
    """The channel number."""
    tsc: int
    arfcn: int
    bsic: Optional[int]
    """Of the new cell; None of an assignment."""
    reference: Optional[int]
    """What an access burst of a handover carries; None of an assignment."""
    is_speech: Optional[bool]
    """The mode of the channel; None: it stays."""
    complete: bytes
    failure: bytes


def _channel(description):
    if description[1] & 0x10:
        raise ValueError(f"channel description {description.hex()}: it hops")
    return description[0], description[1] >> 5, (description[1] & 3) << 8 | description[2]


def _is_speech(elements):
    """The channel mode among optional elements, of which those of one octet have bit 8 set."""
    while elements and elements[0] & 0x80:
        elements = elements[1:]
    return elements[1] != 0 if elements[:1] == bytes([CHANNEL_MODE]) else None


def read_assignment(message):
    number, tsc, arfcn = _channel(message[2:5])
    return Change(number, tsc, arfcn, None, None, _is_speech(message[6:]), b"\x06\x29\x00", bytes([6, 0x2F, UNSPECIFIED]))


def read_handover(message):
    """An asynchronous handover: the mobile sends access bursts until PHYSICAL INFORMATION comes."""
    number, tsc, arfcn = _channel(message[4:7])
    bsic, reference, failure = message[2] & 0x3F, message[7], bytes([6, 0x28, UNSPECIFIED])
    return Change(number, tsc, arfcn, bsic, reference, _is_speech(message[9:]), b"\x06\x2c\x00", failure)
