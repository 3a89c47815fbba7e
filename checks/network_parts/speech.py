"""Speech of a traffic channel, coded and decoded by libosmocoding, which osmo-bts needs anyway. A frame says who speaks, and when."""
import ctypes

import um

coding = ctypes.CDLL("libosmocoding.so.0")
SPAN = {"full_rate": 8, "half_rate_0": 6, "half_rate_1": 6}  # bursts that a decoder takes, and that carry a block of FACCH
STEP = {"full_rate": 4, "half_rate_0": 2, "half_rate_1": 2}  # bursts from the end of a frame of speech to that of the next
FACCH = 23  # octets


def frame_of(rate, speaker, fn):
    """33 octets of a full rate codec, or 15 of a half rate one as osmo-bts passes them, with the speaker and the frame number."""
    body = bytes([speaker]) + fn.to_bytes(4, "big")
    return b"\xd0" + (body * 7)[:31] + b"\x55" if rate == "full_rate" else b"\x00" + (body * 3)[:14]


def said_in(octets):
    """Who said a frame of speech, when, and whether all of it is as it was said."""
    speaker, fn = octets[1], int.from_bytes(octets[2:6], "big")
    return speaker, fn, octets[1:] == frame_of("full_rate" if len(octets) == 33 else "half_rate_0", speaker, fn)[1:]


def block_of(rate, octets, tsc):
    """A frame of speech, at half rate twice, as four joined bursts: for examples/network/channels.py."""
    out = ctypes.create_string_buffer(928)
    encode = (lambda: coding.gsm0503_tch_fr_encode(out, octets, len(octets), 1)) if rate == "full_rate" else (
        lambda: coding.gsm0503_tch_hr_encode(out, octets, len(octets)))
    if encode():
        raise ValueError(f"libosmocoding does not code {octets.hex()}")
    rows = [out.raw[at : at + 116] for at in range(0, 928, 116)]
    bursts = []
    for b, burst in enumerate(um.send_block(bytes(23), tsc)):
        bits = bytearray(rows[b] if rate == "full_rate" else rows[b % 2])
        bits[1::2] = rows[b + 4 if rate == "full_rate" else b % 2 + 2][1::2]
        bursts.append(burst[:3] + bits[:58] + burst[61:87] + bits[58:] + burst[145:])
    return bursts


def decoded(rate, bursts, is_odd=False):
    """What libosmocoding makes of eight bursts, or six at half rate: octets, 23 of FACCH; none if it rejects them. `is_odd`: at half rate,
    the bursts are in a place of the multiframe in which no block of FACCH ends."""
    flat = b"".join(bytes(burst[3:61]) + bytes(burst[87:145]) for burst in bursts)
    out, errors, total = ctypes.create_string_buffer(128), ctypes.c_int(), ctypes.c_int()
    if rate == "full_rate":
        size = coding.gsm0503_tch_fr_decode(out, flat, 1, 0, ctypes.byref(errors), ctypes.byref(total))
    else:
        size = coding.gsm0503_tch_hr_decode(out, flat, int(is_odd), ctypes.byref(errors), ctypes.byref(total))
    return out.raw[: max(size, 0)]
