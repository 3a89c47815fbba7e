"""GSM's dedicated signalling link for Python: blocks, bursts, LAPDm frames and endpoints. The results of every call are proved.

    >>> import um
    >>> octets = um.write_frame(um.Frame("i", ns=5, nr=2, info=b"\\x06\\x01"))
    >>> bursts = um.send_block(octets, tsc=7)
    >>> soft = um.soft_from_bits(bursts)
    >>> soft[1][10] = -soft[1][10]
    >>> report = um.receive_block(soft)
    >>> report.accepted == octets, report.tsc, report.wrong_coded
    (True, 7, 1)
    >>> um.receive_block_among(soft, 64) == (report, 1)
    True
    >>> um.read_frame(octets)
    Frame(kind='i', sapi=0, cr=0, pf=0, ns=5, nr=2, more=0, info=b'\\x06\\x01')

An endpoint does no I/O and has no timer:

    >>> mobile, network = um.End("mobile"), um.End("network")
    >>> answer = network.take(mobile.open(b"\\1\\2").frames[0])
    >>> answer.notices, mobile.take(answer.frames[0]).notices
    ([Received(kind='opened', message=b'\\x01\\x02')], [Received(kind='opened', message=b'\\x01\\x02')])
    >>> got = network.take(mobile.send(b"hello").frames[0])
    >>> got.notices, mobile.take(got.frames[0]).notices
    ([Received(kind='got', message=b'hello')], [Acked(kind='acked', number=1)])

A hard bit is 0 or 1. A soft bit is an int from -127 (certainly 1) to 127 (certainly 0); 0 means unknown. An invalid argument raises
ValueError or TypeError, and the message names the argument:

    >>> um.receive_block([[0] * 148] * 3)
    Traceback (most recent call last):
    ValueError: bursts: 3 bursts; expected 4

With numpy, `receive_blocks` and other calls process many blocks, bursts, words or frames in one call."""
from ._library import version
from ._version import __version__
from .blocks import (
    Margin, Repair, Report, margin_block, receive_access, receive_block, receive_block_among, receive_sync, repair, send_access,
    send_block, send_sync,
)
from .datalink import ESTABLISHMENTS, FAULTS, DataLink, LastAnswer, LinkNotice, Sent
from .effects import (
    NOTICES, REASONS, REFUSALS, SLOT_REFUSALS, TRAFFIC_REFUSALS, Acked, Closed, Effects, Notice, Oversize, Received, Refused,
)
from .ends import ROLES, STATES, End, Side
from .frames import KINDS, SACCH, SDCCH, UNREAD, Channel, Frame, NoFrame, read_b4, read_frame, write_b4, write_frame
from .many import (
    margin_blocks, read_frames, receive_accesses, receive_blocks, receive_blocks_among, receive_syncs, repair_words, send_blocks,
)
from .slot import Erasure, Slot, SlotBlock, detect_training, receive_block_erasing
from .soft import soft_from_bits, soft_from_llr, soft_from_sbits, soft_from_trx
from .tdma import (
    COMBINATIONS, DIRECTIONS, FRAMES, Place, Sch, Time, frame_of_time, next_block, place_frame, read_bsic, read_ra, read_sch, time_of_frame,
    write_bsic, write_ra, write_sch,
)
from .traffic import (
    TRAFFIC_CHANNELS, TRAFFIC_KINDS, Traffic, TrafficBlock, TrafficPlace, TrafficSender, cipher_bits, join_facch, next_facch,
    place_traffic, receive_facch_erasing, soft_cipher, steal_facch, stealing_flags,
)

__all__ = [
    "Acked", "COMBINATIONS", "Channel", "Closed", "DIRECTIONS", "DataLink", "ESTABLISHMENTS", "Effects", "End", "Erasure", "FAULTS", "FRAMES",
    "Frame", "KINDS", "LastAnswer", "LinkNotice", "Margin", "NOTICES", "NoFrame", "Notice", "Oversize", "Place", "REASONS", "REFUSALS",
    "ROLES", "Received", "Refused", "Repair", "Report", "SACCH", "SDCCH", "SLOT_REFUSALS", "STATES", "Sch", "Sent", "Side", "Slot",
    "SlotBlock", "TRAFFIC_CHANNELS", "TRAFFIC_KINDS", "TRAFFIC_REFUSALS", "Time", "Traffic", "TrafficBlock", "TrafficPlace",
    "TrafficSender", "UNREAD", "__version__", "cipher_bits", "detect_training", "frame_of_time", "join_facch", "margin_block",
    "margin_blocks", "next_block", "next_facch", "place_frame", "place_traffic", "read_b4", "read_bsic", "read_frame", "read_frames", "read_ra",
    "read_sch", "receive_access", "receive_accesses", "receive_block", "receive_block_among", "receive_block_erasing", "receive_blocks",
    "receive_blocks_among", "receive_facch_erasing", "receive_sync", "receive_syncs", "repair", "repair_words", "send_access",
    "send_block", "send_blocks", "send_sync", "soft_cipher", "soft_from_bits", "soft_from_llr", "soft_from_sbits", "soft_from_trx",
    "steal_facch", "stealing_flags", "time_of_frame", "version", "write_b4", "write_bsic", "write_frame", "write_ra", "write_sch",
]
