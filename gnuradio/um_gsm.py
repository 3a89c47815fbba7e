"""Blocks of GNU Radio over the package `um`, with gr-gsm's ports and messages:

    control_channels_decoder(words, erasures)       in place of gsm.control_channels_decoder
    slot_decoder(combinations, timeslot, ..)        in place of demappers and decoders, for one time slot or for all
    decryption(k_c, a5_version)                     in place of gsm.decryption, which destroys soft bits

A burst is a pair of nothing and 164 octets: gr-gsm's header (GSMTAP) and 148 values, hard bits or soft bits. Soft bits are those of
libosmocore, int8 from 127, a certain 0, to -127, a certain 1; the last one, a tail bit, is above 1. Keep each block in a variable: GNU
Radio does not keep blocks in Python, and a process whose block is gone dies of SIGSEGV.

As a program it runs a program of gr-gsm with these blocks in place of gr-gsm's:

    python3 -m um_gsm [-w WORDS] [-x ERASURES] [--soft] /usr/bin/grgsm_decode -c CFILE -s RATE -m SDCCH8 -t 1 -v

With --soft its receiver hands out soft bits: it is that of gsm_soft, which gr-gsm/build makes."""
import argparse
import runpy
import sys

import pmt
from gnuradio import gr

import um
from um.a5 import Cipher
from um.gsmtap import DUMMY, UPLINK, Header
from um.receiver import LIMIT, Receiver
from um.recordings import soft_of_grgsm

_HEADER = 16
_VECTOR = b"\x0a\x00"  # of octets; then their number in four octets, and two of padding
_NOTHING = b"\x07\x06"  # a pair with nothing


def octets_of(message):
    """The header and the values of a burst. It takes a third of the time of pmt.u8vector_elements."""
    octets = pmt.serialize_str(pmt.cdr(message))
    if not octets.startswith(_VECTOR) or len(octets) != 8 + _HEADER + 148:
        raise ValueError(f"a message of {len(octets) - 8 - _HEADER} values behind its header; expected a burst of 148")
    return octets[8:]


def message_of(octets):
    """A message of octets."""
    return pmt.deserialize_str(_NOTHING + _VECTOR + len(octets).to_bytes(4, "big") + b"\1\0" + octets)


class _Block(gr.basic_block):
    """A block with one port for bursts and one for what it makes of them."""

    def __init__(self, name, makes):
        gr.basic_block.__init__(self, name, None, None)
        self._makes = pmt.intern(makes)
        self.message_port_register_in(pmt.intern("bursts"))
        self.message_port_register_out(self._makes)
        self.set_msg_handler(pmt.intern("bursts"), self._take)

    def _say(self, octets):
        self.message_port_pub(self._makes, message_of(octets))


class control_channels_decoder(_Block):
    """Decodes the bursts that come, four at a time, as gsm.control_channels_decoder does: by `words` words, and with `erasures` bursts
    erased in turn. In noise, as on an idle channel, it tries one word."""

    def __init__(self, words=16, erasures=4):
        _Block.__init__(self, "um control channels decoder", "msgs")
        self._tries, self._header, self._bursts = (words, erasures), b"", b""
        um.receive_block_erasing(bytes(592), *self._tries)  # refuses other numbers of words and erasures

    def _take(self, message):
        octets = octets_of(message)
        if not self._bursts:
            self._header = octets[:2] + b"\1" + octets[3:_HEADER]  # a message in place of a burst
        self._bursts += soft_of_grgsm(octets[_HEADER:])
        if len(self._bursts) < 592:
            return
        bursts, self._bursts = self._bursts, b""
        wrong = sorted(um.detect_training(bursts)[1])
        report = um.receive_block_erasing(bursts, *(self._tries if sum(wrong[:3]) <= LIMIT else (1, 0)))[0]
        if report.accepted is not None:
            self._say(self._header + report.accepted)


class slot_decoder(_Block):
    """Collects and decodes the blocks of time slots by their frame numbers, so that a block that lacks a burst is decoded too.

    `combinations` is that of `timeslot` ("bcch_ccch", "bcch_ccch_sdcch4", "sdcch8", "tch_f", "tch_h"), or a dict of them by time slot: one
    block for eight costs half of eight, each of which sees every burst. Of "tch_f" and "tch_h" FACCH and SACCH are decoded. `subslot`
    selects a subchannel. With a key, 8 octets, each block is decoded as it is and deciphered. Blocks whose three best bursts have more
    than `limit` wrong training bits are tried with one word."""

    def __init__(
        self, combinations="bcch_ccch", timeslot=0, words=16, erasures=4, subslot=None, k_c=(), a5_version=1, limit=LIMIT
    ):
        _Block.__init__(self, "um slot decoder", "msgs")
        combinations = combinations if isinstance(combinations, dict) else {timeslot: combinations}
        self._timeslots, cipher = frozenset(combinations), Cipher(a5_version, bytes(k_c)) if any(k_c) else None
        self._receiver = Receiver(combinations, words, erasures, cipher, subslot, limit)

    def _take(self, message):
        octets = octets_of(message)
        if octets[3] & 7 in self._timeslots and octets[12] != DUMMY:
            for header, data in self._receiver.take(Header.read(octets[:_HEADER]), soft_of_grgsm(octets[_HEADER:])):
                self._say(header.octets() + data)


class decryption(_Block):
    """Deciphers hard and soft bursts; without a key, or with one of zeros, it passes them on, as gsm.decryption does."""

    def __init__(self, k_c=(), a5_version=1):
        _Block.__init__(self, "um decryption", "bursts")
        self._cipher = Cipher(a5_version, bytes(k_c)) if any(k_c) else None

    def _take(self, message):
        if self._cipher is None:
            self.message_port_pub(self._makes, message)
            return
        octets = octets_of(message)
        header = Header.read(octets[:_HEADER])
        soft = soft_of_grgsm(octets[_HEADER:])
        plain = bytes(um.soft_cipher(soft, self._cipher.stream(header.frame, bool(header.arfcn & UPLINK))))
        is_soft = octets[-1] > 1
        self._say(octets[:_HEADER] + (plain if is_soft else bytes(value >> 7 for value in plain)))


def _main():
    """Runs a program of gr-gsm with these blocks."""
    from gnuradio import gsm, network, pdu

    parser = argparse.ArgumentParser(prog="python3 -m um_gsm", description="Runs a program of gr-gsm with um's decoder and decryption.")
    parser.add_argument("-w", "--words", type=int, default=64, help="words tried in a block, 1 to 64 (64)")
    parser.add_argument("-x", "--erasures", type=int, default=4, help="bursts erased in turn, 0 to 4 (4)")
    parser.add_argument("--soft", action="store_true", help="the receiver of gsm_soft, with soft bits")
    parser.add_argument("program", help="such as /usr/bin/grgsm_decode")
    parser.add_argument("arguments", nargs=argparse.REMAINDER)
    options = parser.parse_args()
    control_channels_decoder(options.words, options.erasures)
    gsm.control_channels_decoder = lambda: control_channels_decoder(options.words, options.erasures)
    gsm.decryption = decryption
    if options.soft:
        import gsm_soft

        gsm.receiver = lambda osr, cells, training, uplink=False: gsm_soft.receiver(osr, cells, training, uplink, True)
        gsm.dummy_burst_filter = gsm_soft.dummy_burst_filter
    if not hasattr(pdu, "socket_pdu"):  # grgsm_decode of Debian 12 asks for it there
        pdu.socket_pdu = network.socket_pdu
    sys.argv = [options.program, *options.arguments]
    runpy.run_path(options.program, run_name="__main__")


if __name__ == "__main__":
    _main()
