"""gr-gsm's modulator and receiver in flow graphs of GNU Radio."""
import time

import numpy
import pmt
from gnuradio import blocks, channels, gr, gsm

SAMPLES = 4  # of a symbol
RATE = 1625000 / 6 * SAMPLES
SYMBOLS = (157, 156, 156, 156) * 2  # of each time slot (45.010, 5.7)
FRAME = sum(SYMBOLS) * SAMPLES
CARRIER = 925.2e6


def through(source, *chain):
    """The samples that leave a chain of blocks."""
    graph, sink = gr.top_block(), blocks.vector_sink_c()
    graph.connect(source, *chain, sink)
    graph.run()
    return numpy.array(sink.data(), numpy.complex64)


def source(samples):
    return blocks.vector_source_c(samples.tolist())


def modulated(bits):
    """GMSK of bursts, frames x slots x 148, with guard bits 1."""
    parts = [numpy.pad(bits[:, slot], ((0, 0), (0, symbols - 148)), constant_values=1) for slot, symbols in enumerate(SYMBOLS)]
    symbols = numpy.concatenate(parts, axis=1).reshape(-1)
    return through(blocks.vector_source_b(symbols.tolist()), gsm.gsm_gmsk_mod(BT=0.3, pulse_duration=4, sps=SAMPLES))


def sampled(samples, ppm, deviation, seed):
    """Samples by an oscillator that is too fast by so many millionths, with noise."""
    return through(source(samples), channels.channel_model(deviation, -ppm / 1e6 * CARRIER / RATE, 1 - ppm / 1e6, [1.0], seed))


def noise(count, deviation, draw):
    """Complex Gaussian noise."""
    return (deviation / numpy.sqrt(2) * (draw.standard_normal(count) + 1j * draw.standard_normal(count))).astype(numpy.complex64)


class Samples(gr.sync_block):
    """A source that ends only when all is handled: at the end of a stream GNU Radio drops the messages that still wait."""

    def __init__(self, samples, handled):
        gr.sync_block.__init__(self, "samples", None, [numpy.complex64])
        self.samples, self.at, self.handled = samples, 0, handled

    def work(self, _, outputs):
        part = self.samples[self.at : self.at + len(outputs[0])]
        outputs[0][: len(part)] = part
        self.at += len(part)
        if len(part) == 0:
            time.sleep(0.02)
        return len(part) or -self.handled()


class Kept(gr.basic_block):
    """A sink that keeps the octets of each message by slot and frame, and the time of the last one."""

    def __init__(self):
        gr.basic_block.__init__(self, "kept", None, None)
        self.octets, self.last = {}, time.monotonic()
        self.message_port_register_in(pmt.intern("in"))
        self.set_msg_handler(pmt.intern("in"), self.take)

    def take(self, message):
        octets, self.last = bytes(pmt.u8vector_elements(pmt.cdr(message))), time.monotonic()
        self.octets[octets[3] & 7, int.from_bytes(octets[8:12], "big")] = octets[16:]  # behind a GSMTAP header


def received(samples, combined, ppm, awaited, quiet, file=None, receiver=None):
    """What gr-gsm's receiver hands out if it is told by how much its oscillator is too fast: the bits of the bursts and the messages of its
    decoder, by slot and frame, and the samples behind its filter. It ends when the awaited messages are there, or none came for so many
    seconds. gr-gsm writes the bursts to a file too if its name is given. Another receiver may stand in for gr-gsm's."""

    def handled():
        if all(key in said.octets and (key[0], key[1] + 3) in heard.octets for key in awaited):
            return True
        return time.monotonic() > max(heard.last, said.last) + quiet

    graph, entry, receiver = gr.top_block(), gsm.gsm_input(fc=CARRIER, ppm=ppm, samp_rate_in=RATE), receiver or gsm.receiver(4, [0], [])
    first, heard, said, filtered = Samples(samples.astype(numpy.complex64), handled), Kept(), Kept(), blocks.vector_sink_c()
    graph.connect(first, entry, receiver)
    graph.connect(entry, filtered)
    graph.msg_connect(receiver, "C0", heard, "in")
    if file:
        written = gsm.burst_file_sink(file)
        graph.msg_connect(receiver, "C0", written, "in")
    common = gsm.gsm_bcch_ccch_sdcch4_demapper if combined else gsm.gsm_bcch_ccch_demapper
    for slot in range(8):
        chain = gsm.dummy_burst_filter(), gsm.gsm_sdcch8_demapper(slot) if slot else common(0), gsm.control_channels_decoder()
        graph.msg_connect(receiver, "C0", chain[0], "in")
        graph.msg_connect(chain[0], "out", chain[1], "bursts")
        graph.msg_connect(chain[1], "bursts", chain[2], "bursts")
        graph.msg_connect(chain[2], "msgs", said, "in")
    graph.run()
    return heard.octets, said.octets, numpy.array(filtered.data(), numpy.complex64)
