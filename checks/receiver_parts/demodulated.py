"""Fading, and a demodulator with soft bits on gr-gsm's filter and channel estimate."""
import numpy
from gnuradio import channels

from radio import FRAME, RATE, SAMPLES, SYMBOLS, noise, source, through

LEAD = 1000  # samples before a cell
PEAK = LEAD + 266  # of a burst's first symbol, behind modulator and filter
TAPS = ((0, -3), (0.2, 0), (0.5, -2), (1.6, -6), (2.3, -8), (5, -10))  # us, dB
DOPPLER = 42.8  # Hz


def faded(samples, channel, seed):
    if channel == "two":
        return (samples + numpy.exp(1.1j) * numpy.pad(samples, (SAMPLES, 0))[:-SAMPLES]) / numpy.sqrt(2)
    if channel == "tu50":
        power = numpy.array([10 ** (level / 10) for _, level in TAPS])
        places, heights = [delay * RATE / 1e6 for delay, _ in TAPS], numpy.sqrt(power / power.sum()).tolist()
        return through(source(samples), channels.selective_fading_model(8, DOPPLER / RATE, False, 4.0, seed, places, heights, 16))
    return samples


def matched(samples, starts, training):
    """As in gr-gsm: 16 known symbols give the impulse response, 20 samples with the most energy. What the matched filter gives for each
    symbol, and the response's autocorrelation at 0 to 4 symbols."""
    known = ((1 - 2.0 * training) * 1j ** numpy.arange(26))[5:21]
    at = 40 + 66 * SAMPLES - 30
    near = samples[(starts - 40)[:, None] + numpy.arange(40 + 160 * SAMPLES)]
    found = numpy.stack([near[:, at + i : at + i + 16 * SAMPLES : SAMPLES] @ numpy.conj(known) / 16 for i in range(39)], axis=1)
    energy = numpy.cumsum(numpy.pad(numpy.abs(found) ** 2, ((0, 0), (1, 0))), axis=1)
    best = numpy.argmax(energy[:, 20:] - energy[:, :-20], axis=1)
    rows, symbols = numpy.arange(len(starts))[:, None], SAMPLES * numpy.arange(148)
    response = found[rows, best[:, None] + numpy.arange(20)]
    places = (at + best - 66 * SAMPLES)[:, None] + symbols
    inside = [numpy.where(symbols + i < 148 * SAMPLES, near[rows, places + i], 0) for i in range(20)]
    filtered = sum(values * numpy.conj(response[:, i : i + 1]) for i, values in enumerate(inside))
    parts = [(response[:, SAMPLES * k :] * numpy.conj(response[:, : 20 - SAMPLES * k])).sum(axis=1) for k in range(5)]
    return filtered, parts


def ratios(filtered, parts, known=(0, 1, 2, 145, 146, 147)):
    """Max-log BCJR of 16 states, the last four bits, with Ungerboeck's metric: positive for a 0. The tail bits are known."""
    received_symbols = numpy.real(filtered * 1j ** (61 - numpy.arange(148)))
    past = 1 - 2 * (numpy.arange(16)[:, None] >> numpy.arange(4) & 1)
    echo = sum(numpy.real(parts[k + 1] * 1j ** -(k + 1))[:, None] * past[:, k] for k in range(4))
    after = numpy.arange(16) << 1 & 15
    forward, backward, result = numpy.zeros((149, len(filtered), 16)), numpy.zeros((len(filtered), 16)), numpy.zeros((len(filtered), 148))
    for at in range(148):
        step = received_symbols[:, at : at + 1] - echo
        zero, one = forward[at] + step, forward[at] - step - 1e9 * (at in known)
        forward[at + 1][:, 0::2] = numpy.maximum(zero[:, :8], zero[:, 8:])
        forward[at + 1][:, 1::2] = numpy.maximum(one[:, :8], one[:, 8:])
    for at in range(147, -1, -1):
        step = received_symbols[:, at : at + 1] - echo
        zero, one = step + backward[:, after], backward[:, after + 1] - step - 1e9 * (at in known)
        result[:, at] = (forward[at] + zero).max(axis=1) - (forward[at] + one).max(axis=1)
        backward = numpy.maximum(zero, one)
    return result


def received_power(signal):
    return numpy.mean(numpy.abs(signal[LEAD + FRAME : -20000]) ** 2)


def with_noise(signal, variance, clean, draw):
    """The signal with noise of this power in a sample, but for so many frames in front, where gr-gsm finds the cell."""
    deviation = numpy.full(len(signal), 0.01, numpy.float32)
    deviation[LEAD + clean * FRAME :] = numpy.sqrt(variance)
    return signal + noise(len(signal), deviation, draw)


def soft_values(filtered, bursts, first, training, variance):
    """The likelihood ratios of bursts, by slot and frame, in samples behind gr-gsm's filter that begin with frame `first`."""
    starts = numpy.array([PEAK + (frame - first) * FRAME + sum(SYMBOLS[:slot]) * SAMPLES for slot, frame in bursts])
    parts = range(0, len(starts), 4096)
    return numpy.concatenate([ratios(*matched(filtered, starts[at : at + 4096], training)) * (2 / variance) for at in parts])
