"""Many blocks, bursts, words or frames in one call, in numpy arrays. The last axes are those of one item, and all axes before them are
kept: an array of time x subchannel x 4 x 148 soft bits gives time x subchannel reports. The calls release the interpreter's lock."""
import functools
from typing import TYPE_CHECKING, Any, Dict, Tuple

from ._each import Numbers, Rows, each
from ._values import bits as bits_of, hard_bits, name_of, no_soft, number, refuse_mask
from .frames import KINDS, SDCCH, UNREAD, channel_number

if TYPE_CHECKING:
    from ._types import Array, Bits, Records, SoftArray

# the structs of um.h: for each field its type and offset, and the size
_Fields = Dict[str, Tuple[Any, int]]
_QUALITY: _Fields = {"metric": ("<i4", 0), "wrong_training": ("<u4", 4), "wrong_coded": ("<u4", 8)}
_BLOCK: _Fields = {**_QUALITY, "tsc": ("u1", 12), "accepted": ("?", 13), "octets": (("u1", 23), 14), "word": (("u1", 228), 37)}
_FORMS: Dict[str, Tuple[_Fields, int]] = {
    "block": (_BLOCK, 268),
    "ranked": ({**_BLOCK, "rank": ("<u4", 268)}, 272),
    "access": ({**_QUALITY, "accepted": ("?", 12), "info": (("u1", 8), 13), "word": (("u1", 18), 21)}, 40),
    "sync": ({**_QUALITY, "accepted": ("?", 12), "info": (("u1", 25), 13), "word": (("u1", 39), 38)}, 80),
    "margin": ({"margin": ("<i4", 0), "word": (("u1", 228), 4), "next": (("u1", 228), 232)}, 460),
    "repair": ({"first": ("u1", 0), "span": ("u1", 1), "word": (("u1", 224), 2), "repaired": ("?", 226)}, 227),
}
_NUMBERS = ("sapi", "cr", "pf", "ns", "nr", "more", "count")
_FRAMES = [("kind", "U4"), *((name, "u1") for name in _NUMBERS), ("info", "u1", 20), ("unread", "U7")]


def send_blocks(octets: "Array", tsc: Any) -> "Array":
    """Encodes blocks, .. x 23 octets (uint8), into .. x 4 x 148 bits, with one training sequence for all or one for each."""
    numpy = _numpy()
    data, lead = _items("octets", octets, numpy.uint8, "23", (23,))
    codes = _codes(tsc, lead)
    bursts: "Array" = numpy.empty((len(data), 4, 148), numpy.uint8)
    each("um_send_block", len(data), Rows(data), Numbers(codes), Rows(bursts))
    return bursts.reshape(lead + (4, 148))


def receive_blocks(bursts: "SoftArray") -> "Records":
    """Decodes blocks of soft bits (int8, .. x 4 x 148 or .. x 592). Returns a structured array with the fields metric, wrong_training,
    wrong_coded, tsc, accepted, octets (23, zeros unless accepted) and word (228 bits)."""
    soft, lead = _soft("bursts", bursts, "4 x 148", (4, 148), (592,))
    return _received("um_receive_block", "bursts", soft, lead, "block")


def receive_blocks_among(bursts: "SoftArray", most: int) -> "Records":
    """Decodes blocks as `receive_blocks` does, but by list decoding: the first of the `most` likeliest words (1 to 64) whose CRC holds.
    The additional field rank is 1 for the most likely word."""
    tried = Numbers(_numpy().array(number("most", most, 1, 64), "<u4"))
    soft, lead = _soft("bursts", bursts, "4 x 148", (4, 148), (592,))
    reports = _empty("ranked", len(soft))
    done = each("um_receive_block_among", len(soft), Rows(soft), tried, Rows(reports), Rows(reports["rank"]))
    return _unless_128("bursts", soft, lead, done, reports)


def margin_blocks(bursts: "SoftArray") -> "Records":
    """The decoding margins of blocks of soft bits: a structured array with the fields margin, word and next."""
    soft, lead = _soft("bursts", bursts, "4 x 148", (4, 148), (592,))
    return _received("um_margin_block", "bursts", soft, lead, "margin")


def receive_accesses(bursts: "SoftArray", bsic: "Bits") -> "Records":
    """Decodes access bursts, .. x 88 soft bits, for one base station's identity code (six bits) or one for each burst (.. x 6). Returns a
    structured array with the fields metric, wrong_training, wrong_coded, accepted, info (8, zeros unless accepted) and word (18)."""
    numpy = _numpy()
    soft, lead = _soft("bursts", bursts, "88", (88,))
    if getattr(bsic, "ndim", 1) == 1:
        codes = numpy.broadcast_to(numpy.frombuffer(bits_of("bsic", bsic, 6), numpy.uint8), lead + (6,))
    else:
        codes, given = _items("bsic", bsic, numpy.uint8, "6", (6,))
        if given != lead or codes.size and codes.max() > 1:
            raise ValueError(f"bsic: {name_of(bsic)}; expected six bits, or six for each burst, each 0 or 1")
    codes = numpy.ascontiguousarray(codes).reshape(len(soft), 6)
    reports = _empty("access", len(soft))
    done = each("um_receive_access", len(soft), Rows(soft), Rows(codes), Rows(reports))
    return _unless_128("bursts", soft, lead, done, reports)


def receive_syncs(bursts: "SoftArray") -> "Records":
    """Decodes synchronisation bursts, .. x 148 soft bits. Returns a structured array as `receive_accesses` does, with 25 bits of info and
    39 of word."""
    soft, lead = _soft("bursts", bursts, "148", (148,))
    return _received("um_receive_sync", "bursts", soft, lead, "sync")


def repair_words(words: "Array") -> "Records":
    """Corrects words, .. x 224 bits (uint8), as `repair` does. Returns a structured array with the fields repaired (whether a codeword is
    that near), first, span (0 if the CRC holds already) and word (zeros if there is none)."""
    numpy = _numpy()
    data, lead = _items("words", words, numpy.uint8, "224", (224,))
    if data.size and data.max() > 1:
        at = numpy.unravel_index(int((data > 1).argmax()), lead + (224,))
        raise ValueError(f"words{list(map(int, at))}: {data.max()}; expected bits, each 0 or 1")
    reports, answers = _empty("repair", len(data)), numpy.zeros(len(data), numpy.uint8)
    each("um_repair", len(data), Rows(data), Rows(reports), answers=answers)
    reports["repaired"] = answers < 2
    reports["word"][answers == 0] = data[answers == 0]
    return reports.reshape(lead)


def read_frames(octets: "Array", channel: int = SDCCH) -> "Records":
    """Decodes the frames in blocks, .. x 23 octets (uint8). Returns a structured array with the fields of `Frame`, the count of information
    octets (info has zeros after them), and unread: why the octets are not a frame, and else ''. The kind is '' if they are not."""
    numpy = _numpy()
    data, lead = _items("octets", octets, numpy.uint8, "23", (23,))
    raw, answers = numpy.zeros((len(data), 28), numpy.uint8), numpy.zeros(len(data), numpy.uint8)
    each("um_read_frame", len(data), Rows(data), Numbers(numpy.array(channel_number(channel), numpy.uint8)), Rows(raw), answers=answers)
    frames: "Records" = numpy.zeros(len(data), _FRAMES)
    frames["kind"] = numpy.where(answers == 0, numpy.array(KINDS)[raw[:, 0]], "")
    for at, name in enumerate(_NUMBERS, 1):
        frames[name] = raw[:, at]
    frames["info"] = raw[:, 8:]
    frames["unread"] = numpy.array(("", *UNREAD))[answers]
    return frames.reshape(lead)


def _numpy() -> Any:
    try:
        import numpy
    except ImportError:
        raise ImportError("um: the calls for many need numpy; receive_block and the other calls do not") from None
    return numpy


@functools.lru_cache(None)
def _form(name: str) -> Any:
    fields, size = _FORMS[name]
    formats, offsets = zip(*fields.values())
    return _numpy().dtype({"names": list(fields), "formats": list(formats), "offsets": list(offsets), "itemsize": size})


def _empty(name: str, count: int) -> "Records":
    records: "Records" = _numpy().zeros(count, _form(name))
    return records


def _items(name: str, values: Any, kind: Any, wanted: str, *shapes: Tuple[int, ...]) -> Any:
    """The values with one row for each item, C-contiguous, and the axes before the item's."""
    numpy = _numpy()
    refuse_mask(name, values)
    array = numpy.asarray(values)
    if array.dtype != kind:
        raise TypeError(f"{name}: {name_of(values if hasattr(values, 'dtype') else array)}; expected .. x {wanted} of {kind.__name__}")
    for shape in shapes:
        if array.ndim >= len(shape) and array.shape[array.ndim - len(shape) :] == shape:
            lead = array.shape[: array.ndim - len(shape)]
            return numpy.ascontiguousarray(array).reshape((_product(lead), _product(shape))), lead
    raise ValueError(f"{name}: {name_of(array)}; expected .. x {wanted}")


def _product(sizes: Tuple[int, ...]) -> int:
    return functools.reduce(lambda x, y: x * y, sizes, 1)


def _soft(name: str, bursts: Any, wanted: str, *shapes: Tuple[int, ...]) -> Any:
    """Soft bits with one row for each call, and the axes before. Hard bits are refused."""
    numpy = _numpy()
    refuse_mask(name, bursts)
    array = numpy.asarray(bursts)
    if array.dtype != numpy.int8:
        raise no_soft(name, bursts if hasattr(bursts, "dtype") else array, array.dtype.char, f".. x {wanted}")
    soft, lead = _items(name, array, numpy.int8, wanted, *shapes)
    # few blocks of soft bits begin with a 0 or 1, so nearly none is looked at as a whole
    suspects = numpy.flatnonzero(soft[:, 0] & -2 == 0)
    if suspects.size:
        suspects = suspects[~(soft[suspects] & -2).any(axis=1)]
        hard = suspects[soft[suspects].any(axis=1)]
        if hard.size:
            raise hard_bits(name + _place(int(hard[0]), lead))
    return soft, lead


def _place(at: int, lead: Tuple[int, ...]) -> str:
    return str(list(map(int, _numpy().unravel_index(at, lead)))) if lead else ""


def _received(call: str, name: str, soft: Any, lead: Tuple[int, ...], form: str) -> "Records":
    reports = _empty(form, len(soft))
    return _unless_128(name, soft, lead, each(call, len(soft), Rows(soft), Rows(reports)), reports)


def _unless_128(name: str, soft: Any, lead: Tuple[int, ...], done: int, reports: "Records") -> "Records":
    """The reports, if each call was answered: the library refuses only a soft bit of -128."""
    if done == len(soft):
        return reports.reshape(lead)
    at = int((soft[done] == -128).argmax())
    inside = [at // 148, at % 148] if soft.shape[1] == 592 else [at]
    place = [*map(int, _numpy().unravel_index(done, lead)), *inside]
    raise ValueError(f"{name}{place}: -128; expected soft bits from -127 to 127")


def _codes(tsc: Any, lead: Tuple[int, ...]) -> Any:
    """Training sequences: one, or one for each block."""
    numpy = _numpy()
    codes = numpy.asarray(tsc)
    if codes.dtype.kind not in "iu":
        raise TypeError(f"tsc: {name_of(tsc)}; expected an int from 0 to 7, or one for each block")
    if codes.ndim and codes.shape != lead:
        raise ValueError(f"tsc: {name_of(codes)}; expected one, or one for each of {' x '.join(map(str, lead)) or 1} blocks")
    if codes.size and (codes.min() < 0 or codes.max() > 7):
        raise ValueError(f"tsc: {codes.min()} to {codes.max()}; expected 0 to 7")
    return numpy.ascontiguousarray(codes.astype(numpy.uint8)).reshape(() if codes.ndim == 0 else -1)
