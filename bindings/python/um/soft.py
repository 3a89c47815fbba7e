"""Converts what receivers write to soft bits: hard bits, log-likelihood ratios, libosmocore's sbit_t, and octets of the TRX protocol.

A soft bit is an int from -127 (certainly 1) to 127 (certainly 0); 0 means unknown. A numpy array yields an int8 array of its shape; a row
yields array('b'), a list of rows a list of them.

    >>> from um.soft import soft_from_bits, soft_from_llr, soft_from_sbits, soft_from_trx
    >>> soft_from_bits([b"\\0\\1", b"\\1\\1"])
    [array('b', [127, -127]), array('b', [-127, -127])]
    >>> soft_from_llr([30.0, -0.5, 0.0, float("inf")])
    array('b', [120, -2, 0, 127])
    >>> soft_from_llr([0.5, -1.0], scale=50, positive=1)
    array('b', [-25, 50])
    >>> soft_from_sbits(b"\\x80\\x7f"), soft_from_trx(b"\\0\\x7f\\xff")
    (array('b', [-127, 127]), array('b', [127, 0, -127]))
"""
import array
import functools
import math
import numbers
from typing import TYPE_CHECKING, Any, Callable, List, Sequence, Union, overload

from ._values import bits as _bits
from ._values import form_of, is_row, name_of, number, octets, refuse_mask, view_of

if TYPE_CHECKING:
    from ._types import Array, Integers, Reals, SoftArray

    Row = array.array[int]

# the types of a buffer's elements that memoryview can list
_LISTED = tuple("?bBhHiIlLqQnNfdc")
# How many numbers soft_from_llr works on at a time: their floats stay in the cache.
_AT_ONCE = 1 << 14


@overload
def soft_from_llr(values: "Array", scale: float = ..., positive: int = ...) -> "SoftArray": ...
@overload
def soft_from_llr(values: "Reals", scale: float = ..., positive: int = ...) -> "Row": ...
@overload
def soft_from_llr(values: "Sequence[Reals]", scale: float = ..., positive: int = ...) -> "List[Row]": ...
def soft_from_llr(values: Any, scale: float = 4.0, positive: int = 0) -> Any:
    """Converts log-likelihood ratios, ln P(0)/P(1), or other numbers whose magnitude is the confidence in a bit: multiplies by `scale`,
    rounds to the nearest integer (ties to even), and clips to -127 to 127. `positive` is the bit that a positive number represents. Scale a
    demodulator's samples so that a usual one is 32 to 64, with one factor for a block.

    NaN raises ValueError; bytes raise TypeError, since they may be signed or unsigned."""
    factor = _scale(scale)
    factor = -factor if number("positive", positive, 0, 1) else factor
    if hasattr(values, "dtype"):
        return _scaled_array(values, factor)
    return _rows("values", values, "numbers", lambda name, row: _scaled_row(name, row, factor))


@overload
def soft_from_bits(bits: "Array", sure: int = ...) -> "SoftArray": ...
@overload
def soft_from_bits(bits: "Integers", sure: int = ...) -> "Row": ...
@overload
def soft_from_bits(bits: "Sequence[Integers]", sure: int = ...) -> "List[Row]": ...
def soft_from_bits(bits: Any, sure: int = 127) -> Any:
    """Converts hard bits to soft bits: `sure` for a 0, -`sure` for a 1."""
    number("sure", sure, 1, 127)
    if not hasattr(bits, "dtype"):
        return _rows("bits", bits, "bits", lambda name, row: _soft_row(name, row, sure))
    refuse_mask("bits", bits)
    kind, size = bits.dtype.kind, bits.dtype.itemsize
    if kind not in "bui" or bits.size and (bits.max() > 1 or kind == "i" and bits.min() < 0):
        raise ValueError(f"bits: {name_of(bits)}; expected only 0 and 1")
    import numpy

    octets = bits.astype(numpy.int8) if size > 1 else numpy.asarray(bits).view(numpy.int8)
    # sure - 2 * sure * bit, modulo 256
    soft: Any = numpy.asarray(numpy.multiply(octets, numpy.int8((128 - 2 * sure) % 256 - 128), order="C"))
    return numpy.add(soft, numpy.int8(sure), out=soft)


@overload
def soft_from_sbits(sbits: "Array") -> "SoftArray": ...
@overload
def soft_from_sbits(sbits: "Integers") -> "Row": ...
@overload
def soft_from_sbits(sbits: "Sequence[Integers]") -> "List[Row]": ...
def soft_from_sbits(sbits: Any) -> Any:
    """Converts libosmocore's sbit_t, from -128 to 127, to soft bits: -128 becomes -127. Bytes are in two's complement."""
    if not hasattr(sbits, "dtype"):
        return _rows("sbits", sbits, "sbit_t", _sbit_row)
    import numpy

    refuse_mask("sbits", sbits)
    if sbits.dtype != numpy.int8:
        raise TypeError(f"sbits: {name_of(sbits)}; expected int8")
    return numpy.maximum(sbits, numpy.int8(-127))


@overload
def soft_from_trx(octets: "Array") -> "SoftArray": ...
@overload
def soft_from_trx(octets: "Integers") -> "Row": ...
@overload
def soft_from_trx(octets: "Sequence[Integers]") -> "List[Row]": ...
def soft_from_trx(octets: Any) -> Any:
    """Converts the soft bits of the TRX protocol, octets from 0 (certainly 0) to 255 (certainly 1): 127 minus the octet, at least -127."""
    if not hasattr(octets, "dtype"):
        return _rows("octets", octets, "octets", _trx_row)
    import numpy

    refuse_mask("octets", octets)
    if octets.dtype != numpy.uint8:
        raise TypeError(f"octets: {name_of(octets)}; expected uint8")
    return (numpy.uint8(127) - numpy.minimum(octets, numpy.uint8(254))).view(numpy.int8)


def _scale(scale: Any) -> float:
    try:
        factor = float(scale)
    except OverflowError:
        factor = math.inf
    except (TypeError, ValueError):
        raise TypeError(f"scale: {name_of(scale)}; expected a number above 0") from None
    if not 0 < factor < math.inf:
        raise ValueError(f"scale: {name_of(scale)}; expected a finite number above 0")
    return factor


def _rows(name: str, values: Any, what: str, row_of: "Callable[[str, Any], Row]") -> "Union[Row, List[Row]]":
    view = view_of(name, values)
    if view is not None and form_of(view) not in _LISTED:
        raise TypeError(f"{name}: {name_of(values)}; expected {what}, or rows of them")
    if view is not None and view.ndim > 1:
        values = view.tolist()
    elif view is not None:
        return row_of(name, values)
    if not is_row(values):
        raise TypeError(f"{name}: {name_of(values)}; expected {what}, or rows of them")
    rows: List[Any] = list(values)
    if rows and is_row(rows[0]):
        return [row_of(f"{name}[{i}]", row) for i, row in enumerate(rows)]
    return row_of(name, rows)


def _soft_row(name: str, row: Any, sure: int) -> "Row":
    row = row if isinstance(row, bytes) else list(row)
    return array.array("b", (-sure if bit else sure for bit in _bits(name, row, len(row))))


def _sbit_row(name: str, row: Any) -> "Row":
    if isinstance(row, (bytes, bytearray)):
        sbits: List[Any] = list(array.array("b", bytes(row)))
    else:
        sbits = [number(f"{name}[{at}]", value, -128, 127) for at, value in enumerate(row)]
    return array.array("b", (max(sbit, -127) for sbit in sbits))


def _trx_row(name: str, row: Any) -> "Row":
    return array.array("b", (max(127 - octet, -127) for octet in octets(name, row)))


def _scaled_row(name: str, row: Any, factor: float) -> "Row":
    if isinstance(row, (bytes, bytearray)):
        raise TypeError(f"{name}: {name_of(row)}; expected numbers: array.array('b', octets) reads octets as signed")
    return array.array("b", (_scaled(f"{name}[{at}]", value, factor) for at, value in enumerate(row)))


def _scaled(name: str, value: Any, factor: float) -> int:
    if not isinstance(value, numbers.Real):
        raise TypeError(f"{name}: {name_of(value)}; expected a number")
    try:
        # as a float: a small numpy integer would overflow
        real = float(value) * factor
    except OverflowError:
        # beyond the largest float: the sign alone matters
        real = -math.inf if (value < 0) == (factor > 0) else math.inf
    if real != real:
        raise ValueError(f"{name}: NaN; expected a number")
    return round(max(-127.0, min(127.0, real)))


@functools.lru_cache(None)
def _bounds(form: Any) -> Any:
    """Arrays, because numpy.clip and scalars take five times as long."""
    import numpy

    return numpy.full(_AT_ONCE, -127, form), numpy.full(_AT_ONCE, 127, form)


def _scaled_array(values: Any, factor: float) -> Any:
    import numpy

    refuse_mask("values", values)
    if values.dtype.kind not in "fiu":
        raise TypeError(f"values: {name_of(values)}; expected floats or ints")
    # Floats of four octets hold each product with a power of two; with others it would be rounded twice, and small integers would overflow.
    is_exact = values.dtype.kind == "f" and values.dtype.itemsize <= 4 and math.frexp(abs(factor))[0] == 0.5 and 1e-30 < abs(factor) < 1e30
    form: Any = numpy.float32 if is_exact else numpy.float64
    soft: Any = numpy.empty(values.shape, numpy.int8)
    given, made = values.reshape(-1), soft.reshape(-1)
    work = numpy.empty(min(_AT_ONCE, given.size), form)
    least, most = _bounds(form)
    with numpy.errstate(over="ignore", invalid="ignore"):  # clipped or refused below
        for at in range(0, given.size, _AT_ONCE):
            part = given[at : at + _AT_ONCE]
            scaled = work[: part.size]
            numpy.multiply(part, form(factor), out=scaled, dtype=form, casting="unsafe")
            numpy.minimum(scaled, most[: part.size], out=scaled)
            numpy.maximum(scaled, least[: part.size], out=scaled)
            if numpy.isnan(scaled.max()):
                where = numpy.unravel_index(at + int(numpy.isnan(scaled).argmax()), values.shape)
                raise ValueError(f"values: NaN at {tuple(map(int, where))}; expected numbers")
            made[at : at + _AT_ONCE] = numpy.rint(scaled, out=scaled)
    return soft
