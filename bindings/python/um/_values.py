"""Converts arguments to what the library expects. An invalid argument raises ValueError or TypeError; the message names the argument, the
value given and what was expected."""
import array
import collections.abc
import operator
from typing import Any, Iterable, List, Optional

_NO_SOFT = {
    "float": "um.soft_from_llr converts floats to soft bits",
    "bits": "um.soft_from_bits converts bits to soft bits; view octets in two's complement as int8",
    "int": "clip to -127..127 and convert to int8, for example numpy.clip(x, -127, 127).astype(numpy.int8)",
}


def name_of(values: Any) -> str:
    """A short description of a value, for error messages."""
    shape, dtype = getattr(values, "shape", None), getattr(values, "dtype", None)
    if dtype is not None and shape:
        return f"{dtype} array of shape {tuple(shape)}"
    if isinstance(values, memoryview):
        return f"memoryview of format {values.format!r} and shape {values.shape}"
    text = repr(values)
    return f"{type(values).__name__} {text if len(text) <= 40 else text[:37] + '...'}"


def view_of(name: str, values: Any) -> Optional[memoryview]:
    """The memory of an array or another buffer; None if the value has no buffer."""
    refuse_mask(name, values)
    try:
        view = memoryview(values)
    except (TypeError, ValueError, BufferError):
        return None
    return view if view.ndim else None


def refuse_mask(name: str, values: Any) -> None:
    """Refuses numpy's masked arrays: what the mask hides would be taken for values."""
    if hasattr(values, "filled"):
        raise TypeError(f"{name}: a masked array; expected one without a mask, such as {name}.filled(0)")


def form_of(view: memoryview) -> str:
    """The type of a buffer's elements, without the byte order that ctypes and numpy may put before it."""
    return view.format.lstrip("@=<>!")


def is_row(value: Any) -> bool:
    """Whether a value has elements, so that it may be a row of numbers."""
    return hasattr(value, "__iter__") and not isinstance(value, (str, collections.abc.Set, collections.abc.Mapping))


def number(name: str, value: Any, low: int, high: int) -> int:
    """An integer in a range."""
    try:
        whole = operator.index(value)
    except TypeError:
        raise TypeError(f"{name}: {name_of(value)}; expected an int from {low} to {high}") from None
    if not low <= whole <= high:
        raise ValueError(f"{name}: {whole}; expected {low} to {high}")
    return whole


def one_of(name: str, value: Any, numbers: Iterable[int], wanted: str) -> int:
    """An integer among some, which is no bool."""
    try:
        whole = None if isinstance(value, bool) or getattr(value, "shape", None) else operator.index(value)
    except TypeError:
        whole = None
    if whole is None or whole not in numbers:
        raise ValueError(f"{name}: {value!r}; expected {wanted}")
    return whole


def choice(name: str, value: Any, names: Iterable[str]) -> int:
    """The index of a name among names."""
    names = tuple(names)
    if not isinstance(value, str) or value not in names:
        raise ValueError(f"{name}: {value!r}; expected one of {', '.join(map(repr, names))}")
    return names.index(value)


def octets(name: str, values: Any, count: Optional[int] = None) -> bytes:
    """Octets, `count` of them if given, from bytes, a buffer of unsigned octets, or a list of ints."""
    wanted = "octets" if count is None else f"{count} octets"
    data = _octets(name, values, f"{wanted}, one-dimensional uint8", f"{wanted}: bytes, or ints from 0 to 255")
    if count is not None and len(data) != count:
        raise ValueError(f"{name}: {len(data)} octets; expected {count}")
    return data


def bits(name: str, values: Any, count: int) -> bytes:
    """`count` bits, one octet per bit."""
    view = view_of(name, values)
    if view is not None and form_of(view) in ("?", "b") and view.ndim == 1:
        values = view.tobytes()
    wanted = f"{count} bits, each 0 or 1"
    data = _octets(name, values, f"{wanted}, in a one-dimensional array of uint8, int8 or bool", wanted)
    if len(data) != count:
        raise ValueError(f"{name}: {len(data)} bits; expected {count}")
    if data.translate(None, b"\0\1"):
        at = next(i for i, bit in enumerate(data) if bit > 1)
        raise ValueError(f"{name}[{at}]: {data[at]}; expected a bit, 0 or 1")
    return data


def soft(name: str, values: Any, rows: int, places: int) -> bytes:
    """Soft bits: `rows` bursts of `places` each, as octets in two's complement. Hard bits are refused."""
    data = soft_values(name, values, rows, places)
    if are_hard_bits(data):
        raise hard_bits(name)
    return data


def soft_values(name: str, values: Any, rows: int, places: int) -> bytes:
    """Soft bits, also if they may be hard bits."""
    view = view_of(name, values)
    if view is None:
        return _soft_rows(name, values, rows, places)
    if not isinstance(values, (bytes, bytearray)):
        return _soft_memory(name, values, view, rows, places)
    if view.nbytes != rows * places:
        raise ValueError(f"{name}: {view.nbytes} soft bits; expected {_shape(rows, places)}")
    return view.tobytes()


def are_hard_bits(data: bytes) -> bool:
    """Whether soft bits are all 0 or 1, with a 1 among them: the caller passed hard bits by mistake."""
    return not data.strip(b"\0\1") and 1 in data


def hard_bits(name: str) -> ValueError:
    """The error for soft bits that are hard bits."""
    return ValueError(f"{name}: each value is 0 or 1, so these are hard bits; {_NO_SOFT['bits']}")


def minus_128(name: str, data: bytes, rows: int, places: int) -> ValueError:
    """The error for a soft bit of -128, which the library refuses."""
    at = data.index(0x80)
    where = f"{name}[{at // places}][{at % places}]" if rows > 1 else f"{name}[{at}]"
    return ValueError(f"{where}: -128; expected a soft bit from -127 to 127")


def no_soft(name: str, values: Any, form: str, wanted: str) -> TypeError:
    """The error for an array whose type is not int8."""
    kind = "float" if form in "efdg" else "bits" if form in "?Bc" else "int"
    return TypeError(f"{name}: {name_of(values)}; expected {wanted} of int8. {_NO_SOFT[kind]}")


def _shape(rows: int, places: int) -> str:
    return f"{rows} x {places}" if rows > 1 else str(places)


def _soft_memory(name: str, values: Any, view: memoryview, rows: int, places: int) -> bytes:
    if form_of(view) != "b":
        raise no_soft(name, values, form_of(view), _shape(rows, places))
    if view.shape != (rows, places) and view.shape != (rows * places,):
        raise ValueError(f"{name}: {name_of(values)}; expected {_shape(rows, places)}, or one row of {rows * places}")
    return view.tobytes()


def _soft_rows(name: str, values: Any, rows: int, places: int) -> bytes:
    wanted = f"{_shape(rows, places)} soft bits: int8 memory, or ints from -127 to 127"
    if not is_row(values):
        raise TypeError(f"{name}: {name_of(values)}; expected {wanted}")
    values = list(values)
    if rows == 1 or not values or not is_row(values[0]):
        data = _numbers(name, values, "b", wanted).tobytes()
        if len(data) != rows * places:
            raise ValueError(f"{name}: {len(data)} soft bits; expected {_shape(rows, places)}")
        return data
    if len(values) != rows:
        raise ValueError(f"{name}: {len(values)} bursts; expected {rows}")
    return b"".join(_soft_row(f"{name}[{i}]", row, places) for i, row in enumerate(values))


def _soft_row(name: str, row: Any, places: int) -> bytes:
    view = view_of(name, row)
    if view is None:
        data = _numbers(name, row, "b", f"{places} soft bits, ints from -127 to 127").tobytes()
    elif form_of(view) != "b" and not isinstance(row, (bytes, bytearray)):
        raise no_soft(name, row, form_of(view), str(places))
    else:
        data = view.tobytes()
    if len(data) != places:
        raise ValueError(f"{name}: {len(data)} soft bits; expected {places}")
    return data


def _octets(name: str, values: Any, wanted_buffer: str, wanted_list: str) -> bytes:
    """Octets from bytes, a buffer of unsigned octets, or a list of ints."""
    if type(values) is bytes:
        return values
    view = view_of(name, values)
    if view is None:
        return _numbers(name, values, "B", wanted_list).tobytes()
    if form_of(view) != "B" or view.ndim != 1:
        raise TypeError(f"{name}: {name_of(values)}; expected {wanted_buffer}")
    return view.tobytes()


def _numbers(name: str, values: Any, code: str, wanted: str) -> "array.array[int]":
    """A row of integers, as an array.array of type `code`."""
    if not is_row(values):
        raise TypeError(f"{name}: {name_of(values)}; expected {wanted}")
    numbers: List[Any] = list(values)
    try:
        return array.array(code, numbers)
    except (TypeError, OverflowError):
        raise _wrong_number(name, numbers, code, wanted) from None


def _wrong_number(name: str, numbers: List[Any], code: str, wanted: str) -> Exception:
    for at, value in enumerate(numbers):
        try:
            array.array(code, [value])
        except OverflowError:
            return ValueError(f"{name}[{at}]: {value}; expected {wanted}")
        except TypeError:
            hint = f". {_NO_SOFT['float']}" if code == "b" and isinstance(value, float) else ""
            return TypeError(f"{name}[{at}]: {name_of(value)}; expected {wanted}{hint}")
    raise AssertionError("array.array refused the list, but none of its numbers")
