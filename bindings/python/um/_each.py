"""Loops over a call of the library for the rows of arrays: in C if the extension is there, else in Python."""
import ctypes
import functools
from itertools import repeat, takewhile
from typing import Any, Iterable, NamedTuple, Optional, Union

from ._library import lib

try:
    from ._loops import each as _in_c
except ImportError:  # not built: the package is used from its sources, or there was no compiler
    _in_c = None  # type: ignore[assignment]


def _address(array: Any) -> int:
    # of an array of records, __array_interface__ takes ten times as long
    address: int = array.ctypes.data
    return address


@functools.lru_cache(None)
def _address_of_call(name: str) -> int:
    return ctypes.cast(getattr(lib, name), ctypes.c_void_p).value or 0


class Rows(NamedTuple):
    """Memory with a row for each call: an array of one or more axes, whose first counts the calls."""

    array: Any

    def column(self) -> "tuple[int, int]":
        return _address(self.array), self.array.strides[0]

    def arguments(self, count: int) -> Iterable[Any]:
        address, step = self.column()
        return range(address, address + step * count, step) if step else repeat(address, count)  # the step of x[None] is 0


class Numbers(NamedTuple):
    """Numbers of a fixed size: one for all calls, or one for each."""

    array: Any

    def column(self) -> "tuple[int, int]":
        return _address(self.array), 0 if self.array.ndim == 0 else self.array.strides[0]

    def arguments(self, count: int) -> Iterable[Any]:
        values: Iterable[Any] = repeat(int(self.array)) if self.array.ndim == 0 else self.array.tolist()
        return values


def each(name: str, count: int, *columns: Union[Rows, Numbers], answers: Optional[Any] = None) -> int:
    """Makes `count` calls. Returns how many answered true before one answered false; or, if there is an array for the answers, writes them
    to it and returns `count`."""
    if _in_c is not None:
        given = columns if answers is None else (*columns, Rows(answers))
        return _in_c(name, _address_of_call(name), count, tuple([column.column() for column in given]))
    call = getattr(lib, name)
    results = map(call, *(column.arguments(count) for column in columns)) if count else iter(())
    if answers is None:
        return sum(1 for _ in takewhile(bool, results))
    answers[:] = list(results)
    return count
