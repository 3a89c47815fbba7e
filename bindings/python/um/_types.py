"""The types of arguments and results, for type checkers alone: nothing imports this module when a program runs."""
import array
from typing import Any, Sequence, Union

import numpy
import numpy.typing

# octets, bits or soft bits, as ints or in memory
Integers = Union[bytes, bytearray, memoryview, "array.array[int]", Sequence[int]]
Octets = Union[Integers, "numpy.typing.NDArray[numpy.uint8]"]
Bits = Union[Integers, "numpy.typing.NDArray[numpy.uint8]", "numpy.typing.NDArray[numpy.int8]", "numpy.typing.NDArray[numpy.bool_]"]
SoftArray = numpy.typing.NDArray[numpy.int8]
SoftRow = Union[Integers, SoftArray]
SoftBits = Union[SoftRow, Sequence[SoftRow]]
Reals = Union[memoryview, "array.array[float]", "array.array[int]", Sequence[float]]
Array = numpy.typing.NDArray[Any]
Records = numpy.typing.NDArray[numpy.void]
