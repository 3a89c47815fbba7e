"""What endpoints, sides, data links and slots have in common: a state that the library lays out, and its saved form."""
import ctypes
from typing import Any, Dict, Optional, Tuple, Union

_OWN = ("_state", "__weakref__")


class Saved:
    """A value with a state. Two values of a class are equal if their saved forms are; copy, deepcopy and pickle go through it, and take
    along the attributes that a subclass adds."""

    __slots__ = _OWN
    __hash__ = None  # type: ignore[assignment]
    _state: "ctypes.Array[ctypes.c_char]"

    def to_bytes(self) -> bytes:
        """The state in the form that all languages read, for `from_bytes`."""
        raise NotImplementedError

    def __eq__(self, other: object) -> bool:
        return isinstance(other, type(self)) and self.to_bytes() == other.to_bytes()

    def __reduce__(self) -> Any:
        return type(self).from_bytes, (self.to_bytes(),), self._added()  # type: ignore[attr-defined]

    def _added(self) -> Union[None, Dict[str, Any], Tuple[Optional[Dict[str, Any]], Dict[str, Any]]]:
        """The attributes that a subclass adds, as pickle wants them: those of its dictionary, and those of its slots."""
        slots = [name for kind in type(self).__mro__ for name in vars(kind).get("__slots__", ())]
        names = [name for name in slots if name not in _OWN and hasattr(self, name)]
        added = getattr(self, "__dict__", None) or None
        return (added, {name: getattr(self, name) for name in names}) if names else added


def headed(data: bytes, head: bytes, count: int) -> bytes:
    """The fields of a saved form, after its head. ValueError if it is another form, such as an older one, or has not so many octets."""
    if not data.startswith(head):
        raise ValueError(f"octets: begins with {data[:4]!r}; expected {head!r}, as to_bytes writes it")
    if len(data) != len(head) + count:
        raise ValueError(f"octets: {len(data)} octets; expected {len(head) + count}")
    return data[len(head) :]
