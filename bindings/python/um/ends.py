"""LAPDm endpoints in acknowledged mode (3GPP TS 44.006, 5), for one link or for both links of a channel. They do no I/O and have no
timer."""
import ctypes
import struct
from typing import TYPE_CHECKING, Any, Tuple, Type, TypeVar

from ._library import lib
from ._saved import Saved
from ._values import choice, octets as octets_of, one_of
from .effects import EFFECTS_SIZE, REFUSALS, Effects, Refused, effects_of
from .frames import SDCCH, Channel, NoFrame, channel_number, read_frame

if TYPE_CHECKING:
    from typing import Literal

    from ._types import Octets

    Role = Literal["mobile", "network"]
    State = Literal["idle", "opening", "open", "closing", "closed"]
    Sapi = Literal[0, 3]

ROLES: "Tuple[Role, ...]" = ("mobile", "network")
STATES: "Tuple[State, ...]" = ("idle", "opening", "open", "closing", "closed")

# A um_end starts with the number of messages, role, SAPI, channel and state, and ends with three octets of padding. The saved form has no
# padding, after a head of four octets.
_END = struct.Struct("<8x4B")
_END_SIZE, _END_FIELDS = 2584, 2581
_Any = TypeVar("_Any", bound="_Endpoint")


class _Endpoint(Saved):
    """The state of one or two links as the library lays it out, and the calls on it."""

    __slots__ = ()
    _calls, _links, _head = "", 0, b""

    def __init__(self) -> None:
        self._state = ctypes.create_string_buffer(_END_SIZE * self._links)

    @classmethod
    def from_bytes(cls: "Type[_Any]", octets: "Octets") -> "_Any":
        """Restores what `to_bytes`, or the call of another language, saved. ValueError if the octets are not a valid state."""
        data = octets_of("octets", octets, len(cls._head) + _END_FIELDS * cls._links)
        if not data.startswith(cls._head):
            raise ValueError(f"octets: begins with {data[:4]!r}; expected {cls._head!r}, as to_bytes writes it")
        fields = range(len(cls._head), len(data), _END_FIELDS)
        states = [data[at : at + _END_FIELDS].ljust(_END_SIZE, b"\0") for at in fields]
        for state in states:
            End._of(state).idle()  # um_side_idle tests only one of the links, so test each by itself
        end = cls._of(b"".join(states))
        end.idle()
        return end

    @classmethod
    def _of(cls: "Type[_Any]", state: bytes) -> "_Any":
        end = cls.__new__(cls)
        end._state = ctypes.create_string_buffer(state, len(state))
        return end

    def to_bytes(self) -> bytes:
        """The state in the form that all languages read, for `from_bytes`."""
        raw = self._state.raw
        return self._head + b"".join(raw[at : at + _END_FIELDS] for at in range(0, len(raw), _END_SIZE))

    @property
    def role(self) -> "Role":
        """One of ROLES."""
        return ROLES[self._numbers()[0]]

    @property
    def channel(self) -> Channel:
        """SDCCH or SACCH."""
        return Channel(self._numbers()[2])

    def idle(self) -> Effects:
        """The fill frame, for a block in which nothing else is to be sent."""
        return self._call("idle")

    def _numbers(self) -> Tuple[int, ...]:
        return _END.unpack_from(self._state)

    def _call(self, name: str, *arguments: Any) -> Effects:
        raw = ctypes.create_string_buffer(EFFECTS_SIZE)
        answer = getattr(lib, self._calls + name)(self._state, *arguments, raw)
        if answer:
            reason = REFUSALS[answer - 1]
            raise Refused(name, reason, self._why_no_frame(arguments[0]) if reason == "noframe" else "")
        return effects_of(raw.raw)

    def _timer_runs(self, *sapi: int) -> bool:
        state = ctypes.create_string_buffer(self._state.raw, len(self._state))
        return not getattr(lib, self._calls + "timer")(state, *sapi, ctypes.create_string_buffer(EFFECTS_SIZE))

    def _why_no_frame(self, octets: bytes) -> str:
        try:
            read_frame(octets, self.channel)
        except NoFrame as error:
            return str(error)
        raise AssertionError("the library reads these octets as a frame")


class End(_Endpoint):
    """The endpoint of a "mobile" or the "network" for SAPI 0 (signalling) or 3 (short messages).

    The caller sends the frames that each call returns, passes each received block to `take`, and calls `timer` on T200 expiry. An
    endpoint is a value: copy, deepcopy and pickle copy it, and endpoints with the same state compare equal. A call that is refused
    raises Refused, a ValueError. Each call keeps the interpreter's lock, so threads that share an endpoint never see it half changed; a
    Python without that lock needs a lock of yours."""

    __slots__ = ()
    _calls, _links, _head = "um_end_", 1, b"umE1"

    def __init__(self, role: "Role", sapi: "Sapi" = 0, channel: int = SDCCH):
        super().__init__()
        lib.um_end_new(self._state, choice("role", role, ROLES), sapi_number(sapi), channel_number(channel))

    def __repr__(self) -> str:
        return f"<um.End {self.role}, SAPI {self.sapi}, {self.channel.name}, {self.state}>"

    @property
    def sapi(self) -> int:
        """0 or 3."""
        return self._numbers()[1]

    @property
    def state(self) -> "State":
        """One of STATES."""
        return STATES[self._numbers()[3]]

    @property
    def timer_runs(self) -> bool:
        """Whether a frame awaits an answer, so that T200 runs."""
        return self._timer_runs()

    def open(self, info: "Octets") -> Effects:
        """Opens the link of SAPI 0, at the mobile, with 1 to 20 octets of information (18 on SACCH)."""
        return self._call("open", message_of("info", info))

    def open_bare(self) -> Effects:
        """Opens the link of SAPI 3, at either end."""
        return self._call("open_bare")

    def send(self, message: "Octets") -> Effects:
        """Sends a message of 1 to 251 octets over the link."""
        return self._call("send", message_of("message", message))

    def unit(self, message: "Octets") -> Effects:
        """Sends 1 to 20 octets (18 on SACCH) in one UI frame, unacknowledged, in any state."""
        return self._call("unit", message_of("message", message))

    def close(self) -> Effects:
        """Releases the link. Messages not acknowledged are discarded."""
        return self._call("close")

    def timer(self) -> Effects:
        """T200 has expired: retransmits the frame that awaits an answer, or gives the link up after N200 retransmissions."""
        return self._call("timer")

    def take(self, octets: "Octets") -> Effects:
        """Processes a received block of 23 octets."""
        return self._call("take", octets_of("octets", octets, 23))


class Side(_Endpoint):
    """The endpoints of a "mobile" or the "network" for both links of a channel, SAPI 0 and SAPI 3.

    Each call acts on the endpoint of its SAPI, as the call of End does, and leaves the other one unchanged. Each link has its own T200.
    What End says of threads holds here too."""

    __slots__ = ()
    _calls, _links, _head = "um_side_", 2, b"umS1"

    def __init__(self, role: "Role", channel: int = SDCCH):
        super().__init__()
        lib.um_side_new(self._state, choice("role", role, ROLES), channel_number(channel))

    def __repr__(self) -> str:
        return f"<um.Side {self.role}, {self.channel.name}, SAPI 0 {self.end(0).state}, SAPI 3 {self.end(3).state}>"

    def end(self, sapi: "Sapi") -> End:
        """A copy of the endpoint of a SAPI."""
        return End._of(self._state.raw[_END_SIZE:] if sapi_number(sapi) else self._state.raw[:_END_SIZE])

    def timer_runs(self, sapi: "Sapi") -> bool:
        """Whether a frame of a SAPI awaits an answer, so that its T200 runs."""
        return self._timer_runs(sapi_number(sapi))

    def open(self, info: "Octets") -> Effects:
        """Opens the link of SAPI 0, at the mobile, with 1 to 20 octets of information (18 on SACCH)."""
        return self._call("open", message_of("info", info))

    def open_bare(self) -> Effects:
        """Opens the link of SAPI 3, at either side."""
        return self._call("open_bare")

    def send(self, sapi: "Sapi", message: "Octets") -> Effects:
        """Sends a message of 1 to 251 octets over the link of a SAPI."""
        return self._call("send", sapi_number(sapi), message_of("message", message))

    def unit(self, sapi: "Sapi", message: "Octets") -> Effects:
        """Sends 1 to 20 octets (18 on SACCH) in one UI frame of a SAPI, unacknowledged, in any state."""
        return self._call("unit", sapi_number(sapi), message_of("message", message))

    def close(self, sapi: "Sapi") -> Effects:
        """Releases the link of a SAPI. Messages not acknowledged are discarded."""
        return self._call("close", sapi_number(sapi))

    def timer(self, sapi: "Sapi") -> Effects:
        """T200 of the link of a SAPI has expired."""
        return self._call("timer", sapi_number(sapi))

    def take(self, octets: "Octets") -> Tuple[int, Effects]:
        """Processes a received block of 23 octets. Returns the SAPI of its endpoint, and the effects. A frame of a SAPI other than 0 and 3
        is ignored: the SAPI is then 0, and the effects are empty."""
        sapi = ctypes.c_uint8()
        effects = self._call("take", octets_of("octets", octets, 23), ctypes.byref(sapi))
        return sapi.value, effects


def sapi_number(sapi: Any) -> int:
    """The number of a SAPI, 0 or 3."""
    return one_of("sapi", sapi, (0, 3), "0 or 3")


def message_of(name: str, values: Any) -> bytes:
    """A um_message. It is cut at 255 octets, which the library refuses as too long."""
    data = octets_of(name, values)[:255]
    return bytes([len(data)]) + data.ljust(255, b"\0")
