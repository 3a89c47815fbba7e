"""Finds and loads the shared library, and declares its calls for ctypes. A pointer is bytes, a ctypes array or an address (`c_void_p`)."""
import ctypes
import os
import platform
import sys
from typing import Any, Dict, List, Tuple

from ._version import __version__

# by the name of the system: the library, and what follows the processor in the name of its folder in dist/
_SYSTEMS = {"Windows": ("um.dll", "windows"), "Darwin": ("libum.0.dylib", "macos")}
_NAME, _SYSTEM = _SYSTEMS.get(platform.system(), ("libum.so.0", "linux"))
_FOLDER = platform.machine().replace("AMD64", "x86_64") + "-" + _SYSTEM
_MAKE = (
    ("" if sys.maxsize > 2**32 else "\nThis Python has 32 bits, and the libraries of dist/ have 64.") +
    "\nA release has it in dist/" + _FOLDER + ", and the wheel contains it. In the repository, on a little-endian machine of 64 bits for"
    " which dist/ has none, 'make build' builds it there with clang."
    "\nThe environment variable UM_SO overrides the path."
)

_POINTER, _U8, _U32, _BOOL = ctypes.c_void_p, ctypes.c_uint8, ctypes.c_uint32, ctypes.c_bool
_CALLS: Dict[str, Tuple[Any, Tuple[Any, ...]]] = {
    "um_version": (_U32, ()),
    "um_send_block": (_BOOL, (_POINTER, _U8, _POINTER)),
    "um_receive_block": (_BOOL, (_POINTER, _POINTER)),
    "um_receive_block_among": (_BOOL, (_POINTER, _U32, _POINTER, _POINTER)),
    "um_margin_block": (_BOOL, (_POINTER, _POINTER)),
    "um_repair": (_U8, (_POINTER, _POINTER)),
    "um_send_access": (_BOOL, (_POINTER, _POINTER, _POINTER)),
    "um_receive_access": (_BOOL, (_POINTER, _POINTER, _POINTER)),
    "um_send_sync": (_BOOL, (_POINTER, _POINTER)),
    "um_receive_sync": (_BOOL, (_POINTER, _POINTER)),
    "um_read_frame": (_U8, (_POINTER, _U8, _POINTER)),
    "um_write_frame": (_BOOL, (_POINTER, _U8, _POINTER)),
    "um_read_b4": (_BOOL, (_POINTER, _POINTER)),
    "um_write_b4": (None, (_POINTER, _POINTER, _POINTER)),
    "um_end_new": (_BOOL, (_POINTER, _U8, _U8, _U8)),
    "um_end_open": (_U8, (_POINTER, _POINTER, _POINTER)),
    "um_end_open_bare": (_U8, (_POINTER, _POINTER)),
    "um_end_send": (_U8, (_POINTER, _POINTER, _POINTER)),
    "um_end_unit": (_U8, (_POINTER, _POINTER, _POINTER)),
    "um_end_close": (_U8, (_POINTER, _POINTER)),
    "um_end_timer": (_U8, (_POINTER, _POINTER)),
    "um_end_idle": (_U8, (_POINTER, _POINTER)),
    "um_end_take": (_U8, (_POINTER, _POINTER, _POINTER)),
    "um_side_new": (_BOOL, (_POINTER, _U8, _U8)),
    "um_side_open": (_U8, (_POINTER, _POINTER, _POINTER)),
    "um_side_open_bare": (_U8, (_POINTER, _POINTER)),
    "um_side_send": (_U8, (_POINTER, _U8, _POINTER, _POINTER)),
    "um_side_unit": (_U8, (_POINTER, _U8, _POINTER, _POINTER)),
    "um_side_close": (_U8, (_POINTER, _U8, _POINTER)),
    "um_side_timer": (_U8, (_POINTER, _U8, _POINTER)),
    "um_side_idle": (_U8, (_POINTER, _POINTER)),
    "um_side_take": (_U8, (_POINTER, _POINTER, _POINTER, _POINTER)),
    "um_receive_block_erasing": (_BOOL, (_POINTER, _U32, _U8, _POINTER, _POINTER, _POINTER)),
    "um_detect_training": (_BOOL, (_POINTER, _POINTER, _POINTER)),
    "um_time_of_frame": (_BOOL, (_U32, _POINTER)),
    "um_frame_of_time": (_BOOL, (_POINTER, _POINTER)),
    "um_read_sch": (_BOOL, (_POINTER, _POINTER)),
    "um_write_sch": (_BOOL, (_U8, _U32, _POINTER)),
    "um_write_ra": (None, (_U8, _POINTER)),
    "um_read_ra": (_BOOL, (_POINTER, _POINTER)),
    "um_write_bsic": (_BOOL, (_U8, _POINTER)),
    "um_read_bsic": (_BOOL, (_POINTER, _POINTER)),
    "um_place_frame": (_U8, (_U8, _U8, _U8, _U32, _POINTER)),
    "um_next_block": (_BOOL, (_U8, _U8, _U8, _U8, _U8, _U32, _POINTER)),
    "um_slot_new": (_BOOL, (_POINTER, _U8, _U8, _U8, _U8, _U8)),
    "um_slot_take": (_U8, (_POINTER, _U32, _POINTER, _POINTER)),
    "um_slot_miss": (_U8, (_POINTER, _U32, _POINTER)),
    "um_slot_restart": (_BOOL, (_POINTER,)),
    "um_slot_end": (_U8, (_POINTER, _POINTER)),
    "um_place_traffic": (_U8, (_U8, _U8, _U32, _POINTER)),
    "um_next_facch": (_BOOL, (_U8, _U8, _U32, _POINTER)),
    "um_traffic_new": (_BOOL, (_POINTER, _U8, _U8, _U8, _U8, _U8)),
    "um_traffic_take": (_U8, (_POINTER, _U32, _POINTER, _POINTER)),
    "um_traffic_miss": (_U8, (_POINTER, _U32, _POINTER)),
    "um_traffic_restart": (_BOOL, (_POINTER,)),
    "um_traffic_end": (_U8, (_POINTER, _POINTER)),
    "um_traffic_sender_new": (_BOOL, (_POINTER, _U8, _U8, _U8)),
    "um_traffic_sender_facch": (_BOOL, (_POINTER, _POINTER)),
    "um_traffic_sender_speech": (_BOOL, (_POINTER, _POINTER)),
    "um_traffic_sender_burst": (_U8, (_POINTER, _U32, _POINTER)),
    "um_steal_facch_f": (_BOOL, (_POINTER, _POINTER)),
    "um_steal_facch_h": (_BOOL, (_POINTER, _POINTER)),
    "um_join_facch_f": (_BOOL, (_POINTER, _POINTER)),
    "um_join_facch_h": (_BOOL, (_POINTER, _POINTER)),
    "um_receive_facch_f_erasing": (_BOOL, (_POINTER, _U32, _U8, _POINTER, _POINTER, _POINTER)),
    "um_receive_facch_h_erasing": (_BOOL, (_POINTER, _U32, _U8, _POINTER, _POINTER, _POINTER)),
    "um_stealing_flags": (_BOOL, (_POINTER, _POINTER, _POINTER)),
    "um_cipher_bits": (_BOOL, (_POINTER, _POINTER)),
    "um_soft_cipher": (_BOOL, (_POINTER, _POINTER)),
    "um_datalink_new": (_BOOL, (_POINTER, _U8, _U8, _U8, _U8)),
    "um_datalink_new_for": (_BOOL, (_POINTER, _U8, _U8, _U8, _U8, _U8)),
    "um_datalink_valid": (_BOOL, (_POINTER,)),
    "um_datalink_open": (_U8, (_POINTER, _POINTER)),
    "um_datalink_establish": (_U8, (_POINTER, _U8)),
    "um_datalink_open_bare": (_U8, (_POINTER,)),
    "um_datalink_send": (_U8, (_POINTER, _U8, _POINTER)),
    "um_datalink_unacked": (_U8, (_POINTER, _U8, _U8, _POINTER)),
    "um_datalink_unit": (_U8, (_POINTER, _U8, _POINTER, _POINTER, _POINTER)),
    "um_datalink_close": (_U8, (_POINTER, _U8)),
    "um_datalink_close_local": (_U8, (_POINTER, _U8)),
    "um_datalink_main": (_U8, (_POINTER, _BOOL)),
    "um_datalink_take": (_U8, (_POINTER, _POINTER, _POINTER)),
    "um_datalink_next": (_U8, (_POINTER, _POINTER, _POINTER, _POINTER)),
    "um_datalink_fault": (_U8, (_POINTER, _POINTER)),
    "um_say_again": (_U8, (_POINTER, _U8, _U32, _POINTER)),
}


def _places() -> List[str]:
    """The paths to try: the package itself (in a wheel), the repository's dist, and the search path of the system's loader."""
    if "UM_SO" in os.environ:
        return [os.environ["UM_SO"]]
    here = os.path.dirname(os.path.abspath(__file__))
    return [os.path.join(here, _NAME), os.path.normpath(os.path.join(here, "..", "..", "..", "dist", _FOLDER, _NAME)), _NAME]


# Calls that decode give up the interpreter's lock. All others take a fraction of a microsecond, and keep it: so those that change a state
# are one step for other threads.
_DECODING = (
    "um_receive", "um_margin", "um_detect", "um_slot_take", "um_slot_miss", "um_slot_end", "um_traffic_take", "um_traffic_miss",
    "um_traffic_end",
)


def _declared(place: str) -> ctypes.CDLL:
    library, keeping = ctypes.CDLL(place), ctypes.PyDLL(place)
    found = version_of(library)
    # below 1.0 each minor version may lay out its structs otherwise
    if found.split(".")[:2] != __version__.split(".")[:2]:
        raise ImportError(f"the library has version {found}; expected {__version__}, as the package")
    for name, (result, arguments) in _CALLS.items():
        call = getattr(library if name.startswith(_DECODING) else keeping, name)
        call.restype, call.argtypes = result, arguments
        setattr(library, name, call)
    return library


def version_of(library: ctypes.CDLL) -> str:
    """The version of a library, as VERSION has it."""
    number = library.um_version()
    return f"{number // 1000000}.{number // 1000 % 1000}.{number % 1000}"


def _load() -> ctypes.CDLL:
    tried = []
    for place in _places():
        try:
            return _declared(place)
        except (OSError, AttributeError, ImportError) as error:  # missing, or of another version
            tried.append(f"\n    {place}: {error}")
    raise ImportError("um: no " + _NAME + ". Tried:" + "".join(tried) + _MAKE)


lib = _load()


def version() -> str:
    """The version of the library that the package runs, such as "0.3.0"; `__version__` is that of the package."""
    return version_of(lib)
