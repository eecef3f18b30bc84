"""The shared library, found and declared once: every call of include/nt6861.h with its types."""
from __future__ import annotations

import ctypes
import os
import pathlib
from ctypes import POINTER, c_double, c_size_t, c_uint8, c_uint16, c_uint32, c_uint64
from typing import Iterator

#: The version of the calls that this module is written for, as NT6861_VERSION of include/nt6861.h.
VERSION = 0x010000
SONAME = f"libnt6861.so.{VERSION >> 16}"

_BYTES, _HALVES, _WORDS, _LONGS = POINTER(c_uint8), POINTER(c_uint16), POINTER(c_uint32), POINTER(c_uint64)
_CALLS = {
    "nt6861_version": (c_uint32, []),
    "nt6861_fresh": (c_uint8, [_BYTES, c_size_t]),
    "nt6861_step": (c_uint32, [_BYTES, c_size_t, c_uint32]),
    "nt6861_run": (c_uint8, [_BYTES, c_size_t, _WORDS, c_size_t, _WORDS, c_size_t]),
    "nt6861_replay": (c_uint8, [_WORDS, c_size_t, _WORDS, c_size_t]),
    "nt6861_hold": (c_uint32, [_BYTES, c_size_t]),
    "nt6861_lines": (c_uint32, [_BYTES, c_size_t]),
    "nt6861_outcome": (c_uint32, [_BYTES, c_size_t]),
    "nt6861_rate": (c_uint32, [_BYTES, c_size_t, c_uint32, POINTER(c_double)]),
    "nt6861_edid": (c_uint8, [_BYTES, c_size_t]),
    "nt6861_vcd": (c_uint8, [_BYTES, c_size_t, _WORDS, c_size_t, _LONGS, c_size_t]),
    "nt6861_vcd_more": (c_uint8, [_BYTES, c_size_t, _WORDS, c_size_t, _LONGS, c_size_t, _LONGS, c_size_t]),
    "nt6862_counters": (c_uint8, [_HALVES, c_size_t, c_uint32, c_uint32]),
    "nt6862_field_rate": (c_double, [_HALVES, c_size_t]),
    "nt6861_read_block": (c_uint8, [c_uint32, _BYTES, c_size_t, _WORDS, c_size_t, POINTER(c_size_t)]),
    "nt6861_write_block": (c_uint8, [c_uint16, _WORDS, c_size_t, _BYTES, c_size_t]),
    "nt6861_addresses": (c_uint8, [c_uint8, _HALVES, c_size_t, _HALVES, c_size_t, POINTER(c_size_t)]),
    "nt6861_why": (c_uint8, [_BYTES, c_size_t, _WORDS, c_size_t, _LONGS]),
    "nt6861_firmware": (c_uint8, [_BYTES, c_size_t, _BYTES, c_size_t, _BYTES, c_size_t, _BYTES, c_size_t, _LONGS, c_size_t, _WORDS, c_size_t,
                                  c_uint32, _WORDS, c_size_t]),
    "nt6861_field_rate": (c_double, [c_uint16]),
    "nt6861_interval_rate": (c_double, [c_uint16]),
    "nt6861_line_rate": (c_double, [c_uint16, c_uint16]),
}


def _places() -> Iterator[str]:
    """where the library is looked for: as NT6861_LIBRARY says and nowhere else; or beside the module (a wheel), in lib of the folder that the module
    was installed into, in target/lib of the repository, and on the system's path"""
    named = os.environ.get("NT6861_LIBRARY")
    if named:
        yield os.path.abspath(named)
        return
    here = pathlib.Path(__file__).resolve().parent
    for place in (here / SONAME, here / "../../../../lib" / SONAME, here / "../../../target/lib" / SONAME):
        if place.exists():
            yield str(place.resolve())
    yield SONAME


def _load() -> ctypes.CDLL:
    said = ""
    for place in _places():
        try:
            library = ctypes.CDLL(place)
            break
        except OSError as error:
            said = str(error)
    else:
        raise ImportError(f"{said}; ./nt6861 library makes it, or NT6861_LIBRARY names it")
    for name, (result, arguments) in _CALLS.items():
        call = getattr(library, name, None)
        if call is None:
            raise ImportError(f"{place} has no {name}: it is older than this module")
        call.restype, call.argtypes = result, arguments
    version = library.nt6861_version()
    if version >> 16 != VERSION >> 16 or version < VERSION:
        raise ImportError(f"{place} has version {version:06X}, and this module needs {VERSION:06X}")
    return library


library = _load()
