"""Memory that is lent to a call: arrays and other buffers as they are, anything else copied into one array."""
from __future__ import annotations

import ctypes
from array import array
from typing import Any, Tuple

#: for the size of an element, the type that the library takes, the code of an array, and the formats of a buffer that are the same
KINDS = {
    1: (ctypes.c_uint8, "B", "Bc"),
    2: (ctypes.c_uint16, "H", "H"),
    4: (ctypes.c_uint32, "I", "IL"),
    8: (ctypes.c_uint64, "Q", "QL"),
}


def _view(values: Any, size: int) -> memoryview:
    view = memoryview(values)
    same = view.itemsize == size and view.format.lstrip("@=<") in KINDS[size][2]
    if not (same or view.itemsize == 1) or not view.c_contiguous or view.nbytes % size:
        raise ValueError(f"a buffer of numbers of {size} bytes is expected, or bytes, the lowest first")
    return view.cast("B") if view.nbytes else view


def lent(values: Any, size: int) -> Tuple[Any, int, int]:
    """what to pass for numbers that are read: a pointer, how many they are, and their address"""
    kind, code, _ = KINDS[size]
    try:
        memoryview(values)
    except TypeError:
        values = array(code, values)
    view = _view(values, size)
    if not view.nbytes:
        return None, 0, 0
    if view.readonly:
        view = memoryview(bytearray(view))
    first = kind.from_buffer(view)
    if ctypes.addressof(first) % size:
        first = kind.from_buffer(bytearray(view))
    return ctypes.byref(first), view.nbytes // size, ctypes.addressof(first)


def lent_out(places: Any, size: int, read: Tuple[Any, int, int]) -> Tuple[Any, int]:
    """the same for places that are written to, which must be apart from what is read"""
    view = _view(places, size)
    if not view.nbytes:
        return None, 0
    first = KINDS[size][0].from_buffer(view)
    start, count = ctypes.addressof(first), view.nbytes // size
    if start % size:
        raise ValueError("the places for answers are not aligned")
    if start < read[2] + read[1] * size and read[2] < start + view.nbytes:
        raise ValueError("words and answers overlap")
    return ctypes.byref(first), count


def places_for(count: int, size: int) -> array:
    """that many zeros"""
    return array(KINDS[size][1], bytes(size)) * count
