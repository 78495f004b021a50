"""library_canon.py LIBRARY FILE: seconds of processor time that oascanon_canonicalize of the shared library takes for the file,
with room for all of its output."""

import ctypes
import pathlib
import sys
import time


class Outcome(ctypes.Structure):
    """oascanon_outcome"""

    _fields_ = [("status", ctypes.c_uint32), ("file", ctypes.c_uint32), ("at", ctypes.c_uint64), ("length", ctypes.c_uint64)]


def main():
    library, file = sys.argv[1:]
    data = pathlib.Path(file).read_bytes()
    limits = (ctypes.c_uint64 * 3)(1 << 24, 1 << 28, 1 << 36)
    size = 320 + 8 * len(data)
    room = ctypes.create_string_buffer(size)
    call = ctypes.CDLL(library).oascanon_canonicalize
    call.argtypes = [ctypes.c_char_p, ctypes.c_size_t, ctypes.c_void_p, ctypes.c_void_p, ctypes.c_size_t]
    call.restype = Outcome
    began = time.process_time()
    outcome = call(data, len(data), limits, room, size)
    took = time.process_time() - began
    if outcome.status != 0:
        sys.exit(f"the call ended with {outcome.status}")
    print(took)


main()
