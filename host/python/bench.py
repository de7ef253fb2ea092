"""Times the opening of a store of 2,000,000 faces from Python against the C call alone.

    PYTHONPATH=host/python python3 host/python/bench.py

The C call works on memory fresh from calloc, as a program in C would lend it; for each, the median of nine.
"""
import ctypes
import statistics
import sys
import time
from array import array

from cauchy import Store, arrays, library

FACES, VERTICES, TIMES = 2_000_000, 1_000_002, 9


def median(call):
    """The median time in ms; what a call answers is let go before the next one."""
    took = []
    for _ in range(TIMES):
        start = time.perf_counter()
        kept = call()
        took.append(1000 * (time.perf_counter() - start))
        del kept
    return statistics.median(took)


def c_calls(vertices, faces):
    """The time of the C call on fresh memory, and on memory that was used before."""
    libc = ctypes.CDLL(None)
    libc.calloc.restype, libc.calloc.argtypes = ctypes.c_void_p, [ctypes.c_size_t] * 2
    libc.free.argtypes = [ctypes.c_void_p]
    xyz, corners = arrays.floats(vertices, "vertices", 3), arrays.words(faces, "faces", 3)
    n_floats, n_words = library.FLOATS_BEFORE_MESH + xyz.count, library.WORDS_BEFORE_MESH + corners.count

    def opened(floats, words):
        library.call(
            "store_open", ctypes.cast(floats, ctypes.POINTER(ctypes.c_double)), n_floats,
            ctypes.cast(words, ctypes.POINTER(ctypes.c_uint32)), n_words, 1.0, *xyz.lent(), *corners.lent())

    def fresh():
        floats, words = libc.calloc(n_floats, 8), libc.calloc(n_words, 4)
        opened(floats, words)
        libc.free(floats)
        libc.free(words)

    kept = libc.calloc(n_floats, 8), libc.calloc(n_words, 4)
    opened(*kept)
    return median(fresh), median(lambda: opened(*kept))


def main():
    vertices = array("d", (float(i % 1009) for i in range(3 * VERTICES)))
    faces = array("I", (i * 7 % VERTICES for i in range(3 * FACES)))
    meshes = {"array": (vertices, faces)}
    numpy = arrays.numpy()
    if numpy is not None:
        rows = numpy.frombuffer(vertices).reshape(-1, 3), numpy.frombuffer(faces, dtype=numpy.uint32).reshape(-1, 3)
        locked = [table.copy() for table in rows]
        for table in locked:
            table.flags.writeable = False
        meshes["numpy, float64 and uint32"] = rows
        meshes["numpy, float64 and int32"] = rows[0], rows[1].astype(numpy.int32)
        meshes["numpy, float64 and int64 (converted)"] = rows[0], rows[1].astype(numpy.int64)
        meshes["numpy, read-only"] = locked
    else:
        print("no numpy here")
    fresh, used = c_calls(vertices, faces)
    print(f"Python {sys.version.split()[0]}, {FACES:,} faces, ms")
    print(f"{fresh:8.1f}  the C call, memory from calloc ({used:.1f} on memory that was used before)")
    for name, mesh in meshes.items():
        took = median(lambda: Store(1.0, *mesh))
        print(f"{took:8.1f}  Store(..) from {name}: {took / fresh:.2f} times")


if __name__ == "__main__":
    main()
