"""The C functions of libcauchy.so by ctypes: structures and declarations as in include/cauchy.h, whose names they
have. No one outside this package sees them; tests/test_header.py compares every one with the header."""
import ctypes
import os
from ctypes import POINTER, Structure, c_double, c_size_t, c_uint8, c_uint32, c_uint64
from pathlib import Path
from typing import Any, Dict, List, Tuple

from .refusals import check

# Sizes of the specification, as in the header.
MAX_VERTICES = 1048576
MAX_FACES = 2097152
PLACES = 32
MAX_PIECES = 16
MAX_TRACK = 4096
FLOATS_BEFORE_MESH = 1761
WORDS_BEFORE_MESH = 130
OLD_WORDS_BEFORE_MESH = 98  # of the form before layers: three words to a place
LAYERS = 16
ALL_LAYERS = 0xFFFF

# The kinds of a convention, and the loaders of a file.
RAW_KIND, RHO0_KIND, MASS_KIND = 0, 1, 2
NATIVE_LOADER, SOURCE_LOADER, STRICT_LOADER = 0, 1, 2

# The bytes of the shortest kernel line of a file, one without an exponent, and its newline; those of a line of a page.
SHORTEST_LINE = 123
PAGE_LINE = 65

# The bytes of a store's lines, of an opening, a face and a put without their decimal numbers.
OPEN_LINE, VERT_LINE, FACE_LINE, PUT_LINE = 51, 58, 10, 142


class CauchyVector(Structure):
    _fields_ = [("x", c_double), ("y", c_double), ("z", c_double)]


class CauchyKernel(Structure):
    _fields_ = [("c", c_double * 3), ("sigma", c_double), ("w", c_double), ("alpha", c_double)]


class CauchyFileKernel(Structure):
    _fields_ = [("c", c_double * 3), ("sigma", c_double), ("w", c_double), ("alpha", c_double), ("given", c_uint32)]


class CauchyConvention(Structure):
    _fields_ = [("kind", c_uint32), ("target", c_double), ("bulk", c_double)]


class CauchyMassReport(Structure):
    _fields_ = [
        ("raw_mass", c_double), ("rho0_scale", c_double), ("rho0_mass", c_double), ("applied_scale", c_double),
        ("applied_mass", c_double), ("target_mass", c_double), ("volume", c_double),
    ]


class CauchyOpened(Structure):
    _fields_ = [("no", c_uint32), ("verts", c_uint32), ("faces", c_uint32)]


class CauchyFit(Structure):
    _fields_ = [("kind", c_uint32), ("column", c_uint32), ("pivot", c_double)]


class CauchyPlaced(Structure):
    _fields_ = [("no", c_uint32), ("pieces", c_uint32), ("need", c_uint32), ("fit", CauchyFit)]


class CauchySqueezed(Structure):
    _fields_ = [("no", c_uint32), ("freed", c_uint32)]


class CauchySteps(Structure):
    _fields_ = [("no", c_uint32), ("done", c_uint64), ("left", c_uint64)]


class CauchyAdopted(Structure):
    _fields_ = [("no", c_uint32), ("same_body", c_uint32), ("pieces", c_uint32), ("left", c_uint64)]


class CauchyValue(Structure):
    _fields_ = [("no", c_uint32), ("value", c_double)]


class CauchyPoint(Structure):
    _fields_ = [("no", c_uint32), ("at", CauchyVector)]


class CauchyReport(Structure):
    _fields_ = [("no", c_uint32), ("report", CauchyMassReport)]


class CauchyStoreReport(Structure):
    _fields_ = [
        ("no", c_uint32), ("report", CauchyMassReport), ("kernels", c_uint32), ("pieces", c_uint32),
        ("error", c_double),
    ]


class CauchyFinished(Structure):
    _fields_ = [
        ("no", c_uint32), ("report", CauchyMassReport), ("kernels", c_uint32), ("pieces", c_uint32),
        ("error", c_double), ("passed_over", c_uint32),
    ]


class CauchyListed(Structure):
    _fields_ = [("no", c_uint32), ("pieces", c_uint32)]


class CauchyTrack(Structure):
    _fields_ = [("no", c_uint32), ("points", c_uint32)]


class CauchyBytes(Structure):
    _fields_ = [("no", c_uint32), ("bytes", c_uint64)]


class CauchyLoaded(Structure):
    _fields_ = [("no", c_uint32), ("verts", c_uint32), ("faces", c_uint32), ("puts", c_uint64)]


class CauchyKernels(Structure):
    _fields_ = [("no", c_uint32), ("kernels", c_uint64)]


class CauchyPieces(Structure):
    _fields_ = [("no", c_uint32), ("pieces", c_uint64), ("error", c_double), ("fit", CauchyFit)]


class CauchyListPieces(Structure):
    _fields_ = [("no", c_uint32), ("kernels", c_uint64), ("pieces", c_uint64), ("error", c_double)]


class CauchySolved(Structure):
    _fields_ = [("no", c_uint32), ("column", c_uint32), ("pivot", c_double)]


class CauchyBill(Structure):
    _fields_ = [("no", c_uint32), ("steps", c_uint64), ("floats", c_uint64)]


_FLOATS = (POINTER(c_double), c_size_t)
_WORDS = (POINTER(c_uint32), c_size_t)
_BYTES = (POINTER(c_uint8), c_size_t)
_STORE = _MESH = (*_FLOATS, *_WORDS)

# Each function without its "cauchy_": what it answers, then its arguments.
PROTOTYPES: Dict[str, Tuple[Any, ...]] = {
    "store_open": (CauchyOpened, *_STORE, c_double, *_MESH),
    "store_carry": (CauchyOpened, *_STORE, *_STORE),
    "store_put": (CauchyPlaced, *_STORE, c_uint32, CauchyKernel, c_uint32),
    "store_clear": (c_uint32, *_STORE, c_uint32),
    "store_reweigh": (c_uint32, *_STORE, c_uint32, c_double),
    "store_squeeze": (CauchySqueezed, *_STORE),
    "store_advance": (CauchySteps, *_STORE, c_uint64),
    "store_adopt": (CauchyAdopted, *_STORE, c_uint32, *_STORE, c_uint32),
    "store_density": (CauchyValue, *_STORE, CauchyConvention, c_uint32, CauchyVector),
    "store_report": (CauchyStoreReport, *_STORE, CauchyConvention, c_uint32),
    "store_finished": (CauchyFinished, *_STORE, CauchyConvention, c_uint32),
    "store_list": (CauchyListed, *_STORE, CauchyConvention, c_uint32, *_FLOATS),
    "store_track": (CauchyTrack, *_STORE, CauchyConvention, c_uint32, *_FLOATS, *_FLOATS),
    "store_page": (CauchyBytes, *_STORE, *_BYTES),
    "store_write": (CauchyBytes, *_STORE, *_BYTES),
    "store_read": (CauchyLoaded, *_STORE, *_BYTES),
    "kernel_from_file": (CauchyKernel, CauchyFileKernel, c_double),
    "convert": (CauchyKernels, *_BYTES, c_double, c_uint32, *_FLOATS),
    "decompose": (CauchyPieces, CauchyKernel, c_double, *_FLOATS),
    "decompose_list": (CauchyListPieces, *_FLOATS, c_double, *_FLOATS),
    "bill": (CauchyBill, *_FLOATS, c_uint32, c_uint32),
    "densitize": (CauchyValue, *_FLOATS, CauchyVector),
    "solve": (CauchySolved, c_size_t, *_FLOATS, *_FLOATS),
    "closed": (c_uint32, *_MESH),
    "kernel_volume": (CauchyValue, *_MESH, CauchyVector, c_double),
    "body_volume": (CauchyValue, *_MESH),
    "volume_centroid": (CauchyPoint, *_MESH),
    "field_mass": (CauchyValue, *_MESH, *_FLOATS),
    "homogeneous": (CauchyReport, c_double, *_MESH),
    "source_density_at": (CauchyValue, *_FLOATS, CauchyVector),
    "source_kernel_volume": (CauchyValue, *_MESH, CauchyVector, c_double),
    "source_enclosed_volume": (CauchyValue, *_MESH),
    "source_normalize": (CauchyKernels, *_MESH, *_FLOATS, c_double, *_FLOATS),
    "source_calibrate": (CauchyKernels, *_MESH, *_FLOATS, c_double, c_double, c_uint32, *_FLOATS),
    "root": (c_double, c_double),
    "arc": (c_double, c_double),
    "log": (c_double, c_double),
    "exp": (c_double, c_double),
    "power": (c_double, c_double, c_double),
    "ten": (c_double, c_double),
    "log10": (c_double, c_double),
    "radial_g": (c_double, c_double),
}


def _places() -> List[Path]:
    """Where the library may be: CAUCHY_SO alone where that is set; else inside the package, as a wheel has it, or in
    the repository."""
    named = os.environ.get("CAUCHY_SO")
    if named:
        return [Path(named)]
    here = Path(__file__).resolve().parent
    return [here / "lib/libcauchy.so", (here / "../../../target/staticlib/libcauchy.so").resolve()]


def _load() -> ctypes.CDLL:
    places = _places()
    path = next((place for place in places if place.is_file()), places[-1])
    try:
        library = ctypes.CDLL(os.fspath(path))
    except OSError as fault:
        raise ImportError(f"no library: host/shared makes it, or CAUCHY_SO names it ({fault})") from None
    for name, (answer, *arguments) in PROTOTYPES.items():
        try:
            function = getattr(library, "cauchy_" + name)
        except AttributeError:
            raise ImportError(f"{path} is another version's: it has no cauchy_{name}") from None
        function.restype, function.argtypes = answer, arguments
    return library


_library = _load()


def ask(name: str, *arguments: Any) -> Any:
    """Calls a function that is never refused."""
    return getattr(_library, "cauchy_" + name)(*arguments)


def call(name: str, *arguments: Any) -> Any:
    """Calls a function whose answer begins with a number, and raises what it refuses."""
    answer = ask(name, *arguments)
    check(answer if isinstance(answer, int) else answer.no)
    return answer
