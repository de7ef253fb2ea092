"""The Cauchy density store from Python: ctypes over libcauchy.so, and no other package.

A store keeps up to 32 density kernels inside a triangle mesh. Its work is done in portions; then it gives
density, masses and rescaled weights. Lengths are metres, densities kg/m^3, masses kg; only a kernel of a file
is in kilometres (`kernel_from_file`, `convert`).

>>> vertices = [(0, 0, 0), (1000, 0, 0), (0, 1000, 0), (0, 0, 1000)]
>>> faces = [(0, 2, 1), (0, 1, 3), (0, 3, 2), (1, 2, 3)]
>>> store = Store(1000, vertices, faces)
>>> store.put(0, Kernel((200, 200, 200), 0.002, 1500, 1))
Placed(pieces=1, need=4, fit=Fit(kind='kept', pivot=None, column=None))
>>> for done, left in store.work(3):
...     print(f"{done} steps done, {left} left")
3 steps done, 1 left
4 steps done, 0 left
>>> report = store.report(mass(2e11))
>>> round(report.applied_mass / 2e11, 12), report.kernels
(1.0, 1)
>>> store.density(RAW, (200, 200, 200))
1500.0
>>> store.density(RAW, [(200, 200, 200), (700, 200, 200)]).tolist()
[1500.0, 750.0]

A wrong argument is a TypeError or a ValueError, and a refusal of the library a `Refused` with a class for each number.
Vertices, faces, points and kernel lists may be arrays of numpy or of the standard library: see `cauchy.arrays`.

The library is found in CAUCHY_SO, in this package, or in the repository's target/staticlib, where host/shared makes
it. `python3 -m cauchy` runs the examples of this package.
"""
from .arrays import Floats, Items
from .kernels import bill, convert, decompose, decompose_list, densitize, kernel_from_file, solve
from .library import ALL_LAYERS, LAYERS, MAX_FACES, MAX_PIECES, MAX_TRACK, MAX_VERTICES, PLACES
from .meshes import body_volume, closed, field_mass, homogeneous, kernel_volume, volume_centroid
from .numbers import arc, exp, log, log10, power, radial_g, root, ten
from .refusals import (
    REFUSALS, BadKernelLine, BadLine, BadMatrix, BadTrack, Exponent, FlatPivot, FloatStateError, LoadersDiffer,
    LooseCorner, ManyKernels, NoFigure, NoLayer, NoPlace, NotClosed, Oversize, Ragged, Refused, ShortList, ShortPage,
    ShortStore, ShortText, Unfinished, UnknownRefusal, Unsound, Vacant, check_float_state,
)
from .snapshot import SnapshotError
from .source import (
    source_calibrate, source_density_at, source_enclosed_volume, source_kernel_volume, source_normalize,
)
from .store import Store
from .values import (
    RAW, Adopted, Bill, Convention, Fit, Held, Kernel, KernelList, Loader, MassReport, Pieces, Placed, Solution, Steps,
    StoreReport, mass, rho0,
)

__version__ = "0.1.0"

__all__ = [
    "ALL_LAYERS", "LAYERS", "MAX_FACES", "MAX_PIECES", "MAX_TRACK", "MAX_VERTICES", "PLACES", "RAW", "REFUSALS",
    "Adopted", "BadKernelLine", "BadLine", "BadMatrix", "BadTrack", "Bill", "Convention", "Exponent", "Fit", "FlatPivot",
    "FloatStateError", "Floats", "Held", "Items", "Kernel", "KernelList", "Loader", "LoadersDiffer", "LooseCorner",
    "ManyKernels", "MassReport", "NoFigure", "NoLayer", "NoPlace", "NotClosed", "Oversize", "Pieces", "Placed",
    "Ragged", "Refused", "ShortList", "ShortPage", "ShortStore", "ShortText", "SnapshotError", "Solution", "Steps",
    "Store", "StoreReport", "Unfinished", "UnknownRefusal", "Unsound", "Vacant", "arc", "bill", "body_volume",
    "check_float_state", "closed", "convert", "decompose", "decompose_list", "densitize", "exp", "field_mass",
    "homogeneous", "kernel_from_file", "kernel_volume", "log", "log10", "mass", "power", "radial_g", "rho0", "root",
    "solve", "source_calibrate", "source_density_at", "source_enclosed_volume", "source_kernel_volume",
    "source_normalize", "ten", "volume_centroid",
]

# Users know these names by this package, and so do messages, pickles and doctests.
for _name in __all__:
    if hasattr(globals()[_name], "__qualname__"):
        globals()[_name].__module__ = __name__
