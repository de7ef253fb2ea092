"""The values that users make and are answered: immutable, checked, comparable and printed in full.

Two values of a class are equal where each of their numbers is. NaN counts as equal to NaN, so that a value equals
itself and its copies and can be found in a set; 0.0 and -0.0 are equal, as everywhere in Python.
"""
from array import array
from dataclasses import dataclass, fields
from enum import Enum
from typing import Any, Dict, Iterator, List, NamedTuple, Optional, Sequence, Tuple, Union

from . import arrays
from .library import (
    MASS_KIND, NATIVE_LOADER, RAW_KIND, RHO0_KIND, SOURCE_LOADER, STRICT_LOADER, CauchyConvention, CauchyFit,
    CauchyKernel, CauchyMassReport, CauchyVector,
)

Vector = Tuple[float, float, float]


class Value:
    """Equality and hash of the values below."""

    def _key(self) -> Tuple[Any, ...]:
        return tuple(_comparable(x) for x in vars(self).values())

    def __eq__(self, other: object) -> bool:
        if not isinstance(other, Value) or type(self) is not type(other):
            return NotImplemented
        return self._key() == other._key()

    def __hash__(self) -> int:
        return hash(self._key())


def _comparable(x: Any) -> Any:
    """A field, with a word in place of each NaN."""
    if isinstance(x, tuple):
        return tuple(map(_comparable, x))
    return "nan" if x != x else x


@dataclass(frozen=True, eq=False)
class Kernel(Value):
    """A kernel: centre c [m], inverse width sigma [1/m], weight w [kg/m^3], exponent alpha.

    >>> kernel = Kernel((1, 2, 3), 0.004, 500, 1)
    >>> kernel
    Kernel(c=(1.0, 2.0, 3.0), sigma=0.004, w=500.0, alpha=1.0)
    >>> kernel == Kernel(alpha=1, w=500, sigma=0.004, c=[1, 2, 3]), len({kernel, Kernel((1, 2, 3), 0.004, 500, 1)})
    (True, 1)
    >>> Kernel((1, 2), 0.004, 500, 1)
    Traceback (most recent call last):
    ValueError: the centre c: 3 numbers, and not 2
    >>> Kernel((1, 2, 3), 0.004, 500)
    Traceback (most recent call last):
    TypeError: ...__init__() missing 1 required positional argument: 'alpha'
    >>> Kernel((1, 2, 3), "0.004", 500, 1)
    Traceback (most recent call last):
    TypeError: sigma is a number, and not of the type str
    """

    c: Vector
    sigma: float
    w: float
    alpha: float

    def __post_init__(self) -> None:
        object.__setattr__(self, "c", arrays.point(self.c, "the centre c"))
        for name in ("sigma", "w", "alpha"):
            object.__setattr__(self, name, arrays.number(getattr(self, name), name))


@dataclass(frozen=True, eq=False)
class Convention(Value):
    """How one reading rescales the weights; the kept weights never change. `RAW`, `rho0` and `mass` make one.

    >>> RAW, mass(4.5e11)
    (Convention(kind='raw', target=0.0, bulk=0.0), Convention(kind='mass', target=450000000000.0, bulk=1190.0))
    >>> Convention("tot", 1, 2)
    Traceback (most recent call last):
    ValueError: kind is 'raw', 'rho0' or 'mass', and not 'tot'
    """

    kind: str
    target: float
    bulk: float

    def __post_init__(self) -> None:
        if not isinstance(self.kind, str):
            raise TypeError(f"kind is a str, and not of the type {type(self.kind).__name__}")
        if self.kind not in _KINDS:
            raise ValueError(f"kind is 'raw', 'rho0' or 'mass', and not {self.kind!r}")
        for name in ("target", "bulk"):
            object.__setattr__(self, name, arrays.number(getattr(self, name), name))


_KINDS = {"raw": RAW_KIND, "rho0": RHO0_KIND, "mass": MASS_KIND}

RAW = Convention("raw", 0.0, 0.0)
"""Weights as entered."""


def rho0(bulk: float = 1190.0) -> Convention:
    """The convention by which the density at the origin becomes `bulk`, kg/m^3; 1190 where that is not above 0.

    >>> rho0(1500)
    Convention(kind='rho0', target=0.0, bulk=1500.0)
    """
    return Convention("rho0", 0.0, bulk)


def mass(target: float, bulk: float = 1190.0) -> Convention:
    """The convention by which the field mass becomes `target`, kg; by rho0 where that is not above 0 or cannot be.

    >>> mass(2e11) == mass(200000000000, bulk=1190)
    True
    """
    return Convention("mass", target, bulk)


class Loader(Enum):
    """Which of the original's two loaders makes the kernels of a file. They differ in the exponent alone.

    >>> Loader.NATIVE, Loader("strict")
    (<Loader.NATIVE: 'native'>, <Loader.STRICT: 'strict'>)
    """

    NATIVE = "native"
    """an exponent that is missing or not above 0, a NaN too, becomes the default"""
    SOURCE = "source"
    """an exponent that is missing becomes the default; one that is given is kept, whatever it is"""
    STRICT = "strict"
    """either, where both give equal kernels, bit for bit with every NaN alike; any other file is refused"""


_LOADERS = {Loader.NATIVE: NATIVE_LOADER, Loader.SOURCE: SOURCE_LOADER, Loader.STRICT: STRICT_LOADER}


@dataclass(frozen=True, eq=False)
class MassReport(Value):
    """Masses before and after a convention's scale."""

    raw_mass: float
    """kg, weights as entered"""
    rho0_scale: float
    """the factor by which the density at the origin becomes bulk"""
    rho0_mass: float
    """kg, after that factor"""
    applied_scale: float
    """the convention's factor"""
    applied_mass: float
    """kg, after the convention's factor"""
    target_mass: float
    """kg, the convention's target; 0 where it has none"""
    volume: float
    """m^3, of the mesh, signed"""


@dataclass(frozen=True, eq=False)
class StoreReport(MassReport):
    """The masses of a store with its counts and its greatest error."""

    kernels: int
    """filled places"""
    pieces: int
    """their pieces"""
    error: float
    """the greatest error of a fit, as a fraction of its kernel's peak"""


@dataclass(frozen=True, eq=False)
class Held(Value):
    """What a filled place holds: the kernel with its last weight, its layer, its pieces, and the greatest error of its
    fit."""

    kernel: Kernel
    layer: int
    pieces: int
    error: float


@dataclass(frozen=True, eq=False)
class Bill(Value):
    """What a list of kernels takes at most: the steps that their puts charge, and the floats that their list needs."""

    steps: int
    floats: int


@dataclass(frozen=True, eq=False)
class Fit(Value):
    """How a kernel's fit ended. The kind is "kept", where the exponent is within 1e-9 of 1; "fitted", where `pivot` is
    the smallest that the solver accepted, in absolute value, above 1e-18 or a NaN; "fallback", where `column`, from 0,
    has the flat pivot at which the solver stopped; or "no exponent", where that is a NaN. What a kind does not have
    is None.

    >>> decompose(Kernel((0, 0, 0), 0.01, 2, 1), 500).fit
    Fit(kind='kept', pivot=None, column=None)
    >>> fit = decompose(Kernel((0, 0, 0), 0.01, 2, 2), 500).fit
    >>> fit.kind, fit.pivot > 1e-18, fit.column
    ('fitted', True, None)
    """

    kind: str
    pivot: Optional[float] = None
    column: Optional[int] = None


class Placed(NamedTuple):
    """What a put answers: the kernel's pieces, the steps that they need, and how their fit ended."""

    pieces: int
    need: int
    fit: Fit


class Solution(NamedTuple):
    """The answer of equations, and the smallest pivot that was accepted, in absolute value: infinite where there is no
    equation, and a NaN where one of them was."""

    answer: List[float]
    pivot: float


class Steps(NamedTuple):
    """Steps of work that are done, and that are left."""

    done: int
    left: int


class Adopted(NamedTuple):
    """What an adoption answers: the pieces of the place that came across, and the steps that it has left."""

    pieces: int
    left: int


@dataclass(frozen=True, eq=False)
class Pieces(Value):
    """Pieces of kernels, and the greatest error of a fit as a fraction of its kernel's peak; a pair of both. Beside
    them, of one kernel, how its fit ended; None of a list, which has many."""

    pieces: Tuple[Kernel, ...]
    error: float
    fit: Optional[Fit] = None

    def __iter__(self) -> Iterator[Any]:
        return iter((self.pieces, self.error))


# ---- To and from the library ------------------------------------------------------------------------------


def vector(values: arrays.Items, name: str) -> CauchyVector:
    """A point for the library."""
    return CauchyVector(*arrays.point(values, name))


def crossing_kernel(kernel: object) -> CauchyKernel:
    """A kernel for the library."""
    if not isinstance(kernel, Kernel):
        raise TypeError(f"kernel is a Kernel, and not of the type {type(kernel).__name__}")
    return CauchyKernel(kernel.c, kernel.sigma, kernel.w, kernel.alpha)


def crossing_convention(convention: object) -> CauchyConvention:
    """A convention for the library."""
    if not isinstance(convention, Convention):
        raise TypeError(f"convention is RAW, rho0(..) or mass(..), and not of the type {type(convention).__name__}")
    return CauchyConvention(_KINDS[convention.kind], convention.target, convention.bulk)


def crossing_loader(loader: object) -> int:
    """A loader for the library."""
    if not isinstance(loader, Loader):
        raise TypeError(f"loader is a Loader, as Loader.STRICT, and not of the type {type(loader).__name__}")
    return _LOADERS[loader]


def answered_kernel(kernel: CauchyKernel) -> Kernel:
    """A kernel that the library answered."""
    x, y, z = kernel.c
    return Kernel((x, y, z), kernel.sigma, kernel.w, kernel.alpha)


def answered_fit(fit: CauchyFit) -> Fit:
    """How a fit ended, as the library answered it."""
    ends = {0: Fit("kept"), 1: Fit("fitted", pivot=fit.pivot), 2: Fit("fallback", column=fit.column)}
    return ends.get(fit.kind, Fit("no exponent"))


def masses(report: CauchyMassReport) -> Dict[str, float]:
    """The numbers of a report, by name."""
    return {field.name: getattr(report, field.name) for field in fields(MassReport)}


KernelList = Union[Sequence[Kernel], arrays.Items]
"""Kernels: a sequence of `Kernel`, or an array with six numbers a kernel: c (3), sigma, w, alpha."""


def kernel_run(kernels: KernelList) -> arrays.Run:
    """A kernel list for the library."""
    if not isinstance(kernels, (list, tuple)):
        return arrays.floats(kernels, "kernels", 6)
    flat = array("d")
    for i, kernel in enumerate(kernels):
        if not isinstance(kernel, Kernel):
            raise TypeError(f"kernels[{i}] is a Kernel, and not of the type {type(kernel).__name__}")
        flat.extend((*kernel.c, kernel.sigma, kernel.w, kernel.alpha))
    return arrays.written(flat)


def listed(run: Any, count: int) -> List[Kernel]:
    """The kernels that the library wrote."""
    return [Kernel((run[i], run[i + 1], run[i + 2]), *run[i + 3:i + 6]) for i in range(0, 6 * count, 6)]
