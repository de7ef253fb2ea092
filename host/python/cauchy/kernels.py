"""Kernels without a store, and equations."""
from array import array
from typing import List, Optional, Union

from . import arrays
from .library import CauchyFileKernel, MAX_PIECES, SHORTEST_LINE, ask, call
from .refusals import BadMatrix, FlatPivot, check
from .values import (
    Bill, Kernel, KernelList, Loader, Pieces, Solution, answered_fit, answered_kernel, crossing_kernel,
    crossing_loader, kernel_run, listed, vector,
)


def kernel_from_file(
    c: arrays.Items, sigma: float, w: float, alpha: Optional[float] = None, default: float = 1.0
) -> Kernel:
    """A kernel of a file, in kilometres, as one in metres. An exponent that is None or not above 0 becomes the
    default.

    >>> kernel_from_file((1, 2, 3), 4, 500, None, 1.5)
    Kernel(c=(1000.0, 2000.0, 3000.0), sigma=0.004, w=500.0, alpha=1.5)
    """
    centre = arrays.point(c, "the centre c")
    numbers = arrays.number(sigma, "sigma"), arrays.number(w, "w")
    exponent = 0.0 if alpha is None else arrays.number(alpha, "alpha")
    given = CauchyFileKernel(centre, *numbers, exponent, alpha is not None)
    return answered_kernel(ask("kernel_from_file", given, arrays.number(default, "default")))


def convert(lines: Union[bytes, bytearray, memoryview], default: float, loader: Loader) -> List[Kernel]:
    r"""The kernels of a file's lines, in metres and in their order, as a loader makes them with the default exponent.

    A kernel is a line `(kernel (c H H H) (sigma H) (w H) (alpha H))`, with `(alpha none)` where the file gives no
    exponent, and a newline, the last one too, with single spaces and nothing else. H is a number by the 16 upper-case
    hexadecimal digits of its bits, the centre in km and sigma in 1/km. No line gives no kernel. The lines are bytes,
    as `open(path, "rb").read()` gives them.

    >>> import struct
    >>> def line(*numbers, alpha="none"):
    ...     x, y, z, sigma, w = (struct.pack(">d", number).hex().upper() for number in numbers)
    ...     return f"(kernel (c {x} {y} {z}) (sigma {sigma}) (w {w}) (alpha {alpha}))\n".encode()
    >>> convert(line(1, 2, 3, 4, 500), 1.5, Loader.STRICT)
    [Kernel(c=(1000.0, 2000.0, 3000.0), sigma=0.004, w=500.0, alpha=1.5)]
    >>> below = line(1, 2, 3, 4, 500, alpha="BFF0000000000000")
    >>> [convert(below, 1.5, loader)[0].alpha for loader in (Loader.NATIVE, Loader.SOURCE)]
    [1.5, -1.0]
    >>> convert(below, 1.5, Loader.STRICT)
    Traceback (most recent call last):
    cauchy.LoadersDiffer: loaders differ: native and source make different kernels of some line (no 21)
    >>> convert(b"1 2 3 4 500 -\n", 1.5, Loader.NATIVE)
    Traceback (most recent call last):
    cauchy.BadKernelLine: bad kernel line: not (kernel (c h h h) (sigma h) (w h) (alpha h or none)) (no 20)
    >>> convert(b"", 1.5, Loader.NATIVE)
    []
    """
    run = arrays.octets(lines, "lines")
    out = array("d", [0.0]) * (6 * (run.count // SHORTEST_LINE))
    alpha, which = arrays.number(default, "default"), crossing_loader(loader)
    answer = call("convert", *run.lent(), alpha, which, *arrays.written(out).lent())
    return listed(out, answer.kernels)


def decompose(kernel: Kernel, radius: float) -> Pieces:
    """The pieces of a kernel on a body of this radius, the fit's greatest error, and how it ended.

    >>> pieces, error = decompose(Kernel((0, 0, 0), 0.01, 2, 2), 500)
    >>> len(pieces), error < 0.01
    (13, True)
    >>> decompose(Kernel((0, 0, 0), 0.01, 2, float("nan")), 500).fit.kind
    'no exponent'
    """
    out = array("d", [0.0]) * (MAX_PIECES * 6)
    size = arrays.number(radius, "radius")
    answer = call("decompose", crossing_kernel(kernel), size, *arrays.written(out).lent())
    return Pieces(tuple(listed(out, answer.pieces)), answer.error, answered_fit(answer.fit))


def decompose_list(kernels: KernelList, radius: float) -> Pieces:
    """The pieces of all kernels, in their order, and the greatest error of a fit.

    >>> pieces, error = decompose_list([Kernel((0, 0, 0), 0.01, 2, 1), Kernel((0, 0, 0), 0.01, 2, 2)], 500)
    >>> len(pieces), pieces[0], error < 0.01
    (14, Kernel(c=(0.0, 0.0, 0.0), sigma=0.01, w=2.0, alpha=1.0), True)
    """
    run = kernel_run(kernels)
    out = array("d", [0.0]) * (MAX_PIECES * run.count)
    size = arrays.number(radius, "radius")
    answer = call("decompose_list", *run.lent(), size, *arrays.written(out).lent())
    return Pieces(tuple(listed(out, answer.pieces)), answer.error)


def bill(kernels: KernelList, vertices: int, faces: int) -> Bill:
    """The bill before the work, for up to 32 kernels on a mesh of so many vertices and faces, whatever its radius.
    Nothing is fitted: 1 piece is counted for a kernel that stays (an exponent within 1e-9 of 1), none for a NaN
    exponent, and 13 or 16 for any other, which may turn out to have fewer. So the bill is exact where every kernel
    stays or has a NaN exponent, and never too low.

    >>> kernels = [Kernel((0, 0, 0), 0.01, 300, 1), Kernel((0, 0, 0), 0.01, 300, 2)]
    >>> bill(kernels, 362, 720) == Bill(steps=14 * 720, floats=14 * 6)
    True
    >>> bill(kernels[:1] * 33, 362, 720)
    Traceback (most recent call last):
    cauchy.ManyKernels: many kernels: a bill takes at most 32 (no 15)
    >>> bill(kernels, 2**32 + 362, 720)
    Traceback (most recent call last):
    cauchy.Oversize: oversize: more than 1,048,576 vertices or 2,097,152 faces (no 2)
    """
    answer = call("bill", *kernel_run(kernels).lent(), _count(vertices, "vertices"), _count(faces, "faces"))
    return Bill(answer.steps, answer.floats)


def _count(value: int, name: str) -> int:
    """A count as C takes it. One of more bits becomes the greatest of 32, which the library refuses too."""
    count = arrays.whole(value, name)
    if count < 0:
        raise ValueError(f"{name} is a count, and not {count}")
    return min(count, 2**32 - 1)


def densitize(kernels: KernelList, point: arrays.Items) -> float:
    """The density of kernels at a point.

    >>> densitize([Kernel((0, 0, 0), 1, 2, 1)], (1, 0, 0))
    1.0
    """
    return float(call("densitize", *kernel_run(kernels).lent(), vector(point, "point")).value)


def solve(n: int, cells: arrays.Items) -> Solution:
    """The answer of n equations, at most 16, with n + 1 cells each, the right-hand side last, and the smallest pivot
    that was accepted; the cells are flat or in rows of n + 1. A flat pivot is told with its column.

    >>> solve(2, [4, 0, 4, 0, 0.5, 1]), solve(2, [(1, 1, 3), (1, 2, 5)]).answer
    (Solution(answer=[1.0, 2.0], pivot=0.5), [1.0, 2.0])
    >>> solve(1, [0, 1])
    Traceback (most recent call last):
    cauchy.FlatPivot: flat pivot: the pivot chosen in some column is at most 1e-18 (no 11)
    >>> try:
    ...     solve(2, [1, 1, 2, 1, 1, 2])
    ... except FlatPivot as flat:
    ...     flat.column
    1
    """
    count = arrays.whole(n, "n")
    if not 0 <= count <= 16:
        raise BadMatrix()
    run = arrays.floats(cells, "cells", count + 1)
    answer = array("d", [0.0]) * count
    told = ask("solve", count, *run.lent(), *arrays.written(answer).lent())
    if told.no == FlatPivot.number:
        raise FlatPivot(told.column)
    check(told.no)
    return Solution(answer.tolist(), told.pivot)
