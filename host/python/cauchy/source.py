"""The second implementation of the original (its folder "source"), each function with its own order of operations."""
from array import array
from typing import Any, List, Optional

from . import arrays
from .library import call
from .meshes import mesh_runs
from .values import Kernel, KernelList, kernel_run, listed, vector


def source_density_at(kernels: KernelList, point: arrays.Items) -> float:
    """The density of kernels at a point.

    >>> source_density_at([Kernel((0, 0, 0), 1, 2, 1)], (1, 0, 0))
    1.0
    """
    return float(call("source_density_at", *kernel_run(kernels).lent(), vector(point, "point")).value)


def source_kernel_volume(vertices: arrays.Items, faces: arrays.Items, c: arrays.Items, sigma: float) -> float:
    """The integral of (1 + sigma^2 |x - c|^2)^-1 inside a mesh.

    >>> vertices = [(0, 0, 0), (6, 0, 0), (0, 6, 0), (0, 0, 6)]
    >>> faces = [(0, 2, 1), (0, 1, 3), (0, 3, 2), (1, 2, 3)]
    >>> round(source_kernel_volume(vertices, faces, (1, 1, 1), 0), 9)
    36.0
    """
    at, width = vector(c, "the centre c"), arrays.number(sigma, "sigma")
    return float(call("source_kernel_volume", *mesh_runs(vertices, faces), at, width).value)


def source_enclosed_volume(vertices: arrays.Items, faces: arrays.Items) -> float:
    """The enclosed volume, without its sign.

    >>> vertices = [(0, 0, 0), (6, 0, 0), (0, 6, 0), (0, 0, 6)]
    >>> round(source_enclosed_volume(vertices, [(0, 1, 2), (0, 3, 1), (0, 2, 3), (1, 3, 2)]), 9)
    36.0
    """
    return float(call("source_enclosed_volume", *mesh_runs(vertices, faces)).value)


def source_normalize(
    vertices: arrays.Items, faces: arrays.Items, kernels: KernelList, target: float
) -> List[Kernel]:
    """Kernels rescaled to a target mass, kg, inside a mesh. All exponents are 1, or it is refused.

    >>> vertices = [(0, 0, 0), (6, 0, 0), (0, 6, 0), (0, 0, 6)]
    >>> faces = [(0, 2, 1), (0, 1, 3), (0, 3, 2), (1, 2, 3)]
    >>> [round(k.w, 9) for k in source_normalize(vertices, faces, [Kernel((1, 1, 1), 0, 10, 1)], 72000)]
    [2000.0]
    """
    return _rewritten("source_normalize", vertices, faces, kernels, arrays.number(target, "target"))


def source_calibrate(
    vertices: arrays.Items, faces: arrays.Items, kernels: KernelList, total: float, mean: Optional[float] = None
) -> List[Kernel]:
    """Kernels stretched with their mesh and brought to its mass: the mean density times the mesh's volume, or the
    total where that is None. All exponents are 1, or it is refused.

    >>> vertices = [(0, 0, 0), (6, 0, 0), (0, 6, 0), (0, 0, 6)]
    >>> faces = [(0, 2, 1), (0, 1, 3), (0, 3, 2), (1, 2, 3)]
    >>> [round(k.w, 9) for k in source_calibrate(vertices, faces, [Kernel((1, 1, 1), 0, 10, 1)], 0, 1500)]
    [1500.0]
    """
    mass = arrays.number(total, "total")
    density = 0.0 if mean is None else arrays.number(mean, "mean")
    return _rewritten("source_calibrate", vertices, faces, kernels, mass, density, mean is not None)


def _rewritten(
    name: str, vertices: arrays.Items, faces: arrays.Items, kernels: KernelList, *numbers: Any
) -> List[Kernel]:
    """The kernels that a function writes."""
    run = kernel_run(kernels)
    out = array("d", [0.0]) * run.count
    answer = call(name, *mesh_runs(vertices, faces), *run.lent(), *numbers, *arrays.written(out).lent())
    return listed(out, answer.kernels)
