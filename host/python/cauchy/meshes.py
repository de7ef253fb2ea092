"""What can be asked of a mesh without a store. Vertices and faces are arrays, flat or in rows of three."""
from typing import Any, Tuple

from . import arrays
from .library import call
from .values import KernelList, MassReport, kernel_run, masses, vector


def mesh_runs(vertices: arrays.Items, faces: arrays.Items) -> Tuple[Any, ...]:
    """A mesh for the library: two runs, each as pointer and count."""
    xyz, corners = arrays.floats(vertices, "vertices", 3), arrays.words(faces, "faces", 3)
    return (*xyz.lent(), *corners.lent())


def closed(vertices: arrays.Items, faces: arrays.Items) -> bool:
    """True where a mesh is closed: no face names a corner twice, and each edge of a face occurs once over all
    faces, its reverse also once. Any other mesh is refused: mass means nothing on a shell with a hole.

    >>> vertices = [(0, 0, 0), (6, 0, 0), (0, 6, 0), (0, 0, 6)]
    >>> faces = [(0, 2, 1), (0, 1, 3), (0, 3, 2), (1, 2, 3)]
    >>> closed(vertices, faces), closed([], [])
    (True, True)
    >>> closed(vertices, faces[1:])
    Traceback (most recent call last):
    cauchy.NotClosed: not closed: an edge does not occur once each way, or a face names a corner twice (no 22)
    >>> closed(vertices, [(0, 1, 4)])
    Traceback (most recent call last):
    cauchy.LooseCorner: loose corner: a face names a vertex that is not there (no 3)
    >>> closed(vertices, [(0, 1, -1)])
    Traceback (most recent call last):
    cauchy.LooseCorner: loose corner: a face names a vertex that is not there (no 3)
    """
    call("closed", *mesh_runs(vertices, faces))
    return True


def kernel_volume(vertices: arrays.Items, faces: arrays.Items, c: arrays.Items, sigma: float) -> float:
    """The integral of (1 + sigma^2 |x - c|^2)^-1 inside a mesh.

    >>> vertices = [(0, 0, 0), (6, 0, 0), (0, 6, 0), (0, 0, 6)]
    >>> faces = [(0, 2, 1), (0, 1, 3), (0, 3, 2), (1, 2, 3)]
    >>> kernel_volume(vertices, faces, (1, 1, 1), 0.1) < body_volume(vertices, faces)
    True
    """
    at, width = vector(c, "the centre c"), arrays.number(sigma, "sigma")
    return float(call("kernel_volume", *mesh_runs(vertices, faces), at, width).value)


def body_volume(vertices: arrays.Items, faces: arrays.Items) -> float:
    """The enclosed volume, below 0 where the faces are inside out.

    >>> vertices = [(0, 0, 0), (6, 0, 0), (0, 6, 0), (0, 0, 6)]
    >>> round(body_volume(vertices, [(0, 2, 1), (0, 1, 3), (0, 3, 2), (1, 2, 3)]), 9)
    36.0
    """
    return float(call("body_volume", *mesh_runs(vertices, faces)).value)


def volume_centroid(vertices: arrays.Items, faces: arrays.Items) -> Tuple[float, float, float]:
    """The centroid of the enclosed volume; zeros where that is tiny or NaN.

    >>> vertices = [(0, 0, 0), (6, 0, 0), (0, 6, 0), (0, 0, 6)]
    >>> [round(x, 9) for x in volume_centroid(vertices, [(0, 2, 1), (0, 1, 3), (0, 3, 2), (1, 2, 3)])]
    [1.5, 1.5, 1.5]
    """
    at = call("volume_centroid", *mesh_runs(vertices, faces)).at
    return at.x, at.y, at.z


def field_mass(vertices: arrays.Items, faces: arrays.Items, kernels: KernelList) -> float:
    """The mass of kernels inside a mesh, exponents taken as 1.

    >>> vertices = [(0, 0, 0), (6, 0, 0), (0, 6, 0), (0, 0, 6)]
    >>> faces = [(0, 2, 1), (0, 1, 3), (0, 3, 2), (1, 2, 3)]
    >>> round(field_mass(vertices, faces, [Kernel((1, 1, 1), 0, 10, 1)]), 9)
    360.0
    """
    run = kernel_run(kernels)
    return float(call("field_mass", *mesh_runs(vertices, faces), *run.lent()).value)


def homogeneous(bulk: float, vertices: arrays.Items, faces: arrays.Items) -> MassReport:
    """The report of a body of one density, which is taken as it is given.

    >>> vertices = [(0, 0, 0), (6, 0, 0), (0, 6, 0), (0, 0, 6)]
    >>> round(homogeneous(1190, vertices, [(0, 2, 1), (0, 1, 3), (0, 3, 2), (1, 2, 3)]).applied_mass, 6)
    42840.0
    """
    density = arrays.number(bulk, "bulk")
    return MassReport(**masses(call("homogeneous", density, *mesh_runs(vertices, faces)).report))
