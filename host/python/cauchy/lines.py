"""A store as lines of text: how much memory they take. The library writes and reads them."""
import re
from ctypes import string_at
from typing import Tuple

from .arrays import Run
from .library import FACE_LINE, MAX_FACES, MAX_VERTICES, OPEN_LINE, PLACES, PUT_LINE, VERT_LINE

_OPENING = re.compile(rb"\(open \(radius .{16}\) \(verts (\d{1,10})\) \(faces (\d{1,10})\)\)\n", re.S)
_LONGEST_OPENING = OPEN_LINE + 20


def room(verts: int, faces: int) -> int:
    """The most bytes that the lines of a store of so many vertices and faces have.

    >>> from cauchy.lines import room
    >>> room(3, 1), room(1048576, 2097152)
    (4902, 125833847)
    """
    face = FACE_LINE + 3 * len(str(max(verts - 1, 0)))
    puts = sum(PUT_LINE + len(str(place)) + 2 for place in range(PLACES))
    return OPEN_LINE + len(f"{verts}{faces}") + VERT_LINE * verts + face * faces + puts


def counts(lines: Run) -> Tuple[int, int]:
    """The counts of vertices and faces in the opening line. Both are 0 where the library refuses the lines for what
    they are, ahead of runs that are too short: without an opening, with counts above the limits, or with fewer bytes
    than so many lines have."""
    count = lines.count
    found = _OPENING.match(string_at(lines.address(), min(count, _LONGEST_OPENING))) if count else None
    if found is None:
        return 0, 0
    verts, faces = int(found[1]), int(found[2])
    least = VERT_LINE * verts + (FACE_LINE + 3) * faces
    fits = verts <= MAX_VERTICES and faces <= MAX_FACES and least <= count - found.end()
    return (verts, faces) if fits else (0, 0)
