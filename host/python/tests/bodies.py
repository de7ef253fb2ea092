"""A mesh for the tests."""
from typing import List, Tuple


def sphere(halvings: int) -> Tuple[List[Tuple[float, ...]], List[Tuple[int, ...]]]:
    """An octahedron of 500 m whose edges are halved so often, brought to a sphere: 8 * 4**halvings faces."""
    points = [(1, 0, 0), (0, 1, 0), (-1, 0, 0), (0, -1, 0), (0, 0, 1), (0, 0, -1)]
    faces = [(i, (i + 1) % 4, 4) for i in range(4)] + [((i + 1) % 4, i, 5) for i in range(4)]
    for _ in range(halvings):
        middles = {}

        def middle(a: int, b: int) -> int:
            key = (min(a, b), max(a, b))
            if key not in middles:
                points.append(tuple((x + y) / 2 for x, y in zip(points[a], points[b])))
                middles[key] = len(points) - 1
            return middles[key]

        halves = [(a, b, c, middle(a, b), middle(b, c), middle(c, a)) for a, b, c in faces]
        faces = [t for a, b, c, u, v, w in halves for t in ((a, u, w), (u, b, v), (w, v, c), (u, v, w))]
    return [tuple(500 * x / sum(y * y for y in p) ** 0.5 for x in p) for p in points], faces
