"""Every entry point with wrong types and lengths: nothing but documented errors, and no change by a refused call."""
import ctypes
import random
import unittest
from array import array
from decimal import Decimal
from fractions import Fraction

import cauchy
from bodies import sphere
from cauchy import RAW, Kernel, Loader, Store, mass, rho0

try:
    import numpy as np
except ImportError:
    np = None

CALLS = 10_000
DOCUMENTED = (TypeError, ValueError, cauchy.Refused)
VERTICES, FACES = sphere(1)
ZERO = "0" * 16
LINE = f"(kernel (c {ZERO} {ZERO} {ZERO}) (sigma {ZERO}) (w {ZERO}) (alpha none))\n".encode()
ZERO_LINE = bytearray(LINE.replace(b"none", ZERO.encode()))
KERNELS = [Kernel((1, 2, 3), 0.01, 700, 1), Kernel((0, 0, 0), 0.001, 20, 2), Kernel((float("nan"),) * 3, 0, -1, 0.5)]

OTHERS = [Store(500, VERTICES, FACES), Store(499, VERTICES, FACES), Store(500, [], [])]
for _other in OTHERS:
    _other.put(3, KERNELS[0])
    _other.put(31, KERNELS[1])


class Odd:
    """A sequence that lies about its length."""

    def __len__(self):
        return 3

    def __getitem__(self, index):
        raise IndexError(index)


def anything(pick):
    """Something that is mostly wrong, whatever it is for."""
    size = pick.choice((0, 1, 2, 3, 4, 6, 7, 12))
    released = memoryview(bytearray(24)).cast("d")
    released.release()
    pool = [
        lambda: pick.choice((None, True, False, "", "abc", b"", b"abc", bytearray(24), object(), 1j, ..., Store, len)),
        lambda: pick.choice((0, 1, -1, 5, 31, 32, 2**31, 2**32, 2**32 + 1, 2**63, 2**64, -2**70, 10**400)),
        lambda: pick.choice((0.0, -0.0, 1.5, 1e300, 1e-320, float("inf"), float("-inf"), float("nan"))),
        lambda: pick.choice((Fraction(1, 3), Decimal(2), Fraction(10**400), released, Odd(), range(size))),
        lambda: pick.choice((RAW, KERNELS[0])),
        lambda: [anything(pick) for _ in range(size % 5)],
        lambda: tuple(pick.random() for _ in range(size)),
        lambda: [[pick.random() for _ in range(pick.choice((0, 2, 3, 3, 3, 4)))] for _ in range(size)],
        lambda: [pick.randrange(-2, 20) for _ in range(size)],
        lambda: array(pick.choice("dfbBhHiIlLqQ"), [pick.randrange(20) for _ in range(size)]),
        lambda: memoryview(array("d", [pick.random()] * 2 * size))[::pick.choice((1, 2, -1, -2))],
        lambda: memoryview(bytearray(8 * size)).cast(pick.choice("dBiIqf")),
        lambda: (pick.choice((ctypes.c_double, ctypes.c_int32, ctypes.c_bool, ctypes.c_longdouble)) * size)(),
        lambda: {pick.random(): 1 for _ in range(size)},
        lambda: {pick.random() for _ in range(size)},
        lambda: (pick.random() for _ in range(size)),
        lambda: pick.choice((KERNELS, KERNELS[:1], [KERNELS[0], None], [RAW])),
    ]
    if np is not None:
        kinds = ("f8", "f4", ">f8", "i8", "u4", "u1", "b1", "c16", "O", "M8[s]", "f2", "g", "S4")
        shapes = ((size,), (size, 3), (3, size), (size, 6), (1, size, 3), (0, 3))
        pool.append(lambda: np.zeros((), dtype=pick.choice(kinds)))
        pool += [lambda: np.zeros(pick.choice(shapes), dtype=pick.choice(kinds))[::pick.choice((1, -1))]] * 4
    return pick.choice(pool)()


def number(pick):
    return pick.choice((0, 1, 0.01, 500.0, -3, 1e12, float("nan"), float("inf"), Fraction(1, 2)))


RIGHT = {
    "number": number,
    "place": lambda pick: pick.randrange(-1, 34),
    "store": lambda pick: pick.choice(OTHERS),
    "layer": lambda pick: pick.randrange(-1, 18),
    "layers": lambda pick: pick.choice((None, [], [0], (3, 15), range(16), {2, 16}, [-1])),
    "budget": lambda pick: pick.choice((0, 1, 50, 10**4, 2**70)),
    "point": lambda pick: tuple(number(pick) for _ in range(3)),
    "points": lambda pick: [(1.0, 2.0, float(i)) for i in range(pick.choice((0, 1, 5)))],
    "kernel": lambda pick: pick.choice(KERNELS),
    "kernels": lambda pick: KERNELS[:pick.randrange(4)],
    "convention": lambda pick: pick.choice((RAW, rho0(), rho0(float("nan")), mass(5e11), mass(-1))),
    "vertices": lambda pick: VERTICES,
    "faces": lambda pick: FACES[:pick.choice((0, 5, 32))],
    "kind": lambda pick: pick.choice(("raw", "rho0", "mass")),
    "n": lambda pick: pick.randrange(-1, 18),
    "cells": lambda pick: [pick.random() for _ in range(pick.choice((0, 2, 6, 12)))],
    "count": lambda pick: pick.choice((0, 4, 1048576, 1048577, 2**32, 2**64, -1)),
    "lines": lambda pick: pick.choice((b"", LINE, LINE * 3, LINE[:-1], ZERO_LINE)),
    "loader": lambda pick: pick.choice(list(Loader)),
    "floats": lambda pick: array("d", bytes(8 * pick.choice((0, 1760, 1761, 1800)))),
    "words": lambda pick: array("I", bytes(4 * pick.choice((0, 97, 98, 130)))),
    "text": lambda pick: pick.choice(
        (Store(1, [], []).to_lines(), Store(1, VERTICES, FACES).to_lines(), LINE, b"(open")),
    "bytes": lambda pick: pick.choice((Store(1, [], []).to_bytes(), b"CAUCHY02", b"x" * 40)),
}

METHODS = {
    "put": "place kernel layer", "clear": "place", "reweigh": "place number", "squeeze": "", "advance": "budget",
    "advance_with": "budget", "adopt": "place store place", "left": "",
    "work": "budget", "density": "convention point layers",
    "track": "convention points layers", "report": "convention layers", "finished": "convention layers", "list": "convention layers", "page": "", "held": "place", "mesh": "", "to_bytes": "", "to_lines": "", "copy": "",
}
FUNCTIONS = {
    "Store": "number vertices faces", "Store.from_bytes": "bytes", "Store.carry_from_old": "floats words",
    "Store.from_lines": "text", "Kernel": "point number number number",
    "Convention": "kind number number", "rho0": "number", "mass": "number number",
    "kernel_from_file": "point number number number number", "convert": "lines number loader",
    "decompose": "kernel number", "decompose_list": "kernels number", "bill": "kernels count count",
    "densitize": "kernels point", "solve": "n cells", "closed": "vertices faces",
    "kernel_volume": "vertices faces point number", "body_volume": "vertices faces",
    "volume_centroid": "vertices faces", "field_mass": "vertices faces kernels",
    "homogeneous": "number vertices faces", "source_density_at": "kernels point",
    "source_kernel_volume": "vertices faces point number", "source_enclosed_volume": "vertices faces",
    "source_normalize": "vertices faces kernels number", "source_calibrate": "vertices faces kernels number number",
    "root": "number", "arc": "number", "log": "number", "exp": "number", "power": "number number", "ten": "number",
    "log10": "number", "radial_g": "number", "check_float_state": "",
}

MAKERS = {
    "Store.from_bytes": Store.from_bytes, "Store.carry_from_old": Store.carry_from_old,
    "Store.from_lines": Store.from_lines,
}


def arguments(pick, kinds):
    """Arguments of these kinds, some of them wrong, and at times one too few or too many."""
    given = [anything(pick) if pick.random() < 0.4 else RIGHT[kind](pick) for kind in kinds.split()]
    chance = pick.random()
    return given[:-1] if chance < 0.05 else given + [anything(pick)] if chance > 0.95 else given


class Fuzz(unittest.TestCase):
    def test_the_tables_name_every_entry_point(self):
        methods = {name for name in vars(Store) if not name.startswith("_") and callable(getattr(Store, name))}
        self.assertEqual(methods, {*METHODS, "from_bytes", "carry_from_old", "from_lines"})
        functions = {name for name in cauchy.__all__ if callable(getattr(cauchy, name))}
        answers = {"Adopted", "Bill", "Held", "MassReport", "StoreReport", "Placed", "Fit", "Solution", "Steps", "Pieces", "Floats",
                   "Items", "KernelList", "Loader", "UnknownRefusal", "FloatStateError", "SnapshotError", "Refused"}
        refusals = {kind.__name__ for kind in cauchy.REFUSALS.values()}
        self.assertEqual(functions - answers - refusals, set(FUNCTIONS) - set(MAKERS))

    def test_nothing_but_documented_errors(self):
        pick, told = random.Random(20), {"accepted": 0, "refused": 0}
        store = Store(500, VERTICES, FACES)
        for _ in range(CALLS):
            name, kinds = pick.choice([*METHODS.items(), *FUNCTIONS.items()])
            self.one_call(store, name, arguments(pick, kinds), told)
        self.assertGreater(min(told.values()), CALLS // 5, told)

    def one_call(self, store, name, given, told):
        call = MAKERS.get(name) or getattr(store if name in METHODS else cauchy, name)
        before = bytes(store.floats), bytes(store.words)
        try:
            answer = call(*given)
            if name == "work":
                list(answer)
            told["accepted"] += 1
        except DOCUMENTED as fault:
            told["refused"] += 1
            self.assertTrue(str(fault), f"{name}{tuple(given)}: {fault!r} says nothing")
            self.assertEqual((bytes(store.floats), bytes(store.words)), before, f"{name}{tuple(given)}")
        except Exception as fault:
            raise AssertionError(f"{name}{tuple(given)}: {fault!r}") from fault


if __name__ == "__main__":
    unittest.main()
