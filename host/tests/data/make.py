"""Writes before-layers.snapshot and before-layers.answers, run by `make` beside this file with the package `cauchy` of
the version before layers.

The answers are lines in the order of the calls, floats by the 16 hexadecimal digits of their bits, counts as decimals:
  state PLACE STATUS FINISHED DONE    the words of a filled place, as the snapshot has them
  left STEPS
  advance BUDGET DONE LEFT
  by KIND TARGET BULK                 the convention of the readings that follow
  density X Y Z VALUE
  report RAW_MASS RHO0_SCALE RHO0_MASS APPLIED_SCALE APPLIED_MASS TARGET_MASS VOLUME KERNELS PIECES ERROR
  piece X Y Z SIGMA W ALPHA           of the list, in order
  page LINE                           a line of the wall page, without its newline
"""
import struct
import sys
from pathlib import Path

from bodies import sphere
from cauchy import RAW, Kernel, Store, mass, rho0

NAN = float("nan")
LINES = []
# name, target and bulk as C takes them: a convention that does not read a number is given 0
CONVENTIONS = [((0, 0.0, 0.0), RAW), ((1, 0.0, 1500.0), rho0(1500)), ((2, 4.5e11, 1300.0), mass(4.5e11, 1300))]
POINTS = [(0.0, 0.0, 0.0), (120.0, -35.5, 60.25), (-410.0, 300.0, 7.0), (1e5, 2e5, -3e5)]


def hexadecimal(number):
    return struct.pack(">d", number).hex()


def say(word, *fields):
    LINES.append(" ".join([word, *(hexadecimal(x) if isinstance(x, float) else str(x) for x in fields)]))


def advance(store, budget):
    told = store.advance(budget)
    say("advance", budget, told.done, told.left)


def densities(store, conventions):
    for numbers, convention in conventions:
        say("by", *numbers)
        for point in POINTS:
            say("density", *point, store.density(convention, point))


def half_worked():
    """A store of 66 vertices, after a squeeze of two that no face used, with places in every state."""
    vertices, faces = sphere(2)
    vertices = [(9.0, 9.0, 9.0)] + [(x, 0.9 * y, 0.8 * z) for x, y, z in vertices] + [(8.0, 8.0, 8.0)]
    store = Store(500, vertices, [tuple(corner + 1 for corner in face) for face in faces])
    store.put(0, Kernel((10, 20, -30), 0.004, 1200, 1))  # stays
    store.put(1, Kernel((5, 5, 5), 0.02, 800, 3))  # cleared below
    store.put(3, Kernel((-60, 40, 25), 0.012, -250, 1.5))
    store.put(5, Kernel((0, 0, 90), 0.03, 400, 4))
    store.put(7, Kernel((1, 2, 3), 0.01, 99, NAN))  # no piece
    store.put(9, Kernel((80, -20, 10), 0.008, 310, 2.5))  # a piece half done
    store.put(12, Kernel((-15, 70, -45), 0.006, 150, 0.5))  # not begun
    store.put(31, Kernel((33, 44, -55), 0.02, -75, 2))  # not begun
    store.advance(500)
    store.clear(1)
    store.reweigh(3, -275.5)
    store.reweigh(31, 60.125)
    store.squeeze()
    store.put(12, Kernel((-15, 70, -45), 0.006, 175, 0.5))  # once more
    store.advance(4200)
    return store


def main(folder):
    store = half_worked()
    data = store.to_bytes()
    (folder / "before-layers.snapshot").write_bytes(data)
    for place in range(32):
        status, finished, done = store.words[2 + 3 * place:5 + 3 * place]
        if status > 0:
            say("state", place, status, finished, done)
    say("left", store.left())
    densities(store, CONVENTIONS[:2])
    advance(store, 77)
    advance(store, 1000)
    advance(store, 2**64 - 1)
    densities(store, CONVENTIONS)
    for numbers, convention in CONVENTIONS:
        say("by", *numbers)
        told = store.report(convention)
        say("report", told.raw_mass, told.rho0_scale, told.rho0_mass, told.applied_scale, told.applied_mass,
            told.target_mass, told.volume, told.kernels, told.pieces, told.error)
        for k in store.list(convention):
            say("piece", *k.c, k.sigma, k.w, k.alpha)
    for line in store.page().splitlines():
        say("page", line)
    (folder / "before-layers.answers").write_text("\n".join(LINES) + "\n", encoding="ascii")


if __name__ == "__main__":
    main(Path(sys.argv[1]))
