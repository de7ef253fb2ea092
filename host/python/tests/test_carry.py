"""A store of the form before layers, carried over. The snapshot in ../../tests/data is of a half worked store, and the
answers beside it are those of the version that wrote it, as it went on: see make.py there."""
import struct
import unittest
from array import array
from pathlib import Path

import cauchy
from cauchy import RAW, SnapshotError, Store, mass, rho0
from cauchy.snapshot import crc64

DATA = Path(__file__).resolve().parents[2] / "tests/data"
SNAPSHOT = (DATA / "before-layers.snapshot").read_bytes()
ANSWERS = (DATA / "before-layers.answers").read_text(encoding="ascii").splitlines()


def bits(*numbers):
    return [struct.pack(">d", x).hex() for x in numbers]


def number(text):
    return struct.unpack(">d", bytes.fromhex(text))[0]


def old_runs():
    n_floats, n_words = struct.unpack("<QQ", SNAPSHOT[8:24])
    middle = 24 + 8 * n_floats
    return array("d", SNAPSHOT[24:middle]), array("I", SNAPSHOT[middle:middle + 4 * n_words])


def forged(floats, words):
    """A snapshot of these runs in the form before layers, with a checksum that fits."""
    body = struct.pack("<8sQQ", b"CAUCHY01", len(floats), len(words)) + bytes(floats) + bytes(words)
    return body + struct.pack("<Q", crc64(body))


class GoneOn:
    """Makes the calls of all lines, in order: each gives the fields that the old version gave."""

    def __init__(self, store):
        self.store, self.by, self.pieces, self.lines = store, RAW, [], None

    def state(self, place):
        start = 2 + 4 * int(place)
        *state, layer = self.store.words[start:start + 4].tolist()
        return [place, *map(str, state)] if layer == 0 else None

    def left(self):
        return [str(self.store.left())]

    def advance(self, budget):
        return [budget, *map(str, self.store.advance(int(budget)))]

    def convention(self, kind, target, bulk):
        self.by = (RAW, rho0(number(bulk)), mass(number(target), number(bulk)))[int(kind)]
        return [kind, target, bulk]

    def density(self, x, y, z):
        return [x, y, z, *bits(self.store.density(self.by, (number(x), number(y), number(z))))]

    def report(self):
        told = self.store.report(self.by)
        self.pieces = self.store.list(self.by)
        return [*bits(told.raw_mass, told.rho0_scale, told.rho0_mass, told.applied_scale, told.applied_mass,
                      told.target_mass, told.volume), str(told.kernels), str(told.pieces), *bits(told.error)]

    def piece(self):
        k = self.pieces.pop(0)
        return bits(*k.c, k.sigma, k.w, k.alpha)

    def page(self):
        self.lines = self.lines or self.store.page().splitlines()
        return self.lines.pop(0)


class Carry(unittest.TestCase):
    def goes_on(self, store):
        on = GoneOn(store)
        given = {"state": 1, "advance": 1, "density": 3, "by": 3}
        for line in ANSWERS:
            word, rest = line.split(" ", 1)
            if word == "page":
                self.assertEqual(on.page(), rest)
                continue
            fields = rest.split()
            call = getattr(on, "convention" if word == "by" else word)
            self.assertEqual(call(*fields[:given.get(word, 0)]), fields, line)
        self.assertEqual((on.pieces, on.lines), ([], []))

    def test_a_snapshot_of_the_version_before_layers_goes_on_as_it_did(self):
        store = Store.from_bytes(SNAPSHOT)
        self.assertTrue(store.carried and store.copy().carried)
        again = Store.from_bytes(store.to_bytes())
        self.assertFalse(again.carried)
        for each in (store, again):
            self.goes_on(each)

    def test_a_carry_of_the_runs_is_the_snapshots_store(self):
        floats, words = old_runs()
        data = Store.from_bytes(SNAPSHOT).to_bytes()
        for given in ((floats, words), (list(floats), list(words)), (memoryview(floats), memoryview(words))):
            store = Store.carry_from_old(*given)
            self.assertTrue(store.carried)
            self.assertEqual(store.to_bytes(), data)
        self.goes_on(store)
        # what stands past the old store's own is left behind
        self.assertEqual(Store.carry_from_old(floats + array("d", [7.0]), words + array("I", [1, 2])).to_bytes(), data)
        self.assertEqual([bytes(run) for run in (floats, words)], [bytes(run) for run in old_runs()])

    def test_a_put_after_the_carry_is_as_in_any_store(self):
        store = Store.from_bytes(SNAPSHOT)
        held = store.held(9)
        told, again = store.put(9, held.kernel, layer=4), cauchy.decompose(held.kernel, store.radius)
        self.assertEqual((told.pieces, told.fit), (len(again.pieces), again.fit))
        self.assertEqual((store.held(9).layer, store.held(9).error), (4, again.error))

    def test_old_runs_that_hold_no_store_are_refused(self):
        floats, words = old_runs()
        verts, faces = words[:2]
        of_mesh = 1761 + 3 * verts
        short = ((floats, []), ([], words), (floats, words[:97]), (floats, words[:-1]), (floats[:of_mesh - 1], words))
        for given in short:
            with self.assertRaises(cauchy.ShortStore):
                Store.carry_from_old(*given)
        for at, to in ((0, 2**32 - 1), (1, 2**32 - 1), (2, 18), (4, faces), (98, verts), (-1, 2**32 - 1)):
            damaged = words[:]
            damaged[at] = to
            with self.subTest(at=at), self.assertRaises(cauchy.ShortStore if at in (0, 1) else cauchy.Unsound):
                Store.carry_from_old(floats, damaged)
        for wrong in (None, 5, "text", b"bytes", [1.5]):
            with self.subTest(wrong=wrong), self.assertRaises(TypeError):
                Store.carry_from_old(floats, wrong)

    def test_old_snapshots_that_are_damaged_or_hold_no_store(self):
        floats, words = old_runs()

        def fault(data):
            with self.assertRaises(SnapshotError) as told:
                Store.from_bytes(data)
            cause = told.exception.__cause__
            return told.exception.fault if cause is None else type(cause)

        self.assertEqual(forged(floats, words), SNAPSHOT)
        self.assertEqual(fault(SNAPSHOT[:-1]), "length")
        self.assertEqual(fault(SNAPSHOT[:100] + b"\x55" + SNAPSHOT[101:]), "checksum")
        self.assertIs(fault(forged(floats, words[:-1])), cauchy.ShortStore)
        self.assertIs(fault(forged(array("d"), array("I"))), cauchy.ShortStore)
        self.assertIs(fault(forged(floats, words + array("I", [0]))), cauchy.Unsound)
        self.assertIs(fault(forged(floats + array("d", [0.0]), words)), cauchy.Unsound)
        self.assertIs(fault(forged(floats + array("d", [0.0, 0.0, -0.0]), words)), cauchy.Unsound)
        self.assertTrue(Store.from_bytes(forged(floats + array("d", [0.0] * 3), words)).carried)


if __name__ == "__main__":
    unittest.main()
