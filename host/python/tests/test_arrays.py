"""Arrays of every layout: lent without a copy, converted, or refused, and never a wrong figure."""
import ctypes
import os
import subprocess
import sys
import unittest
from array import array
from unittest import mock

import cauchy
from bodies import sphere
from cauchy import RAW, Kernel, Store, arrays

try:
    import numpy as np
except ImportError:
    np = None

VERTICES, FACES = sphere(1)
POINTS = [(1.0, 2.0, 3.0), (40.0, -50.0, 60.0), (0.0, 0.0, 0.0), (-7.0, 800.0, 9.0)]
FLAT = [x for point in POINTS for x in point]


def filled():
    store = Store(500, VERTICES, FACES)
    store.put(0, Kernel((1, 2, 3), 0.01, 700, 1))
    store.put(1, Kernel((100, 20, 30), 0.02, 50, 2))
    store.advance(10**6)
    return store


class Cases(unittest.TestCase):
    """Arguments as points of a track, and as the mesh of a store, against the same numbers in lists."""

    @classmethod
    def setUpClass(cls):
        cls.store = filled()
        cls.expected = [cls.store.density(RAW, point) for point in POINTS]

    def right(self, points):
        self.assertEqual(self.store.track(RAW, points).tolist(), self.expected)
        if arrays.is_rows(points, "points"):
            self.assertEqual(self.store.density(RAW, points).tolist(), self.expected)

    def refused(self, points, kind=TypeError):
        for call in (lambda: self.store.track(RAW, points), lambda: self.store.density(RAW, points),
                     lambda: Store(500, points, [])):
            with self.assertRaises(kind):
                call()

    def right_faces(self, faces):
        self.assertEqual(bytes(Store(500, VERTICES, faces).words), bytes(Store(500, VERTICES, FACES).words))

    def loose(self, faces):
        with self.assertRaises(cauchy.LooseCorner):
            Store(500, VERTICES, faces)

    def in_place(self, values, address, run=arrays.floats):
        self.assertEqual(run(values, "values", 3).address(), address)


class Buffers(Cases):
    """What the standard library has."""

    def test_doubles_in_place(self):
        run = array("d", FLAT)
        rows = memoryview(run).cast("B").cast("d", (4, 3))
        of_ctypes = (ctypes.c_double * 3 * 4).from_buffer(run)
        for values in (run, memoryview(run), rows, of_ctypes):
            self.right(values)
            self.in_place(values, run.buffer_info()[0])

    def test_corners_in_place(self):
        flat = [corner for face in FACES for corner in face]
        for code in "Ii":
            run = array(code, flat)
            self.right_faces(run)
            self.in_place(run, run.buffer_info()[0], arrays.words)

    def test_what_is_copied(self):
        run = array("d", FLAT)
        gaps = memoryview(array("d", [x for t in FLAT for x in (t, 7)]))[::2]
        backward = memoryview(array("d", FLAT[::-1]))[::-1]
        shifted = memoryview(bytearray(b"?" + run.tobytes()))[1:].cast("d")
        big = (ctypes.c_double.__ctype_be__ * 12)(*FLAT)
        for values in (gaps, backward, shifted, big, memoryview(run).toreadonly(), memoryview(run.tobytes()).cast("d")):
            self.right(values)
            self.assertEqual(arrays.floats(values, "points", 3).address() % 8, 0)
        for code in "fhilq":
            self.right(array(code, map(int, FLAT) if code != "f" else FLAT))
        for code in "hHlLqQ":
            self.right_faces(array(code, [corner for face in FACES for corner in face]))

    def test_sequences(self):
        for values in (FLAT, tuple(FLAT), POINTS, [list(p) for p in POINTS], [array("d", p) for p in POINTS],
                       [memoryview(array("d", p)) for p in POINTS], [tuple(map(int, p)) for p in POINTS]):
            self.right(values)
        self.right_faces([array("H", face) for face in FACES])

    def test_a_point_may_be_a_buffer(self):
        big = (ctypes.c_double.__ctype_be__ * 3)(*POINTS[1])
        for point in (array("d", POINTS[1]), array("f", POINTS[1]), (ctypes.c_double * 3)(*POINTS[1]), big):
            self.assertEqual(self.store.density(RAW, point), self.expected[1])
        with self.assertRaises(ValueError):
            self.store.density(RAW, array("d", FLAT))

    def test_what_is_refused(self):
        run = array("d", FLAT)
        of_bytes = (run.tobytes(), bytearray(run.tobytes()), memoryview(run).cast("B"), array("b", range(12)),
                    array("B", range(12)), "1 2 3", (ctypes.c_bool * 3)(1, 0, 1), (ctypes.c_char * 24)())
        in_no_order = ({1.0, 2.0, 3.0}, {0: 1, 1: 2, 2: 3}, iter(FLAT), None, 5)
        of_others = ([1, 2, "3"], [None] * 3, [True, 0, 0], [1j, 0, 0], [(1, 2, 3), 4], [(1, 2, 3), "abc"],
                     [(1, 2, 3), b"abc"])
        for values in (*of_bytes, *in_no_order, *of_others):
            with self.subTest(values=values):
                self.refused(values)
        self.refused(memoryview(run).cast("B").cast("d", (3, 4)), ValueError)
        self.refused(memoryview(run).cast("B").cast("d", (1, 4, 3)), ValueError)
        self.refused([(1, 2, 3), (1, 2)], ValueError)
        self.refused([10**400, 0, 0], ValueError)
        for faces in (array("d", [0, 1, 2]), array("f", [0, 1, 2]), [0.0, 1.0, 2.0], [True, 1, 2], "012", b"\0\1\2",
                      [None] * 3):
            with self.subTest(faces=faces), self.assertRaises(TypeError):
                Store(500, VERTICES, faces)

    def test_corners_that_no_mesh_has(self):
        for corner in (-1, 2**32, 2**32 + 1, -2**32, 2**64, 2**70, len(VERTICES)):
            self.loose([(0, 1, corner)])
        for code, corner in (("i", -1), ("q", -1), ("q", 2**32), ("q", 2**32 + 1), ("Q", 2**64 - 1), ("h", -1)):
            self.loose(array(code, [0, 1, corner]))

    def test_numbers_of_more_bits_are_rounded_as_floats_are(self):
        values = [2**53 + 1, 2**63 - 1, -2**63]
        expected = [float(x) for x in values]
        self.assertEqual(list(Store(1, values, []).floats[1761:]), expected)
        self.assertEqual(list(Store(1, array("q", values), []).floats[1761:]), expected)

    def test_without_points(self):
        for empty in ([], (), array("d"), array("f"), memoryview(b"").cast("d")):
            self.assertEqual(self.store.track(RAW, empty).tolist(), [])

    def test_many_points_are_what_each_is(self):
        points = [(x % 17 - 8.0, x % 5 * 30.0, x / 9) for x in range(9000)]
        answer = self.store.density(RAW, points)
        self.assertEqual(len(answer), 9000)
        for x in (0, 1, 4095, 4096, 4097, 8191, 8192, 8999):
            self.assertEqual(answer[x], self.store.density(RAW, points[x]))

    def test_an_array_cannot_be_resized_while_it_is_lent(self):
        run = array("d", FLAT)
        lent = arrays.floats(run, "points", 3)
        with self.assertRaises(BufferError):
            run.append(1.0)
        del lent
        run.append(1.0)

    def test_what_is_imported(self):
        program = ("import sys, cauchy; s = cauchy.Store(1, [0] * 9, [0, 1, 2]); s.density(cauchy.RAW, (0, 0, 0));"
                   "assert 'numpy' not in sys.modules; t = s.track(cauchy.RAW, [(0, 0, 0)]); print(type(t).__module__)")
        told = subprocess.run([sys.executable, "-c", program], check=True, stdout=subprocess.PIPE,
                              env={**os.environ, "PYTHONPATH": os.pathsep.join(filter(None, sys.path))})
        self.assertEqual(told.stdout.decode().strip(), "array" if np is None else "numpy")

    def test_answers_without_numpy(self):
        with mock.patch.object(arrays, "_numpy", [None]):
            self.assertIsInstance(self.store.track(RAW, FLAT), array)
            vertices, faces = self.store.mesh()
        self.assertEqual((list(vertices), list(faces)),
                         ([x for v in VERTICES for x in v], [i for face in FACES for i in face]))


@unittest.skipIf(np is None, "no numpy")
class Numpy(Cases):
    def setUp(self):
        self.rows = np.array(POINTS)

    def converted_both_ways(self, check, *values):
        """By numpy, and as where numpy is not there."""
        for value in values:
            with self.subTest(type=getattr(value, "dtype", type(value)), strides=getattr(value, "strides", None)):
                check(value)
                with mock.patch.object(arrays, "_loaded_numpy", lambda: None):
                    check(value)

    def test_answers_are_arrays_of_numpy(self):
        for answer in (self.store.track(RAW, POINTS), self.store.density(RAW, self.rows)):
            self.assertIsInstance(answer, np.ndarray)
            self.assertEqual((answer.dtype, answer.shape), (np.float64, (4,)))
        vertices, faces = self.store.mesh()
        self.assertEqual((vertices.shape, faces.shape, faces.dtype), ((18, 3), (32, 3), np.uint32))
        self.assertEqual((vertices.tolist(), faces.tolist()), ([*map(list, VERTICES)], [*map(list, FACES)]))
        self.assertIsInstance(self.store.density(RAW, self.rows[1]), float)

    def test_doubles_and_corners_in_place(self):
        faces = np.array(FACES)
        for values in (self.rows, self.rows.ravel(), self.rows[1:], self.rows[:0].reshape(0, 3)):
            self.in_place(values, values.ctypes.data if values.size else 0)
        self.right(self.rows)
        for kind in (np.uint32, np.int32, "<u4", "<i4"):
            values = faces.astype(kind)
            self.in_place(values, values.ctypes.data, arrays.words)
            self.right_faces(values)

    def test_strides(self):
        rows = self.rows
        wide = np.zeros((4, 7))
        wide[:, 1:6:2] = rows
        self.converted_both_ways(self.right, np.asfortranarray(rows), wide[:, 1:6:2], rows[::-1].copy()[::-1],
                                 rows[:, ::-1].copy()[:, ::-1], np.repeat(rows, 2, axis=0)[::2], rows.T.copy().T,
                                 np.repeat(rows.ravel(), 3)[::3])
        same = np.broadcast_to(rows[1], (4, 3))
        self.assertEqual(self.store.track(RAW, same).tolist(), [self.expected[1]] * 4)
        faces = np.array(FACES, dtype=np.uint32)
        self.converted_both_ways(self.right_faces, np.asfortranarray(faces), faces[::-1].copy()[::-1],
                                 np.repeat(faces, 2, axis=1)[:, ::2], faces.T.copy().T)

    def test_read_only_and_unaligned(self):
        rows = self.rows.copy()
        rows.flags.writeable = False
        memory = np.frombuffer(bytearray(b"?" + rows.tobytes()), dtype=np.float64, offset=1).reshape(4, 3)
        self.assertFalse(memory.flags.aligned)
        field = np.zeros(12, dtype=[("a", "u1"), ("x", "f8")])
        field["x"] = FLAT
        self.converted_both_ways(self.right, rows, memory, field["x"])
        self.assertEqual(arrays.floats(memory, "points", 3).address() % 8, 0)
        self.in_place(rows, rows.ctypes.data)
        faces = np.array(FACES, dtype=np.uint32)
        faces.flags.writeable = False
        self.converted_both_ways(self.right_faces, faces)
        self.in_place(faces, faces.ctypes.data, arrays.words)

    def test_memory_that_only_the_run_keeps(self):
        class Table:
            def __array__(self, dtype=None, copy=None):
                rows = np.repeat(np.array(POINTS), 5000, axis=0)
                rows.flags.writeable = False
                return rows

        pointer, count = arrays.floats(Table(), "points", 3).lent()
        others = [np.full(60000, 7.0) for _ in range(20)]
        self.assertEqual((ctypes.c_double * 3).from_address(ctypes.addressof(pointer._obj))[:], list(POINTS[0]))
        self.assertEqual((count, len(others)), (60000, 20))

    def test_other_numbers(self):
        kinds = ("f4", ">f4", ">f8", "i8", ">i8", "i4", ">i4", "u4", "i2", ">i2")
        values = [np.abs(self.rows).astype(kind) if "u" in kind else self.rows.astype(kind) for kind in kinds]
        signed = [value for kind, value in zip(kinds, values) if "u" not in kind]
        self.converted_both_ways(self.right, *signed, *(np.asfortranarray(value) for value in signed))
        expected = [self.store.density(RAW, tuple(map(abs, point))) for point in POINTS]
        self.assertEqual(self.store.track(RAW, values[7]).tolist(), expected)
        thirds = (self.rows / 3).astype("f4")
        self.assertEqual(self.store.track(RAW, thirds).tolist(),
                         [self.store.density(RAW, tuple(map(float, row))) for row in thirds])

    def test_other_corners(self):
        faces = np.array(FACES)
        kinds = ("i8", ">i8", "u8", ">u8", "u2", "i2", ">u4", ">i4", ">u2")
        self.converted_both_ways(self.right_faces, *(faces.astype(kind) for kind in kinds),
                                 *(np.asfortranarray(faces.astype(kind)) for kind in kinds))
        for kind, corner in (("i8", -1), ("i8", 2**32), ("i8", 2**32 + 1), ("u8", 2**64 - 1), ("i4", -1), (">i4", -1),
                             ("i2", -1), (">i8", 2**33), ("u8", 2**32)):
            bad = faces.astype(kind)
            bad[5, 1] = corner
            self.converted_both_ways(self.loose, bad, np.asfortranarray(bad))

    def test_what_is_refused(self):
        rows = self.rows
        objects = np.empty((4, 3), dtype=object)
        objects[:] = rows
        records = np.zeros(4, dtype=[("x", "f8"), ("y", "f8"), ("z", "f8")])
        wrong = [rows.astype(kind) for kind in ("c16", "g", "f2", "b1", "i1", "u1", "S8", "U8")]
        wrong += [objects, records, rows.astype("i8").astype("M8[s]"), rows.astype("i8").astype("m8[s]"),
                  np.ma.masked_array(rows, rows > 10), np.ma.masked_array(rows)]
        self.converted_both_ways(self.refused, *[w for w in wrong if not isinstance(w, np.ma.MaskedArray)])
        for values in wrong:
            self.refused(values)
        for values in (np.array(5.0), rows.T, rows[:, :2], rows.reshape(2, 2, 3), np.zeros((4, 0)), np.zeros((0, 2))):
            self.converted_both_ways(lambda shaped: self.refused(shaped, ValueError), values)
        for kind in ("f8", "f4", "b1", "c16", "u1", "O", "g"):
            with self.subTest(kind=kind), self.assertRaises(TypeError):
                Store(500, VERTICES, np.array(FACES).astype(kind))

    def test_what_numpy_takes_as_an_array(self):
        class Table:
            def __array__(self, dtype=None, copy=None):
                return np.asfortranarray(POINTS)

        self.right(Table())

    def test_numbers_and_points_of_numpy(self):
        for kind in (np.float64, np.float32, np.int32, np.uint8):
            centre = np.array([1, 2, 3], dtype="i4")
            self.assertEqual(Kernel(centre, kind(4), kind(5), kind(6)), Kernel((1, 2, 3), 4, 5, 6))
        self.assertEqual(self.store.held(np.int64(0)), self.store.held(0))
        for wrong in (np.bool_(True), np.complex128(1), np.array([1.0]), np.array(1.0), np.datetime64("2020")):
            with self.subTest(wrong=wrong), self.assertRaises(TypeError):
                Kernel((1, 2, 3), wrong, 5, 6)
        self.assertEqual(self.store.density(RAW, self.rows[1].astype(">f8")), self.expected[1])
        self.assertEqual(self.store.track(RAW, list(self.rows)).tolist(), self.expected)

    def test_kernel_lists(self):
        kernels = [Kernel((1, 2, 3), 0.01, 700, 1), Kernel((100, 20, 30), 0.02, 50, 2)]
        table = np.array([[*k.c, k.sigma, k.w, k.alpha] for k in kernels])
        for values in (table, table.ravel(), np.asfortranarray(table), table.astype(">f8")):
            self.assertEqual(cauchy.densitize(values, (4, 5, 6)), cauchy.densitize(kernels, (4, 5, 6)))
            self.assertEqual(cauchy.decompose_list(values, 500), cauchy.decompose_list(kernels, 500))
            self.assertEqual(cauchy.bill(values, 18, 32), cauchy.Bill(14 * 32, 14 * 6))
        with self.assertRaises(ValueError):
            cauchy.densitize(table.T, (4, 5, 6))

    def test_equations(self):
        self.assertEqual(cauchy.solve(2, np.array([[1.0, 1, 3], [1, 2, 5]])).answer, [1.0, 2.0])
        self.assertEqual(cauchy.solve(2, np.array([[1, 1], [1, 2], [3, 5]]).T).answer, [1.0, 2.0])


if __name__ == "__main__":
    unittest.main()
