"""Values: what they take, that they do not change, and how they compare and print. Refusals: their classes."""
import copy
import ctypes
import dataclasses
import pickle
import struct
import unittest
from array import array
from fractions import Fraction

import cauchy
from bodies import sphere
from cauchy import RAW, Convention, Kernel, Loader, Store, mass, rho0

NAN = float("nan")


class Wrong(unittest.TestCase):
    """A missing or wrong number is never taken as another one."""

    def refused(self, kind, words, call, *arguments):
        with self.subTest(call=call, arguments=arguments), self.assertRaisesRegex(kind, words):
            call(*arguments)

    def test_kernels(self):
        self.refused(TypeError, "alpha", Kernel, (0, 0, 0), 1, 2)
        self.refused(TypeError, "sigma", Kernel)
        for centre in ((1, 2), (), (1, 2, 3, 4), []):
            self.refused(ValueError, "centre", Kernel, centre, 1, 2, 1)
        for centre in (None, 5, "abc", b"abc", {1, 2, 3}, {0: 1, 1: 2, 2: 3}, (x for x in (1, 2, 3)), ("1", "2", "3"),
                       (1, 2, None), (1, 2, 1j), (True, 0, 0)):
            self.refused(TypeError, "centre", Kernel, centre, 1, 2, 1)
        for number in (None, "1", b"1", 1j, True, [1], object()):
            self.refused(TypeError, "sigma", Kernel, (0, 0, 0), number, 2, 1)
            self.refused(TypeError, "w is", Kernel, (0, 0, 0), 1, number, 1)
            self.refused(TypeError, "alpha", Kernel, (0, 0, 0), 1, 2, number)
        self.refused(ValueError, "sigma", Kernel, (0, 0, 0), 10**400, 2, 1)

    def test_conventions(self):
        self.refused(TypeError, "target", mass)
        self.refused(TypeError, "target", mass, None)
        self.refused(TypeError, "bulk", rho0, "1190")
        self.refused(TypeError, "bulk", Convention, "mass", 1)
        self.refused(TypeError, "kind", Convention, 2, 1, 1)
        self.refused(ValueError, "kind", Convention, "rho1", 1, 1)

    def test_calls_on_a_store(self):
        store = Store(500, *sphere(0))
        kernel = Kernel((0, 0, 0), 1, 2, 1)
        before = store.to_bytes()
        for point in ((1, 2), (), (1, 2, 3, 4)):
            self.refused(ValueError, "point", store.density, RAW, point)
            self.refused(ValueError, r"points\[1\]", store.track, RAW, [(0, 0, 0), point])
        self.refused(TypeError, "point", store.density, RAW, None)
        self.refused(TypeError, "convention", store.density, None, (0, 0, 0))
        self.refused(TypeError, "convention", store.report, 0)
        self.refused(TypeError, "kernel", store.put, 0, ((0, 0, 0), 1, 2, 1))
        for place in (None, "0", 0.0, True, [0]):
            self.refused(TypeError, "place", store.put, place, kernel)
        for place in (-1, 32, 2**32, 2**64, -2**70):
            for call in (lambda place: store.put(place, kernel), store.clear, store.held):
                self.refused(cauchy.NoPlace, "no place", call, place)
        self.refused(TypeError, "budget", store.advance, 5.0)
        self.refused(ValueError, "budget", store.advance, -1)
        for portion in (0, -1):
            self.refused(ValueError, "portion", store.work, portion)
        self.refused(TypeError, "w is", store.reweigh, 0, None)
        self.assertEqual(store.to_bytes(), before)

    def test_kernel_lists(self):
        self.refused(TypeError, r"kernels\[1\]", cauchy.densitize, [Kernel((0, 0, 0), 1, 2, 1), None], (0, 0, 0))
        self.refused(TypeError, "kernels", cauchy.densitize, None, (0, 0, 0))

    def test_bills(self):
        kernel = Kernel((0, 0, 0), 1, 2, 1)
        for count in (None, "4", 4.0, True, [4], sphere(0)[0]):
            self.refused(TypeError, "vertices", cauchy.bill, [kernel], count, 4)
            self.refused(TypeError, "faces", cauchy.bill, [kernel], 4, count)
        self.refused(ValueError, "vertices is a count, and not -1", cauchy.bill, [kernel], -1, 4)
        self.refused(ValueError, "faces is a count, and not -1", cauchy.bill, [kernel], 4, -1)
        self.refused(TypeError, r"kernels\[1\]", cauchy.bill, [kernel, None], 4, 4)
        for count in (2097153, 2**32, 2**32 + 4, 2**64 + 4, 2**70):
            self.refused(cauchy.Oversize, "oversize", cauchy.bill, [kernel], count, 4)
            self.refused(cauchy.Oversize, "oversize", cauchy.bill, [kernel] * 33, 4, count)
        ragged = bytearray_view(6 * 33 + 1)
        self.refused(cauchy.Oversize, "oversize", cauchy.bill, ragged, 1048577, 4)
        self.refused(cauchy.ShortList, "short list", cauchy.bill, ragged, 4, 4)
        self.refused(cauchy.ManyKernels, "many kernels", cauchy.bill, [kernel] * 33, 4, 4)

    def test_conversions(self):
        for lines in (None, 5, "", LINE.decode(), [LINE], list(LINE), (x for x in LINE), {LINE}, array("d", [1.0]),
                      memoryview(bytearray(24)).cast("d"), (ctypes.c_bool * 3)(), released(), object()):
            self.refused(TypeError, "lines: bytes", cauchy.convert, lines, 1.5, Loader.NATIVE)
        for default in (None, "1", True, [1], 1j):
            self.refused(TypeError, "default is a number", cauchy.convert, LINE, default, Loader.NATIVE)
        for loader in (None, "native", 0, True, Loader):
            self.refused(TypeError, "loader is a Loader", cauchy.convert, LINE, 1.5, loader)
        self.refused(TypeError, "loader", cauchy.convert, LINE, 1.5)
        self.refused(ValueError, "strictly", Loader, "strictly")

    def test_other_real_numbers_are_taken(self):
        kernel = Kernel((Fraction(1, 2), 1, 2), Fraction(1, 4), 2, 1)
        self.assertEqual((kernel.c, kernel.sigma), ((0.5, 1.0, 2.0), 0.25))
        self.assertTrue(all(type(x) is float for x in (*kernel.c, kernel.sigma, kernel.w, kernel.alpha)))


class Values(unittest.TestCase):
    def all_values(self):
        store = Store(500, *sphere(0))
        store.put(3, Kernel((0, 0, 0), 0.01, 3, 2))
        list(store.work())
        yield from (Kernel((1, 2, 3), 4, 5, 6), RAW, rho0(), mass(1), cauchy.homogeneous(1190, *sphere(0)))
        yield cauchy.bill([Kernel((1, 2, 3), 4, 5, 6)], 6, 8)
        yield cauchy.decompose(Kernel((NAN, 0, 0), 0.01, 3, 2), NAN)
        yield from (store.report(RAW), store.held(3), store.put(0, Kernel((0, 0, 0), 1, 2, 1)), store.advance(1))

    def test_how_a_fit_ended(self):
        store = Store(500, *sphere(0))
        steep = Kernel((0, 0, 0), 0.01, 3, 2)
        fit = store.put(3, steep).fit
        self.assertEqual((fit.kind, fit.column), ("fitted", None))
        self.assertTrue(1e-18 < fit.pivot < 1)
        self.assertEqual(cauchy.decompose(Kernel((9, 9, 9), 0.01, -1, 2), 500).fit, fit)
        self.assertEqual(store.put(3, Kernel((0, 0, 0), 0.01, 3, 1)).fit, cauchy.Fit("kept"))
        self.assertEqual(store.put(3, Kernel((0, 0, 0), 0.01, 3, NAN)), (0, 0, cauchy.Fit("no exponent")))
        self.assertIsNone(cauchy.decompose_list([steep], 500).fit)

    def test_how_equations_were_solved(self):
        self.assertEqual(cauchy.solve(2, [4, 0, 8, 0, -0.5, 1]), ([2.0, -2.0], 0.5))
        self.assertEqual(cauchy.solve(0, []), ([], float("inf")))
        self.assertNotEqual(*[cauchy.solve(1, [NAN, 1]).pivot] * 2)
        with self.assertRaises(cauchy.FlatPivot) as raised:
            cauchy.solve(2, [1, 1, 2, 1, 1, 2])
        self.assertEqual((raised.exception.column, pickle.loads(pickle.dumps(raised.exception)).column), (1, 1))

    def test_they_cannot_be_changed(self):
        for value in self.all_values():
            names = value._fields if isinstance(value, tuple) else [f.name for f in dataclasses.fields(value)]
            for name in (*names, "other"):
                with self.subTest(value=value, name=name), self.assertRaises(AttributeError):
                    setattr(value, name, 1)

    def test_copies_are_equal_and_hash_alike(self):
        for value in self.all_values():
            for other in (copy.copy(value), copy.deepcopy(value), pickle.loads(pickle.dumps(value))):
                self.assertEqual(value, other)
                self.assertEqual(hash(value), hash(other))
                self.assertIn(other, {value})
            self.assertRegex(repr(value), rf"^{type(value).__name__}\(\w+=")

    def test_each_number_tells_values_apart(self):
        kernel = Kernel((1, 2, 3), 4, 5, 6)
        others = [Kernel((0, 2, 3), 4, 5, 6), Kernel((1, 0, 3), 4, 5, 6), Kernel((1, 2, 0), 4, 5, 6),
                  Kernel((1, 2, 3), 0, 5, 6), Kernel((1, 2, 3), 4, 0, 6), Kernel((1, 2, 3), 4, 5, 0)]
        self.assertEqual(len({kernel, *others}), 7)
        self.assertNotEqual(kernel, (1, 2, 3, 4, 5, 6))
        self.assertNotEqual(mass(5), rho0(5))

    def test_nan_equals_nan_and_zeros_are_equal(self):
        self.assertEqual(Kernel((NAN, 0.0, 1), 1, -NAN, 1), Kernel((float("nan"), -0.0, 1), 1, NAN, 1))
        self.assertEqual(len({Kernel((NAN, 0.0, 1), 1, NAN, 1), Kernel((float("nan"), -0.0, 1), 1, NAN, 1)}), 1)
        self.assertNotEqual(Kernel((NAN, 0, 1), 1, 1, 1), Kernel((0, 0, 1), 1, 1, 1))

    def test_users_cannot_write_the_runs_of_a_store(self):
        store = Store(500, *sphere(0))
        with self.assertRaises(TypeError):
            store.floats[0] = 1.0
        with self.assertRaises(TypeError):
            store.words[0] = 1
        for name in ("floats", "words", "radius", "more"):
            with self.assertRaises(AttributeError):
                setattr(store, name, None)
        with self.assertRaises((BufferError, ValueError)):
            store.floats.obj.close()
        with self.assertRaises((BufferError, ValueError, SystemError)):
            store.words.obj.resize(8192)
        self.assertEqual(store.left(), 0)


class Bills(unittest.TestCase):
    ALPHAS = {1: 1, 1 + 0.5e-9: 1, NAN: 0, 2: 13, 0: 13, 1.5: 13, 2.5: 16, -0.5: 16, float("inf"): 16, -1e300: 16}

    def test_pieces_of_each_kind(self):
        kernels = [Kernel((0, 0, 0), 0.01, 300, alpha) for alpha in self.ALPHAS]
        for kernel, pieces in zip(kernels, self.ALPHAS.values()):
            self.assertEqual(cauchy.bill([kernel], 6, 8), cauchy.Bill(8 * pieces, 6 * pieces))
        pieces = sum(self.ALPHAS.values())
        self.assertEqual(cauchy.bill(kernels, 1048576, 2097152), cauchy.Bill(2097152 * pieces, 6 * pieces))
        self.assertEqual(cauchy.bill([], 0, 0), cauchy.Bill(0, 0))

    def test_no_store_takes_more(self):
        kernels = [Kernel((5, 0, 0), 0.01, 300, alpha) for alpha in self.ALPHAS]
        due = cauchy.bill(kernels, 6, 8)
        for radius in (500, 0, -1, 1e300, float("inf"), NAN):
            store = Store(radius, *sphere(0))
            charged = sum(store.put(31 - place, kernel).need for place, kernel in enumerate(kernels))
            self.assertLessEqual(charged, due.steps)
            self.assertLessEqual(6 * len(store.list(RAW)), due.floats)


class Pages(unittest.TestCase):
    MASSES = {0.3: 0, -0.4: 0, -0.5: 0, 0.5: 0, 1.5: 2, 2.5: 2, -2.5: -2, 123456.75: 123457, 1e15: 10**15,
              -1e15: -10**15}

    def store(self, *places):
        store = Store(500, *sphere(0))
        for place in places:
            store.put(place, Kernel((0, 0, 0), 0, 1, 1))
        list(store.work())
        return store

    def test_it_shows_each_place_and_the_total(self):
        store = self.store(0, 9, 10, 31)
        store.put(10, Kernel((50, 0, 0), 0.01, 300, 2))
        store.put(31, Kernel((50, 0, 0), 0.01, 300, NAN))
        list(store.work())
        masses, rest = {}, store.list(RAW)
        for place in (0, 9, 10, 31):
            own, rest = rest[:store.held(place).pieces], rest[store.held(place).pieces:]
            masses[place] = round(cauchy.field_mass(*sphere(0), own))
        lines = [f"{place:2} {store.held(place).pieces:2}{mass:59}\n" for place, mass in masses.items()]
        self.assertEqual(store.page(), "".join(lines) + f"TOTAL{sum(masses.values()):59}\n")
        self.assertEqual([len(line) for line in store.page().splitlines()], [64] * 5)

    def test_masses_are_rounded_to_the_nearest_ties_to_even(self):
        store = self.store(3)
        volume = store.report(RAW).raw_mass
        for mass, printed in self.MASSES.items():
            weights = [mass / volume * (1 + i * 2.0**-53) for i in (0, 2, -1, 4, -2, 6, -3)]
            found = [w for w in weights if not store.reweigh(3, w) and store.report(RAW).raw_mass == mass]
            self.assertTrue(found, f"no weight gives a mass of exactly {mass}")
            store.reweigh(3, found[0])
            self.assertEqual(store.page(), f" 3  1{printed:59}\nTOTAL{printed:59}\n")

    def test_no_place_and_all_of_them(self):
        self.assertEqual(self.store().page(), f"TOTAL{0:59}\n")
        self.assertEqual(len(self.store(*range(32)).page()), 65 * 33)

    def test_it_is_refused_and_changes_nothing(self):
        store = self.store(3, 4)
        for weight in (NAN, float("inf"), 1e300, -1e300):
            store.reweigh(4, weight)
            before = store.to_bytes()
            with self.assertRaises(cauchy.NoFigure):
                store.page()
            self.assertEqual(store.to_bytes(), before)
        store.put(5, Kernel((0, 0, 0), 0, 1, 1))
        with self.assertRaises(cauchy.Unfinished):
            store.page()


def line(*numbers):
    """A kernel line of a file: x, y, z, sigma, w, and the exponent where there is one."""
    x, y, z, sigma, w, alpha = (digits(number) for number in (*numbers, None)[:6])
    return f"(kernel (c {x} {y} {z}) (sigma {sigma}) (w {w}) (alpha {alpha}))\n".encode()


def digits(number):
    return "none" if number is None else struct.pack(">d", number).hex().upper()


LINE = line(1, 2, 3, 4, 5, 6)


class Conversions(unittest.TestCase):
    GIVEN = (2.5, float("inf"), 5e-324, 0.0, -0.0, -1.0, -float("inf"), NAN)
    DEFAULTS = (1.5, 0.0, -0.0, -1.0, NAN)

    def test_each_loader_makes_its_kernels(self):
        numbers = [(i, -i, 0.5 * i, 4 + i, -500 - i, alpha) for i, alpha in enumerate((None, *self.GIVEN))]
        lines = b"".join(line(*(kernel if kernel[5] is not None else kernel[:5])) for kernel in numbers)
        for default in self.DEFAULTS:
            native = [cauchy.kernel_from_file(kernel[:3], *kernel[3:], default) for kernel in numbers]
            self.assertEqual(bits(cauchy.convert(lines, default, Loader.NATIVE)), bits(native))
            source = [dataclasses.replace(kernel, alpha=default if given is None else given)
                      for kernel, given in zip(native, (None, *self.GIVEN))]
            self.assertEqual(bits(cauchy.convert(lines, default, Loader.SOURCE)), bits(source))

    def test_strict_takes_what_both_take_alike(self):
        for default in self.DEFAULTS:
            for lines in (line(1, 2, 3, 4, 5), *(line(1, 2, 3, 4, 5, alpha) for alpha in self.GIVEN)):
                native, source = (bits(cauchy.convert(lines, default, loader)) for loader in
                                  (Loader.NATIVE, Loader.SOURCE))
                for text in (lines, LINE + lines, lines + LINE):
                    with self.subTest(text=text, default=default):
                        if native == source:
                            strict = bits(cauchy.convert(text, default, Loader.STRICT))
                            self.assertEqual(strict, bits(cauchy.convert(text, default, Loader.NATIVE)))
                        else:
                            with self.assertRaises(cauchy.LoadersDiffer):
                                cauchy.convert(text, default, Loader.STRICT)

    def test_bytes_that_are_no_lines(self):
        good = LINE + line(1, 2, 3, 4, 5)
        bad = [good[:-1], good.replace(b"\n", b"\r\n"), good + b"\n", b"\n" + good, good + b" ", b" " + good,
               b"\0" + good, good + b"\0", good.replace(b"4014", b"401g"), good.replace(b"none", b"NONE"),
               good.replace(b" (w", b"  (w"), b"\xef\xbb\xbf" + good, b"\n", b"\0", b"(", b"hello\n" * 1000,
               bytes(100_000), b"\n" * 100_000]
        for text in bad + [good[:cut] for cut in range(1, len(good)) if cut != len(LINE)]:
            for loader in Loader:
                with self.subTest(text=text[:200], loader=loader), self.assertRaises(cauchy.BadKernelLine):
                    cauchy.convert(text, 1.5, loader)

    def test_all_buffers_of_bytes(self):
        many = LINE * 500
        wanted = [Kernel((1000, 2000, 3000), 0.004, 5, 6)]
        spread = bytearray(2 * len(LINE))
        spread[::2] = LINE
        for lines in (LINE, bytearray(LINE), memoryview(LINE), array("B", LINE), memoryview(LINE).cast("b"),
                      (ctypes.c_uint8 * len(LINE))(*LINE), memoryview(spread)[::2], memoryview(LINE[::-1])[::-1]):
            self.assertEqual(cauchy.convert(lines, 1.5, Loader.STRICT), wanted)
        self.assertEqual(cauchy.convert(many, 1.5, Loader.STRICT), wanted * 500)
        for nothing in (b"", bytearray(), memoryview(b""), array("B")):
            self.assertEqual(cauchy.convert(nothing, NAN, Loader.STRICT), [])

    def test_a_loader_pickles(self):
        for loader in Loader:
            self.assertIs(pickle.loads(pickle.dumps(loader)), loader)


class Lines(unittest.TestCase):
    def store(self):
        store = Store(500, *sphere(0))
        for place, alpha, layer in ((31, 2.5, 15), (0, 1, 0), (10, NAN, 9)):
            store.put(place, Kernel((place, -place, -0.0), 0.01, 300 - place, alpha), layer)
        return store

    def test_a_store_is_written_and_read_again(self):
        store = self.store()
        store.reweigh(31, -7.25)
        store.advance(5)
        text = store.to_lines()
        again = Store.from_lines(text)
        self.assertEqual(again.to_lines(), text)
        self.assertEqual([again.held(place) for place in range(32)], [store.held(place) for place in range(32)])
        self.assertEqual([part.tolist() for part in again.mesh()], [part.tolist() for part in store.mesh()])
        self.assertEqual((again.radius, again.left()), (store.radius, store.left() + 5))
        fresh = Store(500, *sphere(0))
        for place in (31, 10, 0):
            held = store.held(place)
            fresh.put(place, held.kernel, held.layer)
        self.assertEqual(again.to_bytes(), fresh.to_bytes())

    def test_the_lines_are_of_the_forms(self):
        store = self.store()
        vertices, faces = (part.tolist() for part in store.mesh())
        rows = [list(zip(*[iter(part)] * 3)) if part and not isinstance(part[0], list) else part
                for part in (vertices, faces)]
        want = [f"(open (radius {digits(500.0)}) (verts {len(rows[0])}) (faces {len(rows[1])}))"]
        want += [f"(vert {' '.join(map(digits, row))})" for row in rows[0]]
        want += [f"(face {' '.join(map(str, row))})" for row in rows[1]]
        for place in (0, 10, 31):
            held = store.held(place)
            k = held.kernel
            c, (sigma, w, alpha) = " ".join(map(digits, k.c)), map(digits, (k.sigma, k.w, k.alpha))
            want.append(f"(put {place} (c {c}) (sigma {sigma}) (w {w}) (alpha {alpha}) (layer {held.layer}))")
        self.assertEqual(store.to_lines().decode().split("\n"), [*want, ""])

    def test_lines_that_are_refused(self):
        text = self.store().to_lines()
        for old, new, kind in (
            (b"(face 0", b"(face 99", cauchy.LooseCorner), (b"(face 0", b"(face 4294967296", cauchy.BadLine),
            (b"(put 31", b"(put 32", cauchy.NoPlace), (b"(layer 15)", b"(layer 16)", cauchy.NoLayer),
            (b"(verts 6)", b"(verts 7)", cauchy.BadLine), (b"(verts 6)", b"(verts 4294967295)", cauchy.BadLine),
            (b"(verts 6)", b"(verts 99999999999)", cauchy.BadLine), (b"(faces 8)", b"(faces 2097153)", cauchy.BadLine),
            (b"(put 0", b"(put 00", cauchy.BadLine), (b"\n", b"\r\n", cauchy.BadLine),
            (b"(open", b"open", cauchy.BadLine),
        ):
            with self.subTest(new=new), self.assertRaises(kind):
                self.assertIn(old, text)
                Store.from_lines(text.replace(old, new))
        for cut in (0, 1, 40, len(text) - 1):
            with self.subTest(cut=cut), self.assertRaises(cauchy.BadLine):
                Store.from_lines(text[:cut])
        many = b"(open (radius 0000000000000000) (verts 0) (faces 2097153))\n" + b"(face 0 0 0)\n" * 2097153
        with self.assertRaises(cauchy.Oversize):
            Store.from_lines(many)

    def test_all_buffers_of_bytes(self):
        text = self.store().to_lines()
        for lent in (bytearray(text), memoryview(text), array("B", text), memoryview(text[::-1])[::-1]):
            self.assertEqual(Store.from_lines(lent).to_lines(), text)
        for wrong in (None, 5, text.decode(), [text], array("d", [1.0]), released()):
            with self.subTest(wrong=wrong), self.assertRaisesRegex(TypeError, "text: bytes"):
                Store.from_lines(wrong)

    def test_there_is_always_room(self):
        for count in (1, 10, 11, 101):
            store = Store(1, [0.5] * (3 * count), [count - 1] * 9)
            for place in range(32):
                store.put(place, Kernel((0, 0, 0), 1, 2, 1), 15)
            self.assertEqual(len(store.to_lines()), cauchy.lines.room(count, 3))


def bits(kernels):
    """The bits of kernels, those of every NaN alike."""
    return [[digits(NAN if x != x else x) for x in (*k.c, k.sigma, k.w, k.alpha)] for k in kernels]


class Refusals(unittest.TestCase):
    def test_each_has_a_class_that_pickles(self):
        for number, kind in cauchy.REFUSALS.items():
            self.assertTrue(issubclass(kind, cauchy.Refused) and kind.number == number)
            again = pickle.loads(pickle.dumps(kind()))
            self.assertEqual((type(again), str(again)), (kind, f"{kind.meaning} (no {number})"))

    def test_a_number_that_is_not_known(self):
        with self.assertRaises(cauchy.UnknownRefusal) as told:
            cauchy.refusals.check(77)
        self.assertEqual((told.exception.number, pickle.loads(pickle.dumps(told.exception)).number), (77, 77))

    def test_the_calls_answer_them(self):
        store = Store(500, *sphere(0))
        store.put(0, Kernel((0, 0, 0), 1, 2, 1))
        vertices, faces = sphere(0)
        wide = [Kernel((0, 0, 0), 1, 2, 2)]
        heavy = store.copy()
        heavy.put(1, Kernel((0, 0, 0), 0, 1e15, 1))
        heavy.advance(10**6)
        told = {
            cauchy.Ragged: lambda: Store(1, [0] * 8, []),
            cauchy.Oversize: lambda: Store(1, bytearray_view(3 * 1048577), []),
            cauchy.LooseCorner: lambda: Store(1, vertices, [(0, 1, 6)]),
            cauchy.NoPlace: lambda: store.clear(32),
            cauchy.Vacant: lambda: store.reweigh(1, 2),
            cauchy.Unfinished: lambda: store.report(RAW),
            cauchy.ShortList: lambda: cauchy.densitize(memoryview(bytearray(40)).cast("d"), (0, 0, 0)),
            cauchy.BadMatrix: lambda: cauchy.solve(2, [1, 2, 3]),
            cauchy.FlatPivot: lambda: cauchy.solve(1, [0, 1]),
            cauchy.Exponent: lambda: cauchy.source_normalize(vertices, faces, wide, 1),
            cauchy.BadTrack: lambda: store.track(RAW, [0] * 4),
            cauchy.ManyKernels: lambda: cauchy.bill(wide * 33, 6, 8),
            cauchy.NoLayer: lambda: store.report(RAW, layers=[16]),
            cauchy.NoFigure: lambda: heavy.page(),
            cauchy.BadLine: lambda: Store.from_lines(store.to_lines()[:-1]),
            cauchy.BadKernelLine: lambda: cauchy.convert(LINE[1:], 1, Loader.NATIVE),
            cauchy.LoadersDiffer: lambda: cauchy.convert(line(1, 2, 3, 4, 5, -0.0), 0, Loader.STRICT),
            cauchy.NotClosed: lambda: cauchy.closed(vertices, faces[1:]),
        }
        for kind, call in told.items():
            with self.subTest(kind=kind), self.assertRaises(kind):
                call()
        unseen = {cauchy.ShortStore, cauchy.Unsound, cauchy.ShortPage, cauchy.ShortText}
        self.assertEqual(set(cauchy.REFUSALS.values()) - set(told), unseen)

    def test_in_the_library_s_order(self):
        store, kernel = Store(500, *sphere(0)), Kernel((0, 0, 0), 1, 2, 1)
        store.put(0, kernel)
        for layer in (-1, 16, 2**40):
            with self.subTest(layer=layer):
                with self.assertRaises(cauchy.NoPlace):
                    store.put(32, kernel, layer)
                with self.assertRaises(cauchy.NoLayer):
                    store.put(0, kernel, layer)
                with self.assertRaises(cauchy.NoLayer):
                    store.report(RAW, layers=[0, layer])
        with self.assertRaises(cauchy.Unfinished):
            store.report(RAW, layers=[0])


def released():
    view = memoryview(bytearray(8))
    view.release()
    return view


def bytearray_view(count):
    return memoryview(bytearray(8 * count)).cast("d")


if __name__ == "__main__":
    unittest.main()
