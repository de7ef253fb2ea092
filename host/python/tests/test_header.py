"""The ctypes declarations against include/cauchy.h: types and order of all arguments and fields, and all numbers."""
import ctypes
import re
import subprocess
import unittest
from pathlib import Path

import cauchy
from cauchy import library, lines, store
from header import header

HOST = Path(__file__).resolve().parents[2]
TEXT = (HOST / "include/cauchy.h").read_text(encoding="utf-8")
PLAIN = {
    "double": ctypes.c_double, "uint32_t": ctypes.c_uint32, "uint64_t": ctypes.c_uint64, "size_t": ctypes.c_size_t,
    "uint8_t": ctypes.c_uint8,
}


def ctype(name):
    """A type of C as ctypes has it."""
    name = name.replace("const ", "")
    if name.endswith("*"):
        return ctypes.POINTER(ctype(name[:-1]))
    array = re.fullmatch(r"(\w+)\[(\d+)\]", name)
    if array:
        return ctype(array[1]) * int(array[2])
    return PLAIN[name] if name in PLAIN else getattr(library, name, None)


def differences(text):
    """What differs between a header's text and the declarations of the package, a line each."""
    functions, structures, _, _ = header(text)
    ours = {"cauchy_" + name: prototype for name, prototype in library.PROTOTYPES.items()}
    for name in sorted(set(ours) ^ set(functions)):
        yield f"{name}: only in {'the package' if name in ours else 'the header'}"
    for name in sorted(set(ours) & set(functions)):
        arguments, answer = functions[name]
        if list(ours[name]) != [ctype(answer), *(ctype(kind) for _, kind in arguments)]:
            yield f"{name}: other types or another order"
    declared = {name for name, value in vars(library).items() if _is_structure(value)}
    for name in sorted(declared ^ set(structures)):
        yield f"{name}: only in {'the package' if name in declared else 'the header'}"
    for name in sorted(declared & set(structures)):
        if list(getattr(library, name)._fields_) != [(field, ctype(kind)) for field, kind in structures[name]]:
            yield f"{name}: other fields or another order"


def _is_structure(value):
    return isinstance(value, type) and issubclass(value, ctypes.Structure) and value is not ctypes.Structure


class Declarations(unittest.TestCase):
    def test_all_functions_and_structures_are_the_headers(self):
        self.assertEqual(list(differences(TEXT)), [])
        functions, structures, _, _ = header(TEXT)
        self.assertGreaterEqual((len(functions), len(structures)), (37, 20))

    def test_changes_of_the_header_are_seen(self):
        changes = [
            ("uint32_t place,\n                              double w", "double w,\n           uint32_t place"),
            ("uint64_t budget", "uint32_t budget"),
            ("CauchyVector c, double sigma);\n\n/* The enclosed volume, b", "double sigma, CauchyVector c);\n\n/* b"),
            ("double sigma, w, alpha;\n} CauchyKernel;", "double w, sigma, alpha;\n} CauchyKernel;"),
            ("uint64_t done, left;", "uint32_t done, left;"),
            ("uint32_t pieces;        /* of the place that came across", "uint64_t pieces; /* of it"),
            ("size_t n_other_words, uint32_t other_place", "uint32_t other_place, size_t n_other_words"),
            ("double cauchy_ten(double y);", ""),
            ("double cauchy_ten(double y);", "double cauchy_ten(double y); double cauchy_eleven(double y);"),
            ("CauchyListed cauchy_store_list(", "CauchyTrack cauchy_store_list("),
            ("uint32_t no, freed;", "uint32_t freed, no;"),
            ("size_t n_old_words, double *floats, size_t n_floats", "double *floats, size_t n_floats, size_t n_old_words"),
            ("uint64_t steps, floats;", "uint64_t floats, steps;"),
            ("const uint8_t *lines, size_t n_lines, double", "const double *lines, size_t n_lines, double"),
            ("double default_alpha, uint32_t loader,", "uint32_t loader, double default_alpha,"),
            ("uint64_t bytes;", "uint32_t bytes;"),
            ("uint8_t *page, size_t n_page", "double *page, size_t n_page"),
            ("uint64_t puts;", "uint32_t puts;"),
            ("CauchyLoaded cauchy_store_read(", "CauchyOpened cauchy_store_read("),
        ]
        for old, new in changes:
            with self.subTest(old=old):
                self.assertEqual(TEXT.count(old), 1)
                self.assertEqual(len(list(differences(TEXT.replace(old, new)))), 1)

    def test_what_is_not_understood_is_an_error(self):
        for text in ("union U { int x; };", "int f(int (*g)(void));", "typedef int number;", "int x;", "f();"):
            with self.subTest(text=text), self.assertRaises(ValueError):
                header(text)

    def test_readings_share_a_store_only_where_its_runs_are_const(self):
        functions, _, _, _ = header(TEXT)
        of_stores = {name[7:]: arguments for name, (arguments, _) in functions.items() if "_store_" in name}
        const = {name for name, arguments in of_stores.items() if arguments[0] == ("floats", "const double*")}
        self.assertEqual(const, store.READINGS)
        for name in const:
            self.assertEqual(of_stores[name][2], ("words", "const uint32_t*"))

    def test_runs_of_users_are_only_read(self):
        functions, _, _, _ = header(TEXT)
        written = {name for arguments, _ in functions.values() for name, kind in arguments
                   if kind.endswith("*") and "const" not in kind}
        self.assertEqual(written, {"floats", "words", "out", "answer", "page", "bytes"})

    def test_the_archive_has_no_other_function(self):
        try:
            symbols = subprocess.run(["nm", "-D", "--defined-only", library._library._name], check=True,
                                     stdout=subprocess.PIPE, stderr=subprocess.PIPE).stdout.decode()
        except (OSError, subprocess.CalledProcessError):
            self.skipTest("no nm")
        host_header = HOST / "include/cauchy_host.h"
        others = set(header(host_header.read_text(encoding="utf-8"))[0]) if host_header.is_file() else set()
        exports = set(re.findall(r" T (cauchy_\w+)", symbols)) - others
        self.assertEqual(exports, {"cauchy_" + name for name in library.PROTOTYPES})


class Numbers(unittest.TestCase):
    def setUp(self):
        self.constants = {name: number for names in header(TEXT)[2] for name, number in names.items()}

    def test_refusals_have_the_headers_names_and_numbers(self):
        for number, refusal in cauchy.REFUSALS.items():
            word = re.sub(r"(?<=[a-z])(?=[A-Z])", "_", refusal.__name__).upper()
            self.assertEqual(self.constants[f"CAUCHY_{word}"], number)
        of_header = re.search(r"CAUCHY_ACCEPTED.*?\}", TEXT, re.S)[0].count("=") - 1
        self.assertEqual(len(cauchy.REFUSALS), of_header)

    def test_sizes_and_kinds(self):
        for name in ("MAX_VERTICES", "MAX_FACES", "PLACES", "MAX_PIECES", "MAX_TRACK", "LAYERS", "ALL_LAYERS"):
            self.assertEqual(getattr(cauchy, name), self.constants[f"CAUCHY_{name}"])
        for name in ("RAW", "RHO0", "MASS"):
            self.assertEqual(getattr(library, f"{name}_KIND"), self.constants[f"CAUCHY_{name}"])
        for name in ("NATIVE", "SOURCE", "STRICT"):
            self.assertEqual(getattr(library, f"{name}_LOADER"), self.constants[f"CAUCHY_{name}"])
        page = re.search(r"#define CAUCHY_PAGE_BYTES\(P\) \(\(size_t\)(\d+) \* \(\(size_t\)\(P\) \+ 1\)\)", TEXT)
        self.assertEqual(library.PAGE_LINE, int(page[1]))
        enough = re.search(r"#define CAUCHY_CONVERT_FLOATS\(B\) \(\(size_t\)6 \* \(\(size_t\)\(B\) / (\d+)\)\)", TEXT)
        self.assertEqual(library.SHORTEST_LINE, int(enough[1]))
        self.assertEqual(lines.room(0, 0), self.most_lines(0, 0))
        for verts, faces in ((1, 0), (9, 9), (10, 10), (11, 100), (1000, 999), (1001, 7), (1048576, 2097152)):
            self.assertEqual(lines.room(verts, faces), self.most_lines(verts, faces))
        for name in ("FLOATS", "WORDS"):
            told = re.search(rf"#define CAUCHY_STORE_{name}\(\w\) \(\(size_t\)(\d+) \+ \(size_t\)3 \*", TEXT)
            self.assertEqual(getattr(library, f"{name}_BEFORE_MESH"), int(told[1]))
        old = re.search(r"#define CAUCHY_OLD_STORE_WORDS\(\w\) \(\(size_t\)(\d+) \+ \(size_t\)3 \*", TEXT)
        self.assertEqual(library.OLD_WORDS_BEFORE_MESH, int(old[1]))

    def most_lines(self, verts, faces):
        """CAUCHY_LINES_BYTES of the header, worked by Python."""
        def body(name):
            text = re.search(rf"#define {name}\((?:.*\\\n)*.*\n", TEXT)[0].partition(")")[2]
            return text.replace("\\\n", " ").replace("(size_t)", "").strip()

        digits, macro = body("CAUCHY_DIGITS"), body("CAUCHY_LINES_BYTES")
        macro = macro.replace("(V) > 0 ? (V)-1 : 0", "max(V - 1, 0)")
        names = {"V": verts, "F": faces, "max": max, "CAUCHY_DIGITS": lambda N: eval(digits, {"N": N})}
        return eval(macro, names)

    def test_refusals_say_the_words_of_the_crate(self):
        words = re.sub(r"\s+", " ", (HOST / "src/refusal.rs").read_text(encoding="utf-8"))
        for refusal in cauchy.REFUSALS.values():
            self.assertRegex(words, rf'Refusal::{refusal.__name__} => (\{{ )?"{re.escape(refusal.meaning)}"')

    def test_the_version_is_the_crates(self):
        crate = re.search(r'^version = "(.*)"$', (HOST / "Cargo.toml").read_text(encoding="utf-8"), re.M)
        self.assertEqual(cauchy.__version__, crate[1])
        macro = re.search(r'#define CAUCHY_VERSION "(.*)"', TEXT)
        self.assertIn(cauchy.__version__, crate[1] if macro is None else macro[1])


if __name__ == "__main__":
    unittest.main()
