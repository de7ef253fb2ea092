"""Snapshots: the one format of all hosts, damage, and an exchange with the program `cauchy`, which is Rust."""
import copy
import os
import pickle
import shutil
import struct
import subprocess
import tempfile
import unittest
from pathlib import Path

import cauchy
from bodies import sphere
from cauchy import Kernel, SnapshotError, Store, mass
from cauchy.snapshot import _bytewise, crc64

ROOT = Path(__file__).resolve().parents[3]
EXAMPLE = ROOT / "example"


def begun():
    store = Store(500, *sphere(2))
    store.put(0, Kernel((1, 2, 3), 0.01, 700, 2))
    store.put(31, Kernel((100, 20, float("nan")), 0.02, -0.0, 1))
    store.advance(333)
    return store


def forged(floats, words):
    """A snapshot of these runs, with a checksum that fits."""
    head = struct.pack("<8sQQ", b"CAUCHY02", len(floats), len(words))
    body = head + struct.pack(f"<{len(floats)}d{len(words)}I", *floats, *words)
    return body + struct.pack("<Q", crc64(body))


class Bytes(unittest.TestCase):
    def fault(self, data):
        with self.assertRaises(SnapshotError) as told:
            Store.from_bytes(data)
        return told.exception.fault

    def test_a_store_goes_on_from_its_snapshot(self):
        store = begun()
        data = store.to_bytes()
        for given in (data, bytearray(data), memoryview(data), memoryview(bytearray(data))):
            again = Store.from_bytes(given)
            self.assertEqual(again.to_bytes(), data)
        self.assertEqual(again.advance(10**6), store.advance(10**6))
        self.assertEqual(again.report(mass(5e11)), store.report(mass(5e11)))
        self.assertEqual(again.to_bytes(), store.to_bytes())

    def test_the_format_byte_by_byte(self):
        store = begun()
        floats, words = bytes(store.floats), bytes(store.words)
        data = store.to_bytes()
        self.assertEqual(data[:24], b"CAUCHY02" + struct.pack("<QQ", len(store.floats), len(store.words)))
        self.assertEqual(data[24:-8], floats + words)
        self.assertEqual(data[-8:], struct.pack("<Q", crc64(data[:-8])))

    def test_damage_is_seen(self):
        data = Store(500, *sphere(0)).to_bytes()
        for at in range(8, len(data), 97):
            damaged = bytearray(data)
            damaged[at] ^= 1 << at % 8
            self.assertIn(self.fault(damaged), ("checksum", "length"))
        for at in range(0, len(data), 89):
            self.assertEqual(self.fault(data[:at]), "foreign" if at < 8 else "length")
        self.assertEqual(self.fault(data + b"\0"), "length")
        self.assertEqual(self.fault(b"v 0 0 0"), "foreign")
        self.assertEqual(self.fault(b"CAUCHY01" + data[8:]), "checksum")
        self.assertEqual(self.fault(b""), "foreign")
        for count in (2**64 - 1, 2**61, 2**62):
            for magic in (b"CAUCHY01", b"CAUCHY02"):
                self.assertEqual(self.fault(magic + struct.pack("<QQQ", count, count, 0)), "length")

    def test_whole_bytes_that_hold_no_store(self):
        def refusal(floats, words):
            with self.assertRaises(SnapshotError) as told:
                Store.from_bytes(forged(floats, words))
            self.assertEqual(told.exception.fault, "refused")
            return type(told.exception.__cause__)

        self.assertIs(refusal([], []), cauchy.ShortStore)
        self.assertIs(refusal([0.0] * 1760, [0] * 130), cauchy.ShortStore)
        self.assertIs(refusal([0.0] * 1762, [0] * 130), cauchy.Unsound)
        self.assertIs(refusal([0.0] * 1761, [0] * 133), cauchy.Unsound)
        for stray in (1.0, -0.0, float("nan")):
            self.assertIs(refusal([0.0] * 1763 + [stray], [0] * 130), cauchy.Unsound)
        self.assertIs(refusal([0.0] * 1761, [0, 0, 18] + [0] * 127), cauchy.Unsound)
        Store.from_bytes(forged([float("nan")] * 1761, [0] * 130))
        Store.from_bytes(forged([0.0] * 1764, [0] * 130))

    def test_wrong_types(self):
        for wrong in (None, 5, "CAUCHY02", [1, 2], object()):
            with self.subTest(wrong=wrong), self.assertRaises(TypeError):
                Store.from_bytes(wrong)

    def test_the_checksum_in_blocks_is_that_of_the_bytes(self):
        self.assertEqual(crc64(b"123456789"), 0x995DC9BBDF1939FA)
        noise = bytes(x * x // 7 & 255 for x in range(30000))
        for size in (0, 1, 7, 8, 8191, 8192, 8193, 8200, 16384, 16385, 24576, 24583, 30000):
            self.assertEqual(crc64(noise[:size]), _bytewise(2**64 - 1, noise[:size]) ^ 2**64 - 1)

    def test_copies_are_apart(self):
        store = begun()
        data = store.to_bytes()
        for again in (store.copy(), copy.copy(store), copy.deepcopy(store), pickle.loads(pickle.dumps(store))):
            self.assertEqual(again.to_bytes(), data)
            again.clear(0)
            self.assertEqual(store.to_bytes(), data)


def program():
    """The planner's program, built where cargo is there; None otherwise."""
    if shutil.which("cargo") is None:
        return None
    lib = os.environ.get("CAUCHY_LIB_DIR") or ROOT / "target/staticlib"
    if not (Path(lib) / "libcauchy.a").is_file():
        return None
    environment = {**os.environ, "CAUCHY_LIB_DIR": str(Path(lib).resolve())}
    subprocess.run(["cargo", "build", "--quiet", "--release"], cwd=ROOT / "host", env=environment, check=True)
    return ROOT / "target/cargo/release/cauchy"


class Exchange(unittest.TestCase):
    """The program takes Python's snapshots, and Python the program's."""

    @classmethod
    def setUpClass(cls):
        cls.program = program()
        if cls.program is None:
            raise unittest.SkipTest("no cargo, or no archive: snapshots are not exchanged with the program")

    def run_program(self, *words):
        return subprocess.run([str(self.program), *map(str, words), "--mass", "4.5e11", "--overwrite"], check=True,
                              stdout=subprocess.PIPE, stderr=subprocess.PIPE).stdout

    def test_both_ways(self):
        with tempfile.TemporaryDirectory() as folder:
            first, second, third = (Path(folder) / name for name in ("first", "second", "third"))
            self.run_program("run", EXAMPLE / "body.obj", EXAMPLE / "kernels.txt", "--steps", 5000, "--snapshot", first)
            store = Store.from_bytes(first.read_bytes())
            self.assertEqual(store.to_bytes(), first.read_bytes())
            store.advance(7000)
            second.write_bytes(store.to_bytes())
            self.run_program("resume", second, "--snapshot", third)
            list(store.work(1000))
            self.assertEqual(store.to_bytes(), third.read_bytes())
            self.assertEqual(store.report(mass(4.5e11)), Store.from_bytes(third.read_bytes()).report(mass(4.5e11)))


if __name__ == "__main__":
    unittest.main()
