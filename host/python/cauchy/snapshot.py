"""A store as bytes, and back, in the one format of all hosts.

A snapshot is, numbers with their lowest byte first: the eight bytes `CAUCHY02`; the count of floats and the count of
words, eight bytes each; the floats, eight bytes each, by their bits; the words, four bytes each; and the CRC-64/XZ of
all bytes before it, eight bytes. One that begins with `CAUCHY01` is the same in the form before layers, with three
words to a place: it is read too, and its store carried over; none is written.
"""
import struct
from functools import lru_cache
from typing import Any, List, Tuple

from .memory import Runs

_MAGIC = b"CAUCHY02"
_OLD_MAGIC = b"CAUCHY01"
_HEAD = struct.Struct("<8sQQ")
_CHECKSUM = struct.Struct("<Q")


class SnapshotError(ValueError):
    """Bytes were not taken as a snapshot. `fault` says why: "foreign" (they do not begin as one), "length" (they are
    fewer or more than their counts say), "checksum" (it does not fit), or "refused" (they are whole, but hold no
    store; the refusal is the `__cause__`).

    >>> Store.from_bytes(b"v 0 0 0")
    Traceback (most recent call last):
    cauchy.SnapshotError: not a snapshot of a store
    """

    _SAID = {
        "foreign": "not a snapshot of a store",
        "length": "damaged: bytes are missing, or there are too many",
        "checksum": "damaged: its checksum does not fit its bytes",
        "refused": "whole, but no store",
    }

    def __init__(self, fault: str) -> None:
        super().__init__(fault)
        self.fault = fault

    def __str__(self) -> str:
        said = self._SAID[self.fault]
        return said if self.__cause__ is None else f"{said}: {self.__cause__}"


def write(runs: Runs) -> bytes:
    """The snapshot of two runs."""
    head = _HEAD.pack(_MAGIC, len(runs.floats), len(runs.words))
    body = b"".join((head, runs.floats, runs.words))
    return body + _CHECKSUM.pack(crc64(memoryview(body)))


def read(data: Any) -> Tuple[Runs, bool]:
    """The two runs of a snapshot whose checksum fits, and whether it is of the form before layers."""
    try:
        given = memoryview(data).cast("B")
    except TypeError:
        raise TypeError(f"a snapshot is bytes, and not of the type {type(data).__name__}") from None
    n_floats, n_words = _counts(given)
    covered = given[:-_CHECKSUM.size]
    if _CHECKSUM.unpack(given[-_CHECKSUM.size:]) != (crc64(covered),):
        raise SnapshotError("checksum")
    runs = Runs(n_floats, n_words)
    middle = _HEAD.size + 8 * n_floats
    runs.floats.cast("B")[:] = covered[_HEAD.size:middle]
    runs.words.cast("B")[:] = covered[middle:]
    return runs, bytes(given[:8]) == _OLD_MAGIC


def _counts(given: memoryview) -> Tuple[int, int]:
    """The counts of floats and words, which fit the bytes."""
    if bytes(given[:8]) not in (_MAGIC, _OLD_MAGIC):
        raise SnapshotError("foreign")
    if len(given) < _HEAD.size:
        raise SnapshotError("length")
    _, n_floats, n_words = _HEAD.unpack(given[:_HEAD.size])
    if len(given) != _HEAD.size + 8 * n_floats + 4 * n_words + _CHECKSUM.size:
        raise SnapshotError("length")
    return n_floats, n_words


# ---- The checksum -----------------------------------------------------------------------------------------
#
# Python takes some ten seconds byte by byte for the largest mesh. So whole blocks are first folded into one with the
# same remainder, as whole numbers of a block's length. A remainder is linear: what stands S bits before the end
# counts times x^S, and so times x^S mod P, which has 64 bits. Bits are reflected in CRC-64/XZ: the lowest bit of the
# first byte is the highest power.

_POLYNOMIAL = 0xC96C5795D7870F42
_ALL = 2**64 - 1
_BLOCK = 8192  # bytes
_BITS = 8 * _BLOCK  # S


def crc64(data: Any) -> int:
    """The CRC-64/XZ of bytes.

    >>> from cauchy.snapshot import crc64
    >>> hex(crc64(b"123456789"))
    '0x995dc9bbdf1939fa'
    """
    odd = len(data) % _BLOCK
    rest = _bytewise(_ALL, data[:odd])
    if odd < len(data):
        rest = _bytewise(0, _folded(rest, data[odd:]))
    return rest ^ _ALL


def _bytewise(rest: int, data: Any) -> int:
    table = _table()
    for byte in data:
        rest = rest >> 8 ^ table[(rest ^ byte) & 255]
    return rest


def _folded(rest: int, data: Any) -> bytes:
    """The block whose remainder, from 0, is that of whole blocks from `rest`."""
    block = rest ^ int.from_bytes(data[:_BLOCK], "little")
    for start in range(_BLOCK, len(data), _BLOCK):
        block = _next(block) ^ int.from_bytes(data[start:start + _BLOCK], "little")
    return block.to_bytes(_BLOCK, "little")


def _next(block: int) -> int:
    """A block times x^S mod P, brought to a block again."""
    power = _power()
    product = _times(block, power)
    high = product & (1 << 63) - 1  # of the powers from S on
    return product >> 63 ^ _times(high, power) << _BITS - 126


def _times(a: int, power: Tuple[int, ...]) -> int:
    """The product of polynomials, the second given by the places of its bits."""
    product = 0
    for place in power:
        product ^= a << place
    return product


@lru_cache(maxsize=None)
def _power() -> Tuple[int, ...]:
    """x^S mod P, as the places of its bits."""
    rest = 1 << 63
    for _ in range(_BITS):
        rest = rest >> 1 ^ (_POLYNOMIAL if rest & 1 else 0)
    return tuple(place for place in range(64) if rest >> place & 1)


@lru_cache(maxsize=None)
def _table() -> List[int]:
    """The remainder of each byte."""
    table = []
    for rest in range(256):
        for _ in range(8):
            rest = rest >> 1 ^ (_POLYNOMIAL if rest & 1 else 0)
        table.append(rest)
    return table
