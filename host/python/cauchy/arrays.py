"""Arguments and answers: numbers, points and arrays, checked and lent to the library, and arrays to be answered.

A number is an int, a float or any other real number (a Fraction, a number of numpy); True and False are none. A
point is three of them. An array is one of

- a buffer: an array of the standard library or of numpy, a memoryview, an array of ctypes. Flat or in rows. It is
  lent as it is, without a copy, where it has the library's own layout: doubles (or 32-bit integers, for corners) in
  the machine's byte order, contiguous and aligned. Otherwise it is copied: gaps and negative steps are left out,
  float32, integers and the other byte order are converted. (A buffer that cannot be written is also copied where
  numpy is not imported.) Bytes, bools, complex numbers, longdouble, float16, objects, records and masked arrays are
  refused.
- what numpy takes as an array, such as a table of pandas, where numpy is there.
- a sequence of numbers, or of rows.

An array that is lent without a copy must not be written by another thread during the call.

Answers that are arrays are numpy's where numpy can be imported, and the standard library's `array` otherwise. numpy
is imported when the first such answer is made, and not before.
"""
import importlib
import sys
from array import array
from collections.abc import Mapping, Set
from ctypes import addressof, byref, c_double, c_uint8, c_uint32, string_at
from numbers import Integral, Real
from operator import index
from typing import Any, Iterator, List, NamedTuple, Optional, Protocol, Sequence, Tuple, Type, Union


class Items(Protocol):
    """What is taken as an array or a point: it has a length, and items by their number."""

    def __len__(self) -> int:
        ...

    def __getitem__(self, index: int) -> Any:
        ...


class Floats(Protocol):
    """An answered array of floats: an array of numpy, or `array` of the standard library."""

    def __len__(self) -> int:
        ...

    def __getitem__(self, index: int) -> float:
        ...

    def __iter__(self) -> Iterator[float]:
        ...

    def tolist(self) -> Any:
        ...


# ---- numpy, where it is there -----------------------------------------------------------------------------

_numpy: Optional[List[Any]] = None


def numpy() -> Any:
    """The module numpy, or None where it cannot be imported."""
    global _numpy
    if _numpy is None:
        try:
            _numpy = [importlib.import_module("numpy")]
        except ImportError:
            _numpy = [None]
    return _numpy[0]


def _loaded_numpy() -> Any:
    """The module numpy where someone has imported it, as whoever hands over an array of numpy has."""
    module = sys.modules.get("numpy")
    return module if hasattr(module, "ndarray") and hasattr(module, "ma") else None


def zeros(count: int) -> Any:
    """A new array of floats for an answer."""
    module = numpy()
    return array("d", [0.0]) * count if module is None else module.zeros(count)


# ---- Numbers and points -----------------------------------------------------------------------------------


def _kind_name(value: object) -> str:
    return type(value).__name__


def number(value: object, name: str) -> float:
    """A number as a float."""
    if isinstance(value, bool) or not isinstance(value, Real):
        raise TypeError(f"{name} is a number, and not of the type {_kind_name(value)}")
    try:
        return float(value)
    except OverflowError:
        raise ValueError(f"{name} is too large for a float") from None


def whole(value: Any, name: str) -> int:
    """A whole number."""
    if isinstance(value, bool) or not isinstance(value, Integral):
        raise TypeError(f"{name} is a whole number, and not of the type {_kind_name(value)}")
    return index(value)


def point(values: Items, name: str) -> Tuple[float, float, float]:
    """Three numbers."""
    x, y, z = _row(values, name, 3, _FLOATS)
    return number(x, name), number(y, name), number(z, name)


def is_rows(values: Items, name: str) -> bool:
    """Whether an argument is rows rather than one point."""
    view = _buffer(values, name)
    if view is not None:
        return view.ndim != 1
    items = _items(values, name)
    return len(items) > 0 and not isinstance(items[0], Real)


# ---- Runs that are lent -----------------------------------------------------------------------------------


class _Double(c_double):
    """The first double of a run; `owner` keeps the memory of a run that is only read."""

    owner: Any


class _Word(c_uint32):
    """The first word of a run, likewise."""

    owner: Any


class _Byte(c_uint8):
    """The first byte of a run, likewise."""

    owner: Any


_Cell = Union[_Double, _Word, _Byte]


class _Kind(NamedTuple):
    """What a run is made of."""

    code: str  # its items, as `array` names them
    size: int  # of an item, in bytes
    same: str  # the formats of a buffer that are lent as they are
    taken: str  # those that are converted
    cell: Union[Type[_Double], Type[_Word], Type[_Byte]]
    item: type  # what an item of a sequence must be
    said: str


_FLOATS = _Kind("d", 8, "d", "fhHiIlLqQ", _Double, Real, "numbers")
# A negative corner is as far outside every mesh when its 32 bits are taken without a sign.
_WORDS = _Kind("I", 4, "Ii", "hHlLqQ", _Word, Integral, "whole numbers")
_BYTES = _Kind("B", 1, "Bb", "", _Byte, Integral, "bytes")

# A corner that no mesh has. Numbers that have no 32 bits become this one, which the library refuses.
NOWHERE = 2**32 - 1


class Run:
    """A run as the library takes it: its first item in place, which keeps the memory, and the count of items."""

    __slots__ = ("first", "count", "size")

    def __init__(self, first: Optional[_Cell], count: int, size: int) -> None:
        self.first, self.count, self.size = first, count, size

    def lent(self) -> Tuple[Any, int]:
        """Pointer and count, two arguments side by side."""
        return self.part(0, self.count)

    def part(self, start: int, count: int) -> Tuple[Any, int]:
        """Pointer and count of some of the items."""
        return (None if self.first is None else byref(self.first, self.size * start)), count

    def address(self) -> int:
        """Where the items are; 0 where there is none."""
        return 0 if self.first is None else addressof(self.first)

    def head(self, count: int, code: str) -> List[Any]:
        """The first items, as `array` has them by their code; fewer where there are fewer."""
        return array(code, string_at(self.address(), self.size * min(count, self.count))).tolist()


def _of(memory: Any, count: int, kind: _Kind) -> Run:
    """The run of a writable buffer that has the library's layout."""
    return Run(kind.cell.from_buffer(memory) if count else None, count, kind.size)


def floats(values: Items, name: str, width: int) -> Run:
    """Numbers, flat or in rows of `width`, as a run of doubles."""
    return _run(values, name, width, _FLOATS)


def words(values: Items, name: str, width: int) -> Run:
    """Whole numbers, flat or in rows of `width`, as a run of words of 32 bits."""
    return _run(values, name, width, _WORDS)


def octets(values: Any, name: str) -> Run:
    """Bytes, or any buffer of them, as a run of bytes: a copy, so that no one can write it during the call."""
    try:
        view = memoryview(values)
    except (TypeError, ValueError, BufferError):
        raise TypeError(f"{name}: bytes, and not of the type {_kind_name(values)}") from None
    _format(view, name, _BYTES)
    return _of(bytearray(view), view.nbytes, _BYTES)


def written(out: Any) -> Run:
    """A new array of doubles, to be written."""
    return _of(out, len(out), _FLOATS)


def written_octets(out: bytearray) -> Run:
    """New bytes, to be written."""
    return _of(out, len(out), _BYTES)


def _run(values: Items, name: str, width: int, kind: _Kind) -> Run:
    view = _buffer(values, name)
    if view is None:
        flat = _packed(_flat(values, name, width, kind), name, kind)
        return _of(flat, len(flat), kind)
    if not (view.ndim == 1 or view.ndim == 2 and view.shape is not None and view.shape[1] == width):
        raise ValueError(f"{name}: flat or rows of {width}, and not of the shape {view.shape}")
    return _viewed(view, name, kind)


# ---- Buffers ----------------------------------------------------------------------------------------------

# The prefixes of a format that mean the byte order of this machine.
_NATIVE = ("", "@", "=", "<" if sys.byteorder == "little" else ">")


def _buffer(values: Any, name: str) -> Optional[memoryview]:
    """The buffer of an argument, or None where it is a sequence. What can be neither is refused."""
    if isinstance(values, (tuple, list)):
        return None
    if isinstance(values, (str, bytes, bytearray, Mapping, Set)):
        raise TypeError(f"{name}: an array or a sequence of numbers, and not of the type {_kind_name(values)}")
    loaded = _loaded_numpy()
    if loaded is not None and isinstance(values, loaded.ma.MaskedArray):
        raise TypeError(f"{name}: a masked array has no number where it is masked")
    try:
        return memoryview(values)
    except (TypeError, ValueError, BufferError):
        pass
    if hasattr(type(values), "__array__") and loaded is not None and not isinstance(values, loaded.ndarray):
        return _buffer(loaded.asarray(values), name)
    if not (hasattr(type(values), "__len__") and hasattr(type(values), "__getitem__")):
        raise TypeError(f"{name}: an array or a sequence of numbers, and not of the type {_kind_name(values)}")
    return None


def _viewed(view: memoryview, name: str, kind: _Kind) -> Run:
    """A buffer as a run: in place where its layout is the library's, otherwise copied or converted."""
    order, code = _format(view, name, kind)
    count = view.nbytes // view.itemsize
    if order in _NATIVE and code in kind.same and view.c_contiguous:
        run = _in_place(view, count, kind)
        if run is not None and run.address() % kind.size == 0:
            return run
    return _of(_converted(view, name, kind), count, kind)


def _in_place(view: memoryview, count: int, kind: _Kind) -> Optional[Run]:
    """A run in the memory of a buffer. Where a buffer cannot be written, numpy alone tells where it is."""
    if count == 0 or not view.readonly:
        return _of(view, count, kind)
    module = _loaded_numpy()
    if module is None:
        return None
    first = kind.cell.from_address(module.asarray(view).ctypes.data)
    first.owner = view
    return Run(first, count, kind.size)


def _format(view: memoryview, name: str, kind: _Kind) -> Tuple[str, str]:
    """The byte order and the code of a buffer's items, which are of a kind that is taken."""
    prefix = 1 if view.format[:1] in tuple("@=<>!") else 0
    order, code = view.format[:prefix], view.format[prefix:]
    if len(code) != 1 or code not in kind.same + kind.taken or array(code).itemsize != view.itemsize:
        raise TypeError(f"{name}: {kind.said}, and not a buffer of the format {view.format!r}")
    return order, code


def _converted(view: memoryview, name: str, kind: _Kind) -> Any:
    """A copy of a buffer in the library's own layout."""
    module = _loaded_numpy()
    if module is not None:
        return _converted_by_numpy(module, view, kind)
    order, code = _format(view, name, kind)
    items = array(code, view.tobytes())
    if order not in _NATIVE:
        items.byteswap()
    return items if code == kind.code else _packed(items, name, kind)


def _converted_by_numpy(module: Any, view: memoryview, kind: _Kind) -> Any:
    given = module.asarray(view)
    if kind is _FLOATS:
        return module.array(given, dtype=module.float64, order="C")
    kept = module.array(given, dtype=module.uint32, order="C")
    if given.size and (given.min() < 0 or given.max() > NOWHERE):
        kept[(given < 0) | (given > NOWHERE)] = NOWHERE
    return kept


# ---- Sequences --------------------------------------------------------------------------------------------


def _items(values: Any, name: str) -> Sequence[Any]:
    """The items of a sequence, by their numbers: what iterates in another way, as over keys, is never taken."""
    if isinstance(values, (tuple, list)):
        return values
    try:
        return [values[i] for i in range(len(values))]
    except LookupError:
        raise TypeError(f"{name}: the items of a {_kind_name(values)} are not numbered from 0") from None


def _row(values: Any, name: str, width: int, kind: _Kind) -> Sequence[Any]:
    """The items of a row, or of a point, as many as that has."""
    view = _buffer(values, name)
    if view is not None:
        _format(view, name, kind)
        if view.ndim != 1:
            raise ValueError(f"{name}: {width} numbers, and not of the shape {view.shape}")
    count = len(values if view is None else view)
    if count != width:
        raise ValueError(f"{name}: {width} numbers, and not {count}")
    if view is None:
        return _items(values, name)
    run = _viewed(view, name, kind)
    return array(kind.code, string_at(run.address(), kind.size * count)).tolist()


def _flat(values: Any, name: str, width: int, kind: _Kind) -> Sequence[Any]:
    """The items of a sequence of numbers, or of rows of `width`."""
    items = _items(values, name)
    if not items or isinstance(items[0], Real):
        return items
    flat: List[Any] = []
    for i, row in enumerate(items):
        flat.extend(_row(row, f"{name}[{i}]", width, kind))
    return flat


def _packed(items: Any, name: str, kind: _Kind) -> "array[Any]":
    """Items of a sequence as an array, each a number of the right kind."""
    for found in set(map(type, items)):
        if found is bool or not issubclass(found, kind.item):
            raise TypeError(f"{name}: {kind.said}, and not of the type {found.__name__}")
    try:
        return array(kind.code, items)
    except OverflowError:
        if kind is _FLOATS:
            raise ValueError(f"{name}: a number is too large for a float") from None
    return array(kind.code, [x if 0 <= x <= NOWHERE else NOWHERE for x in items])
