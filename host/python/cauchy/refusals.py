"""Refusals: an exception class for each number of the specification, and what else may be wrong."""
import sys
from typing import Dict, Type


class Refused(Exception):
    """A call was refused and changed nothing. Each number of the specification has a class of its own below this
    one, named as in include/cauchy.h; `number` is that number and `meaning` says it in a line.

    >>> Store(1, [0] * 9, [0, 1, 2]).clear(4)
    Traceback (most recent call last):
    cauchy.Vacant: vacant: the place is empty (no 7)
    >>> issubclass(Vacant, Refused), Vacant.number, Vacant.meaning
    (True, 7, 'vacant: the place is empty')
    """

    number: int = 0
    meaning: str = "refused"

    def __str__(self) -> str:
        return f"{self.meaning} (no {self.number})"


class UnknownRefusal(Refused):
    """A refusal whose number this package does not know: the library is not the one that it was made for."""

    meaning = "a refusal that this package does not know: the library is another version's"

    def __init__(self, number: int) -> None:
        super().__init__(number)
        self.number = number


class Ragged(Refused):
    """A count of coordinates or corners that is not a multiple of 3."""

    number = 1
    meaning = "ragged: a count of coordinates or corners is not a multiple of 3"


class Oversize(Refused):
    """More than 1,048,576 vertices or 2,097,152 faces."""

    number = 2
    meaning = "oversize: more than 1,048,576 vertices or 2,097,152 faces"


class LooseCorner(Refused):
    """A face names a vertex that is not there: also a number below 0 or of more than 32 bits."""

    number = 3
    meaning = "loose corner: a face names a vertex that is not there"


class ShortStore(Refused):
    """A run of a store is too short for its mesh. Of the stores of this package a forged snapshot alone can be."""

    number = 4
    meaning = "short store: a run is too short for its mesh"


class Unsound(Refused):
    """The runs hold no sound store. Of the stores of this package a forged snapshot alone can be so."""

    number = 5
    meaning = "unsound: the runs hold no sound store"


class NoPlace(Refused):
    """The place is below 0, or 32 or above."""

    number = 6
    meaning = "no place: the places are 0 to 31"


class Vacant(Refused):
    """The place to be cleared, reweighed or adopted is empty."""

    number = 7
    meaning = "vacant: the place is empty"


class Unfinished(Refused):
    """Work is left that this reading needs: `Store.advance` or `Store.work` does it."""

    number = 8
    meaning = "unfinished: work is left that this reading needs"


class ShortList(Refused):
    """A kernel list is not of sixes."""

    number = 9
    meaning = "short list: six floats are needed for each kernel"


class BadMatrix(Refused):
    """More than 16 equations, or a count of cells that does not go with theirs."""

    number = 10
    meaning = "bad matrix: more than 16 equations, or lengths that do not fit"


class FlatPivot(Refused):
    """The pivot chosen in some column of the equations is at most 1e-18 in absolute value; `column` is that column,
    from 0."""

    number = 11
    meaning = "flat pivot: the pivot chosen in some column is at most 1e-18"

    def __init__(self, column: int = 0) -> None:
        super().__init__(column)
        self.column = column


class Exponent(Refused):
    """An exponent is farther than 1e-9 from 1, where only 1 can be integrated. A NaN passes."""

    number = 12
    meaning = "exponent: some exponent is farther than 1e-9 from 1"


class BadLine(Refused):
    """The bytes are not a store's lines, one whole opening and then puts: also a line without its newline, or with a
    carriage return before it, or with a number of more than 32 bits."""

    number = 13
    meaning = "bad line: the bytes are not one whole opening and then puts"


class BadTrack(Refused):
    """A track of more than 4,096 points, or whose coordinates are not of threes."""

    number = 14
    meaning = "bad track: more than 4,096 points, or lengths that do not fit"


class ManyKernels(Refused):
    """More than 32 kernels are to be billed."""

    number = 15
    meaning = "many kernels: a bill takes at most 32"


class NoLayer(Refused):
    """A layer is below 0, or 16 or above."""

    number = 16
    meaning = "no layer: the layers are 0 to 15"


class NoFigure(Refused):
    """The mass of a place is NaN or exceeds 10^15 kg, and a page cannot show it."""

    number = 17
    meaning = "no figure: the mass of a place is NaN or exceeds 10^15 kg"


class ShortPage(Refused):
    """The bytes to be written are too few for the page. Those that this package lends never are."""

    number = 18
    meaning = "short page: 65 bytes are needed for each filled place and for the total"


class ShortText(Refused):
    """The bytes to be written are too few for the store's lines. Those that this package lends never are."""

    number = 19
    meaning = "short text: the bytes are too few for the store's lines"


class BadKernelLine(Refused):
    """A line of a file is no kernel line: also one without its newline, or with a carriage return before it."""

    number = 20
    meaning = "bad kernel line: not (kernel (c h h h) (sigma h) (w h) (alpha h or none))"


class LoadersDiffer(Refused):
    """The two loaders make different kernels of the lines, and neither was named."""

    number = 21
    meaning = "loaders differ: native and source make different kernels of some line"


class NotClosed(Refused):
    """The mesh is not closed."""

    number = 22
    meaning = "not closed: an edge does not occur once each way, or a face names a corner twice"


REFUSALS: Dict[int, Type[Refused]] = {
    kind.number: kind
    for kind in (
        Ragged, Oversize, LooseCorner, ShortStore, Unsound, NoPlace, Vacant, Unfinished, ShortList, BadMatrix,
        FlatPivot, Exponent, BadLine, BadTrack, ManyKernels, NoLayer, NoFigure, ShortPage, ShortText, BadKernelLine,
        LoadersDiffer, NotClosed,
    )
}


def check(number: int) -> None:
    """Raises the refusal of a number that is not 0."""
    if number:
        kind = REFUSALS.get(number)
        raise UnknownRefusal(number) if kind is None else kind()


class FloatStateError(RuntimeError):
    """The thread's floating-point state is not the default one, so that figures would not be those specified."""


def check_float_state() -> None:
    """Raises where the thread's floating-point state is not the default one, as in a host of -ffast-math.

    >>> check_float_state()
    """
    tiny, small = sys.float_info.min, 1e-20
    kept = tiny * 0.5 * 2.0 == tiny
    nearest = 1.0 + small == 1.0 and 1.0 - small == 1.0 and -1.0 - small == -1.0
    if not (kept and nearest):
        raise FloatStateError("the floating-point state is not the default one")
