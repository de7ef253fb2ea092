"""The specification's roots and powers, in place of the platform's, and its radial factor. Never refused."""
from .arrays import number
from .library import ask


def root(x: float) -> float:
    """The IEEE 754 square root.

    >>> root(4)
    2.0
    """
    return float(ask("root", number(x, "x")))


def arc(t: float) -> float:
    """The arc tangent.

    >>> round(arc(1), 12)
    0.785398163397
    """
    return float(ask("arc", number(t, "t")))


def log(b: float) -> float:
    """The logarithm to base 2.

    >>> log(8)
    3.0
    """
    return float(ask("log", number(b, "b")))


def exp(y: float) -> float:
    """2 to the power y.

    >>> exp(-2)
    0.25
    """
    return float(ask("exp", number(y, "y")))


def power(b: float, y: float) -> float:
    """b to the power y; NaN for b below 0 unless y is 0.

    >>> power(2, 10), power(1, float("nan"))
    (1024.0, 1.0)
    """
    return float(ask("power", number(b, "b"), number(y, "y")))


def ten(y: float) -> float:
    """10 to the power y: of a whole y exact from 0 to 22, and rounded once from -22 to -1.

    >>> ten(1), ten(-1)
    (10.0, 0.1)
    """
    return float(ask("ten", number(y, "y")))


def log10(b: float) -> float:
    """The logarithm to base 10.

    >>> round(log10(1000), 12)
    3.0
    """
    return float(ask("log10", number(b, "b")))


def radial_g(t: float) -> float:
    """(t - arc t) / t^3, which is 1/3 at 0.

    >>> radial_g(0) == 1 / 3
    True
    """
    return float(ask("radial_g", number(t, "t")))
