"""The two runs of a store: memory of its own, lent to the library, never resized."""
import mmap
from typing import Any, Tuple

from .arrays import floats as lent_floats, words as lent_words

# Runs of this size or more are asked for in large pages: the system hands them out several times as fast.
_LARGE = 4 << 20


def _zeros(size: int) -> mmap.mmap:
    """Memory of zeros, private to the process and to its forks, which the system fills in where it is touched."""
    memory = mmap.mmap(-1, max(size, 1), flags=mmap.MAP_PRIVATE | mmap.MAP_ANONYMOUS)
    if size >= _LARGE and hasattr(mmap, "MADV_HUGEPAGE"):
        try:
            memory.madvise(mmap.MADV_HUGEPAGE)
        except OSError:  # a system without large pages
            pass
    return memory


class Runs:
    """The floats and the words of a store, as views that may be written, and as they are lent. While they are lent,
    which is as long as this object lives, the memory cannot be resized or given back."""

    __slots__ = ("floats", "words", "_lent")

    def __init__(self, n_floats: int, n_words: int) -> None:
        floats, words = _zeros(8 * n_floats), _zeros(4 * n_words)
        self.floats = memoryview(floats)[:8 * n_floats].cast("d")
        self.words = memoryview(words)[:4 * n_words].cast("I")
        self._lent = (*lent_floats(self.floats, "floats", 1).lent(), *lent_words(self.words, "words", 1).lent())

    def copy(self) -> "Runs":
        """The same numbers in other memory."""
        runs = Runs(len(self.floats), len(self.words))
        runs.floats[:], runs.words[:] = self.floats, self.words
        return runs

    def lent(self) -> Tuple[Any, ...]:
        """Both as pointer and count: the first four arguments of every call on a store."""
        return self._lent
