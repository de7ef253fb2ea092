"""Turns on one store: readings share it, and whatever writes has it alone."""
from threading import Lock
from typing import Any, Callable, List


class _Turn:
    """One who asked: a lock that is held until the turn is over, and whether it is to be alone."""

    __slots__ = ("held", "alone")

    def __init__(self, alone: bool) -> None:
        self.held, self.alone = Lock(), alone


class Turns:
    """A readers-writer lock, in the order of asking: a writer waits for all who asked before it, a reading for the
    writers who did. So neither kind can starve the other.

    Each turn has a lock of its own, held from before it asks until it is over, and waits for those before it one by
    one. So wherever a turn is interrupted, as by Ctrl-C, its lock is free again, and all others still wait for one
    another. Nothing else need be put in order: a turn that is over but still in the list holds no one up.

    A turn is taken around calls of the library alone, and inside another only by `in_both`. A signal handler that uses a store
    which the main thread is using would wait for ever.
    """

    __slots__ = ("_asked",)

    def __init__(self) -> None:
        self._asked: List[_Turn] = []  # in order; it is copied, and gains and loses turns, in one step of Python each

    def run(self, alone: bool, action: Callable[[], Any]) -> Any:
        """What an action gives, in a turn that is shared with other readings or is its own."""
        mine = _Turn(alone)
        with mine.held:
            self._asked.append(mine)
            try:
                for turn in self._asked.copy():
                    if turn is mine:
                        break
                    if alone or turn.alone:
                        with turn.held:  # it is over
                            pass
                return action()
            finally:
                self._asked.remove(mine)


def in_both(own: Turns, other: Turns, action: Callable[[], Any]) -> Any:
    """What an action gives in two turns, one of `own` that it has alone and one of `other` that it shares. The turn of
    the lower `id` is taken first, so two stores that adopt from each other do not wait for one another for ever."""
    if id(own) < id(other):
        return own.run(True, lambda: other.run(False, action))
    return other.run(False, lambda: own.run(True, action))
