"""Many hands: the work of one store in shares of whole places, and actions in threads at once."""
from threading import Thread
from typing import Callable, List, Sequence


def shares(left: Sequence[int], workers: int) -> List[List[int]]:
    """The places that have steps left, in at most so many shares, as even as whole places allow: the place with the
    most steps left goes first, each to the share that has the fewest steps so far. `left` has the steps left of each place.

    >>> from cauchy.hands import shares
    >>> shares([10, 0, 10, 130, 10], 2), shares([10, 0, 20], 9), shares([0, 0], 2)
    ([[3], [0, 2, 4]], [[2], [0]], [])
    """
    places = sorted((place for place, steps in enumerate(left) if steps > 0), key=lambda place: -left[place])
    found: List[List[int]] = [[] for _ in range(min(max(workers, 1), len(places)))]
    for place in places:
        min(found, key=lambda share: sum(left[other] for other in share)).append(place)
    return found


def at_once(actions: Sequence[Callable[[], object]]) -> None:
    """Runs actions in threads of their own until all have ended; then the first fault of any is raised.

    >>> from cauchy.hands import at_once
    >>> at_once([lambda: None, lambda: [].pop()])
    Traceback (most recent call last):
    IndexError: pop from empty list
    """
    faults: List[BaseException] = []

    def run(action: Callable[[], object]) -> None:
        try:
            action()
        except BaseException as fault:  # it is raised where the threads were started
            faults.append(fault)

    threads = [Thread(target=run, args=(action,)) for action in actions]
    for thread in threads:
        thread.start()
    for thread in threads:
        thread.join()
    if faults:
        raise faults[0]
