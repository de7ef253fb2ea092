"""The store."""
from array import array
from functools import partial
from typing import Any, Collection, Iterator, List, Optional, Tuple, Union, overload

from . import arrays, hands, lines, snapshot
from .library import (
    ALL_LAYERS, FLOATS_BEFORE_MESH, LAYERS, MAX_PIECES, MAX_TRACK, OLD_WORDS_BEFORE_MESH, PAGE_LINE, PLACES,
    WORDS_BEFORE_MESH, call,
)
from .memory import Runs
from .refusals import NoPlace, Refused, Unsound, check_float_state
from .turns import Turns, in_both
from .values import (
    Adopted, Convention, Held, Kernel, Placed, Steps, StoreReport, answered_fit, crossing_convention, crossing_kernel, listed,
    masses, vector,
)

# Where a place's kernel and state stand in the runs, and their sizes.
_KERNELS_AT, _KERNEL_FLOATS = 1, 7
_STATES_AT, _STATE_WORDS, _LAYER_IN_STATE = 2, 4, 3

# Which layers a reading sees: all, where nothing is said.
Layers = Optional[Collection[int]]

# The functions that only read a store, so that they may share it; the header's `const` says the same.
READINGS = frozenset(
    ("store_density", "store_report", "store_finished", "store_list", "store_track", "store_page", "store_write"))


class Store:
    """Up to 32 kernels inside a mesh, with the work on them as far as it is done.

    The vertices are metres, three coordinates each; the faces are three numbers of vertices each, from 0, seen
    anticlockwise from outside. Both are arrays, flat or in rows of three: see `cauchy.arrays`. The radius of the
    body, in metres, bounds the fits of exponents other than 1.

    A store may be used by several threads. Readings share it, and whatever changes it has it alone, in the order of
    asking. A refused call changes nothing.

    >>> store = Store(500, [0] * 9, [0, 1, 2])
    >>> store
    Store(vertices=3, faces=1, radius=500.0, filled=0)
    >>> store.put(4, Kernel((0, 0, 0), 0.01, 300, 2)).fit.kind
    'fitted'
    >>> store.reweigh(4, -20)
    >>> store.advance(5), store.left()
    (Steps(done=5, left=8), 8)
    >>> store.report(RAW)
    Traceback (most recent call last):
    cauchy.Unfinished: unfinished: work is left that this reading needs (no 8)
    >>> store.advance(2**70), store.report(RAW).pieces
    (Steps(done=8, left=0), 13)
    >>> store.clear(4)
    >>> store.list(RAW), Store(1, [], []).left()
    ([], 0)
    >>> store.clear(2**32)
    Traceback (most recent call last):
    cauchy.NoPlace: no place: the places are 0 to 31 (no 6)
    """

    __slots__ = ("_runs", "_turns", "_carried", "__weakref__")
    _runs: Runs
    _turns: Turns
    _carried: bool

    def __init__(self, radius: float, vertices: arrays.Items, faces: arrays.Items) -> None:
        check_float_state()
        size = arrays.number(radius, "radius")
        xyz, corners = arrays.floats(vertices, "vertices", 3), arrays.words(faces, "faces", 3)
        runs = Runs(FLOATS_BEFORE_MESH + xyz.count, WORDS_BEFORE_MESH + corners.count)
        call("store_open", *runs.lent(), size, *xyz.lent(), *corners.lent())
        self._runs, self._turns, self._carried = runs, Turns(), False

    @classmethod
    def carry_from_old(cls, floats: arrays.Items, words: arrays.Items) -> "Store":
        """Carries a store of the form before layers over, which had three words to a place: a store like it, with
        every kernel in layer 0 and all work as far as it was done. Nothing is fitted anew: pieces go across as they are
        held, also those of a version whose powers were others. The two runs are flat arrays and only read; what they
        have past the old store's own is left behind. `from_bytes` does the same with a snapshot of that form.

        >>> from array import array
        >>> floats, words = array("d", [0.0] * (1761 + 3 * 3)), array("I", [0] * (98 + 3 * 4))
        >>> words[0], words[1] = 3, 4                                           # vertices and faces
        >>> floats[1 + 7 * 7:1 + 7 * 7 + 6] = array("d", [0, 0, 0, 0.01, 300, 1])  # the kernel of place 7,
        >>> floats[225 + 48 * 7:225 + 48 * 7 + 3] = array("d", [0.01, 1, 0])       # its piece,
        >>> words[2 + 3 * 7:2 + 3 * 7 + 3] = array("I", [2, 0, 3])                 # of whose faces 3 are done
        >>> store = Store.carry_from_old(floats, words)
        >>> store.carried, store.left(), store.held(7).layer, store.density(RAW, (0, 0, 0))
        (True, 1, 0, 300.0)
        >>> Store.carry_from_old(floats, words[:97])
        Traceback (most recent call last):
        cauchy.ShortStore: short store: a run is too short for its mesh (no 4)
        """
        check_float_state()
        return cls._carry(arrays.floats(floats, "floats", 1), arrays.words(words, "words", 1))

    @classmethod
    def _carry(cls, floats: arrays.Run, words: arrays.Run) -> "Store":
        """The store of two runs of the form before layers."""
        verts, faces = (words.head(2, "I") + [0, 0])[:2]
        # old runs that are too short for these counts are refused: so no more is needed than they have
        n_words = words.count + WORDS_BEFORE_MESH - OLD_WORDS_BEFORE_MESH
        runs = Runs(min(floats.count, FLOATS_BEFORE_MESH + 3 * verts), min(n_words, WORDS_BEFORE_MESH + 3 * faces))
        call("store_carry", *floats.lent(), *words.lent(), *runs.lent())
        return cls._of(runs, True)

    def _call(self, name: str, *arguments: Any) -> Any:
        """Calls a function of the library on this store, in its turn."""
        return self._turns.run(name not in READINGS, lambda: call(name, *self._runs.lent(), *arguments))

    # ---- Changes ------------------------------------------------------------------------------------------

    def put(self, place: int, kernel: Kernel, layer: int = 0) -> Placed:
        """Puts a kernel into a place, whatever that held, with all its work to do, in a layer from 0 to 15; its
        pieces, the steps that they need, and how their fit ended, which the store does not keep.

        >>> store = Store(500, [0] * 9, [0, 1, 2])
        >>> store.put(0, Kernel((0, 0, 0), 1, 2, 1), layer=3)
        Placed(pieces=1, need=1, fit=Fit(kind='kept', pivot=None, column=None))
        >>> store.put(1, Kernel((0, 0, 0), 1, 5, 1)).need
        1
        >>> store.density(RAW, (0, 0, 0)), store.density(RAW, (0, 0, 0), layers=[3]), store.held(0).layer
        (7.0, 2.0, 3)
        >>> store.put(0, Kernel((0, 0, 0), 1, 2, 1), layer=16)
        Traceback (most recent call last):
        cauchy.NoLayer: no layer: the layers are 0 to 15 (no 16)
        """
        answer = self._call("store_put", _place(place), crossing_kernel(kernel), _layer(layer))
        return Placed(answer.pieces, answer.need, answered_fit(answer.fit))

    def clear(self, place: int) -> None:
        """Empties a place."""
        self._call("store_clear", _place(place))

    def reweigh(self, place: int, w: float) -> None:
        """Gives the kernel of a place another weight; the work on it and its layer are kept."""
        self._call("store_reweigh", _place(place), arrays.number(w, "w"))

    def squeeze(self) -> int:
        """Takes the vertices that no face uses out of the mesh; the coordinates freed, three a vertex. No place,
        no step and no later reading changes by it, and the freed floats stay in the run, as zeros.

        >>> store = Store(500, [8, 8, 8, 0, 0, 0, 6, 0, 0, 9, 9, 9, 0, 6, 0], [1, 2, 4])
        >>> store.squeeze(), store.squeeze()
        (6, 0)
        >>> vertices, faces = store.mesh()
        >>> vertices.tolist(), faces.tolist()                                     # doctest: +ELLIPSIS
        ([...0.0, 0.0, 0.0..., ...6.0, 0.0, 0.0..., ...0.0, 6.0, 0.0...], [...0, 1, 2...])
        """
        return int(self._call("store_squeeze").freed)

    def advance(self, budget: int) -> Steps:
        """Does up to so many steps, one face of one piece each; the steps done and left. Every call looks the whole
        store over first, so budgets of many faces are cheapest."""
        steps = arrays.whole(budget, "budget")
        if steps < 0:
            raise ValueError(f"budget is a number of steps, and not {steps}")
        answer = self._call("store_advance", min(steps, 2**64 - 1))
        return Steps(answer.done, answer.left)

    def advance_with(self, threads: int) -> Steps:
        """Does all work that is left, on so many threads; the steps done and left. Each works on a copy of the store
        that has its share of the places alone, and the places come back by `adopt`: the store is then, bit for bit, the one
        that `advance` makes. No other thread may change the store meanwhile: what it changes in a place that is worked
        on would be lost.

        >>> store = Store(500, [0] * 9, [0, 1, 2] * 10)
        >>> [store.put(place, Kernel((0, 0, 0), 0.01, 300, 1)).need for place in (3, 7)]
        [10, 10]
        >>> alone = store.copy()
        >>> store.advance_with(2), alone.advance(20)
        (Steps(done=20, left=0), Steps(done=20, left=0))
        >>> store.to_bytes() == alone.to_bytes()
        True
        """
        count = arrays.whole(threads, "threads")
        if count < 0:
            raise ValueError(f"threads is a number of threads, and not {count}")
        before = self.copy()
        shares = hands.shares([before._left_at(place) for place in range(PLACES)], count)
        if len(shares) < 2:
            return self.advance(2**64 - 1)
        workers = [before._worker(share) for share in shares]
        hands.at_once([partial(worker.advance, 2**64 - 1) for worker in workers])
        for share, worker in zip(shares, workers):
            for place in share:
                self.adopt(place, worker, place)
        return Steps(before.left(), self.left())

    def _left_at(self, place: int) -> int:
        """The steps left of a place, in a store that no other thread has."""
        state = _STATES_AT + _STATE_WORDS * place
        status, pieces, faces = self._runs.words[state:state + 3].tolist()
        return (max(status - 1, 0) - pieces) * self._runs.words[1] - faces

    def _worker(self, places: List[int]) -> "Store":
        """A copy in which every place but these is empty."""
        worker = self.copy()
        for place in range(PLACES):
            if place not in places and worker.held(place) is not None:
                worker.clear(place)
        return worker

    def adopt(self, place: int, other: "Store", other_place: int) -> Optional[Adopted]:
        """Takes what a filled place of another store of the same body holds into a place of this one, whatever that
        held: the kernel, its layer, its pieces, their error, the volumes so far and the steps done. So the work on a
        place may be done in another store, in another thread or on another machine, and goes on here where it was; its
        pieces and the steps that it has left. None where the other store is one of another body, and nothing is
        changed then. The bodies are the same where radius, counts, coordinates and corners are, bit for bit and every
        NaN as one.

        >>> store = Store(500, [0] * 9, [0, 1, 2])
        >>> store.put(4, Kernel((0, 0, 0), 0.01, 300, 2)).need
        13
        >>> worker = store.copy()
        >>> worker.advance(5)
        Steps(done=5, left=8)
        >>> store.adopt(4, worker, 4), store.left()
        (Adopted(pieces=13, left=8), 8)
        >>> another = Store(501, [0] * 9, [0, 1, 2])
        >>> another.put(0, Kernel((0, 0, 0), 0.01, 300, 1)).need
        1
        >>> print(store.adopt(4, another, 0))
        None
        >>> store.adopt(4, worker, 5)
        Traceback (most recent call last):
        cauchy.Vacant: vacant: the place is empty (no 7)
        """
        if not isinstance(other, Store):
            raise TypeError(f"other is a Store, and not of the type {type(other).__name__}")
        into, out_of = _place(place), _place(other_place)
        source = self.copy() if other is self else other  # the library is not lent the same memory twice
        answer = in_both(self._turns, source._turns, lambda: call(
            "store_adopt", *self._runs.lent(), into, *source._runs.lent(), out_of))
        return Adopted(answer.pieces, answer.left) if answer.same_body else None

    def left(self) -> int:
        """The steps left."""
        return self.advance(0).left

    def work(self, portion: int = 1_000_000) -> Iterator[Steps]:
        """Does the work that is left, in portions of so many steps. After each it gives the steps done since the
        beginning and those left, so `done / (done + left)` is the progress. Without work it gives nothing.

        >>> store = Store(500, [0] * 9, [0, 1, 2])
        >>> store.put(4, Kernel((0, 0, 0), 0.01, 300, 2)).fit.kind
        'fitted'
        >>> for done, left in store.work(5):
        ...     print(done, left)
        5 8
        10 3
        13 0
        >>> list(store.work())
        []
        """
        steps = arrays.whole(portion, "portion")
        if steps <= 0:
            raise ValueError(f"portion is a number of steps above 0, and not {steps}")
        return self._portions(steps)

    def _portions(self, steps: int) -> Iterator[Steps]:
        done, left = 0, self.left()
        while left > 0:
            told = self.advance(steps)
            done, left = done + told.done, told.left
            yield Steps(done, left)

    # ---- Readings. Each sees only the places in `layers`, a collection of numbers from 0 to 15; all where it is None -

    @overload
    def density(self, convention: Convention, point: Tuple[float, float, float], layers: Layers = None) -> float:
        ...

    @overload
    def density(self, convention: Convention, point: arrays.Items, layers: Layers = None) -> Any:
        ...

    def density(self, convention: Convention, point: arrays.Items, layers: Layers = None) -> Any:
        """The density at a point, as a float; or at each of any number of points, given as rows of three, as an
        array: numpy's where numpy is there, otherwise `array`. By mass with a target above 0 it needs all work of these
        layers done.

        >>> store = Store(500, [0] * 9, [0, 1, 2])
        >>> store.put(0, Kernel((0, 0, 0), 1, 2, 1))
        Placed(pieces=1, need=1, fit=Fit(kind='kept', pivot=None, column=None))
        >>> store.density(RAW, (1, 0, 0))
        1.0
        >>> store.density(RAW, [(0, 0, 0), (1, 0, 0)]).tolist(), len(store.density(RAW, [(0, 0, 3)] * 10_000))
        ([2.0, 1.0], 10000)
        >>> store.density(RAW, (1, 0))
        Traceback (most recent call last):
        ValueError: point: 3 numbers, and not 2
        """
        crossing = crossing_convention(convention), _layers(layers)
        if not arrays.is_rows(point, "point"):
            return float(self._call("store_density", *crossing, vector(point, "point")).value)
        points = arrays.floats(point, "point", 3)
        answer = arrays.zeros(points.count // 3)
        out = arrays.written(answer)

        def tracks() -> None:
            for start in range(0, max(out.count, 1), MAX_TRACK):  # no points are a track too, which may be refused
                count = min(MAX_TRACK, out.count - start)
                call("store_track", *self._runs.lent(), *crossing, *points.part(3 * start, 3 * count),
                     *out.part(start, count))

        self._turns.run(False, tracks)
        return answer

    def track(self, convention: Convention, points: arrays.Items, layers: Layers = None) -> Any:
        """The density at each of up to 4,096 points, in order, as an array: what `density` gives, with the store
        looked over once. The points are an array, flat or in rows of three. By mass with a target above 0 it needs all
        work of these layers done.

        >>> store = Store(500, [0] * 9, [0, 1, 2])
        >>> store.put(0, Kernel((0, 0, 0), 1, 2, 1))
        Placed(pieces=1, need=1, fit=Fit(kind='kept', pivot=None, column=None))
        >>> store.track(RAW, [(0, 0, 0), (1, 0, 0), (0, 0, 3)]).tolist(), store.track(RAW, []).tolist()
        ([2.0, 1.0, 0.2], [])
        >>> from array import array
        >>> store.track(RAW, array("d", [0, 0, 0, 1, 0, 0])).tolist()
        [2.0, 1.0]
        >>> store.track(RAW, [(1, 2)])
        Traceback (most recent call last):
        ValueError: points[0]: 3 numbers, and not 2
        >>> store.track(RAW, array("d", bytes(24 * 4097)))
        Traceback (most recent call last):
        cauchy.BadTrack: bad track: more than 4,096 points, or lengths that do not fit (no 14)
        """
        crossing = crossing_convention(convention), _layers(layers)
        run = arrays.floats(points, "points", 3)
        answer = arrays.zeros(run.count // 3)
        self._call("store_track", *crossing, *run.lent(), *arrays.written(answer).lent())
        return answer

    def report(self, convention: Convention, layers: Layers = None) -> StoreReport:
        """The masses, with `kernels`, `pieces` and `error` beside them. It needs all work of these layers done.

        >>> store = Store(500, [0] * 9, [0, 1, 2])
        >>> store.put(0, Kernel((0, 0, 0), 1, 2, 1), layer=3).pieces
        1
        >>> store.report(RAW, layers=[0, 1]).kernels, store.report(RAW, layers=[]).kernels
        (0, 0)
        >>> store.report(RAW, layers=[3])
        Traceback (most recent call last):
        cauchy.Unfinished: unfinished: work is left that this reading needs (no 8)
        """
        answer = self._call("store_report", crossing_convention(convention), _layers(layers))
        return StoreReport(**masses(answer.report), kernels=answer.kernels, pieces=answer.pieces, error=answer.error)

    def finished(self, convention: Convention, layers: Layers = None) -> Tuple[StoreReport, int]:
        """The report of what is finished, while work may be left, and how many filled places of these layers it passed
        over: what `report` gives of a store that holds just the places whose work is done.

        >>> store = Store(500, [0] * 9, [0, 1, 2])
        >>> store.put(0, Kernel((0, 0, 0), 1, 2, 1)).need, store.put(1, Kernel((0, 0, 0), 1, 5, 1)).need
        (1, 1)
        >>> store.advance(1)
        Steps(done=1, left=1)
        >>> report, passed_over = store.finished(RAW)
        >>> report.kernels, passed_over
        (1, 1)
        """
        answer = self._call("store_finished", crossing_convention(convention), _layers(layers))
        report = StoreReport(
            **masses(answer.report), kernels=answer.kernels, pieces=answer.pieces, error=answer.error)
        return report, int(answer.passed_over)

    def list(self, convention: Convention, layers: Layers = None) -> List[Kernel]:
        """The pieces of the places, in order, as kernels with weights rescaled. By mass with a target above 0 it
        needs all work of these layers done.

        >>> store = Store(500, [0] * 9, [0, 1, 2])
        >>> store.put(7, Kernel((0, 0, 0), 0.01, 300, 1))
        Placed(pieces=1, need=1, fit=Fit(kind='kept', pivot=None, column=None))
        >>> store.list(rho0(1200))
        [Kernel(c=(0.0, 0.0, 0.0), sigma=0.01, w=1200.0, alpha=1.0)]
        """
        out = array("d", [0.0]) * (PLACES * MAX_PIECES * 6)
        answer = self._call("store_list", crossing_convention(convention), _layers(layers), *arrays.written(out).lent())
        return listed(out, answer.pieces)

    def page(self) -> str:
        """The wall page, of every layer: a line of 64 characters for each filled place, in order, with its number in
        columns 1-2, its pieces in 4-5 and its own field mass in 45-64, by the weight as entered and in whole kilograms,
        to the nearest and ties to even; then a line with TOTAL and the sum of the printed masses. Each line ends in a
        newline. It needs all work done, and no mass that is NaN or exceeds 10^15 kg.

        >>> store = Store(6, [0, 0, 0, 6, 0, 0, 0, 6, 0, 0, 0, 6], [0, 2, 1, 0, 1, 3, 0, 3, 2, 1, 2, 3])
        >>> store.put(7, Kernel((1, 1, 1), 0, 1000, 1)).need, store.put(12, Kernel((1, 1, 1), 0, -1, 1)).need
        (4, 4)
        >>> store.advance(8)
        Steps(done=8, left=0)
        >>> print(store.page(), end="")
         7  1                                                      36000
        12  1                                                        -36
        TOTAL                                                      35964
        >>> store.reweigh(7, float("nan"))
        >>> store.page()
        Traceback (most recent call last):
        cauchy.NoFigure: no figure: the mass of a place is NaN or exceeds 10^15 kg (no 17)
        """
        out = bytearray(PAGE_LINE * (PLACES + 1))
        answer = self._call("store_page", *arrays.written_octets(out).lent())
        return bytes(out[:answer.bytes]).decode("ascii")

    def held(self, place: int) -> Optional[Held]:
        """What a place holds; None where it is empty.

        >>> store = Store(500, [0] * 9, [0, 1, 2])
        >>> store.put(7, Kernel((1, 2, 3), 0.01, 300, 1))
        Placed(pieces=1, need=1, fit=Fit(kind='kept', pivot=None, column=None))
        >>> store.held(7), store.held(8)
        (Held(kernel=Kernel(c=(1.0, 2.0, 3.0), sigma=0.01, w=300.0, alpha=1.0), layer=0, pieces=1, error=0.0), None)
        """
        which = _place(place)
        if which >= PLACES:
            raise NoPlace()
        start, state = _KERNELS_AT + _KERNEL_FLOATS * which, _STATES_AT + _STATE_WORDS * which
        words, fields = self._turns.run(False, lambda: (
            self._runs.words[state:state + _STATE_WORDS].tolist(),
            self._runs.floats[start:start + _KERNEL_FLOATS].tolist(),
        ))
        if words[0] == 0:
            return None
        x, y, z, sigma, w, alpha, error = fields
        return Held(Kernel((x, y, z), sigma, w, alpha), words[_LAYER_IN_STATE], words[0] - 1, error)

    def mesh(self) -> Tuple[Any, Any]:
        """Copies of the vertices and faces as the store keeps them: arrays of numpy in rows of three where numpy is
        there, otherwise flat ones of the standard library.

        >>> vertices, faces = Store(500, [0, 0, 0, 6, 0, 0, 0, 6, 0], [0, 1, 2]).mesh()
        >>> faces.tolist() in ([0, 1, 2], [[0, 1, 2]])
        True
        """
        xyz, corners = self._turns.run(False, self._copied_mesh)
        numpy = arrays.numpy()
        if numpy is None:
            return xyz, corners
        return numpy.frombuffer(xyz).reshape(-1, 3), numpy.frombuffer(corners, dtype=numpy.uint32).reshape(-1, 3)

    def _copied_mesh(self) -> Tuple[Any, Any]:
        verts, faces = self._runs.words[:2]
        xyz = self._runs.floats[FLOATS_BEFORE_MESH:FLOATS_BEFORE_MESH + 3 * verts]
        corners = self._runs.words[WORDS_BEFORE_MESH:WORDS_BEFORE_MESH + 3 * faces]
        return array("d", xyz.tobytes()), array("I", corners.tobytes())

    @property
    def carried(self) -> bool:
        """Whether the store was carried over from the form before layers, by `carry_from_old` or, from a snapshot of
        that form, by `from_bytes`. Copies know it too, and snapshots and pickles of this store do not: they are of the
        form with layers.

        >>> Store(500, [0] * 9, [0, 1, 2]).carried
        False
        """
        return self._carried

    @property
    def radius(self) -> float:
        """The body's radius, m, as the store was opened with."""
        return float(self._runs.floats[0])

    @property
    def floats(self) -> memoryview:
        """The store's run of floats, as a view that cannot be written, resized or replaced. It shows the store as it
        is now: while another thread changes the store, the view may show it half changed. `to_bytes` and `copy` are
        taken between calls.

        >>> store = Store(500, [0] * 9, [0, 1, 2])
        >>> store.floats[0], store.floats.readonly, len(store.floats), list(store.words[130:])
        (500.0, True, 1770, [0, 1, 2])
        """
        return self._runs.floats.toreadonly()

    @property
    def words(self) -> memoryview:
        """The store's run of words, as a view like that of its floats."""
        return self._runs.words.toreadonly()

    def __repr__(self) -> str:
        words = self._turns.run(False, self._runs.words[:_STATES_AT + _STATE_WORDS * PLACES].tolist)
        verts, faces, *states = words
        filled = sum(state > 0 for state in states[::_STATE_WORDS])
        return f"Store(vertices={verts}, faces={faces}, radius={self.radius}, filled={filled})"

    # ---- Copies and snapshots -----------------------------------------------------------------------------

    def to_bytes(self) -> bytes:
        """The store as a snapshot: bytes with a checksum, as the Rust crate and the program `cauchy` write and read
        them.

        >>> store = Store(500, [0] * 9, [0, 1, 2])
        >>> Store.from_bytes(store.to_bytes()).to_bytes() == store.to_bytes()
        True
        """
        data: bytes = self._turns.run(False, lambda: snapshot.write(self._runs))
        return data

    @classmethod
    def from_bytes(cls, data: Union[bytes, bytearray, memoryview]) -> "Store":
        """The store of a snapshot, from which it goes on. `SnapshotError` where the bytes are not one. The store of a
        snapshot of the form before layers is carried over, as by `carry_from_old`, and has `carried` set.

        >>> data = bytearray(Store(500, [0] * 9, [0, 1, 2]).to_bytes())
        >>> data[100] ^= 1
        >>> Store.from_bytes(data)
        Traceback (most recent call last):
        cauchy.SnapshotError: damaged: its checksum does not fit its bytes
        """
        check_float_state()
        runs, old = snapshot.read(data)
        try:
            return cls._from_old(runs) if old else cls._from_runs(runs)
        except Refused as refusal:
            raise snapshot.SnapshotError("refused") from refusal

    @classmethod
    def _from_runs(cls, runs: Runs) -> "Store":
        """The store of runs that are a sound store as an opening and squeezes leave it."""
        store = cls._of(runs, False)
        store.left()
        _check_excess(runs, WORDS_BEFORE_MESH)
        return store

    @classmethod
    def _from_old(cls, runs: Runs) -> "Store":
        """The store of such runs of the form before layers."""
        store = cls._carry(arrays.floats(runs.floats, "floats", 1), arrays.words(runs.words, "words", 1))
        _check_excess(runs, OLD_WORDS_BEFORE_MESH)
        return store

    def to_lines(self) -> bytes:
        r"""The store as lines of text: its mesh, radius, kernels, weights and layers, bit for bit but with every NaN as
        one, for tools that do not link the library. The work that is done is not in them.

        `(open (radius H) (verts N) (faces N))`, the vertices `(vert H H H)`, the faces `(face N N N)`, and for each
        filled place `(put N (c H H H) (sigma H) (w H) (alpha H) (layer N))`; each ends in a newline. H is a number by
        the 16 upper-case hexadecimal digits of its bits, N is in decimal.

        >>> store = Store(500, [0, 0, 0, 1, 0, 0, 0, 1, 0], [0, 1, 2])
        >>> store.put(4, Kernel((0, 0, 0), 1, 2, 1), layer=15).need
        1
        >>> text = store.to_lines()
        >>> print(*text.decode().splitlines()[:2], sep="\n")
        (open (radius 407F400000000000) (verts 3) (faces 1))
        (vert 0000000000000000 0000000000000000 0000000000000000)
        >>> text[-58:]
        b'(w 4000000000000000) (alpha 3FF0000000000000) (layer 15))\n'
        """
        def write() -> bytes:
            verts, faces = self._runs.words[:2]
            out = bytearray(lines.room(verts, faces))
            answer = call("store_write", *self._runs.lent(), *arrays.written_octets(out).lent())
            return bytes(memoryview(out)[:answer.bytes])

        text: bytes = self._turns.run(False, write)
        return text

    @classmethod
    def from_lines(cls, text: Union[bytes, bytearray, memoryview]) -> "Store":
        r"""The store of such lines, as `open(path, "rb").read()` gives them, with all work to do: what their opening
        and then their puts, one by one, would leave. The puts may be in any order, and of two into one place the later
        one stands. A put may lack ` (layer N)`, and is then in layer 0. Where one line is refused, all are.

        >>> store = Store(500, [0, 0, 0, 1, 0, 0, 0, 1, 0], [0, 1, 2])
        >>> store.put(4, Kernel((0, 0, 0), 1, 2, 1), layer=15).need, store.advance(1).left
        (1, 0)
        >>> again = Store.from_lines(store.to_lines())
        >>> again.held(4) == store.held(4), again.left(), again.to_lines() == store.to_lines()
        (True, 1, True)
        >>> Store.from_lines(store.to_lines()[:-1])
        Traceback (most recent call last):
        cauchy.BadLine: bad line: the bytes are not one whole opening and then puts (no 13)
        """
        check_float_state()
        run = arrays.octets(text, "text")
        verts, faces = lines.counts(run)
        runs = Runs(FLOATS_BEFORE_MESH + 3 * verts, WORDS_BEFORE_MESH + 3 * faces)
        call("store_read", *runs.lent(), *run.lent())
        return cls._of(runs, False)

    def copy(self) -> "Store":
        """A store like this one, with memory of its own."""
        return self._of(self._turns.run(False, self._runs.copy), self._carried)

    @classmethod
    def _of(cls, runs: Runs, carried: bool) -> "Store":
        store = cls.__new__(cls)
        store._runs, store._turns, store._carried = runs, Turns(), carried
        return store

    def __copy__(self) -> "Store":
        return self.copy()

    def __deepcopy__(self, memo: Any) -> "Store":
        return self.copy()

    def __reduce__(self) -> Tuple[Any, ...]:
        return type(self).from_bytes, (self.to_bytes(),)


def _check_excess(runs: Runs, before_mesh: int) -> None:
    """Refuses the runs of a sound store, of either form, that have past the mesh a word, or a float that is not of the
    zeros of whole vertices that squeezes have freed."""
    verts, faces = runs.words[:2]
    freed = runs.floats[FLOATS_BEFORE_MESH + 3 * verts:]
    exact = len(runs.words) == before_mesh + 3 * faces
    if not exact or len(freed) % 3 != 0 or any(freed.cast("B")):
        raise Unsound()


def _place(place: int) -> int:
    """A place as C takes it; ctypes would cut a number of more than 32 bits to another place."""
    which = arrays.whole(place, "place")
    if not 0 <= which < 2**32:
        raise NoPlace()
    return which


def _layer(layer: int) -> int:
    """A layer as C takes it: any that there is not is the first one past the last, and C refuses it in its turn."""
    which = arrays.whole(layer, "layer")
    return which if 0 <= which < LAYERS else LAYERS


def _layers(layers: Layers) -> int:
    """A set of layers as C takes it: bit l for layer l."""
    if layers is None:
        return ALL_LAYERS
    if isinstance(layers, int):
        raise TypeError("layers is a collection of layers, such as [0, 3], and not a number")
    bits = 0
    for layer in layers:
        bits |= 1 << _layer(layer)
    return bits
