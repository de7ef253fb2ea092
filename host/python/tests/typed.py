"""A user's program, for mypy alone. Each line that is to be found wrong says so, and mypy tells where it is not."""
from array import array
from typing import List, Optional, Tuple

import cauchy

store: cauchy.Store = cauchy.Store(1.0, array("d", [0.0] * 9), [(0, 1, 2)])
kernel = cauchy.Kernel((0.0, 0.0, 0.0), 1.0, 2.0, 1)
placed: cauchy.Placed = store.put(0, kernel)
need: int = placed.need
kind: str = placed.fit.kind
pivot: float = cauchy.solve(1, [2.0, 4.0]).pivot
progress: List[float] = [done / (done + left) for done, left in store.work(5)]
report: cauchy.StoreReport = store.report(cauchy.mass(4.5e11))
masses: Tuple[float, int] = (report.applied_mass, report.kernels)
density: float = store.density(cauchy.RAW, (0.0, 0.0, 0.0))
densities: cauchy.Floats = store.density(cauchy.RAW, [(0.0, 0.0, 0.0)])
again: cauchy.Store = cauchy.Store.from_bytes(store.to_bytes())
carried: bool = cauchy.Store.carry_from_old(array("d", [0.0] * 1761), array("I", [0] * 98)).carried
pieces: Tuple[cauchy.Kernel, ...] = cauchy.decompose(kernel, 500).pieces
number: int = cauchy.NoPlace.number
steps_of_threads: cauchy.Steps = store.advance_with(2)
adopted: Optional[cauchy.Adopted] = store.adopt(0, again, 0)
steps: int = cauchy.bill([kernel], 3, 1).steps
page: str = store.page()
text: bytes = store.to_lines()
read: cauchy.Store = cauchy.Store.from_lines(text)
converted: List[cauchy.Kernel] = cauchy.convert(b"", 1.5, cauchy.Loader.STRICT)

cauchy.Kernel((0.0, 0.0), 1.0, 2.0, 1.0)  # type: ignore[arg-type]
cauchy.Kernel((0.0, 0.0, 0.0), 1.0, 2.0)  # type: ignore[call-arg]
kernel.w = 5.0  # type: ignore[misc]
store.put("0", kernel)  # type: ignore[arg-type]
store.put(0, (0.0, 0.0, 0.0, 1.0, 2.0, 1.0))  # type: ignore[arg-type]
store.floats = array("d")  # type: ignore[misc, assignment]
store.carried = True  # type: ignore[misc]
store.advance_with("2")  # type: ignore[arg-type]
store.adopt(0, store.to_bytes(), 0)  # type: ignore[arg-type]
store.report(0)  # type: ignore[arg-type]
store.advance(0.5)  # type: ignore[arg-type]
cauchy.mass()  # type: ignore[call-arg]
cauchy.bill([kernel], [(0.0, 0.0, 0.0)], 1)  # type: ignore[arg-type]
cauchy.Store.from_lines("")  # type: ignore[arg-type]
cauchy.convert("", 1.5, cauchy.Loader.STRICT)  # type: ignore[arg-type]
cauchy.convert(b"", 1.5, "strict")  # type: ignore[arg-type]
text: str = store.density(cauchy.RAW, (0.0, 0.0, 0.0))  # type: ignore[assignment]
