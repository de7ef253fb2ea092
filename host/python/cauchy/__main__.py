"""Runs the examples of the package: python3 -m cauchy"""
import doctest
import importlib
import inspect
import pkgutil
import sys
from typing import Iterator

import cauchy


def examples() -> Iterator[doctest.DocTest]:
    """The examples of the package, of its modules, and of its functions and classes with their methods, each with
    the names that `from cauchy import *` gives."""
    finder, names = doctest.DocTestFinder(), {name: getattr(cauchy, name) for name in cauchy.__all__}
    yield doctest.DocTestParser().get_doctest(cauchy.__doc__ or "", dict(names), "cauchy", cauchy.__file__, 0)
    for found in pkgutil.iter_modules(cauchy.__path__):
        if found.name != "__main__":
            yield from finder.find(importlib.import_module(f"cauchy.{found.name}"), globs=dict(names))
    for name, value in names.items():
        if inspect.isclass(value) or inspect.isfunction(value):
            yield from finder.find(value, name, module=False, globs=dict(names))


def main() -> bool:
    """Whether an example fails."""
    runner = doctest.DocTestRunner(optionflags=doctest.ELLIPSIS)
    for example in examples():
        runner.run(example)
    print(f"{runner.tries} examples, {runner.failures} failed")
    return runner.failures > 0


sys.exit(main())
