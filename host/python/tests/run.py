"""Runs the tests beside this file, or those that are named, and tells what they skip.

    python3 host/python/tests/run.py [NAME..]
"""
import sys
import unittest
from pathlib import Path

HERE = Path(__file__).resolve().parent


def main() -> bool:
    """Whether a test fails."""
    sys.path[:0] = [str(HERE), str(HERE.parent), str(HERE.parents[1] / "tests")]
    loader = unittest.defaultTestLoader
    suite = loader.loadTestsFromNames(sys.argv[1:]) if sys.argv[1:] else loader.discover(str(HERE))
    told = unittest.TextTestRunner(verbosity=0).run(suite)
    for reason in sorted({reason for _, reason in told.skipped}):
        count = sum(reason == other for _, other in told.skipped)
        print(f"python: {count} of {told.testsRun} tests skipped: {reason}")
    return not told.wasSuccessful()


if __name__ == "__main__":
    sys.exit(main())
