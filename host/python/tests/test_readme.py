"""The program of README.md runs, and prints what stands there."""
import contextlib
import io
import re
import unittest
from pathlib import Path

import cauchy

README = (Path(__file__).resolve().parents[1] / "README.md").read_text(encoding="utf-8")


class Readme(unittest.TestCase):
    def test_its_program(self):
        (program,) = re.findall(r"```python\n(.*?)```", README, re.S)
        printed = io.StringIO()
        with contextlib.redirect_stdout(printed):
            exec(compile(program, "README.md", "exec"), {})
        progress, scale, densities = printed.getvalue().splitlines()
        self.assertEqual(progress, "100%")
        self.assertIn(f"# {scale}\n", program)
        self.assertEqual([float(x) for x in re.findall(r"\d+\.\d*", densities)], [1500.0, 750.0])

    def test_it_names_every_refusal(self):
        named = {(name, int(number)) for name, number in re.findall(r"`(\w+)` (\d+)", README)}
        self.assertEqual(named, {(kind.__name__, number) for number, kind in cauchy.REFUSALS.items()})


if __name__ == "__main__":
    unittest.main()
