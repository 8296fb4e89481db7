"""The examples of the docstrings run, and the numbers of the package are those of rice.h."""
import doctest
import importlib
import os
import pkgutil
import re
import unittest

import rice121

ROOT = os.path.join(os.path.dirname(os.path.abspath(__file__)), "..", "..")


def read(path):
    with open(os.path.join(ROOT, path)) as file:
        return file.read()


class Documents(unittest.TestCase):
    def test_examples(self):
        tried = 0
        for module in pkgutil.iter_modules(rice121.__path__, "rice121."):
            if module.name not in ("rice121._rice", "rice121.zarr3"):
                done = doctest.testmod(importlib.import_module(module.name))
                self.assertEqual(done.failed, 0)
                tried += done.attempted
        self.assertEqual(doctest.testmod(rice121).failed, 0)
        self.assertGreater(tried, 20)

    def test_program_of_page(self):
        program, = re.findall(r"(?ms)^```python\n(.*?)^```$", read("docs/PYTHON.md"))
        names = {}
        exec(program, names)
        self.assertEqual((names["code"].hex(), names["samples"].tobytes()), ("105fe7fc", bytes([5] * 15 + [4])))

    def test_numbers(self):
        text = read("include/rice.h")
        statuses = {name: int(number) for name, number in re.findall(r"RICE_(\w+) = (\d+),? +/\*", text)}
        del statuses["DONE"]
        self.assertEqual(statuses, {status.name: status.value for status in rice121.Status})
        self.assertEqual(re.search(r'RICE_VERSION_TEXT "(.*)"', text)[1], rice121.__version__)


if __name__ == "__main__":
    unittest.main()
