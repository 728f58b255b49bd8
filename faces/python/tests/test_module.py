"""The module as a whole: its docstrings and docs/PYTHON.md run as tests, and how the library is found (test_not_found.py has what is said where it is not)."""
import doctest
import importlib
import os
import shutil
import tempfile
import threading
import unittest

import shuttlemint

from .copies import MODULE, Copies
from .patterns import PROJECT

MODULES = ("shuttlemint", "shuttlemint._integrals", "shuttlemint._library", "shuttlemint._refusals", "shuttlemint._sheet")


def load_tests(loader, tests, pattern):
    for name in MODULES:
        module = importlib.import_module(name)
        if name != "shuttlemint._library":  # it has no example
            tests.addTests(doctest.DocTestSuite(module))
    return tests


class Documents(unittest.TestCase):
    def test_the_examples_of_the_page(self):
        """The blocks of docs/PYTHON.md; those with NumPy only where it is installed."""
        try:
            import numpy  # noqa: F401
        except ImportError:
            numpy = None
        text = (PROJECT / "docs/PYTHON.md").read_text()
        blocks = [block.split("```")[0] for block in text.split("```python\n")[1:]]
        run = [block for block in blocks if numpy or "numpy" not in block]
        self.assertGreater(len(run), 2)
        with tempfile.TemporaryDirectory() as folder:
            before = os.getcwd()
            os.chdir(folder)
            try:
                test = doctest.DocTestParser().get_doctest("\n".join(run), {}, "PYTHON.md", "docs/PYTHON.md", 0)
                said = []
                result = doctest.DocTestRunner(verbose=False).run(test, out=said.append)
            finally:
                os.chdir(before)
        self.assertGreater(result.attempted, 10)
        self.assertEqual(result.failed, 0, "".join(said))

    def test_every_public_name_has_words(self):
        for name in shuttlemint.__all__:
            if name != "MOST_ROWS":
                self.assertTrue(getattr(shuttlemint, name).__doc__, name)

    def test_the_version_is_the_projects(self):
        self.assertEqual(shuttlemint.__version__, (PROJECT / "VERSION").read_text().strip())


class Library(Copies):
    LIBRARY = MODULE / "libshuttlemint.so"

    def test_beside_the_module(self):
        self.assertEqual(self.python(beside=self.LIBRARY), "1.0\n")

    def test_by_the_variable(self):
        named = self.folder / "any name.so"
        shutil.copy(self.LIBRARY, named)
        self.assertEqual(self.python(SHUTTLEMINT_LIBRARY=str(named)), "1.0\n")

    def test_in_the_systems_path(self):
        shutil.copy(self.LIBRARY, self.folder / "libshuttlemint.so.0")
        self.assertEqual(self.python(LD_LIBRARY_PATH=str(self.folder)), "1.0\n")

    def test_a_wrong_name_beside_the_right_library(self):
        said = self.python(beside=self.LIBRARY, SHUTTLEMINT_LIBRARY="/no/such/file.so")
        self.assertIn("LibraryNotFound: SHUTTLEMINT_LIBRARY says '/no/such/file.so', and that can't be loaded", said)

    def test_threads_edit_one_sheet(self):
        sheet = shuttlemint.Sheet(64)

        def work(k):
            for turn in range(50):
                for row in range(k, 64, 4):
                    sheet.edit(row, "ellipeinc", float(row + turn), 0.0)

        threads = [threading.Thread(target=work, args=(k,)) for k in range(4)]
        for thread in threads:
            thread.start()
        for thread in threads:
            thread.join()
        self.assertEqual((sheet.total(), sheet.counts().finite), (sum(range(64)) + 49.0 * 64, 64))
