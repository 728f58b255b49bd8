"""A copy of the module in a folder of its own, imported by a Python of its own, so that what it finds or does not find is what a test put there."""
import shutil
import subprocess
import sys
import tempfile
import unittest
from pathlib import Path

from .patterns import PROJECT

MODULE = PROJECT / "faces/python/shuttlemint"


class Copies(unittest.TestCase):
    def setUp(self):
        folder = tempfile.TemporaryDirectory()
        self.addCleanup(folder.cleanup)
        self.folder = Path(folder.name)

    def python(self, beside=None, **environment):
        """What `import shuttlemint` of a copy says, with this file for the library beside it."""
        module = self.folder / "copy" / "shuttlemint"
        if not module.exists():
            shutil.copytree(MODULE, module, ignore=shutil.ignore_patterns("*.so", "__pycache__"))
        if beside:
            shutil.copy(beside, module / "libshuttlemint.so")
        # -I -S: nothing but the copy is on the path
        code = f"import sys; sys.path.insert(0, {str(module.parent)!r}); import shuttlemint; print(shuttlemint.ellipe(1.0))"
        done = subprocess.run([sys.executable, "-I", "-S", "-c", code], env=environment, capture_output=True, text=True)
        return done.stdout + done.stderr
