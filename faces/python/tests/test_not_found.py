"""What is said where the library is not found, or is not the module's. These tests take no proved library, so they run on every processor."""
import re
import subprocess

from .copies import Copies
from .patterns import PROJECT


class NotFound(Copies):
    def file(self, text="text"):
        file = self.folder / "file"
        file.write_text(text)
        return file

    def compiled(self, source):
        """The path of a library of this C, for this machine."""
        library = self.folder / "compiled.so"
        subprocess.run(["gcc", "-shared", "-fPIC", "-x", "c", "-o", str(library), str(self.file(source))], check=True)
        return str(library)

    def test_nowhere(self):
        said = self.python()
        self.assertIn("LibraryNotFound: The proved library is not found: SHUTTLEMINT_LIBRARY is not set, ", said)
        self.assertIn("examples/prove shuttlemint && faces/python/build", said)

    def test_a_wrong_name_is_not_passed_over(self):
        said = self.python(beside=self.file(), SHUTTLEMINT_LIBRARY="/no/such/file.so")
        self.assertIn("LibraryNotFound: SHUTTLEMINT_LIBRARY says '/no/such/file.so', and that can't be loaded", said)
        self.assertIn("What to do next", said)

    def test_no_library_at_all_in_the_file(self):
        self.assertIn("can't be loaded", self.python(SHUTTLEMINT_LIBRARY=str(self.file())))

    def test_no_library_of_this_machine_beside(self):
        self.assertIn("It is for x86-64 Linux.", self.python(beside=self.file()))

    def test_another_library(self):
        other = self.compiled("int sm_other(void) { return 0; }\n")
        self.assertIn("has no sm_evaluate: it is not the library of this module's version", self.python(SHUTTLEMINT_LIBRARY=other))

    def test_a_library_with_other_functions(self):
        """The same names, and every function refused 9: as a library of another version would refuse the last."""
        names = re.findall(r"^[a-z0-9_]+ (sm_[a-z_]+)\(", (PROJECT / "faces/c/shuttlemint.h").read_text(), re.M)
        older = self.compiled("".join(f"int {name}(void) {{ return 9; }}\n" for name in names))
        self.assertIn("it is of another version", self.python(SHUTTLEMINT_LIBRARY=older))
