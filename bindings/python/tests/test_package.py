"""The package: its version, its names, its examples, and what it says without the library."""
import doctest
import os
import shutil
import subprocess
import sys
import tempfile
import unittest

from common import ROOT, Case, um

from um import _each


def load_tests(loader, tests, pattern):
    tests.addTests(doctest.DocTestSuite(um, optionflags=doctest.IGNORE_EXCEPTION_DETAIL))
    return tests


class Package(Case):
    def test_version(self):
        header = (ROOT / "bindings" / "c" / "um.h").read_text()
        # of a version that is not released each ecosystem has its form, and the library the numbers alone
        plain = um.__version__.replace(".dev0", "~dev")
        self.assertIn(f'#define UM_VERSION "{plain}"\n', header)
        version = ROOT / "VERSION"
        self.assertEqual(plain, version.read_text().strip() if version.exists() else plain)
        self.assertEqual(plain.partition("~")[0], um.version())

    @unittest.skipUnless(shutil.which("cc"), "no cc here")
    def test_another_version(self):
        with tempfile.TemporaryDirectory() as folder:
            subprocess.run(["cc", "-shared", "-fPIC", "-x", "c", "-", "-o", folder + "/other"], check=True, universal_newlines=True,
                           input="unsigned um_version(void) { return 1002003; }")
            environment = {**os.environ, "UM_SO": folder + "/other", "PYTHONPATH": os.pathsep.join(sys.path)}
            done = subprocess.run([sys.executable, "-c", "import um"], env=environment, stderr=subprocess.PIPE, universal_newlines=True)
        self.assertEqual(1, done.returncode)
        self.assertIn(f"the library has version 1.2.3; expected {um.__version__}", done.stderr)

    @unittest.skipUnless(_each._in_c, "no loops in C")
    def test_interpreter_of_its_own(self):
        """An interpreter with a lock of its own has the loops in C too. Before 3.13 such a one has no ctypes."""
        try:
            import _interpreters
        except ImportError:
            self.skipTest("no interpreters with a lock of their own")
        code = f"import sys; sys.path = {sys.path!r}\nfrom um import _each\nassert _each._in_c"
        self.assertIsNone(_interpreters.run_string(_interpreters.create(), code))

    def test_names(self):
        self.assertEqual([], [name for name in um.__all__ if not hasattr(um, name)])

    def test_no_library(self):
        environment = {**os.environ, "UM_SO": "/nowhere/libum.so.0", "PYTHONPATH": os.pathsep.join(sys.path)}
        done = subprocess.run([sys.executable, "-c", "import um"], env=environment, stderr=subprocess.PIPE, universal_newlines=True)
        self.assertEqual(1, done.returncode)
        for word in ("ImportError: um: no libum.so.0", "/nowhere/libum.so.0", "make build", "UM_SO"):
            self.assertIn(word, done.stderr)
