"""Where the library is looked for, and what is told where it is not there or does not fit."""
import os
import shutil
import subprocess
import sys
import tempfile
from unittest import mock

import tezgumi
from support import CHECKOUT, PACKAGES, THREE, TimedTest
from tezgumi import library

OTHER = "unsigned tezgumi_abi(void) { return 99; } int " + ", ".join(library._CALLS) + ";"


class Found(TimedTest):
    def setUp(self):
        library.library.cache_clear()
        self.addCleanup(library.library.cache_clear)

    def named(self, path):
        return mock.patch.dict(os.environ, TEZGUMI_LIBRARY=path)

    def there(self, *paths):
        return mock.patch.object(os.path, "exists", lambda path: path in paths)

    def test_the_order(self):
        packed = os.path.join(PACKAGES, "tezgumi", "libtezgumi.so")
        built = os.path.join(os.path.dirname(PACKAGES), "out", "lib", "libtezgumi.so")
        with self.named("/no/such/library.so"):
            with self.there(packed, built):
                self.assertEqual(library.place(), packed)
            with self.there(built):
                self.assertEqual(library.place(), "/no/such/library.so")
        with mock.patch.dict(os.environ):
            os.environ.pop("TEZGUMI_LIBRARY", None)
            with self.there(built):
                self.assertEqual(library.place(), built)
            with self.there():
                self.assertEqual(library.place(), "libtezgumi.so.4")

    def test_one_that_is_not_there(self):
        with self.named("/no/such/library.so"):
            text = "^no libtezgumi .*/no/such/library.so.*; the wheel has it, bindings/build makes it, and TEZGUMI_LIBRARY may name it$"
            self.assertRaisesRegex(tezgumi.LibraryError, text, tezgumi.plan, THREE)

    def test_another_library(self):
        import _ctypes
        with self.named(_ctypes.__file__):
            self.assertRaisesRegex(tezgumi.LibraryError, "^no libtezgumi .*undefined symbol", tezgumi.plan, THREE)

    def test_another_interface(self):
        compiler = shutil.which("cc")
        if not compiler:
            self.skipTest("no C compiler")
        with tempfile.TemporaryDirectory() as folder:
            path = os.path.join(folder, "other.so")
            words = [compiler, "-shared", "-fPIC", "-x", "c", "-", "-o", path]
            subprocess.run(words, input=OTHER.encode(), check=True, timeout=15)
            with self.named(path):
                text = "other.so has the interface 99, and this package is written for 4$"
                self.assertRaisesRegex(tezgumi.LibraryError, text, tezgumi.plan, THREE)

    def test_dumps_are_read_without_it(self):
        script = "import tezgumi; print(tezgumi.read_dump('examples/three-elements.lbd2').decision.moved)"
        ended = subprocess.run(
            [sys.executable, "-c", script], cwd=CHECKOUT, stdout=subprocess.PIPE, timeout=15,
            env={**os.environ, "TEZGUMI_LIBRARY": "/no/such/library.so", "PYTHONPATH": PACKAGES})
        self.assertEqual(ended.stdout, b"10\n")
