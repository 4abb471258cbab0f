"""The types of the package, by mypy where it is installed."""

import contextlib
import io
import os
import shutil
import subprocess
import unittest
from pathlib import Path

import tuhvondi
from tests import uses

FOLDER = Path(tuhvondi.__file__).parents[1]


class Types(unittest.TestCase):
    def test_uses_run(self):
        with contextlib.redirect_stdout(io.StringIO()):
            self.assertTrue(uses.settled().is_settled)
            self.assertTrue(uses.timed().is_at_rest)
            uses.router().close()

    def test_mypy_passes_the_uses(self):
        """And finds those that are wrong, because it warns of what is ignored for nothing."""
        if not shutil.which("mypy"):
            self.skipTest("mypy is not installed")
        words = ["mypy", "--strict", "--follow-imports=silent", "--no-incremental", "--cache-dir", os.devnull, uses.__file__]
        done = subprocess.run(words, check=False, capture_output=True, text=True,
                              env={**os.environ, "MYPYPATH": str(FOLDER)})
        self.assertEqual(done.returncode, 0, done.stdout + done.stderr)


if __name__ == "__main__":
    unittest.main()
