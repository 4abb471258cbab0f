"""The program to be tried or timed: the proved one, which is proved and built first if it is not there."""

import atexit
import os
import re
import subprocess
import tempfile
from pathlib import Path

ROOT = Path(__file__).resolve().parent.parent


def built(name: str = "dualnet") -> str:
    """The path of the program that DUALNET names, else of the proved one; by the name `dualnet-view` it shows runs."""
    program = os.environ.get("DUALNET")
    if program is None:
        subprocess.run([ROOT / "dualnet", "--prove"], check=True)
        program = str(ROOT / "crates/dualnet/out/dualnet")
    if name == "dualnet":
        return program
    folder = tempfile.TemporaryDirectory(prefix="view")
    atexit.register(folder.cleanup)
    link = Path(folder.name) / name
    link.symlink_to(Path(program).resolve())
    return str(link)


def without_notice(stderr: bytes) -> bytes:
    """What a run says on its standard error, but for the line that a program built without proofs begins with."""
    return re.sub(rb"\A\S+: built without proofs; .*\n", b"", stderr)
