"""Documents of a network: the scenario and the times that the program `dualnet` reads, its page, and JSON."""

from __future__ import annotations

import json
import math
import os
import re
import shutil
import subprocess
import tempfile
import unicodedata
from html import escape
from pathlib import Path
from typing import Any, Dict, Hashable, Iterable, List, Sequence, Set

# What a scenario can have at most.
_LIMITS = {"routers": 256, "links": 1024, "prefixes": 4096, "attachments": 16384, "commands": 10000}
_NAME = 16


def write_text(file: Any, text: str) -> None:
    """Writes to a path, or to a file that is open for text.

    >>> import sys
    >>> write_text(sys.stdout, "text")
    text
    """
    if hasattr(file, "write"):
        file.write(text)
    else:
        Path(file).write_text(text, encoding="utf-8")


def short_names(names: Iterable[Hashable]) -> Dict[Any, str]:
    """A name for each router as a scenario can have it: at most 16 small letters and digits, a letter first, and no two
    alike. A name that is such a one stays.

    >>> short_names(["b", "B", "Zürich", 7])
    {'b': 'b', 'B': 'b2', 'Zürich': 'zurich', 7: 'r7'}
    """
    given = list(names)
    taken: Set[str] = {name for name in given if isinstance(name, str) and re.fullmatch("[a-z][a-z0-9]{0,15}", name)}
    found: Dict[Any, str] = {}
    for name in given:
        if name in taken:
            found[name] = str(name)
            continue
        plain = unicodedata.normalize("NFKD", str(name)).encode("ascii", "ignore").decode().lower()
        stem = re.sub("[^a-z0-9]", "", plain)
        stem = (stem if stem[:1].isalpha() else f"r{stem}")[:_NAME]
        number, short = 1, stem
        while short in taken:
            number += 1
            short = f"{stem[:_NAME - len(str(number))]}{number}"
        taken.add(short)
        found[name] = short
    return found


def command(step: Any, names: Dict[Any, str]) -> str:
    """A step as a script says it.

    >>> from tuhvondi import Step, StepKind
    >>> command(Step(StepKind.SET_COST, "A", "b", cost=5), {"A": "a", "b": "b"})
    'cost a b 5'
    """
    word = {"LINK_UP": "up", "LINK_DOWN": "down", "SET_COST": "cost"}.get(step.kind.name, step.kind.name.lower())
    words = [word, names[step.router]]
    if step.neighbour is not None or word == "deliver":
        words.append(names[step.router if step.neighbour is None else step.neighbour])
    return " ".join([*words, *(str(it) for it in (step.prefix, step.cost) if it is not None)])


def document(**lists: Sequence[str]) -> str:
    """A document of TOML with these lists of texts.

    >>> print(document(routers=["a"], links=[]), end="")
    routers = [
        "a",
    ]
    links = [
    ]
    """
    return "".join(f"{key} = [\n" + "".join(f'    "{line}",\n' for line in lines) + "]\n" for key, lines in lists.items())


def check_limits(**counts: int) -> None:
    """Refuses what the program would.

    >>> check_limits(routers=300)
    Traceback (most recent call last):
    ...
    ValueError: a scenario has at most 256 routers, and this network has 300
    """
    for what, count in counts.items():
        if count > _LIMITS[what]:
            raise ValueError(f"a scenario has at most {_LIMITS[what]} {what}, and this network has {count}")


def json_text(value: Any) -> str:
    """A text of JSON, in which null stands for what is infinite.

    >>> json_text({"distance": math.inf})
    '{"distance": null}\\n'
    """
    def plain(each: Any) -> Any:
        if isinstance(each, dict):
            return {str(key): plain(it) for key, it in each.items()}
        if isinstance(each, (list, tuple)):
            return [plain(it) for it in each]
        if each is None or isinstance(each, (bool, int, str)):
            return each
        return None if each == math.inf else str(each)
    return json.dumps(plain(value)) + "\n"


def html(value: Any) -> str:
    """A value as a text of HTML.

    >>> html("<b>")
    '&lt;b&gt;'
    """
    return escape(str(value))


def html_table(head: Sequence[Any], rows: Iterable[Sequence[Any]]) -> str:
    """A table of HTML.

    >>> html_table(["a"], [[1]])
    '<table><tr><th>a</th></tr><tr><td>1</td></tr></table>'
    """
    lines = [("th", head), *(("td", row) for row in rows)]
    return "<table>" + "".join(
        "<tr>" + "".join(f"<{tag}>{html(cell)}</{tag}>" for cell in row) + "</tr>" for tag, row in lines) + "</table>"


def page(path: Any, documents: Dict[str, str]) -> None:
    """Has `dualnet-view` write the page of a run, which these documents say by their options: "" is the scenario's."""
    folder = Path(__file__).resolve().parent
    beside = [folder / "dualnet-view", folder / "../../../../bin/dualnet-view"]
    program = shutil.which("dualnet-view") or next((str(it) for it in beside if os.access(it, os.X_OK)), None)
    if program is None:
        raise FileNotFoundError("dualnet-view is neither on PATH nor beside the package; ./install PREFIX installs both")
    with tempfile.TemporaryDirectory() as room:
        words: List[str] = [program]
        for number, (option, text) in enumerate(documents.items()):
            file = Path(room, f"{number}.toml")
            write_text(file, text)
            words += [option, str(file)] if option else [str(file)]
        done = subprocess.run([*words, "-o", os.fspath(path)], check=False, capture_output=True, text=True)
    if done.returncode:
        raise RuntimeError(f"dualnet-view ended with {done.returncode}: {done.stderr.strip()}")
