#!/usr/bin/env python3
"""Runs the networks of a folder by the program and by the model, and prints how fast each was; then
replays the journals that the program writes, and runs the networks by several control threads.

    python3 bench/measure.py PROGRAM FOLDER RUNS

Seconds are those of a whole process on the clock, the least of all runs; memory is the most of a
process that was resident at a time (not shown without GNU time). It ends with status 1 where the
two do not print the same.
"""

import subprocess
import sys
import time
from pathlib import Path
from tempfile import NamedTemporaryFile
from typing import NamedTuple

ROOT = Path(__file__).resolve().parent.parent
sys.path.insert(0, str(ROOT / "model"))

from networks import SCENARIOS

NETWORKS = list(SCENARIOS)
THREADS = [1, 2, 4]
GNU_TIME = "/usr/bin/time"
MODEL = [sys.executable, str(Path(__file__).with_name("model.py"))]


class Run(NamedTuple):
    """What a process printed, also to its standard error, how long it took, and its memory."""

    output: str
    errors: str
    seconds: float
    kibibytes: int | None

    def steps(self) -> int:
        return int(self.output.splitlines()[-1].split()[1])


def run(*words: str | Path) -> Run:
    command = [str(word) for word in words]
    with NamedTemporaryFile("r") as memory:
        has_memory = Path(GNU_TIME).exists()
        if has_memory:
            command = [GNU_TIME, "-f", "%M", "-o", memory.name, *command]
        start = time.perf_counter()
        process = subprocess.run(command, capture_output=True, text=True)
        seconds = time.perf_counter() - start
        if process.returncode != 0:
            sys.exit(f"{' '.join(command)}: status {process.returncode}\n{process.stderr}")
        peak = int(memory.read()) if has_memory else None
        return Run(process.stdout, process.stderr, seconds, peak)


def fastest(runs: int, *words: str | Path) -> Run:
    return min((run(*words) for _ in range(runs)), key=lambda one: one.seconds)


def compare(scenario: Path, one: Run, other: Run) -> None:
    """Ends with a message at the first line that differs."""
    lines = zip(one.output.splitlines(), other.output.splitlines())
    for number, (line, expected) in enumerate(lines, 1):
        if line != expected:
            sys.exit(f"{scenario.name}: line {number} is {line!r}, by the model {expected!r}")
    if one.output != other.output:
        sys.exit(f"{scenario.name}: one output is longer")


def cells(one: Run) -> str:
    memory = "-" if one.kibibytes is None else f"{one.kibibytes / 1024:.1f}"
    return f"{one.seconds:9.3f} {one.steps() / one.seconds:10,.0f} {memory:>7}"


def main(words: list[str]) -> None:
    program, folder, runs = words[0], Path(words[1]), int(words[2])
    sides = f"{'seconds':>9} {'steps/s':>10} {'MiB':>7}"
    print(f"{'':7} {'':9} {'program':>28} {'model':>28}")
    print(f"{'network':7} {'steps':>9} {sides} {sides} {'ratio':>6}")
    for name in NETWORKS:
        scenario = folder / f"{name}.toml"
        one, other = fastest(runs, program, "run", scenario), fastest(runs, *MODEL, scenario)
        compare(scenario, one, other)
        ratio = other.seconds / one.seconds
        print(f"{name:7} {one.steps():9,} {cells(one)} {cells(other)} {ratio:6.1f}", flush=True)
    for name in NETWORKS:
        scenario = folder / f"{name}-report.toml"
        compare(scenario, run(program, "run", scenario), run(*MODEL, scenario))
    print("Both print the same, reports too.")
    print(f"{'journal':7} {'MiB':>7} {'written':>9} {'replayed':>9} {'steps/s':>10}")
    for name in NETWORKS:
        scenario, journal = folder / f"{name}.toml", folder / f"{name}.journal"
        written = fastest(runs, program, "run", scenario, "--journal", journal)
        replayed = fastest(runs, program, "replay", scenario, journal)
        if replayed.output != f"replay agrees: {written.steps()} steps\n":
            sys.exit(f"{journal.name}: {replayed.output}")
        size = journal.stat().st_size / 2**20
        rate = written.steps() / replayed.seconds
        print(f"{name:7} {size:7.1f} {written.seconds:9.3f} {replayed.seconds:9.3f} {rate:10,.0f}")
    print(f"{'network':7} {'threads':>7} {'steps':>9} {'seconds':>9} {'steps/s':>10} {'ratio':>6}")
    for name in NETWORKS:
        scenario, alone = folder / f"{name}.toml", 0.0
        for threads in THREADS:
            one = fastest(runs, program, "run", scenario, "--threads", str(threads))
            rate = one.steps() / one.seconds
            alone = alone or rate
            print(
                f"{name:7} {threads:7} {one.steps():9,} {one.seconds:9.3f} {rate:10,.0f} {rate / alone:6.2f}",
                flush=True,
            )


if __name__ == "__main__":
    main(sys.argv[1:])
