"""What the benchmarks need: to build a program of ours, to run and time programs, to read answers, and to print tables."""

import argparse
import contextlib
import os
import shutil
import signal
import subprocess
import sys
import time
from dataclasses import dataclass
from typing import Optional

HERE = os.path.dirname(os.path.abspath(__file__))
TOP = os.path.dirname(HERE)
TIMES = 3
# A run that takes more seconds than this is not repeated.
LONG = 1


def options(about, limit):
    """A parser of the options that all scripts have, with so many seconds for each run if none are given."""
    form = argparse.RawDescriptionHelpFormatter
    parser = argparse.ArgumentParser(description=about, formatter_class=form)
    parser.add_argument("--limit", type=float, default=limit, help=f"seconds that each run has ({limit})")
    parser.add_argument("--family", default="", help="only the families whose names begin so")
    parser.add_argument("--each", action="store_true", help="print a line for each problem too")
    return parser


def arguments(about, limit):
    """The same for the benchmarks, which need no program to be named."""
    parser = options(about, limit)
    parser.add_argument("--program", help="a program that is built already")
    return parser


def chosen(problems, options):
    """The problems of the families that are asked for."""
    found = [problem for problem in problems if problem.family.startswith(options.family)]
    if not found:
        sys.exit(f"no family has a name that begins with {options.family}")
    return found


def need(*programs):
    missing = [word for word in programs if not shutil.which(word)]
    if missing:
        sys.exit(f"not installed: {', '.join(missing)}")


def build(folder, name, crates, sample):
    """Proves and builds the program in a copy of the repository that has one crate more, and runs it on the sample."""
    shutil.copytree(f"{TOP}/crates", f"{folder}/crates", ignore=shutil.ignore_patterns("out"))
    crate = f"{folder}/crates/{name}"
    os.makedirs(f"{crate}/src")
    shutil.copy(f"{HERE}/{name}.rt.txt", f"{crate}/src/main.rt")
    shutil.copy(f"{TOP}/crates.txt", folder)
    with open(f"{folder}/crates.txt", "a", encoding="utf-8") as file:
        file.write(f"\n{name}: {crates}\n")
    ran = subprocess.run(["rt", "run"], cwd=crate, input=sample, text=True, stdout=sys.stderr)
    if ran.returncode:
        sys.exit("the program could not be built")
    return f"{crate}/out/{name}"


def timed(words, limit, stdin=None):
    """The output of a program, none where it reached the limit, and the seconds that it took."""
    start = time.perf_counter()
    try:
        ran = subprocess.run(words, stdin=stdin, stdout=subprocess.PIPE, text=True, timeout=limit)
        text = ran.stdout
    except subprocess.TimeoutExpired:
        text = None
    return text, time.perf_counter() - start


def weighed(words, limit, stdin=None):
    """As `timed`, with the kilobytes of memory that the program took at its peak.

    GNU time starts the program: what the system says of a child of this process is at least what this process takes.
    """
    start = time.perf_counter()
    report = ["time", "-q", "-f", "%M", *words]
    pipe = subprocess.PIPE
    process = subprocess.Popen(report, stdin=stdin, stdout=pipe, stderr=pipe, text=True)
    try:
        text, errors = process.communicate(timeout=limit)
    except subprocess.TimeoutExpired:
        with open(f"/proc/{process.pid}/task/{process.pid}/children", encoding="utf-8") as file:
            for child in file.read().split():
                with contextlib.suppress(ProcessLookupError):
                    os.kill(int(child), signal.SIGKILL)
        text, errors = None, process.communicate()[1]
    return text, time.perf_counter() - start, int(errors.split()[-1])


@dataclass
class Run:
    """What a program said of a problem (None where it did not finish), in which time and with how much memory."""

    text: Optional[str]
    seconds: float
    kilobytes: int


def best_of(words, limit, path=None):
    """The quickest of the runs; a long one is not repeated. The first one is weighed."""

    def started(run):
        if path is None:
            return run(words, limit)
        with open(path, encoding="utf-8") as file:
            return run(words, limit, file)

    text, seconds, kilobytes = started(weighed)
    for _ in range(TIMES - 1):
        if text is None or seconds > LONG:
            break
        again, time = started(timed)
        if again is not None and time < seconds:
            text, seconds = again, time
    return Run(text, seconds, kilobytes)


@dataclass
class Answer:
    """The cheapest plan, as the set of its true literals, and what it costs; None both where no plan is allowed."""

    plan: Optional[set]
    cost: Optional[int]


NO_PLAN = Answer(None, None)


def plan_of(values):
    return {place if value == "1" else -place for place, value in enumerate(values, 1)}


def answer_of_clasp(text):
    """What clasp says of a weighted text. Where no clause is soft, it says that there is a plan, and of no cost."""
    if "\ns UNSATISFIABLE" in text:
        return NO_PLAN
    lines = text.splitlines()
    costs = [int(line[2:]) for line in lines if line.startswith("o ")]
    if "\ns SATISFIABLE" in text and not costs:
        costs = [0]
    elif "\ns OPTIMUM FOUND" not in text:
        raise ValueError(f"clasp found no optimum:\n{text}")
    # The plan may be told more than once; the last line that begins it has the literal of variable 1.
    words = [line[2:].split() for line in lines if line.startswith("v ")]
    begin = max((number for number, line in enumerate(words) if line[0] in ("1", "-1")), default=0)
    return Answer({int(word) for line in words[begin:] for word in line} - {0}, costs[-1])


def answer_of_toulbar2(text):
    """What toulbar2 says of a weighted text, if it is told to print what it finds."""
    if "No solution" in text:
        return NO_PLAN
    lines = text.splitlines()
    costs = [int(line.split()[1]) for line in lines if line.startswith("Optimum: ")]
    found = [number for number, line in enumerate(lines) if line.startswith("New solution")]
    if not costs or not found:
        raise ValueError(f"toulbar2 found no optimum:\n{text}")
    return Answer(plan_of(lines[found[-1] + 1].split()), costs[-1])


def write(path, text):
    with open(path, "w", encoding="utf-8") as file:
        file.write(text)


def shown(seconds, unfinished):
    """Milliseconds, and how many problems were not finished within the limit."""
    return f"{1000 * seconds:,.1f}" + (f" ({unfinished} cut)" if unfinished else "")


def print_table(head, rows):
    widths = [max(len(row[place]) for row in [head, *rows]) for place in range(len(head))]
    for row in [head, *rows]:
        cells = [word.rjust(width) for word, width in zip(row[1:], widths[1:])]
        print("  ".join([row[0].ljust(widths[0]), *cells]))
