"""What `fuzz` and `compare` share: they run the program on a text, and write a text to a file where something is wrong."""

import os
import subprocess
import time
from dataclasses import dataclass
from typing import Optional

HERE = os.path.dirname(os.path.abspath(__file__))


@dataclass
class Ran:
    """What a program printed, what is wrong with how it ended (None if nothing is), and how long it took."""

    output: bytes
    wrong: Optional[str]
    cut: bool
    seconds: float


def run(program, text, limit):
    """Runs the program, and cuts it after so many seconds."""
    start = time.perf_counter()
    pipe = subprocess.PIPE
    try:
        ran = subprocess.run([program], input=text, stdout=pipe, stderr=pipe, timeout=limit)
    except subprocess.TimeoutExpired as late:
        wrong = f"the program took more than {limit:g} seconds"
        return Ran(late.stdout or b"", wrong, True, time.perf_counter() - start)
    seconds = time.perf_counter() - start
    if ran.returncode or ran.stderr:
        wrong = f"the program ended with {ran.returncode} and said {ran.stderr[-500:]!r}"
        return Ran(ran.stdout, wrong, False, seconds)
    return Ran(ran.stdout, None, False, seconds)


def keep(name, contents):
    """Writes files of this name, one for each ending, to the folder `found`. Gives back the path without an ending."""
    folder = os.path.join(HERE, "found")
    os.makedirs(folder, exist_ok=True)
    path = os.path.join(folder, name)
    for ending, content in contents.items():
        with open(path + ending, "wb") as file:
            file.write(content)
    return path
