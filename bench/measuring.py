"""How the benches find the program, run it, and tell what a run took."""
import os
import resource
import subprocess
import sys
from typing import NamedTuple

TOP = os.path.dirname(os.path.dirname(os.path.abspath(__file__)))
RUNS = 3
# A run that takes longer is cut off, and isn't repeated.
MOST_SECONDS = 60
# A run gets no more memory.
MOST_BYTES = 4 << 30


class Took(NamedTuple):
    """Seconds as the system counts them for the one process, whatever else runs; and its greatest resident memory."""
    user: float
    system: float
    bytes: int


def program():
    """The first word of the command line, else the proved program of this repository."""
    path = sys.argv[1] if len(sys.argv) > 1 else f"{TOP}/crates/ltest/out/ltest"
    if not os.access(path, os.X_OK):
        sys.exit(f"there is no program {path}: ./ltest --prove builds it, or name one")
    return os.path.abspath(path)


def write(folder, name, text):
    with open(f"{folder}/{name}", "w") as file:
        file.write(text)


def read(folder, name):
    with open(f"{folder}/{name}", errors="replace") as file:
        return file.read()


def is_cut_off(took):
    return took.user + took.system > MOST_SECONDS - 1


def bound():
    resource.setrlimit(resource.RLIMIT_CPU, (MOST_SECONDS, MOST_SECONDS))
    resource.setrlimit(resource.RLIMIT_AS, (MOST_BYTES, MOST_BYTES))


def one_run(words, folder, code):
    with open(f"{folder}/output", "wb") as output:
        child = subprocess.Popen(words, cwd=folder, stdout=output, stderr=output, preexec_fn=bound)
        _, status, usage = os.wait4(child.pid, 0)
    child.returncode = os.waitstatus_to_exitcode(status)
    took = Took(usage.ru_utime, usage.ru_stime, usage.ru_maxrss * 1024)
    if child.returncode != code and not is_cut_off(took):
        sys.exit(f"{' '.join(words)}: status {child.returncode}, {read(folder, 'output')[:400]}")
    return took


def best(words, folder, code=0):
    """What the run took that took the least user time. Each has to end with this code, and writes into the file `output`."""
    least = one_run(words, folder, code)
    for _ in range(RUNS - 1):
        if not is_cut_off(least):
            least = min(least, one_run(words, folder, code))
    return least
