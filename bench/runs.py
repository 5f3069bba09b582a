"""Runs of a program in a folder, with what they took."""
import collections
import os
import subprocess
import sys
import tempfile
import time

Ran = collections.namedtuple("Ran", "status wall user cpu memory said")
HERE = os.path.dirname(os.path.abspath(__file__))


def program_of(given):
    """The program that is named, else the built one."""
    program = os.path.realpath(given or f"{HERE}/../crates/cura_slice/out/cura_slice")
    if not os.access(program, os.X_OK):
        sys.exit(f"no program {program}: build it with 'rt run' in crates/cura_slice")
    return program


def run(words, folder, processors=None, env=None):
    """Seconds by the clock, of the user's time and of all processor time, the greatest memory in MB (up to some 15 MB are
    Python's own), and the line on standard output."""
    pin = (lambda: os.sched_setaffinity(0, processors)) if processors else None
    with tempfile.TemporaryFile() as said:
        began = time.monotonic()
        started = subprocess.Popen(words, cwd=folder, stdout=said, stderr=subprocess.DEVNULL, preexec_fn=pin, env=env)
        _, status, used = os.wait4(started.pid, 0)
        wall = time.monotonic() - began
        said.seek(0)
        line = said.readline().decode(errors="replace").strip()
    started.returncode = os.WEXITSTATUS(status) if os.WIFEXITED(status) else -1
    cpu = used.ru_utime + used.ru_stime
    return Ran(started.returncode, wall, used.ru_utime, cpu, used.ru_maxrss / 1024, line)


def wanted(ran, status, words):
    """The run, which ended with that status."""
    if ran.status != status:
        sys.exit(f"{' '.join(words)}: status {ran.status} and not {status}: {ran.said}")
    return ran


def least(runs):
    """The least of each figure, and the greatest memory."""
    first, figures = runs[0], [min(ran[at] for ran in runs) for at in (1, 2, 3)]
    return Ran(first.status, *figures, max(ran.memory for ran in runs), first.said)


def load():
    """What the machine does beside this, as a text."""
    return f"{len(os.sched_getaffinity(0))} processors, load {os.getloadavg()[0]:.1f} before the runs"
