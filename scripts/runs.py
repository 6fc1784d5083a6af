"""What the scripts that run programs share: which program, and a run with its processor time."""
import collections
import os
import resource
import subprocess
import sys
import tempfile

TOP = os.path.dirname(os.path.dirname(os.path.abspath(__file__)))
Run = collections.namedtuple("Run", "seconds status output")


def program(path):
    """The whole path of a program, or the end where there is none."""
    if not os.access(path, os.X_OK) or os.path.isdir(path):
        sys.exit(f"there is no program {path}: `make` builds it")
    return os.path.abspath(path)


def maxband():
    """The program that MAXBAND names, or the one that `make` builds."""
    return program(os.environ.get("MAXBAND", f"{TOP}/crates/maxband/out/maxband"))


def timed(words, folder, seconds=None):
    """Runs a program in a folder: its processor seconds (user and system), its status and what it printed. With a limit it is ended
    after so many processor seconds, and its status is then below 0."""
    limit = None if seconds is None else lambda: resource.setrlimit(resource.RLIMIT_CPU, (seconds, seconds))
    with tempfile.TemporaryFile("w+", errors="replace") as printed:
        child = subprocess.Popen(words, cwd=folder, stdin=subprocess.DEVNULL, stdout=printed, stderr=subprocess.STDOUT, preexec_fn=limit)
        _, status, used = os.wait4(child.pid, 0)
        child.returncode = os.waitstatus_to_exitcode(status)
        printed.seek(0)
        return Run(used.ru_utime + used.ru_stime, child.returncode, printed.read())
