"""The kit's own calls, for scripts that prove."""
import importlib.machinery
import importlib.util
import os
import shutil
import subprocess
import sys
import tempfile

TOP = os.path.dirname(os.path.dirname(os.path.abspath(__file__)))


def kit():
    """The kit's command as a module, or None where it isn't what is expected here."""
    path = shutil.which("rt") or sys.exit("there is no rt on the path: README says where it comes from")
    sys.dont_write_bytecode = True
    loader = importlib.machinery.SourceFileLoader("rt", os.path.realpath(path))
    module = importlib.util.module_from_spec(importlib.util.spec_from_loader("rt", loader))
    try:
        loader.exec_module(module)
        calls = [module.read_files, *[getattr(module.rtlib, it) for it in ("crates_below", "guarded", "lock", "sum_of", "text_of")]]
        crate = ("below", "build_rlib", "call", "count", "has_kept", "is_built", "run", "stamp", "words")
        calls += [getattr(module.rtlib.Crate, it) for it in crate]
        return module if all(map(callable, calls)) and module.rtlib.KIT and module.rtlib.RATTLE else None
    except (AttributeError, ImportError, OSError, SyntaxError):
        return None


class Checked:
    """A crate that is checked by itself, by one job, over the libraries below it that `make`, or a check of a crate above these, built."""

    def __init__(self, name, flags):
        rt = kit() or sys.exit("this kit has other calls than the script knows")
        crate = rt.rtlib.crates_below(f"{TOP}/crates/{name}")[-1]
        self.name, self.folder, self.rattle = name, crate.folder, rt.rtlib.RATTLE
        rt.read_files(crate)
        for below in [*crate.deps, *crate.below()]:
            once = f"{below.folder}/out/rlib/once/{below.name}.rlib"
            below.rlib = once if os.path.isdir(once) else f"{below.folder}/out/rlib/{below.name}.rlib"
            if not os.path.isdir(below.rlib):
                sys.exit(f"{below.name} has no library: prove it first by `make` or by `rt check {name}`")
        with tempfile.TemporaryFile("a+", errors="replace") as crate.out:
            self.words = crate.words(["--jobs", "1", *flags], keeps=False)

    def check(self, folder, kept, *more):
        """Checks the files of a folder as this crate, over what is kept in another folder, and answers the status and what was said."""
        how = {"cwd": folder, "stdout": subprocess.PIPE, "stderr": subprocess.STDOUT, "text": True, "errors": "replace"}
        ran = subprocess.run([self.rattle, "check", *self.words, "--incremental", kept, *more], check=False, **how)
        return ran.returncode, ran.stdout
