#!/usr/bin/env python3
"""Builds the static libraries for C over what the gate has just proved: .ci/archives.py

`rt ci` proves a static library and makes no archive of it, and `rt lib` would prove all that it stands on once more, since it does not take over
what `rt ci` leaves. So this calls the kit's prover as `rt ci` does, over the libraries that lie in crates/NAME/out: the crate that exports the
functions is proved again, and out/libNAME.a is made of it. The exit status is 0 where each archive was made.
"""

import importlib.machinery
import importlib.util
import os
import shutil
import subprocess
import sys


def load_rt():
    """The command rt as a module."""
    file = os.path.realpath(shutil.which("rt") or sys.exit("archives: rt is not on the PATH"))
    loader = importlib.machinery.SourceFileLoader("rt", file)
    module = importlib.util.module_from_spec(importlib.util.spec_from_loader("rt", loader))
    sys.modules["rt"] = module
    loader.exec_module(module)
    return module


def build(rt, crate):
    """Makes the archive of a crate. Returns whether it was made; what the prover said is printed where it was not."""
    archive = f"out/lib{crate.name}.a"
    jobs = ["--jobs", str(min(rt.processors(), 4))]
    words = ["build", *crate.words(jobs, keeps=False), "--toolchain", f"{rt.KIT}/toolchain", "-o", archive]
    ran = subprocess.run([rt.rtlib.RATTLE, *words], cwd=crate.folder, stdout=subprocess.PIPE, stderr=subprocess.STDOUT, text=True)
    if ran.returncode:
        print(ran.stdout, end="")
        print(f"archives: {crate.name} FAILED", flush=True)
        return False
    size = os.path.getsize(f"{crate.folder}/{archive}")
    print(f"archives: {crate.name}, {size} bytes", flush=True)
    return True


def main():
    sys.dont_write_bytecode = True
    rt = load_rt()
    os.chdir(os.path.dirname(os.path.dirname(os.path.realpath(__file__))))
    rt.rtlib.Crate = rt.Crate
    static = [crate for crate in rt.rtlib.crates_below(os.getcwd()) if crate.is_static]
    return 0 if all([build(rt, crate) for crate in static]) else 1


if __name__ == "__main__":
    sys.exit(main())
