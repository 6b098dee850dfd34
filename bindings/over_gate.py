#!/usr/bin/env python3
"""over_gate.py FILE: the archive of the crate `jolunza`, over what `rt ci` has just proved in this checkout.

`rt ci` leaves the crates below as libraries that `rt lib` doesn't take, so that one proves them all once more. This one asks the kit's own
script for the compiler's words and builds over them; `jolunza` itself is proved here as anywhere. Status 1 where there is nothing to build
over, or the kit has another shape.
"""
import os
import subprocess
import sys

TOP = os.path.dirname(os.path.dirname(os.path.abspath(__file__)))


def kit():
    page = subprocess.run(["rt", "doc"], capture_output=True, text=True, check=True).stdout
    return os.path.dirname(page.strip())


def is_of_gate(crate):
    """A library of `rt ci` has no stamp; one with a stamp is of another command, and of any age."""
    return os.path.isdir(crate.rlib) and not os.path.exists(f"{os.path.dirname(crate.rlib)}/stamp")


def main(file):
    sys.path.insert(0, f"{kit()}/bin")
    import rtlib

    crate = rtlib.Crate(f"{TOP}/crates/jolunza", TOP, {})
    lacking = [it.name for it in crate.below() if not is_of_gate(it)]
    if lacking:
        sys.exit(f"rt ci has left no library of {', '.join(lacking)}")
    words = crate.words(["--jobs", "2"], keeps=False)
    words += ["--toolchain", f"{kit()}/toolchain", "--backend", "llvm", "-o", file]
    return subprocess.run([rtlib.RATTLE, "build", *words], cwd=crate.folder).returncode


sys.exit(main(os.path.abspath(sys.argv[1])))
