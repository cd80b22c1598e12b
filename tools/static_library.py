#!/usr/bin/env python3
"""static_library.py CRATE: builds a static library over the crates below it as `rt ci` has just proved and left them. Run it at the top.

`rt lib` does not take these: it builds each library below anew, or from what earlier checks kept, which in a clean clone is nothing. This makes the same
call of the toolchain as `rt lib`, by rt's own library, and leaves out only that. Status 1: it cannot be done so, and `rt lib` is to be used.
"""
import importlib.machinery
import importlib.util
import os
import subprocess
import sys


def main(name):
    root = os.getcwd()
    kit = os.path.dirname(subprocess.check_output(["rt", "doc"], text=True).strip())
    sys.dont_write_bytecode = True
    loader = importlib.machinery.SourceFileLoader("rtlib", f"{kit}/bin/rtlib.py")
    rtlib = importlib.util.module_from_spec(importlib.util.spec_from_loader("rtlib", loader))
    sys.modules["rtlib"] = rtlib
    loader.exec_module(rtlib)
    rtlib.guarded()
    os.chdir(f"crates/{name}")
    crate = rtlib.Crate(os.getcwd(), root, {})
    crate.out = sys.stdout
    for below in crate.below():
        if not os.path.isdir(below.rlib):
            sys.exit(f"static_library: rt ci has left no library of {below.name}")
        if os.path.isfile(f"{below.folder}/out/rlib/stamp") and not below.is_built():
            # (in a checkout where checks were made before, rt ci puts back the libraries of these)
            sys.exit(f"static_library: the library of {below.name} is of older sources")
    os.makedirs("out", exist_ok=True)
    return crate.build_static([])


if __name__ == "__main__":
    try:
        status = main(*sys.argv[1:])
    except (AttributeError, OSError, TypeError, subprocess.CalledProcessError) as error:
        sys.exit(f"static_library: {error}")
    sys.exit(1 if status else 0)
