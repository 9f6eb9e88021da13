#!/usr/bin/env python3
"""Links the programs that were proved and built: tools/linking.py FOLDER

Each program goes into FOLDER under its own name. Where this machine has gcc and a static C library, a program is linked with that: it then
starts without the dynamic loader, which takes a quarter of the time of a call of gdrv-cc. Otherwise it is the program that rt linked.
"""

import os
import shutil
import subprocess
import sys

from crates import Crates


def kit_libraries():
    """What the kit has of C, which each program is linked with."""
    rt = shutil.which("rt")
    folder = f"{os.path.dirname(os.path.dirname(os.path.realpath(rt)))}/c" if rt else ""
    return [f"{folder}/libos_c.a", f"{folder}/liblibc_c.a"]


def link(built, to):
    """Links a program, and tells whether it is static. `built` is the path of what rt linked, beside its object file."""
    made = f"{to}.new"
    words = ["gcc", "-static", "-no-pie", "-o", made, f"{built}.o", *kit_libraries()]
    try:
        is_static = subprocess.run(words, stdin=subprocess.DEVNULL, capture_output=True, check=False).returncode == 0
    except FileNotFoundError:
        is_static = False
    if not is_static:
        shutil.copy2(built, made)
    os.replace(made, to)
    return is_static


def link_programs(crates, folder):
    """Links the programs of the product into a folder, and gives the name of each with whether it is static."""
    os.makedirs(folder, exist_ok=True)
    for name in crates.programs():
        program = crates.program(name)
        yield program, link(f"{crates.folder(name)}/out/{name}", f"{folder}/{program}")


def main(arguments):
    if len(arguments) != 1 or arguments[0].startswith("-"):
        print(__doc__, end="", file=sys.stderr)
        return 2
    crates = Crates(os.path.dirname(os.path.dirname(os.path.realpath(__file__))))
    for program, is_static in link_programs(crates, arguments[0]):
        print(f"{arguments[0]}/{program}" + ("" if is_static else " (linked with the shared C library)"))
    return 0


if __name__ == "__main__":
    if sys.argv[1:] == ["--help"]:
        print(__doc__.strip())
        sys.exit()
    sys.exit(main(sys.argv[1:]))
