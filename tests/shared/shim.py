"""Builds tests/shared/shim.c, which stands between a program and the C library, and names what it is told."""
from __future__ import annotations

import os
import pathlib
import shutil
import subprocess
import sys

SOURCE = pathlib.Path(__file__).resolve().parent / "shim.c"


def compiler() -> list[str]:
    """The words that begin a call of a C compiler: the toolchain's, or one of the system."""
    guide = ""
    if shutil.which("rt"):
        guide = subprocess.run(["rt", "doc"], stdout=subprocess.PIPE, text=True, check=False).stdout
    clang = f"{os.path.dirname(guide.strip())}/toolchain/bin/clang"
    if os.access(clang, os.X_OK):
        return [clang, "-fuse-ld=lld"]
    for name in ("cc", "clang", "gcc"):
        if shutil.which(name):
            return [name]
    sys.exit("tests/shared/shim.c isn't built: neither the toolchain nor this machine has a C compiler")


def built(folder: str) -> str:
    """The path of what is built, in this folder."""
    shim = f"{folder}/shim.so"
    subprocess.run([*compiler(), "-O2", "-shared", "-fPIC", "-nostdlib", "-o", shim, str(SOURCE)], check=True)
    return shim
