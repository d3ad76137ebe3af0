# SPDX-License-Identifier: Apache-2.0
"""Builds a program of the bench, proved, over the libraries as they stand, in the folder `bench/out`.

From nothing that takes some half an hour; what the crates' own `out` folders hold is used where there is no such folder
yet.
"""

import os
import shutil
import subprocess

HERE = os.path.dirname(os.path.realpath(__file__))
TOP = os.path.dirname(HERE)
ROOM = f"{HERE}/out"


def copy_library(name):
    """Brings the sources of a library up to date, and takes over what its checks kept where the room has nothing."""
    source, target = f"{TOP}/crates/{name}", f"{ROOM}/crates/{name}"
    if not os.path.isdir(f"{target}/out") and os.path.isdir(f"{source}/out"):
        shutil.copytree(f"{source}/out", f"{target}/out", symlinks=True)
    for part in ["src", "specs", "proofs"]:
        shutil.rmtree(f"{target}/{part}", ignore_errors=True)
        if os.path.isdir(f"{source}/{part}"):
            shutil.copytree(f"{source}/{part}", f"{target}/{part}")


def build(program, source, libraries, words):
    """Builds a program out of a file of this folder, runs it on words, and answers where it is."""
    for name in libraries:
        copy_library(name)
    with open(f"{TOP}/crates.txt", encoding="ascii") as lines:
        rows = [line for line in lines if line.split(":")[0] in libraries]
    with open(f"{ROOM}/crates.txt", "w", encoding="ascii") as lines:
        lines.writelines(rows + [f"{program}: {' '.join(libraries)}\n"])
    shutil.copy(f"{TOP}/HANDLES", ROOM)
    os.makedirs(f"{ROOM}/crates/{program}/src", exist_ok=True)
    shutil.copy(f"{HERE}/{source}", f"{ROOM}/crates/{program}/src/main.rt")
    subprocess.run(["rt", "run", "--", *words], cwd=f"{ROOM}/crates/{program}", check=True, stdout=subprocess.DEVNULL)
    return f"{ROOM}/crates/{program}/out/{program}"
