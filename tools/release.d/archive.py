# SPDX-License-Identifier: Apache-2.0
"""Archives whose bytes depend on nothing but what is in them: names in order, no owners, one moment for all."""

import gzip
import hashlib
import os
import tarfile


def paths_below(folder):
    """The paths of all that is in a folder, in order, from the folder on."""
    found = []
    for at, folders, names in os.walk(folder):
        found += [os.path.relpath(os.path.join(at, it), folder) for it in [*folders, *names]]
    return sorted(found)


def entry_of(archive, path, name, moment):
    """What an archive says of a file, a folder or a link."""
    entry = archive.gettarinfo(path, name)
    entry.uid = entry.gid = 0
    entry.uname = entry.gname = ""
    entry.mtime = moment
    entry.mode = 0o755 if entry.isdir() or entry.issym() or entry.mode & 0o100 else 0o644
    return entry


def pack(folder, path, moment):
    """Writes a folder, and all in it, as an archive `path`, under its own name."""
    top = os.path.basename(folder)
    with open(path, "wb") as file, gzip.GzipFile("", "wb", 9, file, 0) as packed:
        with tarfile.open(fileobj=packed, mode="w", format=tarfile.USTAR_FORMAT) as archive:
            for name in ["", *paths_below(folder)]:
                at = os.path.join(folder, name) if name else folder
                entry = entry_of(archive, at, f"{top}/{name}" if name else top, moment)
                if entry.isreg():
                    with open(at, "rb") as content:
                        archive.addfile(entry, content)
                else:
                    archive.addfile(entry)


def sums(folder):
    """A line for each file of a folder, as sha256sum writes and reads it."""
    lines = []
    for name in sorted(os.listdir(folder)):
        with open(os.path.join(folder, name), "rb") as file:
            lines.append(f"{hashlib.sha256(file.read()).hexdigest()}  {name}\n")
    return "".join(lines)
