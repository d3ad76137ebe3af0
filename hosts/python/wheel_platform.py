# SPDX-License-Identifier: Apache-2.0
"""Which systems a shared library runs on: the tag of a platform that its wheel has, and why.

An ELF file names the libraries that it needs, and with each symbol of theirs the version that it asks for. One that
needs the C library of GNU alone runs wherever that is as new as the newest of these versions, which is what the tag
`manylinux_2_XX_x86_64` says.
"""

import re
import struct
import sysconfig
from collections import namedtuple

DYNAMIC, DYNAMIC_SYMBOLS, NEEDED_VERSIONS, SYMBOL_VERSIONS = 6, 11, 0x6FFFFFFE, 0x6FFFFFFF
NEEDED_LIBRARY, OWN_NAME = 1, 14
X86_64 = 62
# What the C library of GNU is made of.
C_LIBRARY = {"libc.so.6", "libm.so.6", "libpthread.so.0", "libdl.so.2", "librt.so.1", "ld-linux-x86-64.so.2"}
# The oldest that an installer of wheels knows for this processor.
OLDEST = (2, 5)

Section = namedtuple("Section", "kind offset size link count entry_size")


class Unreadable(Exception):
    """Why nothing can be said of a file."""


class Elf:
    """The parts of an ELF file that say what it needs."""

    def __init__(self, data):
        if data[:6] != b"\x7fELF\x02\x01" or struct.unpack_from("<H", data, 18)[0] != X86_64:
            raise Unreadable("it is no ELF file for x86-64")
        self.data = data
        start, size, count = *struct.unpack_from("<Q", data, 40), *struct.unpack_from("<HH", data, 58)
        self.sections = [self.section_at(start + size * it) for it in range(count)]

    def section_at(self, at):
        kind, _, _, offset, size, link, info, _, entry_size = struct.unpack_from("<4xIQQQQIIQQ", self.data, at)
        return Section(kind, offset, size, link, info, entry_size)

    def section(self, kind):
        """The section of a kind; none where there is none."""
        return next((it for it in self.sections if it.kind == kind), None)

    def text(self, section, offset):
        """The text at an offset into the section of texts of another section."""
        begins = self.sections[section.link].offset + offset
        return self.data[begins : self.data.index(b"\0", begins)].decode("ascii", "replace")

    def names(self, wanted_tag):
        """The names that it has under a tag: of the libraries that it needs, or its own."""
        section = self.section(DYNAMIC)
        places = range(section.offset, section.offset + section.size, 16) if section else ()
        entries = [struct.unpack_from("<qQ", self.data, it) for it in places]
        return [self.text(section, value) for tag, value in entries if tag == wanted_tag]

    def versions(self):
        """The versions that it asks of libraries, by their numbers in the list of symbols' versions."""
        section = self.section(NEEDED_VERSIONS)
        found, at = {}, section.offset if section else 0
        for _ in range(section.count if section else 0):
            _, count, _, first, following = struct.unpack_from("<HHIII", self.data, at)
            place = at + first
            for _ in range(count):
                _, _, number, name, after = struct.unpack_from("<IHHII", self.data, place)
                found[number & 0x7FFF] = self.text(section, name)
                place += after
            at += following
        return found

    def askers(self):
        """Each version that it asks for, with the first symbol that has it; itself where none has."""
        symbols, numbers = self.section(DYNAMIC_SYMBOLS), self.section(SYMBOL_VERSIONS)
        found = {}
        for number, version in self.versions().items():
            found[version] = version
            for index in range(numbers.size // 2 if numbers and symbols else 0):
                if struct.unpack_from("<H", self.data, numbers.offset + 2 * index)[0] & 0x7FFF == number:
                    name = struct.unpack_from("<I", self.data, symbols.offset + 24 * index)[0]
                    found[version] = f"{self.text(symbols, name)}@{version}"
                    break
        return found


def wanted(version):
    """The C library that has a version, as two numbers. Unreadable where that is not known."""
    if version == "GLIBC_ABI_DT_RELR":
        return 2, 36
    found = re.fullmatch(r"GLIBC_([0-9]+)\.([0-9]+)(?:\.[0-9]+)*", version)
    if not found:
        raise Unreadable(f"it asks for {version}, which no version of the C library is known to promise")
    return int(found[1]), int(found[2])


def oldest_c_library(data):
    """The oldest C library that a shared library runs with, as two numbers, and the symbol that asks for it."""
    try:
        elf = Elf(data)
        others = [it for it in elf.names(NEEDED_LIBRARY) if it not in C_LIBRARY]
        if others:
            raise Unreadable(f"it needs {others[0]}, which is no part of the C library")
        asked = [(wanted(version), symbol) for version, symbol in elf.askers().items()]
    except (struct.error, ValueError, IndexError, OverflowError):
        raise Unreadable("its parts do not read") from None
    return max(asked, default=(OLDEST, "no symbol"))


def platform_of(data):
    """The tag of the platform for a shared library, and why it is that."""
    try:
        oldest, symbol = oldest_c_library(data)
    except Unreadable as fault:
        return re.sub("[-.]", "_", sysconfig.get_platform()), f"this system: {fault}"
    major, minor = max(oldest, OLDEST)
    return f"manylinux_{major}_{minor}_x86_64", f"glibc {oldest[0]}.{oldest[1]}: {symbol}"
