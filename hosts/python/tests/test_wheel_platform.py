# SPDX-License-Identifier: Apache-2.0
"""Which systems the wheel's library is said to run on, of libraries that the compiler makes, and of no library."""

import os
import shutil
import subprocess
import sys
import tempfile
import unittest

from .support import PACKAGE_FOLDER

sys.path.append(PACKAGE_FOLDER)

import wheel_platform

NEWEST = """
void *memcpy(void *, const void *, unsigned long);
int memfd_create(const char *, unsigned);
int made(void *at) { memcpy(at, "", made(at)); return memfd_create("", 0); }
"""
COMPILER = shutil.which("cc")


@unittest.skipUnless(COMPILER, "left out: no compiler is installed")
class Compiled(unittest.TestCase):
    def platform(self, code, *words):
        with tempfile.TemporaryDirectory() as folder:
            path = os.path.join(folder, "made.so")
            how = {"input": code, "text": True, "check": True, "capture_output": True}
            subprocess.run([COMPILER, "-shared", "-fPIC", "-o", path, "-x", "c", "-", *words], **how)
            with open(path, "rb") as file:
                return wheel_platform.platform_of(file.read())

    def test_the_newest_symbol_decides(self):
        self.assertEqual(self.platform(NEWEST), ("manylinux_2_27_x86_64", "glibc 2.27: memfd_create@GLIBC_2.27"))

    def test_what_asks_for_nothing_runs_with_the_oldest(self):
        platform, why = self.platform("int made(void) { return 1; }", "-nostdlib")
        self.assertEqual((platform, why), ("manylinux_2_5_x86_64", "glibc 2.5: no symbol"))

    def test_another_library_is_one_of_this_system(self):
        platform, why = self.platform(NEWEST, "-Wl,--no-as-needed", "-lgcc_s")
        self.assertTrue(platform.startswith("linux_"), platform)
        self.assertIn("libgcc_s.so.1", why)


class Unreadable(unittest.TestCase):
    def test_what_is_no_library_is_one_of_this_system(self):
        with open(os.path.realpath(sys.executable), "rb") as file:
            head = file.read(64)
        for data in (b"", b"text", head[:40], head, head[:40] + b"\xff" * 24):
            self.assertTrue(wheel_platform.platform_of(data)[0].startswith("linux_"), data)
