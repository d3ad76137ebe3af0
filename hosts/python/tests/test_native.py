# SPDX-License-Identifier: Apache-2.0
"""The statuses and counts against otel.h, and where the library is looked for."""

import os
import re
import subprocess
import sys
import tempfile
import unittest
from unittest import mock

from otel_proved import _declarations, _native, errors

from .support import PACKAGE_FOLDER

HEADER = os.path.join(PACKAGE_FOLDER, "..", "c", "otel.h")


def header():
    with open(HEADER, encoding="utf-8") as file:
        return re.sub(r"(?s)/\*.*?\*/", "", file.read())


class Table(unittest.TestCase):
    def test_statuses_are_those_of_the_header(self):
        listed = re.search(r"enum otel_status \{([^}]*)\}", header())[1]
        statuses = {int(number): name for name, number in re.findall(r"OTEL_(\w+) = (\d+)", listed)}
        del statuses[_native.OK]
        named = {status: kind.__name__.upper() for status, kind in _native._ERRORS.items()}
        self.assertEqual(named, {status: name.replace("_", "") for status, name in statuses.items()})

    def test_counts_have_the_members_of_the_header(self):
        self.assertEqual([name for name, _ in _declarations.Numbers._fields_], list(_native.Counts._fields))


class Places(unittest.TestCase):
    def ends_with(self, variables, wanted):
        command = "import otel_proved\ntry: otel_proved.Pipeline({})\nexcept otel_proved.LibraryNotFound as e: print(e)"
        environment = {**os.environ, **variables}
        how = {"cwd": PACKAGE_FOLDER, "env": environment, "capture_output": True, "text": True}
        ran = subprocess.run([sys.executable, "-B", "-c", command], **how)
        self.assertEqual(ran.stderr, "")
        self.assertRegex(ran.stdout, wanted)

    def test_a_named_library_that_is_not_there_is_an_error(self):
        said = r"OTEL_C_LIBRARY names /nowhere/lib.so, .*\. Unpack a release, .* `\./run --build c` "
        self.ends_with({"OTEL_C_LIBRARY": "/nowhere/lib.so"}, said)

    def test_a_library_that_is_nowhere_is_an_error_that_says_how_to_get_it(self):
        with mock.patch.object(_native, "places", lambda: ["/nowhere/a.so"]):
            with self.assertRaises(errors.LibraryNotFound) as it:
                _native._path()
        for words in ("is at none of /nowhere/a.so. ", "Unpack a release", "./run --build c"):
            self.assertIn(words, str(it.exception))

    def test_a_file_that_is_no_library_is_an_error(self):
        with tempfile.NamedTemporaryFile(suffix=".so") as file:
            self.ends_with({"OTEL_C_LIBRARY": file.name}, "cannot be used")

    def test_a_library_without_the_functions_is_an_error(self):
        self.ends_with({"OTEL_C_LIBRARY": _libc()}, "cannot be used: .*otel_version")

    def test_a_library_of_another_version_is_an_error(self):
        here = _declarations.VERSION

        def ask(*numbers):
            for number, is_of in zip(numbers, library):
                number.value = is_of
            return _native.OK

        library = (*here[:2], here[2] + 1)
        _native._hold_version("here", ask)
        for library in ((here[0], here[1] + 1, 0), (here[0] + 1, here[1], 0)):
            said = f"here is of version {'.'.join(map(str, library))}, and this package is for {here[0]}.{here[1]}"
            self.assertRaisesRegex(errors.OtherVersion, f"^{re.escape(said)}$", _native._hold_version, "here", ask)

    def test_an_unknown_status_has_an_error(self):
        self.assertIsInstance(_native.error_of("otel_open", 77), errors.UnknownStatus)


def _libc():
    """The path of the C library, which has other functions."""
    with open("/proc/self/maps", encoding="utf-8") as file:
        return next(line.split()[-1] for line in file if "libc.so" in line or "/libc-" in line)
