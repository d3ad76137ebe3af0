# SPDX-License-Identifier: Apache-2.0
"""The wheel: what is in it, that it works where it is unpacked, and what is said where the library is not there."""

import glob
import os
import shutil
import subprocess
import sys
import tempfile
import unittest
import zipfile

from otel_proved import _native

from .support import PACKAGE_FOLDER

USE = """
import otel_proved
pipeline = otel_proved.Pipeline({})
pipeline.start_span("a").end()
print(len(pipeline.close()), otel_proved.__file__)
"""


class Wheel(unittest.TestCase):
    def setUp(self):
        self.folder = tempfile.mkdtemp()
        self.addCleanup(shutil.rmtree, self.folder)

    def build(self, library_folder):
        """Builds by pip, which fetches nothing."""
        words = ["wheel", "--no-index", "--no-build-isolation", "--no-deps", "-q", "-w", self.folder, PACKAGE_FOLDER]
        environment = {**os.environ, "OTEL_C_DIR": library_folder, "PYTHONDONTWRITEBYTECODE": "1"}
        how = {"env": environment, "capture_output": True, "text": True}
        return subprocess.run([sys.executable, "-m", "pip", *words], **how)

    def test_it_has_the_library(self):
        library = next(it for it in _native.places() if os.path.isfile(it))
        shutil.copy(library, os.path.join(self.folder, _native.LIBRARY))
        ran = self.build(self.folder)
        self.assertEqual(ran.returncode, 0, ran.stderr)
        name, = (it for it in os.listdir(self.folder) if it.endswith(".whl"))
        self.assertRegex(name, r"^otel_proved-[0-9.]+-py3-none-manylinux_2_[0-9]+_x86_64\.whl$")
        unpacked = os.path.join(self.folder, "unpacked")
        with zipfile.ZipFile(os.path.join(self.folder, name)) as archive:
            archive.extractall(unpacked)
        os.remove(os.path.join(self.folder, _native.LIBRARY))
        environment = {"PYTHONPATH": unpacked, "PATH": os.environ["PATH"]}
        how = {"cwd": self.folder, "env": environment, "capture_output": True, "text": True}
        used = subprocess.run([sys.executable, "-c", USE], **how)
        self.assertEqual(used.stdout, f"1 {unpacked}/otel_proved/__init__.py\n", used.stderr)

    def test_an_editable_install_leads_to_the_checkout(self):
        words = ["install", "--no-index", "--no-build-isolation", "--no-deps", "-q", "--prefix", self.folder]
        how = {"capture_output": True, "text": True, "env": {**os.environ, "PYTHONDONTWRITEBYTECODE": "1"}}
        ran = subprocess.run([sys.executable, "-m", "pip", *words, "-e", PACKAGE_FOLDER], **how)
        self.assertEqual(ran.returncode, 0, ran.stderr)
        lead, = glob.glob(os.path.join(self.folder, "**", "otel_proved.pth"), recursive=True)
        command = f"import site; site.addsitedir({os.path.dirname(lead)!r})\n{USE}"
        used = subprocess.run([sys.executable, "-B", "-c", command], cwd=self.folder, **how)
        self.assertEqual(used.stdout, f"1 {PACKAGE_FOLDER}/otel_proved/__init__.py\n", used.stderr)

    def test_without_the_library_it_says_so(self):
        ran = self.build(self.folder)
        self.assertNotEqual(ran.returncode, 0)
        said = ran.stdout + ran.stderr
        for words in (f"there is no {self.folder}/{_native.LIBRARY}.", "Unpack a release", "./run --build c"):
            self.assertIn(words, said)
