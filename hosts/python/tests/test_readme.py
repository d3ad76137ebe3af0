# SPDX-License-Identifier: Apache-2.0
"""The first block of Python in the README."""

import contextlib
import io
import os
import re
import unittest
from unittest import mock

from .support import PACKAGE_FOLDER, Collector


class Readme(unittest.TestCase):
    def test_the_first_block_runs(self):
        collector = Collector()
        self.addCleanup(collector.stop)
        with open(os.path.join(PACKAGE_FOLDER, "README.md"), encoding="utf-8") as file:
            block = re.search(r"(?ms)^```python\n(.*?)^```$", file.read())[1]
        said = io.StringIO()
        variables = {"OTEL_EXPORTER_OTLP_ENDPOINT": collector.url}
        with mock.patch.dict(os.environ, variables), contextlib.redirect_stdout(said):
            exec(compile(block, "README.md", "exec"), {})
        self.assertRegex(said.getvalue(), r"\A00-0af7651916cd43dd8448eb211c80319c-.*-01\n2 spans sent, 0 lost\n\Z")
        self.assertEqual(set(collector.spans), {"GET /cart", "load cart"})
