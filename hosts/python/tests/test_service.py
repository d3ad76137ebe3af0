# SPDX-License-Identifier: Apache-2.0
"""The example, a chain of two services, with the stand-in collector of tools/otlp_check, which reads each field."""

import json
import os
import re
import signal
import subprocess
import sys
import threading
import unittest
import urllib.request

from .support import PACKAGE_FOLDER, TOP

COLLECTOR = os.path.join(TOP, "tools", "otlp_check", "otlp_check")
SERVICE = os.path.join(PACKAGE_FOLDER, "examples", "service.py")
SECONDS = 60
REQUESTS, THREADS = 10, 4


class Program:
    """A program that says on standard error where it serves."""

    def __init__(self, test, *words, **variables):
        how = {"stdout": subprocess.PIPE, "stderr": subprocess.PIPE, "text": True}
        self.process = subprocess.Popen([sys.executable, "-B", *words], env={**os.environ, **variables}, **how)
        test.addCleanup(self.stop)
        self.url = None
        while self.url is None:
            line = self.process.stderr.readline()
            assert line, "it ended before it served"
            found = re.search(r"serving at (\S+)", line)
            self.url = found and found[1]

    def stop(self):
        """Ends it where it has not ended."""
        self.process.kill()
        self.process.communicate()

    def end(self):
        """Its status and what it wrote, after it has ended."""
        output, errors = self.process.communicate(timeout=SECONDS)
        return self.process.returncode, output, errors


def get(url):
    with urllib.request.urlopen(url, timeout=SECONDS) as response:
        return response.read()


class Services(unittest.TestCase):
    def start(self, collector, *words):
        return Program(self, SERVICE, "0", *words, OTEL_EXPORTER_OTLP_ENDPOINT=collector.url)

    def ask(self, url):
        """Asks from several threads."""
        answers = []
        threads = [
            threading.Thread(target=lambda: answers.extend(get(f"{url}/cart") for _ in range(REQUESTS)))
            for _ in range(THREADS)
        ]
        for thread in threads:
            thread.start()
        for thread in threads:
            thread.join()
        self.assertEqual(answers, [b"python\n"] * REQUESTS * THREADS)

    def end(self, service):
        """Has a service quit, and answers its counts."""
        get(f"{service.url}/quit")
        status, output, _ = service.end()
        self.assertEqual(status, 0)
        return json.loads(output)

    def test_a_trace_goes_through_both(self):
        collector = Program(self, COLLECTOR, "--serve", "0", "--fail", "1")
        inner = self.start(collector)
        outer = self.start(collector, inner.url)
        self.ask(outer.url)
        counts = [self.end(outer), self.end(inner)]
        collector.process.send_signal(signal.SIGTERM)
        status, output, errors = collector.end()
        self.assertEqual((status, errors.splitlines()[-1].split(", ")[-1]), (0, "0 faults"), errors)
        traces = re.findall(r"(?m)^trace .*: (\d+) span", output)
        self.assertEqual(sorted(traces), ["1"] * 2 + ["3"] * REQUESTS * THREADS)
        # Each request is a span of the outer service, one of its question, and one of the inner service.
        self.assertEqual([it["sent_spans"] for it in counts], [2 * REQUESTS * THREADS + 1, REQUESTS * THREADS + 1])
        for it in counts:
            losses = {name: count for name, count in it.items() if not name.startswith("sent_") and count}
            self.assertEqual(losses, {})

    def test_a_next_service_that_is_not_there(self):
        collector = Program(self, COLLECTOR, "--serve", "0")
        service = self.start(collector, "http://127.0.0.1:1/")
        with self.assertRaises(urllib.error.HTTPError) as refused:
            get(service.url)
        self.assertEqual(refused.exception.code, 502)
        refused.exception.close()
        self.assertEqual(self.end(service)["sent_spans"], 3)

    def test_a_signal_ends_it_too(self):
        service = self.start(Program(self, COLLECTOR, "--serve", "0"))
        get(service.url)
        service.process.send_signal(signal.SIGTERM)
        status, output, _ = service.end()
        self.assertEqual((status, json.loads(output)["sent_spans"]), (0, 1))

    def test_words_that_are_wrong(self):
        said = {"": "wants PORT", "x": "wants PORT", "0 1 2": "wants PORT", "99999": "cannot serve at the port 99999"}
        for words, wanted in said.items():
            command = [sys.executable, "-B", SERVICE, *words.split()]
            ran = subprocess.run(command, capture_output=True, text=True, timeout=SECONDS)
            self.assertEqual(ran.returncode, 1)
            self.assertIn(f"service: {wanted}", ran.stderr)
