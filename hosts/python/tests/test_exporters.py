# SPDX-License-Identifier: Apache-2.0
"""Where lines go besides a plain collector: standard output, nowhere, over https, and compressed."""

import contextlib
import io
import os
import shutil
import ssl
import subprocess
import tempfile
import unittest
from unittest import mock

from otel_proved import BadEndpoint, Sender
from otel_proved._destination import destination_of
from otel_proved._exporters import Both
from otel_proved._posting import Answer, Outcome

from .support import SHORT, Collector, spans_in
from .test_sender import PATIENCE, SenderTest, until

OTLP = "OTEL_EXPORTER_OTLP_"


class Chosen(SenderTest):
    def sent(self, exporter, **variables):
        """What is written to standard output, and the sender, where the environment names an exporter."""
        said = io.StringIO()
        named = {"OTEL_TRACES_EXPORTER": exporter, **variables}
        with mock.patch.dict(os.environ, named), contextlib.redirect_stdout(said):
            sender = self.sender(None)
            self.trace("span")
            self.assertTrue(sender.flush(PATIENCE))
            sender.close()
        return said.getvalue(), sender

    def test_the_console(self):
        said, sender = self.sent("console")
        self.assertEqual(set(spans_in(said.splitlines())), {"span"})
        self.assertEqual((self.counts_of(sender), sender.endpoint), ((1, 0, 0), "console"))

    def test_none(self):
        with self.assertNoLogs() if hasattr(self, "assertNoLogs") else contextlib.nullcontext():
            said, sender = self.sent("none")
        self.assertEqual((said, self.counts_of(sender), sender.ignored_settings), ("", (0, 1, 0), []))

    def test_a_collector_and_the_console(self):
        collector = self.collector()
        for exporter in ("otlp,console", "otlp", "", "zipkin"):
            said, sender = self.sent(exporter, OTEL_EXPORTER_OTLP_ENDPOINT=collector.url)
            self.assertEqual((bool(said), self.counts_of(sender)), ("console" in exporter, (1, 0, 0)))
            self.assertEqual(sender.ignored_settings, ["OTEL_TRACES_EXPORTER"] if exporter == "zipkin" else [])
        self.assertEqual(len(collector.came), 4)

    def test_an_endpoint_that_is_given_goes_first(self):
        collector = self.collector()
        with mock.patch.dict(os.environ, {"OTEL_TRACES_EXPORTER": "none"}):
            sender = self.sender(collector.url)
            self.trace("span")
            self.assertTrue(sender.flush(PATIENCE))
        self.assertEqual(sender.sent_spans, 1)

    def test_a_line_that_is_posted_again_is_written_once(self):
        later = mock.Mock()
        later.post.return_value = Answer(Outcome.LATER)
        both, line, said = Both(later), b"line", io.StringIO()
        with contextlib.redirect_stdout(said):
            self.assertEqual([both.post(line).outcome for _ in range(2)], [Outcome.LATER] * 2)
        self.assertEqual(said.getvalue(), "line\n")


class Compressed(SenderTest):
    def test_by_gzip(self):
        for variable, value, wanted in (("COMPRESSION", "gzip", "gzip"), ("TRACES_COMPRESSION", "none", None)):
            collector = self.collector()
            with mock.patch.dict(os.environ, {OTLP + variable: value}):
                sender = self.sender(collector.url)
            self.assertEqual(sender.ignored_settings, [])
            self.trace("span")
            self.assertTrue(sender.flush(PATIENCE))
            sender.close()
            (_, headers, _), = collector.came
            self.assertEqual((headers["Content-Encoding"], set(collector.spans)), (wanted, {"span"}))


@unittest.skipUnless(shutil.which("openssl"), "left out: openssl is not installed")
class Secured(SenderTest):
    @classmethod
    def setUpClass(cls):
        cls.folder = tempfile.mkdtemp()
        cls.addClassCleanup(shutil.rmtree, cls.folder)
        cls.certificate, cls.key = f"{cls.folder}/certificate.pem", f"{cls.folder}/key.pem"
        words = ["req", "-x509", "-newkey", "rsa:2048", "-nodes", "-days", "2", "-subj", "/CN=localhost"]
        words += ["-addext", "subjectAltName=IP:127.0.0.1", "-keyout", cls.key, "-out", cls.certificate]
        subprocess.run(["openssl", *words], check=True, capture_output=True)

    def secured(self, wants_certificate=False):
        """A collector over https."""
        context = ssl.SSLContext(ssl.PROTOCOL_TLS_SERVER)
        context.load_cert_chain(self.certificate, self.key)
        if wants_certificate:
            context.load_verify_locations(self.certificate)
            context.verify_mode = ssl.CERT_REQUIRED
        collector = Collector(ssl_context=context)
        self.addCleanup(collector.stop)
        return collector

    def is_sent(self, url, patience=PATIENCE, given=None, **variables):
        """Whether a span arrives."""
        with mock.patch.dict(os.environ, {OTLP + name: value for name, value in variables.items()}):
            sender = Sender(self.pipeline, url, SHORT, ssl_context=given)
        self.addCleanup(sender.close, 0)
        self.trace("span")
        return sender.flush(patience), sender

    def test_a_certificate_of_the_environment_is_trusted(self):
        collector = self.secured()
        self.assertTrue(self.is_sent(collector.url, CERTIFICATE=self.certificate)[0])
        self.assertEqual(set(collector.spans), {"span"})

    def test_another_one_is_not(self):
        is_sent, sender = self.is_sent(self.secured().url, 0.5)
        self.assertFalse(is_sent)
        until(lambda: sender.last_failure)
        self.assertIn("certificate", sender.last_failure)

    def test_a_collector_may_want_one_too(self):
        collector = self.secured(wants_certificate=True)
        own = {"CLIENT_CERTIFICATE": self.certificate, "CLIENT_KEY": self.key}
        self.assertTrue(self.is_sent(collector.url, TRACES_CERTIFICATE=self.certificate, **own)[0])

    def test_a_context_may_be_given(self):
        given = ssl.create_default_context(cafile=self.certificate)
        self.assertTrue(self.is_sent(self.secured().url, given=given)[0])

    def test_a_file_that_does_not_read_is_named(self):
        with mock.patch.dict(os.environ, {OTLP + "CERTIFICATE": "/nowhere"}):
            self.assertRaisesRegex(BadEndpoint, "OTLP_CERTIFICATE", destination_of, "https://here", None, None)
            self.assertEqual(destination_of("http://here", None, None).ignored_settings, [])


if __name__ == "__main__":
    unittest.main()
