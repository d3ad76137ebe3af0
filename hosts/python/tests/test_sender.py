# SPDX-License-Identifier: Apache-2.0
"""Senders: what arrives, what is tried again, what is given up, and where lines go."""

import email.utils
import os
import socket
import subprocess
import sys
import textwrap
import time
import unittest
from unittest import mock

from otel_proved import BadEndpoint, Sender
from otel_proved._destination import destination_of
from otel_proved._posting import _asked_wait

from .support import PACKAGE_FOLDER, SHORT, Collector, PipelineTest

PATIENCE = 20


def free_port():
    """A port at which nobody listens."""
    with socket.socket() as listening:
        listening.bind(("127.0.0.1", 0))
        return listening.getsockname()[1]


def until(is_so):
    """Waits until something is so."""
    end = time.monotonic() + PATIENCE
    while not is_so():
        assert time.monotonic() < end, "it did not come about"
        time.sleep(0.01)


class SenderTest(PipelineTest):
    settings = {"OTEL_BSP_SCHEDULE_DELAY": "20"}

    def collector(self, *answers, port=0):
        collector = Collector(answers, port)
        self.addCleanup(collector.stop)
        return collector

    def sender(self, endpoint, **how):
        sender = Sender(self.pipeline, endpoint, SHORT, **how)
        self.addCleanup(sender.close, 0)
        return sender

    def trace(self, *names):
        for name in names:
            with self.pipeline.span(name):
                pass

    def counts_of(self, sender):
        return sender.sent_spans, sender.lost_spans, sender.waiting_lines


class Sends(SenderTest):
    def test_what_is_due_is_sent_by_itself(self):
        collector = self.collector()
        sender = self.sender(collector.url)
        self.trace("first")
        until(lambda: "first" in collector.spans)
        self.trace("second")
        until(lambda: "second" in collector.spans)
        until(lambda: sender.sent_spans == 2)
        path, headers, body = collector.came[0]
        self.assertEqual((path, headers["Content-Type"]), ("/v1/traces", "application/json"))
        self.assertFalse(body.endswith(b"\n"))

    def test_a_flush_sends_all(self):
        collector = self.collector()
        sender = self.sender(collector.url)
        names = [f"span {number}" for number in range(1000)]
        self.trace(*names)
        self.assertTrue(sender.flush(PATIENCE))
        self.assertEqual(set(collector.spans), set(names))
        self.assertEqual(self.counts_of(sender), (1000, 0, 0))

    def test_headers_are_sent_along(self):
        collector = self.collector()
        sender = self.sender(collector.url + "/custom", headers={"Api-Key": "123"})
        self.trace("keyed")
        self.assertTrue(sender.flush(PATIENCE))
        path, headers, _ = collector.came[0]
        self.assertEqual((path, headers["Api-Key"]), ("/custom", "123"))

    def test_closing_the_pipeline_sends_what_is_left(self):
        collector = self.collector()
        sender = self.sender(collector.url)
        self.trace("last")
        self.assertEqual(self.pipeline.close(), [])
        self.assertEqual((set(collector.spans), self.counts_of(sender)), ({"last"}, (1, 0, 0)))
        self.assertFalse(sender.flush(0))

    def test_the_end_of_the_program_sends_what_is_left(self):
        collector = self.collector()
        program = f"""
            from otel_proved import Pipeline, Sender
            pipeline = Pipeline({{}})
            sender = Sender(pipeline, {collector.url!r}, interval=1000)
            with pipeline.span("at exit"):
                pass
        """
        words = [sys.executable, "-B", "-c", textwrap.dedent(program)]
        ran = subprocess.run(words, cwd=PACKAGE_FOLDER, timeout=PATIENCE)
        self.assertEqual((ran.returncode, set(collector.spans)), (0, {"at exit"}))


class TriesAgain(SenderTest):
    def test_at_statuses_that_ask_for_it(self):
        for status in (429, 502, 503, 504):
            collector = self.collector((status, {"Retry-After": "0"}, b"busy"))
            sender = self.sender(collector.url)
            self.trace("again")
            self.assertTrue(sender.flush(PATIENCE))
            self.assertEqual((len(collector.came), self.counts_of(sender)), (2, (1, 0, 0)))
            self.assertEqual(sender.last_failure, f"status {status}: busy")
            sender.close()

    def test_where_nobody_listens(self):
        port = free_port()
        sender = self.sender(f"http://127.0.0.1:{port}")
        self.trace("early")
        until(lambda: sender.waiting_lines == 1)
        self.assertFalse(sender.flush(0.1))
        self.assertIn("refused", sender.last_failure)
        collector = self.collector(port=port)
        self.trace("late")
        self.assertTrue(sender.flush(PATIENCE))
        self.assertEqual((set(collector.spans), self.counts_of(sender)), ({"early", "late"}, (2, 0, 0)))

    def test_waits_grow(self):
        collector = self.collector(*[(503, {}, b"")] * 4)
        sender = self.sender(collector.url)
        waits = []
        with mock.patch("random.uniform", lambda low, high: waits.append((low, high)) or 0.01):
            self.trace("patient")
            self.assertTrue(sender.flush(PATIENCE))
            self.assertEqual(len(collector.came), 5)
        self.assertEqual(waits, [(0.5, 1.0)] * 4)
        self.assertEqual(sender._delivery.wait, 1.0)

    def test_as_late_as_is_asked(self):
        collector = self.collector((503, {"Retry-After": "1"}, b""))
        sender = self.sender(collector.url)
        self.trace("asked")
        began = time.monotonic()
        self.assertTrue(sender.flush(PATIENCE))
        self.assertGreaterEqual(time.monotonic() - began, 1)

    def test_where_no_answer_comes(self):
        with socket.socket() as silent:
            silent.bind(("127.0.0.1", 0))
            silent.listen()
            sender = self.sender(f"http://127.0.0.1:{silent.getsockname()[1]}", timeout=0.05)
            self.trace("unanswered")
            until(lambda: "no answer" in sender.last_failure)
            self.assertEqual(sender.waiting_lines, 1)

    def test_a_line_that_was_taken_is_not_sent_again(self):
        collector = self.collector((200, {"Content-Length": "1000"}, b"cut"))
        sender = self.sender(collector.url)
        self.trace("taken")
        self.assertTrue(sender.flush(PATIENCE))
        self.assertEqual((len(collector.came), self.counts_of(sender)), (1, (1, 0, 0)))

    def test_what_retry_after_says(self):
        date = email.utils.formatdate(time.time() + 100, usegmt=True)
        self.assertTrue(95 < _asked_wait(date) <= 100)
        self.assertEqual([_asked_wait(it) for it in ("7", " 7 ", "0", "9" * 5000)], [7, 7, 0, 86400])
        self.assertEqual([_asked_wait(it) for it in ("", "soon", "-1", "1.5", "٣")], [None] * 5)
        self.assertEqual(_asked_wait("Thu, 01 Jan 1970 00:00:00 GMT"), 0)


class GivesUp(SenderTest):
    def test_what_is_refused(self):
        for status in (400, 401, 404, 500):
            collector = self.collector((status, {}, b"no"))
            sender = self.sender(collector.url)
            self.trace("refused")
            self.assertTrue(sender.flush(PATIENCE))
            self.assertEqual((sender.lost_lines, self.counts_of(sender)), (1, (0, 1, 0)))
            self.assertEqual(sender.last_failure, f"status {status}: no")
            sender.close()

    def test_a_redirection_is_not_followed(self):
        other = self.collector()
        for status in (301, 302, 303, 307, 308):
            collector = self.collector((status, {"Location": other.url}, b""))
            sender = self.sender(collector.url)
            self.trace("moved")
            self.assertTrue(sender.flush(PATIENCE))
            self.assertEqual((other.came, sender.lost_spans), ([], 1))
            sender.close()

    def test_the_oldest_of_too_many_lines(self):
        port = free_port()
        sender = self.sender(f"http://127.0.0.1:{port}", max_spans=2)
        for name in ("first", "second", "third"):
            self.trace(name)
            count = sender.waiting_lines + sender.lost_lines
            until(lambda: sender.waiting_lines + sender.lost_lines == count + 1)
        self.assertEqual((sender.lost_lines, self.counts_of(sender)), (1, (0, 1, 2)))
        collector = self.collector(port=port)
        self.assertTrue(sender.flush(PATIENCE))
        self.assertEqual(set(collector.spans), {"second", "third"})

    def test_what_is_left_when_it_is_closed(self):
        sender = self.sender(f"http://127.0.0.1:{free_port()}")
        self.trace("left")
        self.assertFalse(sender.close(0.2))
        self.assertEqual((sender.lost_lines, self.counts_of(sender)), (1, (0, 1, 0)))

    def test_spans_that_the_collector_rejects(self):
        body = b'{"partialSuccess":{"rejectedSpans":"1","errorMessage":"twice"}}'
        sender = self.sender(self.collector((200, {}, body)).url)
        with mock.patch.object(self.pipeline, "run"):
            self.trace("taken", "rejected")
            self.assertTrue(sender.flush(PATIENCE))
        self.assertEqual((self.counts_of(sender), sender.last_failure), ((1, 1, 0), "twice"))

    def test_answers_that_do_not_read(self):
        no_numbers = [b'{"partialSuccess":{"rejectedSpans":"x"}}', b'{"partialSuccess":null}']
        for body in [b"", b"[]", b"1", b"\xff", *no_numbers]:
            sender = self.sender(self.collector((200, {}, body)).url)
            self.trace("taken")
            self.assertTrue(sender.flush(PATIENCE))
            self.assertEqual(self.counts_of(sender), (1, 0, 0))
            sender.close()


class Survives(SenderTest):
    def test_a_drain_that_finds_no_memory(self):
        collector = self.collector()
        sender = self.sender(collector.url)
        with self.no_memory("otel_drain_some"):
            self.trace("kept")
            self.assertFalse(sender.flush(0.2))
            self.assertIn("otel_drain", sender.last_failure)
        self.assertTrue(sender.flush(PATIENCE))
        self.assertEqual((set(collector.spans), self.counts_of(sender)), ({"kept"}, (1, 0, 0)))

    def test_what_nobody_foresaw(self):
        collector = self.collector()
        sender = self.sender(collector.url)
        with mock.patch.object(sender._poster, "post", side_effect=RuntimeError("odd")):
            self.trace("kept")
            self.assertFalse(sender.flush(0.2))
        self.assertEqual(sender.last_failure, "RuntimeError('odd')")
        self.assertTrue(sender.flush(PATIENCE))
        self.assertEqual(set(collector.spans), {"kept"})


class Goes(unittest.TestCase):
    def destination(self, endpoint=None, **variables):
        named = {f"OTEL_EXPORTER_OTLP_{name}": value for name, value in variables.items()}
        with mock.patch.dict(os.environ, named, clear=True):
            return destination_of(endpoint, None, None)

    def test_by_what_is_said(self):
        for endpoint in ("http://here:1", "http://here:1/"):
            self.assertEqual(self.destination(endpoint).url, "http://here:1/v1/traces")
        self.assertEqual(self.destination("https://here/at").url, "https://here/at")
        self.assertEqual(self.destination().url, "http://localhost:4318/v1/traces")
        self.assertEqual(self.destination(ENDPOINT="http://here/at/").url, "http://here/at/v1/traces")
        both = self.destination(ENDPOINT="http://here", TRACES_ENDPOINT="http://there/x")
        self.assertEqual(both.url, "http://there/x")

    def test_bad_endpoints_are_named(self):
        no_urls = ["here:4318", "ftp://here", "http://", "http://a b", "http://h:x", "http://é", "http://[h"]
        for url in [*no_urls, "http://u:p@h", "http://h?q", "http://h#f"]:
            self.assertRaisesRegex(BadEndpoint, "the endpoint", self.destination, url)
            self.assertRaisesRegex(BadEndpoint, "OTLP_ENDPOINT", self.destination, ENDPOINT=url)
            self.assertRaisesRegex(BadEndpoint, "TRACES_ENDPOINT", self.destination, TRACES_ENDPOINT=url)
        for headers in ({"a b": "1"}, {"a": "1\r\nb: 2"}, {"": "1"}):
            self.assertRaises(BadEndpoint, destination_of, None, headers, None)

    def test_headers_and_timeouts_of_the_environment(self):
        found = self.destination(HEADERS="api-key=a%20b, x=1,", TIMEOUT="250", PROTOCOL="http/json")
        self.assertEqual((found.headers, found.timeout), ({"api-key": "a b", "x": "1"}, 0.25))
        self.assertEqual(found.ignored_settings, [])
        found = self.destination(HEADERS="x=1", TRACES_HEADERS="y=2", TRACES_TIMEOUT="1")
        self.assertEqual((found.headers, found.timeout), ({"y": "2"}, 0.001))

    def test_variables_that_are_ignored_are_named(self):
        found = self.destination(HEADERS="x", TIMEOUT="1s", PROTOCOL="grpc", COMPRESSION="br", LOGS_TIMEOUT="1")
        names = ["PROTOCOL", "HEADERS", "TIMEOUT", "COMPRESSION"]
        self.assertEqual(found.ignored_settings, [f"OTEL_EXPORTER_OTLP_{it}" for it in names])
        self.assertEqual((found.headers, found.timeout), ({}, 10))

    def test_numbers_that_are_none(self):
        for how in ({"interval": 0}, {"interval": float("inf")}, {"timeout": -1}, {"max_spans": 0}):
            self.assertRaises(ValueError, Sender, None, "http://here", **how)
