# SPDX-License-Identifier: Apache-2.0
"""How much waits beside a slow collector, what is counted at the end, and what is said of it in the log."""

import contextlib
import logging
import subprocess
import sys
import textwrap
import time
import unittest
from unittest import mock

from otel_proved import Pipeline

from .support import PACKAGE_FOLDER, SHORT, Collector, PipelineTest, spans_in
from .test_sender import SenderTest, free_port, until

PATIENCE = 20


@contextlib.contextmanager
def logged():
    """The texts of warnings that a block logs, as they come."""
    said = []

    class Notes(logging.Handler):
        def emit(self, record):
            said.append(record.getMessage())

    notes, log = Notes(), logging.getLogger("otel_proved")
    log.addHandler(notes)
    try:
        yield said
    finally:
        log.removeHandler(notes)


class Bound(SenderTest):
    settings = {"OTEL_BSP_SCHEDULE_DELAY": "20", "OTEL_BSP_MAX_EXPORT_BATCH_SIZE": "100"}
    SPANS, MOST = 5000, 500
    # What may wait in the library's queue, and what may end before a thread is woken.
    BESIDE = 2500

    def test_lines_are_taken_in_while_one_is_posted(self):
        collector = Collector()
        self.addCleanup(collector.stop)
        with collector.lock:
            # No answer comes as long as this is held.
            sender = self.sender(collector.url, max_spans=self.MOST)
            for number in range(self.SPANS):
                self.pipeline.start_span(str(number)).end()
            until(lambda: sender.lost_spans >= self.SPANS - self.MOST - self.BESIDE)
            # A line more for a moment, before the oldest goes.
            self.assertLessEqual(sender.waiting_spans, self.MOST + 100)
        self.assertTrue(sender.flush(PATIENCE))
        self.assertEqual(sender.sent_spans + sender.lost_spans, self.SPANS)
        self.assertIn(str(self.SPANS - 1), collector.spans)

    def test_all_is_counted_where_nobody_listens(self):
        with logged() as said:
            sender = self.sender(f"http://127.0.0.1:{free_port()}")
            for number in range(1000):
                self.pipeline.start_span(str(number)).end()
            self.assertFalse(sender.close(0.3))
            returned = self.pipeline.close()
        counted = sender.lost_spans + self.pipeline.returned_spans
        self.assertEqual((counted, self.pipeline.returned_spans), (1000, len(spans_in(returned))))
        self.assertEqual(len([it for it in said if "tried again" in it]), 1)
        self.assertEqual(len([it for it in said if "before the end" in it]), 1)

    def test_a_closed_sender_is_not_woken(self):
        sender = self.sender(f"http://127.0.0.1:{free_port()}")
        sender.close(0)
        for number in range(1000):
            self.pipeline.start_span(str(number)).end()
        self.assertTrue(sender._orders.empty())


class Returned(PipelineTest):
    def test_what_close_hands_back_is_counted(self):
        for name in "abc":
            self.pipeline.start_span(name).end()
        self.assertEqual(len(spans_in(self.pipeline.close())), 3)
        self.assertEqual(self.pipeline.returned_spans, 3)

    def test_what_a_block_lets_go_is_said(self):
        with logged() as said:
            with Pipeline({}) as pipeline:
                pipeline.start_span("a").end()
        self.assertEqual(said, ["spans that were exported, that nobody drained, and that are lost: 1"])

    def test_what_is_open_at_a_close_is_said(self):
        span = self.pipeline.start_span("open")
        with logged() as said:
            self.pipeline.close()
        span.end()
        self.assertEqual(said, ["spans that were open when their pipeline was closed, and that are lost: 1"])

    def test_the_end_of_the_program_says_what_is_lost(self):
        program = """
            import gc, os
            from otel_proved import Pipeline
            forgotten, pipeline = Pipeline({}), Pipeline({"OTEL_SPAN_PROCESSOR": "batch"})
            forgotten.start_span("a").end()
            del forgotten
            gc.collect()
            open_span, _ = pipeline.start_span("b"), pipeline.start_span("c").end()
            if os.fork() == 0:
                raise SystemExit
            os.wait()
        """
        words = [sys.executable, "-B", "-c", textwrap.dedent(program)]
        ran = subprocess.run(words, cwd=PACKAGE_FOLDER, capture_output=True, text=True, timeout=PATIENCE)
        said = "spans that nobody ended or drained before the end, and that are lost: 3\n"
        self.assertEqual((ran.returncode, ran.stderr), (0, said))


class Clock(PipelineTest):
    settings = {"OTEL_SPAN_PROCESSOR": "batch", "OTEL_BSP_SCHEDULE_DELAY": "20"}

    def test_a_step_back_of_the_wall_clock_holds_nothing_up(self):
        self.pipeline.run()
        self.pipeline.start_span("due").end()
        an_hour_ago = time.time_ns() - 3600 * 10**9
        with mock.patch("time.time_ns", lambda: an_hour_ago):
            time.sleep(SHORT)
            self.pipeline.run()
        self.assertEqual(list(spans_in(self.pipeline.drain())), ["due"])

    def test_a_moment_may_be_given(self):
        self.pipeline.run(5)
        self.pipeline.start_span("due").end()
        self.pipeline.run(5 + 20 * 10**6)
        self.assertEqual(list(spans_in(self.pipeline.drain())), ["due"])


class Words(SenderTest):
    settings = {"OTEL_SPAN_PROCESSOR": "batch", "OTEL_BSP_MAX_QUEUE_SIZE": "2", "OTEL_BSP_MAX_EXPORT_BATCH_SIZE": "2"}

    def test_the_first_drop_is_said_once_a_minute(self):
        with logged() as said:
            for _ in range(2):
                for name in "abcde":
                    self.pipeline.start_span(name).end()
                self.pipeline.flush()
        self.assertEqual(len(said), 1)
        self.assertIn("3 spans", said[0])
        with logged() as said, mock.patch("time.monotonic", lambda: 1e9):
            for name in "abcde":
                self.pipeline.start_span(name).end()
            self.pipeline.flush()
        self.assertIn("9 spans", said[0])

    def test_what_a_collector_refuses_is_said(self):
        collector = Collector([(400, {}, b"no")])
        self.addCleanup(collector.stop)
        with logged() as said:
            sender = self.sender(collector.url)
            self.pipeline.start_span("a").end()
            self.assertTrue(sender.flush(PATIENCE))
            until(lambda: said)
        self.assertIn("did not take, and that are lost: 1 (status 400: no)", said[0])

    def test_a_log_that_fails_stands_in_nobody_s_way(self):
        with mock.patch("logging.Logger.warning", side_effect=RuntimeError):
            for name in "abcde":
                self.pipeline.start_span(name).end()
            self.pipeline.flush()


if __name__ == "__main__":
    unittest.main()
