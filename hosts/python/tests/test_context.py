# SPDX-License-Identifier: Apache-2.0
"""The current span where the work goes on: in records of the log, and in the threads of executors."""

import asyncio
import io
import logging
import threading
from concurrent.futures import ThreadPoolExecutor

from otel_proved import baggage, current_span, use_baggage
from otel_proved.executors import TracedExecutor, in_context
from otel_proved.logs import TraceIds

from .support import PipelineTest


class Records(PipelineTest):
    def test_records_name_the_current_span(self):
        said, log = io.StringIO(), logging.getLogger("otel_proved.tests")
        handler = logging.StreamHandler(said)
        handler.addFilter(TraceIds())
        handler.setFormatter(logging.Formatter("%(message)s %(otelTraceID)s %(otelSpanID)s %(otelTraceSampled)s"))
        log.addHandler(handler)
        self.addCleanup(log.removeHandler, handler)
        log.propagate = False
        log.warning("before")
        with self.pipeline.span("span") as span:
            log.warning("inside")
        context = span.context
        self.assertEqual(said.getvalue(), f"before 0 0 False\ninside {context.trace_id} {context.span_id} True\n")


class Executors(PipelineTest):
    def seen(self, number=0):
        return number, current_span().context, baggage()

    def test_work_has_the_context_of_whoever_hands_it_over(self):
        with TracedExecutor(ThreadPoolExecutor(2)) as executor:
            with self.pipeline.span("outer") as outer, use_baggage({"user": "ada"}):
                future, several = executor.submit(self.seen, number=7), executor.map(self.seen, range(3))
            self.assertEqual(future.result(), (7, outer.context, {"user": "ada"}))
            self.assertEqual(list(several), [(it, outer.context, {"user": "ada"}) for it in range(3)])
            self.assertFalse(executor.submit(self.seen).result()[1].is_valid)

    def test_a_thread_and_a_loop_s_executor(self):
        found = []

        async def work():
            loop = asyncio.get_running_loop()
            found.append(await loop.run_in_executor(None, in_context(self.seen), 1))
            with self.pipeline.span("task"):
                traced = TracedExecutor(ThreadPoolExecutor(1))
                found.append(await loop.run_in_executor(traced, self.seen, 2))
                traced.shutdown()

        with self.pipeline.span("outer") as outer:
            thread = threading.Thread(target=in_context(lambda: found.append(self.seen(0))))
        thread.start()
        thread.join()
        with self.pipeline.span("loop") as loop_span:
            asyncio.run(work())
        self.assertEqual([it[0] for it in found], [0, 1, 2])
        self.assertEqual([it[1] for it in found[:2]], [outer.context, loop_span.context])
        self.assertNotEqual(found[2][1], loop_span.context)
