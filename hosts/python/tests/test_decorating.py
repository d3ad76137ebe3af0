# SPDX-License-Identifier: Apache-2.0
"""Traced functions, coroutines and generators."""

import asyncio
import inspect
import sys
import unittest

from otel_proved import Kind, StatusCode, current_span, traced
from otel_proved.pipeline import latest_pipeline

from .support import PipelineTest, attributes_of


class Traced(PipelineTest):
    def names(self):
        return {name: span["parentSpanId"] for name, span in self.exported().items()}

    def test_a_function(self):
        @traced("named", Kind.CLIENT, {"a": 1})
        def work(left, *, right):
            """Works."""
            return left, right, current_span().context

        left, right, context = work(1, right=2)
        span = self.exported()["named"]
        self.assertEqual((left, right, context.span_id), (1, 2, span["spanId"]))
        self.assertEqual((span["kind"], attributes_of(span)), (Kind.CLIENT, {"a": 1}))
        self.assertEqual((work.__name__, work.__doc__), ("work", "Works."))
        self.assertFalse(current_span().context.is_valid)

    def test_without_words_it_is_named_as_the_function(self):
        @traced
        def bare():
            pass

        @traced()
        def empty():
            pass

        bare(), empty()
        self.assertEqual({it.rpartition(".")[2] for it in self.names()}, {"bare", "empty"})

    def test_methods_and_tracers(self):
        class Shop:
            @traced("open", starter=self.pipeline.tracer("shop"))
            def open(self):
                return self

        shop = Shop()
        self.assertIs(shop.open(), shop)
        self.assertEqual(self.exported()["open"]["scope"], "shop")

    def test_an_exception_is_recorded_and_goes_on(self):
        @traced("fails")
        def work(error):
            raise error

        self.assertRaises(KeyError, work, KeyError("cart"))
        span = self.exported()["fails"]
        self.assertEqual((span["status"]["code"], len(span["events"])), (StatusCode.ERROR, 1))
        self.assertRaises(SystemExit, work, SystemExit(0))
        self.assertEqual(self.exported()["fails"]["status"]["code"], StatusCode.UNSET)

    def test_coroutines(self):
        @traced("outer")
        async def outer():
            await asyncio.gather(inner("a"), inner("b"))
            return current_span().context.span_id

        @traced("inner")
        async def inner(name):
            await asyncio.sleep(0)
            current_span().update_name(name)

        self.assertTrue(inspect.iscoroutinefunction(outer))
        found = asyncio.run(outer())
        self.assertEqual(self.names(), {"outer": "", "a": found, "b": found})

    def test_a_generator_has_its_span_in_its_steps_alone(self):
        said = []

        @traced("rows")
        def rows():
            with self.pipeline.span("begin"):
                said.append((yield current_span()))
            try:
                yield current_span()
            except KeyError as error:
                said.append(error)
            yield from ()
            return "end"

        self.assertTrue(inspect.isgeneratorfunction(rows))
        steps = rows()
        inside = next(steps)
        self.assertFalse(current_span().context.is_valid)
        with self.pipeline.span("between") as between:
            outer = steps.send("given")
            self.assertIs(current_span(), between)
        error = KeyError("thrown")
        with self.assertRaises(StopIteration) as last:
            steps.throw(error)
        self.assertEqual((said, last.exception.value), (["given", error], "end"))
        self.assertNotEqual(inside.context, outer.context)
        found = self.exported()
        self.assertEqual(found["begin"]["parentSpanId"], found["rows"]["spanId"])
        self.assertEqual((found["between"]["parentSpanId"], found["rows"]["status"]["code"]), ("", StatusCode.UNSET))

    def test_a_generator_that_is_closed_or_raises(self):
        @traced("rows")
        def rows():
            yield 1
            raise KeyError

        steps = rows()
        next(steps)
        steps.close()
        self.assertEqual(self.exported()["rows"]["status"]["code"], StatusCode.UNSET)
        self.assertRaises(KeyError, list, rows())
        self.assertEqual(self.exported()["rows"]["status"]["code"], StatusCode.ERROR)

    def test_an_asynchronous_generator(self):
        closed = []

        @traced("rows")
        async def rows():
            try:
                for number in range(3):
                    with self.pipeline.span("step"):
                        await asyncio.sleep(0)
                    yield number
            finally:
                closed.append(current_span().context.span_id)

        self.assertTrue(inspect.isasyncgenfunction(rows))

        async def work():
            found = []
            async for number in rows():
                found.append(number)
                self.assertFalse(current_span().context.is_valid)
            steps = rows()
            await steps.__anext__()
            await steps.aclose()
            return found

        self.assertEqual(asyncio.run(work()), [0, 1, 2])
        found = self.exported()
        self.assertEqual(closed[1], found["rows"]["spanId"])
        self.assertEqual(found["step"]["parentSpanId"], found["rows"]["spanId"])

    def test_without_a_pipeline_nothing_is_traced(self):
        self.pipeline.close()
        if latest_pipeline() is None:
            self.assertEqual(traced("none")(lambda: sys.getsizeof(1))(), sys.getsizeof(1))


if __name__ == "__main__":
    unittest.main()
