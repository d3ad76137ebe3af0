# SPDX-License-Identifier: Apache-2.0
"""The current span's ids in the records of `logging`, under the names of OpenTelemetry's instrumentation."""

from __future__ import annotations

import logging

from .current import current_span


class TraceIds(logging.Filter):
    """Lets each record pass, with what names the current span. Add one to a handler, and say the names in its format.

    They are `otelTraceID` and `otelSpanID`, which are `0` where there is none, and `otelTraceSampled`, a bool.
    """

    def filter(self, record: logging.LogRecord) -> bool:
        """Names the current span in a record."""
        context = current_span().context
        record.otelTraceID = context.trace_id if context.is_valid else "0"
        record.otelSpanID = context.span_id if context.is_valid else "0"
        record.otelTraceSampled = context.is_sampled
        return True
