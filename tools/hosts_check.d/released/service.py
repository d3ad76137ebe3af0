# SPDX-License-Identifier: Apache-2.0
"""The same in Python."""

from otel_proved import Kind, Pipeline

pipeline = Pipeline({"OTEL_SERVICE_NAME": "released"})
with pipeline.span("GET /cart", Kind.SERVER, {"size": 3}):
    pass
for line in pipeline.close():
    print(line.decode() if isinstance(line, bytes) else line)
