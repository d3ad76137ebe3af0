# SPDX-License-Identifier: Apache-2.0
"""A service that traces its requests: python3 examples/service.py PORT [NEXT_URL]

It serves at the loopback; at the port 0 at a free one, which standard error says. Each request is answered by a text:
of the service at NEXT_URL, which is asked with the trace's headers, or else of its own. `GET /quit` ends it, and so do
the signals INT and TERM. The spans go to the collector of OTEL_EXPORTER_OTLP_ENDPOINT, and at the end standard output
has one line of counts, as JSON.
"""

import contextlib
import json
import os
import signal
import socketserver
import sys
import threading
import urllib.error
import urllib.request
from wsgiref.simple_server import WSGIRequestHandler, WSGIServer, make_server

# In a checkout the package stands in the folder above.
sys.path.insert(0, os.path.dirname(os.path.dirname(os.path.abspath(__file__))))

from otel_proved import Kind, Pipeline, Sender, StatusCode, inject  # noqa: E402
from otel_proved.wsgi import TracedApplication  # noqa: E402

SECONDS = 10


class ThreadingServer(socketserver.ThreadingMixIn, WSGIServer):
    """A thread for each request, which the end waits for."""

    daemon_threads = False
    request_queue_size = 128


class QuietHandler(WSGIRequestHandler):
    """Notes no requests."""

    def log_message(self, *_):
        """Says nothing."""


def ask(pipeline, url):
    """The status and the text of another service, asked in a span of its own."""
    attributes = {"http.request.method": "GET", "url.full": url}
    with pipeline.span("GET", Kind.CLIENT, attributes) as span:
        headers = {}
        inject(headers)
        request = urllib.request.Request(url, headers=headers)
        try:
            with urllib.request.urlopen(request, timeout=SECONDS) as response:
                span.set_attribute("http.response.status_code", response.status)
                return "200 OK", response.read()
        except OSError as error:
            span.record_exception(error)
            span.set_status(StatusCode.ERROR, str(error))
            if isinstance(error, urllib.error.HTTPError):
                span.set_attribute("http.response.status_code", error.code)
                error.close()
            return "502 Bad Gateway", f"{url}: {error}\n".encode()


def application_of(pipeline, next_url, quit_service):
    """The application: it asks the next service, or answers itself."""

    def application(environment, start_response):
        status, text = "200 OK", b"python\n"
        if environment["PATH_INFO"] == "/quit":
            quit_service()
        elif next_url:
            status, text = ask(pipeline, next_url)
        start_response(status, [("Content-Type", "text/plain"), ("Content-Length", str(len(text)))])
        return [text]

    return application


def counts_of(pipeline, sender):
    """What became of the spans."""
    counts = pipeline.counts()
    return {
        **counts._asdict(),
        "failed_calls": pipeline.failed_calls,
        **{name: getattr(sender, name) for name in ("sent_lines", "sent_spans", "lost_lines")},
        "lost_spans": counts.lost_spans + sender.lost_spans,
    }


def server_at(port):
    """A server that listens at a port."""
    try:
        return make_server("127.0.0.1", port, None, ThreadingServer, QuietHandler)
    except (OSError, OverflowError) as error:
        sys.exit(f"service: cannot serve at the port {port}: {error}")


def serve(server):
    """Serves until it is told to quit, and what it has begun."""
    signal.signal(signal.SIGTERM, signal.default_int_handler)
    print(f"serving at http://127.0.0.1:{server.server_port}", file=sys.stderr, flush=True)
    with contextlib.suppress(KeyboardInterrupt):
        server.serve_forever(poll_interval=0.05)
    server.server_close()


def main(port, next_url=None):
    """Serves, and says what became of the spans."""
    server = server_at(int(port))
    pipeline = Pipeline()
    sender = Sender(pipeline)
    for name in pipeline.ignored_settings + sender.ignored_settings:
        print(f"service: {name} is ignored", file=sys.stderr)

    def quit_service():
        threading.Thread(target=server.shutdown).start()

    server.set_app(TracedApplication(application_of(pipeline, next_url, quit_service), pipeline))
    serve(server)
    sender.close()
    print(json.dumps(counts_of(pipeline, sender)), flush=True)
    pipeline.close()


if __name__ == "__main__":
    if not 2 <= len(sys.argv) <= 3 or not sys.argv[1].isdecimal():
        sys.exit("service: wants PORT [NEXT_URL]")
    main(*sys.argv[1:])
