# SPDX-License-Identifier: Apache-2.0
"""The stand-in collector and the packages' example services, as programs on the loopback."""

import http.client
import json
import os
import signal
import subprocess
import sys

from programs import PROGRAMS, TOP, Fault, end_of, environment, free_port, wait_until

SECONDS_TO_COME_UP = 30
SECONDS_TO_END = 60
# A caller that is not sampled: what it asks for leaves no span.
UNSAMPLED = [("traceparent", f"00-{'1' * 32}-{'2' * 16}-00")]
# How each package's service is called: its words, before the port and the address of the next service.
WORDS = {
    "python": [sys.executable, f"{TOP}/hosts/python/examples/service.py"],
    "rust": [f"{TOP}/hosts/rust/target/release/examples/service"],
}


def get(port, path, headers):
    """The status of an answer to a request with these headers, pairs of a name and a value."""
    connection = http.client.HTTPConnection("127.0.0.1", port, timeout=30)
    try:
        connection.putrequest("GET", path)
        for name, value in headers:
            connection.putheader(name, value)
        connection.endheaders()
        answer = connection.getresponse()
        answer.read()
        return answer.status
    finally:
        connection.close()


def text_of(path):
    with open(path, "rb") as file:
        return file.read()


class Collector:
    """The collector of tools/otlp_check, at one port, which can be ended and begun again. `kept` has what came."""

    def __init__(self, room):
        self.port = free_port()
        self.said = f"{room}/collector"
        self.kept = f"{room}/kept"
        self.program = None
        self.begin()

    def begin(self):
        """Starts it, and waits until it serves."""
        words = [f"{TOP}/tools/otlp_check/otlp_check", "--serve", str(self.port), "--keep", self.kept]
        with open(self.said, "wb") as said:
            self.program = PROGRAMS.start(words, stdout=subprocess.DEVNULL, stderr=said, env=environment())
        wait_until(self.is_up, SECONDS_TO_COME_UP, "the collector serves")

    def is_up(self):
        """Whether it serves."""
        if self.program.poll() is not None:
            raise Fault(f"the collector did not come up\n{end_of(text_of(self.said))}")
        return b"serving at" in text_of(self.said)

    def end(self):
        """Ends it, if it runs, once it has answered what it took; a fault where something that came was wrong."""
        if self.program.poll() is None:
            self.program.send_signal(signal.SIGTERM)
        try:
            self.program.wait(SECONDS_TO_END)
        except subprocess.TimeoutExpired:
            raise Fault("the collector did not end") from None
        finally:
            PROGRAMS.kill(self.program)
        if self.program.returncode != 0:
            raise Fault(f"the collector found faults\n{end_of(text_of(self.said))}")

    def halt(self):
        """Keeps it from answering, though whoever sends to it finds it there."""
        self.program.send_signal(signal.SIGSTOP)

    def go_on(self):
        """Ends a halt."""
        self.program.send_signal(signal.SIGCONT)

    def lines(self):
        """The requests that came, each a line."""
        return text_of(self.kept).splitlines() if os.path.exists(self.kept) else []


class Service:
    """The example service of a package, which names itself by the package in what it sends."""

    def __init__(self, package, room, collector, next_service=None):
        self.package = package
        self.port = free_port()
        self.said = f"{room}/{package}"
        words = [*WORDS[package], str(self.port)]
        words += [f"http://127.0.0.1:{next_service.port}/next"] if next_service else []
        settings = {"OTEL_SERVICE_NAME": package, "OTEL_EXPORTER_OTLP_ENDPOINT": f"http://127.0.0.1:{collector.port}"}
        env = environment(**settings, PYTHONPATH=f"{TOP}/hosts/python")
        with open(f"{self.said}.out", "wb") as out, open(f"{self.said}.err", "wb") as err:
            self.program = PROGRAMS.start(words, stdout=out, stderr=err, env=env)
        wait_until(self.is_up, SECONDS_TO_COME_UP, f"the service of {package} answers 200")

    def is_up(self):
        """Whether it answers, and what comes after it does."""
        if self.program.poll() is not None:
            raise self.fault(f"ended at once, with status {self.program.returncode}")
        try:
            return get(self.port, "/", UNSAMPLED) == 200
        except (OSError, http.client.HTTPException):
            return False

    def end(self):
        """Asks it to end, and answers the counts that it printed."""
        try:
            get(self.port, "/quit", UNSAMPLED)
            self.program.wait(SECONDS_TO_END)
        except (OSError, http.client.HTTPException) as error:
            raise self.fault(f"did not answer /quit: {error}") from None
        except subprocess.TimeoutExpired:
            raise self.fault(f"had not ended {SECONDS_TO_END} seconds after /quit") from None
        finally:
            PROGRAMS.kill(self.program)
        if self.program.returncode != 0:
            raise self.fault(f"ended with status {self.program.returncode}")
        return self.counts()

    def counts(self):
        """The line of counts that it printed at its end."""
        lines = text_of(f"{self.said}.out").splitlines()
        try:
            return json.loads(lines[-1])
        except (IndexError, ValueError):
            raise self.fault("printed no line of counts as JSON at its end") from None

    def fault(self, what):
        return Fault(f"the service of {self.package} {what}\n{end_of(text_of(f'{self.said}.err'))}")
