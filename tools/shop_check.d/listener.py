# SPDX-License-Identifier: Apache-2.0
"""The server: a listener that starts the program for each connection, and the file that its spans go to."""

import os
import shutil
import socket

from programs import PROGRAMS, environment, free_port, wait_until

HERE = os.path.dirname(os.path.realpath(__file__))
SECONDS = 20


def is_open(port):
    """Whether somebody listens at a port. The connection ends at once, and its program with it."""
    with socket.socket() as caller:
        return caller.connect_ex(("127.0.0.1", port)) == 0


class Listener:
    """A listener at a free port of the loopback; nothing listens before `start`."""

    def __init__(self, program, room):
        self.program = program
        self.room = room
        self.spans = f"{room}/spans.jsonl"
        self.errors = f"{room}/errors"
        self.port = 0

    def start(self):
        """Starts it, and answers what it is."""
        self.port = free_port()
        has_socat = shutil.which("socat") is not None
        place = f"TCP-LISTEN:{self.port},bind=127.0.0.1,fork,reuseaddr,backlog=64"
        by_socat = ["socat", place, f"EXEC:{self.program}"]
        by_own = [f"{HERE}/inetd", str(self.port), self.program]
        with open(self.errors, "wb") as errors:
            PROGRAMS.start(by_socat if has_socat else by_own, env=self.environment(), stderr=errors)
        wait_until(lambda: is_open(self.port), SECONDS, "the listener listens")
        return "socat" if has_socat else "tools/shop_check.d/inetd, since socat is not installed"

    def environment(self, **more):
        """What the program is started with."""
        return environment(OTEL_SHOP_SPANS=self.spans, **more)

    def size(self):
        """How much the file of the spans has."""
        return os.path.getsize(self.spans) if os.path.exists(self.spans) else 0

    def lines_since(self, size):
        """The lines that came to the file since it had this much. A process that begins while another writes takes that
        one's line for torn and ends it too, which leaves an empty line after it."""
        if not os.path.exists(self.spans):
            return []
        with open(self.spans, "rb") as file:
            file.seek(size)
            return [it for it in file.read().split(b"\n")[:-1] if it]
