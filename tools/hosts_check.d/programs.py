# SPDX-License-Identifier: Apache-2.0
"""Runs programs, each within a limit of time, and sees to it that none outlives this check."""

import os
import random
import shutil
import signal
import socket
import subprocess
import threading
import time

TOP = os.path.dirname(os.path.dirname(os.path.dirname(os.path.realpath(__file__))))
# A program that is started so is killed when this check is, however that ends.
BOUND = ["setpriv", "--pdeathsig", "KILL", "--"] if shutil.which("setpriv") else []
# Below those of connections that go out.
PORTS = range(16000, 32000)


class Fault(Exception):
    """What went wrong, in words for whoever runs the check."""


class LeftOut(Exception):
    """Why a part was not tried."""


class Programs:
    """The programs that run: each heads a group of its own, so that what it started is killed with it."""

    def __init__(self):
        self.running = set()
        self.is_over = False
        # A signal may come to the thread that has it.
        self.lock = threading.RLock()

    def start(self, words, **how):
        """Starts a program, which is to be handed to `kill` at the end."""
        with self.lock:
            if self.is_over:
                raise Fault("the check was stopped")
            try:
                program = subprocess.Popen([*BOUND, *words], stdin=subprocess.DEVNULL, start_new_session=True, **how)
            except OSError as error:
                raise Fault(f"cannot run {words[0]}: {error.strerror}") from None
            self.running.add(program)
        return program

    def kill(self, program):
        """Ends a program that still runs, and its group."""
        if program.poll() is None:
            os.killpg(program.pid, signal.SIGKILL)
            program.wait()
        self.running.discard(program)

    def kill_all(self):
        """Ends all that still run."""
        for program in list(self.running):
            self.kill(program)

    def stop(self):
        """Ends all, and lets none start any more."""
        with self.lock:
            self.is_over = True
        self.kill_all()


PROGRAMS = Programs()


def environment(**more):
    """The environment of a program: this check's, without settings of tracing and proxies, and what is said more."""
    kept = {name: value for name, value in os.environ.items() if not name.startswith(("OTEL_", "PYTHONPATH"))}
    kept = {name: value for name, value in kept.items() if not name.lower().endswith("_proxy")}
    return {**kept, "PYTHONDONTWRITEBYTECODE": "1", **more}


def run(words, seconds, **how):
    """What a program wrote, to standard output and standard error; it must end with 0 within so many seconds."""
    how = {"env": environment(), "stdout": subprocess.PIPE, "stderr": subprocess.STDOUT, **how}
    program = PROGRAMS.start(words, **how)
    try:
        written, _ = program.communicate(timeout=seconds)
    except subprocess.TimeoutExpired:
        PROGRAMS.kill(program)
        written, _ = program.communicate()
        raise Fault(f"{' '.join(words)}: had not ended after {seconds} seconds\n{end_of(written)}") from None
    finally:
        PROGRAMS.kill(program)
    if program.returncode != 0:
        raise Fault(f"{' '.join(words)}: ended with status {program.returncode}\n{end_of(written)}")
    return written.decode(errors="replace")


def end_of(written):
    """The last lines of what a program wrote."""
    return "\n".join(written.decode(errors="replace").splitlines()[-20:]) or "(it wrote nothing)"


def need(word, package):
    """Stops the part where a command is not installed."""
    if not shutil.which(word):
        raise Fault(f"needs the command {word}, of the package {package}")


def free_port():
    """A port of the loopback that nobody listens at, and that the system gives to no connection that goes out."""
    for port in random.sample(PORTS, 100):
        with socket.socket() as listener:
            if listener.connect_ex(("127.0.0.1", port)) != 0:
                return port
    raise Fault(f"no port from {PORTS.start} to {PORTS.stop - 1} is free")


def wait_until(is_so, seconds, what):
    """Waits until something is so, for so many seconds at most."""
    last = time.monotonic() + seconds
    while not is_so():
        if time.monotonic() > last:
            raise Fault(f"{what}: not so after {seconds} seconds")
        time.sleep(0.05)
