# SPDX-License-Identifier: Apache-2.0
"""What each package is tried on by itself: it is built, and its own tests, examples and random calls are run."""

import glob
import os
import re
import shutil
import subprocess
import sys
import tempfile
from concurrent.futures import ThreadPoolExecutor

from programs import TOP, Fault, LeftOut, environment, need, run

C = f"{TOP}/hosts/c"
RUST = f"{TOP}/hosts/rust"
PYTHON = f"{TOP}/hosts/python"
# Where Debian's packages librust-*-dev put the sources of crates.
CRATES = "/usr/share/cargo/registry"
SECONDS_TO_BUILD = 600
SECONDS_TO_TEST = 900
# Of all random calls a tenth is made by the driver with the address sanitizer, which is slower.
PLAIN_SEEDS = range(1, 10)
SANITIZED_SEEDS = range(10, 14)
# The versions of Python that the package promises, and those that are known.
PYTHON_MINORS = range(9, 15)
NO_COLLECTOR = "http://127.0.0.1:1"
PYENV = os.environ.get("PYENV_ROOT") or os.path.expanduser("~/.pyenv")
DIFFERING_TESTS = ("tests.test_signals", "tests.test_spans", "tests.test_pipeline", "tests.test_arguments")


def parts(calls):
    """What is tried under each name, in order; so many random calls are made in all."""
    return {
        "c_build": build_c,
        "c_tests": lambda: run_all(["make", "-C", C, "test"]),
        "c_calls": lambda: call_plainly(calls * 9 // 10),
        "c_calls_sanitized": lambda: call_sanitized(calls // 10),
        "c_valgrind": run_under_valgrind,
        "rust_build": build_rust,
        "rust_tests": lambda: run_all(["cargo", "test", "--offline", "--quiet"], cwd=RUST),
        "rust_clippy": look_at_rust,
        "rust_installed": build_over_installed,
        "rust_tracing": try_tracing,
        "python_tests": test_python,
        "python_versions": test_other_pythons,
    }


def run_all(words, **how):
    """Runs a package's own tests, and answers what they say was left out."""
    said = run(words, SECONDS_TO_TEST, **how)
    return "; ".join(dict.fromkeys(line for line in said.splitlines() if "left out" in line))


def build_c():
    need("make", "make")
    need("cc", "gcc")
    need("c++", "g++")
    # What was built over another library may look new.
    run(["make", "-C", C, "clean"], SECONDS_TO_BUILD)
    run(["make", "-C", C, "all", "sanitized"], SECONDS_TO_BUILD)


def call_plainly(calls):
    return call_any(f"{C}/out/any_calls", calls, PLAIN_SEEDS)


def call_sanitized(calls):
    return call_any(f"{C}/out/any_calls_sanitized", calls, SANITIZED_SEEDS)


def call_any(driver, calls, seeds):
    """Makes so many random calls, by one run for each seed, as many at once as there are processors."""
    each = calls // len(seeds)
    env = environment(ASAN_OPTIONS="detect_leaks=1")
    with ThreadPoolExecutor(len(os.sched_getaffinity(0))) as pool:
        list(pool.map(lambda seed: run([driver, str(each), str(seed)], SECONDS_TO_TEST, env=env), seeds))
    return f"{each * len(seeds):,} calls, {len(seeds)} seeds"


def run_under_valgrind():
    """Runs examples and a service where every access to memory is looked at, and what is not given back."""
    if not shutil.which("valgrind"):
        raise LeftOut("valgrind is not installed")
    env = environment(OTEL_EXPORTER_OTLP_ENDPOINT=NO_COLLECTOR)
    for words in (["trace"], ["trace_cpp"], ["service", "refused"]):
        checked = ["valgrind", "--leak-check=full", "--error-exitcode=1", f"{C}/out/{words[0]}", *words[1:]]
        run(checked, SECONDS_TO_TEST, env=env)


def build_rust():
    need("cargo", "cargo")
    run(["cargo", "build", "--release", "--offline", "--examples", "--quiet"], SECONDS_TO_BUILD, cwd=RUST)


def has_clippy():
    need("cargo", "cargo")
    return subprocess.run(["cargo", "clippy", "--version"], capture_output=True).returncode == 0


def look_at_rust():
    """Looks for what clippy finds, which also wants a reason at each unsafe block."""
    if not has_clippy():
        raise LeftOut("clippy is not installed")
    run(clippy(), SECONDS_TO_BUILD, cwd=RUST)


def clippy(*more):
    return ["cargo", "clippy", *more, "--offline", "--quiet", "--all-targets", "--", "-D", "warnings"]


def build_over_installed():
    """Builds a copy of the package by an installed library, in folders with spaces, and looks what is said without."""
    need("cargo", "cargo")
    need("pkg-config", "pkg-config")
    with tempfile.TemporaryDirectory(prefix="a room ") as room:
        shutil.copytree(RUST, f"{room}/hosts/rust", ignore=shutil.ignore_patterns("target", "tracing"))
        os.makedirs(f"{room}/installed/lib/pkgconfig")
        shutil.copy(f"{TOP}/bin/libotel_c.a", f"{room}/installed/lib")
        with open(f"{C}/package/otel_c.pc.in", encoding="utf-8") as told:
            text = told.read().replace("@VERSION@", "0")
        with open(f"{room}/installed/lib/pkgconfig/otel_c.pc", "w", encoding="utf-8") as told:
            told.write(text)
        build = ["cargo", "build", "--offline", "--quiet", "--example", "bench", "--target-dir", f"{room}/target"]
        how = {"cwd": f"{room}/hosts/rust"}
        variables = {"PKG_CONFIG_PATH": f"{room}/installed/lib/pkgconfig"}
        run(build, SECONDS_TO_BUILD, env=environment(**variables), **how)
        run([f"{room}/target/debug/examples/bench", "1"], SECONDS_TO_TEST)
        try:
            run(build, SECONDS_TO_BUILD, env=environment(PKG_CONFIG_PATH="", PKG_CONFIG="false"), **how)
        except Fault as fault:
            if "Unpack a release" in str(fault) and "./run --build c" in str(fault):
                return
        raise Fault("without a library the package does not say where to get one")


def try_tracing():
    """Runs the tests of the layer for `tracing`, whose crates are those of Debian, and looks for what clippy finds."""
    need("cargo", "cargo")
    if not all(glob.glob(f"{CRATES}/{it}-[0-9]*") for it in ("tracing", "tracing-subscriber")):
        raise LeftOut("librust-tracing-dev and librust-tracing-subscriber-dev are not installed")
    source = {"source.crates-io.replace-with": "debian", "source.debian.directory": CRATES}
    words = [word for key, value in source.items() for word in ("--config", f'{key}="{value}"')]
    run(["cargo", "test", *words, "--offline", "--quiet"], SECONDS_TO_TEST, cwd=f"{RUST}/tracing")
    if not has_clippy():
        return "without clippy, which is not installed"
    run(clippy(*words), SECONDS_TO_BUILD, cwd=f"{RUST}/tracing")
    return None


def test_python():
    return f"{tests_by(sys.executable)} tests"


def tests_by(python, *words):
    """Runs tests of the package for Python by a version of it, and answers how many there are."""
    said = run([python, "-m", "unittest", *words], SECONDS_TO_TEST, cwd=PYTHON)
    found = re.search(r"^Ran ([1-9]\d*) test", said, re.M)
    if not found:
        raise Fault("no test was run")
    return found[1]


def test_other_pythons():
    """Runs the tests of what differs between versions by each other one that is here, on the PATH or by pyenv."""
    found = {}
    for minor in PYTHON_MINORS:
        places = [shutil.which(f"python3.{minor}"), *sorted(glob.glob(f"{PYENV}/versions/3.{minor}.*/bin/python"))]
        works = [it for it in places if it and minor != sys.version_info.minor and is_python(it, minor)]
        if works:
            found[minor] = works[0]
    if not found:
        raise LeftOut("no other version of Python is installed")
    for python in found.values():
        tests_by(python, *DIFFERING_TESTS)
    return ", ".join(f"3.{minor}" for minor in found)


def is_python(path, minor):
    """Whether a command is this version of Python: one of pyenv may be there and lead nowhere."""
    words = [path, "-c", "import sys; print(sys.version_info.minor)"]
    return subprocess.run(words, capture_output=True, text=True).stdout.strip() == str(minor)
