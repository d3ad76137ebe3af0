# SPDX-License-Identifier: Apache-2.0
"""A release is tried by itself: unpacked where no repository is, services are built over it, and its programs run.

The services stand in released/, and the programs are given what the gate gives them, in crates/.
"""

import functools
import glob
import hashlib
import importlib.util
import json
import os
import shutil
import sys
import tarfile
import tempfile

from programs import TOP, Fault, LeftOut, environment, need, run
from services import Collector

SOURCES = f"{os.path.dirname(os.path.realpath(__file__))}/released"
SECONDS = 300
WARNINGS = ["-Wall", "-Wextra", "-Werror"]
PROGRAMS = ("otel_trace", "otel_hello", "otel_shop", "otel_post")
COMPILERS = {".c": ("cc", "-std=c11"), ".cpp": ("c++", "-std=c++17")}
CMAKE_SOURCES = ("CMakeLists.txt", "service.c", "service.cpp", "posting.c", "posting.cpp")


def parts(folder=None):
    """What is tried under each name, in order, of the release in a folder, or of one that is made of bin/ for this."""
    release = once(lambda: Release(folder))
    calls = (Release.try_c, Release.try_cmake, Release.try_posts, Release.try_rust, Release.try_python,
             Release.try_programs, Release.try_manual)
    named = {f"release_{it.__name__.removeprefix('try_')}": it for it in calls}
    return {name: functools.partial(lambda call: call(release()), call) for name, call in named.items()}


def once(make):
    """What a call makes, or why it does not, for all who ask."""
    made = []

    def ask():
        if not made:
            try:
                made.append(make())
            except (Fault, OSError, ValueError, tarfile.TarError) as fault:
                made.append(Fault(str(fault)))
        if isinstance(made[0], Fault):
            raise made[0]
        return made[0]

    return ask


def only(pattern):
    """The one file that there is by a pattern."""
    found = glob.glob(pattern)
    if len(found) != 1:
        raise Fault(f"{len(found)} files are named {os.path.basename(pattern)}, and not one")
    return found[0]


def bytes_of(path):
    with open(path, "rb") as file:
        return file.read()


def write(path, text):
    os.makedirs(os.path.dirname(path), exist_ok=True)
    with open(path, "w", encoding="utf-8") as file:
        file.write(text)


def hold_lines(written):
    """Looks whether a service wrote its one span, as a line."""
    try:
        tree, = map(json.loads, written.splitlines())
        resource, = tree["resourceSpans"]
        span, = resource["scopeSpans"][0]["spans"]
        names = [it["value"] for it in resource["resource"]["attributes"] if it["key"] == "service.name"]
        found = names, span["name"], span["kind"], span["attributes"]
    except (ValueError, LookupError, TypeError) as fault:
        raise Fault(f"the service wrote no line with one span ({fault!r}): {written[:500]}") from None
    attributes = [{"key": "size", "value": {"intValue": "3"}}]
    if found != ([{"stringValue": "released"}], "GET /cart", 2, attributes):
        raise Fault(f"the service's span is not the one that it made: {written[:500]}")


class Release:
    """A release that is unpacked into a folder which goes with this check."""

    def __init__(self, folder):
        self.temporary = tempfile.TemporaryDirectory(prefix="released-")
        self.room = os.path.realpath(self.temporary.name)
        if self.room.startswith(f"{TOP}/"):
            raise Fault(f"{self.room} is in the repository: name another folder by TMPDIR")
        self.folder = folder or self.made()
        self.hold_sums()
        with tarfile.open(only(f"{self.folder}/otel-*-linux-x86_64.tar.gz")) as archive:
            archive.extractall(self.room, **({"filter": "data"} if hasattr(tarfile, "data_filter") else {}))
        self.top = only(f"{self.room}/otel-*-linux-x86_64")

    def made(self):
        """A release that is made of what stands in bin/, twice, which must be the same."""
        folders = [f"{self.room}/made", f"{self.room}/again"]
        for folder in folders:
            run([f"{TOP}/tools/release", "--partial", "--to", folder], SECONDS, env=environment())
        first, again = (bytes_of(f"{it}/SHA256SUMS") for it in folders)
        if first != again:
            raise Fault("tools/release makes other bytes the second time")
        shutil.rmtree(folders[1])
        return folders[0]

    def hold_sums(self):
        """Looks whether the sums are those of the files, of all of them."""
        lines = bytes_of(f"{self.folder}/SHA256SUMS").decode().splitlines()
        said = {name: digest for digest, name in (it.split("  ", 1) for it in lines)}
        names = [it for it in os.listdir(self.folder) if it != "SHA256SUMS"]
        found = {it: hashlib.sha256(bytes_of(f"{self.folder}/{it}")).hexdigest() for it in names}
        if said != found:
            raise Fault(f"SHA256SUMS has {said}, and not {found}")

    def environment(self, **more):
        """The environment of somebody who has the release alone."""
        env = environment(PKG_CONFIG_PATH=f"{self.top}/lib/pkgconfig", **more)
        env["PATH"] = ":".join(it for it in env["PATH"].split(":") if not f"{it}/".startswith(f"{TOP}/"))
        return {name: it for name, it in env.items() if TOP not in it}

    def source(self, name):
        """A service's source, where no repository is."""
        return shutil.copy(f"{SOURCES}/{name}", f"{self.room}/{name}")

    def run(self, words, **more):
        """What a program writes, where the release alone is."""
        return run(words, SECONDS, cwd=self.room, env=self.environment(**more))

    def try_c(self):
        """Builds services by pkg-config, over the shared and the static library."""
        flags = self.flags("otel_c")
        compile_flags = [it for it in flags if not it.startswith(("-L", "-l"))]
        for end, (compiler, standard) in COMPILERS.items():
            need(compiler, "g++")
            source = self.source(f"service{end}")
            words = [compiler, standard, *WARNINGS, "-pthread", source, "-o", f"{self.room}/service"]
            self.run([*words, *flags])
            needed = self.run(["ldd", f"{self.room}/service"], LD_LIBRARY_PATH=f"{self.top}/lib")
            if f"libotel_c.so.0 => {self.top}/lib/libotel_c.so.0" not in needed:
                raise Fault(f"the service does not find libotel_c.so.0 by its name\n{needed}")
            hold_lines(self.run([f"{self.room}/service"], LD_LIBRARY_PATH=f"{self.top}/lib"))
            self.run([*words, *compile_flags, f"{self.top}/lib/libotel_c.a"])
            hold_lines(self.run([f"{self.room}/service"]))
        return self.hold_version(self.run(["pkg-config", "--modversion", "otel_c"]).strip())

    def flags(self, package):
        """What pkg-config says of a package."""
        if not shutil.which("pkg-config"):
            raise LeftOut("pkg-config is not installed")
        return self.run(["pkg-config", "--cflags", "--libs", package]).split()

    def hold_version(self, said):
        """Looks whether the version of pkg-config is that of the release."""
        if os.path.basename(self.top) != f"otel-{said}-linux-x86_64":
            raise Fault(f"pkg-config says version {said}, and the release is {os.path.basename(self.top)}")
        return said

    def try_cmake(self):
        """Builds the same by CMake."""
        if not shutil.which("cmake"):
            raise LeftOut("cmake is not installed")
        folder = f"{self.room}/cmake"
        os.makedirs(folder, exist_ok=True)
        for name in CMAKE_SOURCES:
            shutil.copy(f"{SOURCES}/{name}", folder)
        self.run(["cmake", "-S", folder, "-B", f"{folder}/out", f"-DCMAKE_PREFIX_PATH={self.top}"])
        self.run(["cmake", "--build", f"{folder}/out"])
        for name in ("c_otel_c", "c_shared", "cpp_otel_c", "cpp_shared"):
            hold_lines(self.run([f"{folder}/out/{name}"]))
        for name in ("c_service", "cpp_service"):
            if os.path.exists(f"{folder}/out/{name}"):
                self.hold_posts([f"{folder}/out/{name}"])

    def try_posts(self):
        """Builds services that post their lines by themselves, by pkg-config."""
        if not os.path.exists(f"{self.top}/include/otel_service.h"):
            raise LeftOut("the release has no otel_service.h")
        flags = self.flags("otel_service")
        for end, words in COMPILERS.items():
            self.run([*words, *WARNINGS, self.source(f"posting{end}"), "-o", f"{self.room}/posting", *flags])
            self.hold_posts([f"{self.room}/posting"], LD_LIBRARY_PATH=f"{self.top}/lib")

    def hold_posts(self, words, **more):
        """Looks whether a service posts its span to a stand-in for a collector."""
        with tempfile.TemporaryDirectory(dir=self.room) as room:
            collector = Collector(room)
            endpoint = f"http://127.0.0.1:{collector.port}"
            try:
                self.run(words, OTEL_SERVICE_NAME="released", OTEL_EXPORTER_OTLP_ENDPOINT=endpoint, **more)
            finally:
                collector.end()
            hold_lines("\n".join(it.decode() for it in collector.lines()))

    def try_rust(self):
        """Builds a package that has the crate in a folder of sources, without a network, over the library."""
        need("cargo", "cargo")
        crate = only(f"{self.folder}/otel_proved-*.crate")
        folder, sources = f"{self.room}/rust", f"{self.room}/crates"
        with tarfile.open(crate) as archive:
            archive.extractall(sources, **({"filter": "data"} if hasattr(tarfile, "data_filter") else {}))
        name = os.path.basename(crate).removesuffix(".crate")
        checked = {"files": {}, "package": hashlib.sha256(bytes_of(crate)).hexdigest()}
        write(f"{sources}/{name}/.cargo-checksum.json", json.dumps(checked))
        package = '[package]\nname = "service"\nversion = "1.0.0"\nedition = "2021"\n\n'
        write(f"{folder}/Cargo.toml", f'{package}[dependencies]\notel_proved = "={name.rpartition("-")[2]}"\n')
        replaced = '[source.crates-io]\nreplace-with = "here"\n\n[source.here]\n'
        write(f"{folder}/.cargo/config.toml", f"{replaced}directory = {json.dumps(sources)}\n")
        os.makedirs(f"{folder}/src", exist_ok=True)
        shutil.copy(f"{SOURCES}/service.rs", f"{folder}/src/main.rs")
        words = ["cargo", "build", "--offline", "--quiet", "--target-dir", f"{folder}/target"]
        run(words, SECONDS, cwd=folder, env=self.environment())
        hold_lines(self.run([f"{folder}/target/debug/service"], LD_LIBRARY_PATH=f"{self.top}/lib"))

    def try_python(self):
        """Installs the wheel into a new environment, without a network."""
        if not importlib.util.find_spec("ensurepip"):
            raise LeftOut("this Python has no ensurepip, and makes no environment that has pip")
        python = f"{self.room}/venv/bin/python"
        self.run([sys.executable, "-m", "venv", f"{self.room}/venv"])
        wheel = only(f"{self.folder}/otel_proved-*.whl")
        self.run([python, "-m", "pip", "install", "--no-index", "--quiet", "--disable-pip-version-check", wheel])
        hold_lines(self.run([python, "-I", self.source("service.py")]))
        return os.path.basename(wheel)

    def try_programs(self):
        """Runs the programs by their names, on what the gate gives them."""
        there = [it for it in PROGRAMS if os.path.exists(f"{self.top}/bin/{it}")]
        for name in there:
            self.try_program(name)
        if not there:
            raise LeftOut("the release has no program")
        return ", ".join(there)

    def try_program(self, name):
        """Runs a program as the gate does, and compares what it writes and its status."""
        given = {it: f"{TOP}/crates/{name}/{it}" for it in ("args", "stdin", "stdout", "status")}
        given = {it: bytes_of(path) if os.path.exists(path) else b"" for it, path in given.items()}
        words = ["sh", "-c", '"$0" "$@" <stdin >stdout 2>stderr; echo $? >status', name]
        with open(f"{self.room}/stdin", "wb") as file:
            file.write(given["stdin"])
        self.run([*words, *given["args"].decode().splitlines()], PATH=f"{self.top}/bin:{os.environ['PATH']}")
        status = bytes_of(f"{self.room}/status").strip()
        if status != (given["status"].strip() or b"0"):
            said = bytes_of(f"{self.room}/stderr").decode(errors="replace")[-500:]
            raise Fault(f"{name} ends with status {status.decode()}\n{said}")
        if bytes_of(f"{self.room}/stdout") != given["stdout"]:
            raise Fault(f"{name} does not write what crates/{name}/stdout has")

    def try_manual(self):
        """Looks whether the pages of the manual are laid out without a warning."""
        pages = sorted(glob.glob(f"{self.top}/share/man/man3/*.3"))
        if f"{self.top}/share/man/man3/otel.h.3" not in pages:
            raise Fault("the release has no otel.h(3)")
        if not shutil.which("groff"):
            raise LeftOut("groff is not installed")
        for page in pages:
            said = run(["groff", "-man", "-Tutf8", "-ww", "-z", page], SECONDS, env=self.environment())
            if said:
                raise Fault(f"{os.path.basename(page)}: {said}")
        return ", ".join(map(os.path.basename, pages))
