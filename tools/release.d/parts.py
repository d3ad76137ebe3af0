# SPDX-License-Identifier: Apache-2.0
"""What a release is made of: the folder for C with the programs, the wheel for Python, and the crate for Rust."""

import os
import shutil
import subprocess
import sys

from archive import pack
from manual import NoHeader, page_of
from versions import TOP, Refusal

sys.path.append(f"{TOP}/hosts/python")

PROGRAMS = ("otel_trace", "otel_hello", "otel_shop", "otel_post")
LICENCES = ("LICENSE", "NOTICE")
LIBRARY = "libotel_c.so"
DECIDING = ("MAKEFLAGS", "MFLAGS", "MAKELEVEL", "CPPFLAGS", "LDFLAGS", "RUSTFLAGS", "CARGO_ENCODED_RUSTFLAGS")
README = f"{os.path.dirname(os.path.realpath(__file__))}/README.md"


def text_of(path):
    with open(path, encoding="utf-8") as file:
        return file.read()


def write(path, text):
    """Writes a file, and the folders that it lies in."""
    os.makedirs(os.path.dirname(path), exist_ok=True)
    with open(path, "w", encoding="utf-8") as file:
        file.write(text)


def run(words, **how):
    """What a program writes. A refusal with its last lines where it fails, or is not there."""
    try:
        ran = subprocess.run(words, stdin=subprocess.DEVNULL, capture_output=True, text=True, errors="replace", **how)
    except OSError as error:
        raise Refusal(f"cannot run {words[0]}: {error.strerror}") from None
    if ran.returncode != 0:
        said = "\n".join((ran.stdout + ran.stderr).splitlines()[-20:])
        raise Refusal(f"{' '.join(words)}: status {ran.returncode}\n{said}")
    return ran.stdout


def environment(**more):
    """The environment of what is run: without what else would decide how things are compiled."""
    return {**{name: it for name, it in os.environ.items() if name not in DECIDING}, **more}


def copy_sources(package, folder):
    """Copies the sources of a package, and nothing that was built of them, with the licences."""
    for path in run(["git", "ls-files", "-z", "."], cwd=f"{TOP}/{package}").split("\0")[:-1]:
        os.makedirs(os.path.dirname(f"{folder}/{path}"), exist_ok=True)
        shutil.copy(f"{TOP}/{package}/{path}", f"{folder}/{path}")
    for name in LICENCES:
        shutil.copy(f"{TOP}/{name}", folder)


class Release:
    """A release of a version, out of a folder with programs and libraries, of one moment."""

    def __init__(self, version, built, moment):
        self.version = version
        self.built = built
        self.moment = moment
        self.name = f"otel-{version}-linux-x86_64"

    def missing(self):
        """The programs that are not there."""
        return [it for it in PROGRAMS if not os.access(f"{self.built}/{it}", os.X_OK)]

    def write_archive(self, room, made):
        """Writes the archive for C and C++, with the programs, into the folder `made`."""
        copy_sources("hosts/c", f"{room}/c")
        # Without -g no path of this machine gets into what is compiled.
        words = ["make", "-s", "-C", f"{room}/c", "install", f"DESTDIR={room}", f"PREFIX=/{self.name}", "CFLAGS=-O2"]
        run(words, env=environment(OTEL_C_DIR=self.built))
        folder = f"{room}/{self.name}"
        self.name_library(f"{folder}/lib")
        if f"\nVersion: {self.version}\n" not in text_of(f"{folder}/lib/pkgconfig/otel_c.pc"):
            raise Refusal(f"the file for pkg-config that hosts/c installs does not say version {self.version}")
        for name in [it for it in PROGRAMS if it not in self.missing()]:
            os.makedirs(f"{folder}/bin", exist_ok=True)
            shutil.copy(f"{self.built}/{name}", f"{folder}/bin/{name}")
        self.write_pages(folder)
        for name in LICENCES:
            write(f"{folder}/share/doc/otel/{name}", text_of(f"{TOP}/{name}"))
        write(f"{folder}/README.md", text_of(README).replace("@VERSION@", self.version))
        pack(folder, f"{made}/{self.name}.tar.gz", self.moment)

    def name_library(self, folder):
        """Has the shared library stand under its own name, with a link to it, where `make install` left it without."""
        from wheel_platform import OWN_NAME, Elf

        with open(f"{folder}/{LIBRARY}", "rb") as file:
            own = Elf(file.read()).names(OWN_NAME)
        wanted = f"{LIBRARY}.{self.version.partition('.')[0]}"
        if own != [wanted]:
            raise Refusal(f"{LIBRARY} calls itself {own[0] if own else 'nothing'}, and not {wanted}")
        if not os.path.lexists(f"{folder}/{wanted}"):
            os.rename(f"{folder}/{LIBRARY}", f"{folder}/{wanted}")
            os.symlink(wanted, f"{folder}/{LIBRARY}")

    def write_pages(self, folder):
        """Makes a page of the manual of each header for C."""
        for name in sorted(os.listdir(f"{folder}/include")):
            if name.endswith(".h"):
                try:
                    page = page_of(name, text_of(f"{folder}/include/{name}"), self.version, self.moment)
                except NoHeader as fault:
                    raise Refusal(f"{name}: {fault}") from None
                write(f"{folder}/share/man/man3/{name}.3", page)

    def write_wheel(self, made):
        """Writes the wheel for Python, and answers its name, and why it is for its platform."""
        import wheel_builder

        os.environ["OTEL_C_DIR"] = self.built
        name = wheel_builder.build_wheel(made)
        return name, wheel_builder.platform_of(wheel_builder.library())[1]

    def write_crate(self, room, made):
        """Writes the crate for Rust: its sources with the licences, as cargo packs them."""
        folder = f"{room}/rust"
        copy_sources("hosts/rust", folder)
        words = ["cargo", "package", "--offline", "--no-verify", "--allow-dirty", "--quiet"]
        run([*words, "--target-dir", f"{room}/target"], cwd=folder, env=environment())
        name = f"otel_proved-{self.version}.crate"
        shutil.copyfile(f"{room}/target/package/{name}", f"{made}/{name}")
