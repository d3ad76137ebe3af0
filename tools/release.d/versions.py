# SPDX-License-Identifier: Apache-2.0
"""The version of a release, which the header for C, the packages and the library must have in common."""

import ctypes
import os
import re

TOP = os.path.dirname(os.path.dirname(os.path.dirname(os.path.realpath(__file__))))
PARTS = ("MAJOR", "MINOR", "PATCH")
# Where else a version stands, and how.
PLACES = (
    ("hosts/c/otel_shared.hpp", r'\bVERSION = "([^"]*)"'),
    ("hosts/rust/Cargo.toml", r'(?m)^version = "([^"]*)"'),
    ("hosts/rust/tracing/Cargo.toml", r'(?m)^version = "([^"]*)"'),
    ("hosts/python/otel_proved/__init__.py", r'(?m)^__version__ = "([^"]*)"'),
    ("hosts/python/pyproject.toml", r'(?m)^version = "([^"]*)"'),
)


class Refusal(Exception):
    """Why no release is made."""


def text_of(path):
    with open(f"{TOP}/{path}", encoding="utf-8") as file:
        return file.read()


def of_header():
    """The version that hosts/c/otel.h says."""
    header = text_of("hosts/c/otel.h")
    found = [re.search(rf"(?m)^#define OTEL_VERSION_{it} ([0-9]+)$", header) for it in PARTS]
    if not all(found):
        raise Refusal("hosts/c/otel.h says no OTEL_VERSION_MAJOR, _MINOR and _PATCH")
    return ".".join(it[1] for it in found)


def of_library(path):
    """The version that the shared library says."""
    numbers = [ctypes.c_uint32() for _ in PARTS]
    try:
        status = ctypes.CDLL(path).otel_version(*map(ctypes.byref, numbers))
    except (OSError, AttributeError) as error:
        raise Refusal(f"{path} does not say its version: {error}") from None
    if status != 0:
        raise Refusal(f"{path} does not say its version: otel_version answers {status}")
    return ".".join(str(it.value) for it in numbers)


def agreed(library):
    """The version of the release. A refusal where a package or the library has another."""
    version = of_header()
    for path, pattern in PLACES:
        found = re.search(pattern, text_of(path)) if os.path.exists(f"{TOP}/{path}") else None
        if found and found[1] != version:
            raise Refusal(f"{path} says version {found[1]}, and hosts/c/otel.h {version}")
    said = of_library(library)
    if said != version:
        raise Refusal(f"{os.path.relpath(library, TOP)} says version {said}, and hosts/c/otel.h {version}")
    return version
