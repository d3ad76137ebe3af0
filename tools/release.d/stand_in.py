# SPDX-License-Identifier: Apache-2.0
"""What stands in for proved libraries and programs, in a copy of what tools/release reads, to try that."""

import os
import re
import shutil
import subprocess

TOP = os.path.dirname(os.path.dirname(os.path.dirname(os.path.realpath(__file__))))
NEEDED = ("cc", "c++", "ar", "make", "cargo", "git", "pkg-config")
PROGRAMS = ("otel_trace", "otel_hello", "otel_shop", "otel_post")
TREES = ("hosts/c", "hosts/python", "hosts/rust", "tools/release.d", "tools/hosts_check.d",
         "tools/otlp_check")
FILES = ("tools/release", "tools/release_check", "LICENSE", "NOTICE")
# The line of the services of tools/hosts_check.d/released, in the form that an exporter writes.
CUT = '"attributes":[],"droppedAttributesCount":0'
IDS = f'"traceId":"{"1" * 32}","spanId":"{"2" * 16}","traceState":"","parentSpanId":"","flags":257'
TIMES = '"startTimeUnixNano":"1000","endTimeUnixNano":"2000"'
SIZE = '"attributes":[{"key":"size","value":{"intValue":"3"}}],"droppedAttributesCount":0'
LISTS = '"events":[],"droppedEventsCount":0,"links":[],"droppedLinksCount":0,"status":{"message":"","code":0}'
SPAN = f'{{{IDS},"name":"GET /cart","kind":2,{TIMES},{SIZE},{LISTS}}}'
SCOPE = f'{{"scope":{{"name":"","version":"",{CUT}}},"spans":[{SPAN}],"schemaUrl":""}}'
NAME = '{"key":"service.name","value":{"stringValue":"released"}}'
RESOURCE = f'{{"attributes":[{NAME}],"droppedAttributesCount":0}}'
LINE = f'{{"resourceSpans":[{{"resource":{RESOURCE},"scopeSpans":[{SCOPE}],"schemaUrl":""}}]}}'
SPEAKS = r"""
#include <stdint.h>
#include <string.h>
static int is_drained;
int otel_version(int *a, int *b, int *c) { *a = 0; *b = MINOR; *c = 0; return 0; }
int otel_drain(void *handle, char *buffer, size_t room, size_t *length) {
  *length = is_drained ? 0 : strlen(LINE "\n");
  if (*length > room) return 8;
  memcpy(buffer, LINE "\n", *length);
  is_drained = 1;
  return 0;
}
int otel_count(void *handle, uint64_t *numbers, size_t size) {
  memset(numbers, 0, size);
  numbers[6] = !is_drained;
  numbers[7] = is_drained ? 0 : strlen(LINE "\n");
  return 0;
}
int otel_drain_some(void *handle, char *buffer, size_t room, size_t *length) {
  return otel_drain(handle, buffer, room, length);
}
"""


def text_of(path):
    with open(path, encoding="utf-8") as file:
        return file.read()


def write(path, text):
    os.makedirs(os.path.dirname(path), exist_ok=True)
    with open(path, "w", encoding="utf-8") as file:
        file.write(text)


def run(*words, **how):
    subprocess.run(words, check=True, capture_output=True, **how)


def library(folder, soname="libotel_c.so.0", minor=1, line=LINE):
    """Leaves libraries that say a version and hand out a line; other functions of the header do nothing."""
    names = re.findall(r"(?m)^uint32_t (otel_\w+)\(", text_of(f"{TOP}/hosts/c/otel.h"))
    rest = "".join(f"int {it}(void) {{ return 0; }}\n" for it in names if f"int {it}(" not in SPEAKS)
    quoted = line.replace('"', '\\"')
    write(f"{folder}/code.c", f'#define LINE "{quoted}"\n#define MINOR {minor}\n{SPEAKS}{rest}')
    run("cc", "-c", "-fno-builtin", "-fPIC", "-o", "code.o", "code.c", cwd=folder)
    run("ar", "rcD", "libotel_c.a", "code.o", cwd=folder)
    run("cc", "-shared", f"-Wl,-soname,{soname}", "-o", "libotel_c.so", "code.o", cwd=folder)


def program(path, written="", status=0):
    """Leaves a program that writes a text, and ends with a status."""
    write(path, f"#!/bin/sh\ncat <<'END'\n{written}END\nexit {status}\n" if written else f"#!/bin/sh\nexit {status}\n")
    os.chmod(path, 0o755)


def copy(folder):
    """Copies what tools/release and tools/release_check read, and leaves stand-ins in bin/ there."""
    listed = subprocess.run(["git", "ls-files", "-z", *TREES, *FILES], cwd=TOP, capture_output=True, check=True)
    for path in listed.stdout.decode().split("\0")[:-1]:
        os.makedirs(os.path.dirname(f"{folder}/{path}"), exist_ok=True)
        shutil.copy(f"{TOP}/{path}", f"{folder}/{path}")
    run("git", "init", "-q", cwd=folder)
    run("git", "add", ".", cwd=folder)
    library(f"{folder}/bin")
    for name in PROGRAMS:
        program(f"{folder}/bin/{name}")
