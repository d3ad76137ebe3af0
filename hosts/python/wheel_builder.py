# SPDX-License-Identifier: Apache-2.0
"""Builds the wheel of otel_proved, which has the shared library in it: the build backend that pyproject.toml names.

The library is taken from the folder OTEL_C_DIR, or else from bin/ at the top of the repository. The wheel is for the
systems that the library runs on, as wheel_platform.py reads them from it. The backend needs nothing but Python, so that
a wheel can be built where no package can be fetched.
"""

import base64
import hashlib
import os
import re
import sysconfig
import zipfile

from wheel_platform import platform_of

HERE = os.path.dirname(os.path.abspath(__file__))
TOP = os.path.join(HERE, "..", "..")
PACKAGE = "otel_proved"
LIBRARY = "libotel_c.so"
LICENCES = ("LICENSE", "NOTICE")
WAYS = (
    "Unpack a release, and let OTEL_C_DIR name its folder lib/; or build the library: `./run --build c` at the top of "
    "the repository proves it and makes it in bin/, in some 30 minutes."
)
# The earliest moment that a zip file can name, so that the same files make the same wheel.
MOMENT = (1980, 1, 1, 0, 0, 0)

METADATA = """\
Metadata-Version: 2.1
Name: otel-proved
Version: {version}
Summary: OpenTelemetry's trace pipeline, proved, for Python
License: Apache-2.0
Requires-Python: >=3.9
Classifier: Operating System :: POSIX :: Linux
Classifier: Typing :: Typed
Description-Content-Type: text/markdown

{readme}"""

WHEEL = """\
Wheel-Version: 1.0
Generator: otel_proved
Root-Is-Purelib: false
Tag: {tag}
"""


class CannotBuild(Exception):
    """Why no wheel is built."""


def bytes_of(*path):
    with open(os.path.join(*path), "rb") as file:
        return file.read()


def library():
    """The bytes of the shared library."""
    folder = os.environ.get("OTEL_C_DIR") or os.path.join(TOP, "bin")
    path = os.path.normpath(os.path.join(folder, LIBRARY))
    if not os.path.isfile(path):
        raise CannotBuild(f"there is no {path}. {WAYS}")
    return bytes_of(path)


def version():
    """The version that the package says."""
    text = bytes_of(HERE, PACKAGE, "__init__.py").decode()
    return re.search(r'(?m)^__version__ = "([^"]+)"$', text)[1]


def tag(platform):
    """What can use the wheel: each Python 3, at such a system."""
    return f"py3-none-{platform}"


def files():
    """The path in the wheel and the bytes of each file of the package."""
    folder = os.path.join(HERE, PACKAGE)
    for name in sorted(os.listdir(folder)):
        if name.endswith(".py") or name == "py.typed":
            yield f"{PACKAGE}/{name}", bytes_of(folder, name)
    yield f"{PACKAGE}/{LIBRARY}", library()


def facts(platform):
    """The same of what is said about the package, but of the list of all files."""
    folder = f"{PACKAGE}-{version()}.dist-info"
    readme = bytes_of(HERE, "README.md").decode()
    yield f"{folder}/METADATA", METADATA.format(version=version(), readme=readme).encode()
    yield f"{folder}/WHEEL", WHEEL.format(tag=tag(platform)).encode()
    for name in LICENCES:
        yield f"{folder}/licenses/{name}", bytes_of(TOP, name)


def record_row(path, content):
    """A file's row in the list of files."""
    digest = base64.urlsafe_b64encode(hashlib.sha256(content).digest()).rstrip(b"=").decode()
    return f"{path},sha256={digest},{len(content)}\n"


def write(archive, path, content):
    """Writes a file into the wheel, which all may read."""
    entry = zipfile.ZipInfo(path, MOMENT)
    entry.compress_type = zipfile.ZIP_DEFLATED
    entry.external_attr = 0o644 << 16
    archive.writestr(entry, content)


def build_wheel(wheel_directory, config_settings=None, metadata_directory=None):
    """Writes the wheel into a folder, and answers its name."""
    return write_wheel(wheel_directory, list(files()), platform_of(library())[0])


def build_editable(wheel_directory, config_settings=None, metadata_directory=None):
    """Writes a wheel that leads to this folder, for `pip install -e`. It has no library: that is found at its use."""
    lead = f"{PACKAGE}.pth", f"{HERE}\n".encode()
    return write_wheel(wheel_directory, [lead], re.sub("[-.]", "_", sysconfig.get_platform()))


def write_wheel(wheel_directory, found, platform):
    """Writes a wheel of these files for a platform, and answers its name."""
    found = [*found, *facts(platform)]
    record = f"{PACKAGE}-{version()}.dist-info/RECORD"
    rows = "".join(record_row(*it) for it in found) + f"{record},,\n"
    name = f"{PACKAGE}-{version()}-{tag(platform)}.whl"
    with zipfile.ZipFile(os.path.join(wheel_directory, name), "w") as archive:
        for path, content in [*found, (record, rows.encode())]:
            write(archive, path, content)
    return name


class UnsupportedOperation(Exception):
    """What the caller of a build backend looks for where an archive of sources cannot be made."""


def build_sdist(sdist_directory, config_settings=None):
    """There is none: the library is built from the whole repository."""
    raise UnsupportedOperation("the sources are the whole repository; build a wheel")
