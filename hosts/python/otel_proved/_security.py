# SPDX-License-Identifier: Apache-2.0
"""Whom a sender trusts over https, and by which certificate a collector trusts it."""

from __future__ import annotations

import os
import ssl
from typing import Optional, Tuple

from .errors import BadEndpoint

# The one for traces goes first.
_TRUSTED = ("OTEL_EXPORTER_OTLP_TRACES_CERTIFICATE", "OTEL_EXPORTER_OTLP_CERTIFICATE")
_OWN = ("OTEL_EXPORTER_OTLP_TRACES_CLIENT_CERTIFICATE", "OTEL_EXPORTER_OTLP_CLIENT_CERTIFICATE")
_KEY = ("OTEL_EXPORTER_OTLP_TRACES_CLIENT_KEY", "OTEL_EXPORTER_OTLP_CLIENT_KEY")
VARIABLES = (*_TRUSTED, *_OWN, *_KEY)


def context_of_environment() -> Optional[ssl.SSLContext]:
    """The context that the environment's files make, as PEM: certificates that are trusted in place of the system's,
    and the own one with its key, which may stand in one file. None where no file is named.

    BadEndpoint where a file cannot be read.
    """
    trusted, own, key = (_first_set(it) for it in (_TRUSTED, _OWN, _KEY))
    if not trusted and not own:
        return None
    try:
        context = ssl.create_default_context(cafile=trusted)
        if own:
            context.load_cert_chain(own, key)
    except (OSError, ValueError) as error:
        raise BadEndpoint(f"a certificate of {', '.join(_named())} cannot be used: {error}") from None
    return context


def _first_set(names: Tuple[str, ...]) -> Optional[str]:
    return next((os.environ[it] for it in names if os.environ.get(it)), None)


def _named() -> "list[str]":
    return [it for it in VARIABLES if os.environ.get(it)]
