# SPDX-License-Identifier: Apache-2.0
"""Posts bodies to a collector over one connection, as long as that is kept, also through a proxy of the environment."""

import base64
import http.client
import os
import re
import select
import socket
import ssl
import threading
import urllib.parse
import urllib.request

from answers import Answer, Response

PATH = "v1/traces"
SECONDS_TO_CONNECT = 10
SECONDS_TO_ANSWER = 30
TOKEN = re.compile(rb"[!#$%&'*+.^_`|~0-9A-Za-z-]+")
# How a body ends is said by this tool alone.
FRAMING = (b"connection", b"content-length", b"transfer-encoding")


class Misused(Exception):
    """What is wrong with the words."""


class Untrusted(Exception):
    """Why nothing is sent to a collector."""


def header_of(line, place):
    """The name and the value of a header."""
    name, colon, value = line.partition(b":")
    if not colon or not TOKEN.fullmatch(name):
        raise Misused(f"{place} is no header, as 'api-key: 123'")
    value = value.strip(b" \t")
    if any(it < 32 and it != 9 or it == 127 for it in value):
        raise Misused(f"{place}, {name.decode()}, has a line break or another control character")
    if name.lower() in FRAMING:
        raise Misused(f"{place}, {name.decode()}, is written by this tool alone")
    return name, value


def headers_of(word):
    """The headers that a word stands for: itself, or the lines of a file."""
    if not word.startswith("@"):
        return [header_of(os.fsencode(word), "the word of -H")]
    try:
        with open(word[1:], "rb") as file:
            lines = file.read().split(b"\n")
    except OSError as error:
        raise Misused(f"cannot read {word[1:]}, which -H names: {error.strerror}") from None
    lines = [(number, it.removesuffix(b"\r")) for number, it in enumerate(lines, 1)]
    return [header_of(it, f"line {number} of {word[1:]}") for number, it in lines if it]


def basic(address):
    """The header's value for the user whom an address names; none where it names none."""
    if address.username is None:
        return None
    pair = f"{urllib.parse.unquote(address.username)}:{urllib.parse.unquote(address.password or '')}"
    return b"Basic " + base64.b64encode(pair.encode(errors="surrogateescape"))


def proxy_for(address):
    """The address of the proxy that the environment names for another address; none where it names none."""
    host = address.netloc.rpartition("@")[2]
    proxies = urllib.request.getproxies_environment()
    named = proxies.get(address.scheme) or proxies.get("all")
    if not named or urllib.request.proxy_bypass_environment(host):
        return None
    return address_of(named if "://" in named else f"http://{named}", ("http",), "the proxy")


def address_of(url, schemes, name):
    """A URL, as far as it is one of these schemes."""
    try:
        address = urllib.parse.urlsplit(url)
        # A port out of range, and a host that no name server can be asked for, are ValueErrors.
        is_so = address.scheme in schemes and address.port != 0 and address.hostname.encode("idna")
    except (ValueError, AttributeError):
        is_so = False
    if not is_so or not url.isprintable() or " " in url:
        raise Misused(f"{name} {url} is no URL of {' or '.join(schemes)}".strip())
    return address


class Destination:
    """Where lines are posted, and with which headers."""

    def __init__(self, url, given):
        self.address = address_of(url, ("http", "https"), "")
        self.proxy = proxy_for(self.address)
        self.context = ssl.create_default_context() if self.address.scheme == "https" else None
        path = self.address.path if self.address.path not in ("", "/") else f"/{PATH}"
        path += f"?{self.address.query}" if self.address.query else ""
        self.target = urllib.parse.quote(path, safe="".join(map(chr, range(33, 127))))
        self.host = self.address.netloc.rpartition("@")[2]
        self.headers = self.with_defaults(given)
        if self.proxy and not self.context:
            self.target = f"http://{self.host}{self.target}"

    def with_defaults(self, given):
        """The headers that were given, and what else is to be said."""
        wanted = [(b"Content-Type", b"application/json"), (b"User-Agent", b"otel_send")]
        wanted += [(b"Host", self.host.encode("idna" if not self.host.isascii() else "ascii"))]
        wanted += [(b"Authorization", basic(self.address))]
        if self.proxy and not self.context:
            wanted += [(b"Proxy-Authorization", basic(self.proxy))]
        named = {name.lower() for name, _ in given}
        return [(name, it) for name, it in wanted if it is not None and name.lower() not in named] + given

    def connected(self):
        """A new connection."""
        at = self.proxy or self.address
        how = {"timeout": SECONDS_TO_CONNECT, **({"context": self.context} if self.context else {})}
        kind = http.client.HTTPSConnection if self.context else http.client.HTTPConnection
        connection = kind(at.hostname, at.port or {"http": 80, "https": 443}[at.scheme], **how)
        connection.response_class = Response
        if self.context and self.proxy:
            pair = basic(self.proxy)
            more = {"Proxy-Authorization": pair.decode()} if pair else {}
            connection.set_tunnel(self.address.hostname, self.address.port or 443, more)
        try:
            connection.connect()
        except ssl.SSLCertVerificationError as error:
            raise Untrusted(f"its certificate is not trusted: {error.verify_message}") from None
        connection.sock.settimeout(SECONDS_TO_ANSWER)
        return connection


class Collector:
    """A collector, with the connection that is kept."""

    def __init__(self, destination):
        self.destination = destination
        self.connection = None

    def post(self, body):
        """The answer to a body. Where a connection that was kept has ended meanwhile it is posted over a new one."""
        if self.connection and select.select([self.connection.sock], [], [], 0)[0]:
            self.close()
        was_kept = self.connection is not None
        try:
            return self.exchange(body)
        except (ConnectionError, ssl.SSLEOFError):
            if not was_kept:
                raise
        return self.exchange(body)

    def exchange(self, body):
        """The same, over the connection that is kept, or a new one."""
        self.connection = connection = self.connection or self.destination.connected()
        try:
            connection.putrequest("POST", self.destination.target, skip_host=True, skip_accept_encoding=True)
            for name, value in [*self.destination.headers, (b"Content-Length", str(len(body)).encode())]:
                connection.putheader(name, value)
            try:
                connection.endheaders(body)
            except ConnectionError:
                # It may have answered before it read all.
                pass
            answer = Answer(connection.getresponse())
        except BaseException:
            self.close()
            raise
        if answer.is_last:
            self.close()
        return answer

    def close(self):
        """Ends the connection, if there is one."""
        if self.connection:
            self.connection.close()
        self.connection = None

    def hang_up(self):
        """Ends the wait of a thread for an answer."""
        try:
            self.connection.sock.shutdown(socket.SHUT_RDWR)
        except (AttributeError, OSError):
            pass


class Exchange(threading.Thread):
    """A post in a thread of its own, so that whoever waits for it need not wait for ever.

    `over` can be read once it is over. Then there is an answer, or a fault.
    """

    def __init__(self, collector, body):
        super().__init__(daemon=True)
        self.collector = collector
        self.body = body
        self.answer = self.fault = None
        self.over, self.ending = os.pipe()

    def run(self):
        try:
            self.answer = self.collector.post(self.body)
        except Exception as fault:
            self.fault = fault
        finally:
            os.close(self.ending)
