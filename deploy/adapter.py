#!/usr/bin/env python3
"""Lets `blobd push` push to a registry on another machine, with TLS and a login, until it is interrupted.

    adapter.py REGISTRY [--login FILE] [--ca FILE] [--at ADDRESS]

REGISTRY is HOST:PORT, or http://HOST:PORT if it speaks no TLS. The login is a file with one line, USER:PASSWORD. The
registry's certificate is signed by one in the file of --ca, or by one that the system trusts. `blobd push` then pushes
to the address, which is 127.0.0.1:5090 if none is told. Exit status 1 if something is missing or doesn't answer, or
another program has the address.
"""
import argparse
import http.client
import os
import re
import socket
import ssl
import sys
import time

import servers

ADDRESS = "127.0.0.1:5090"
FORM = re.compile(r"(http://)?([^/]+:[0-9]+)/?")
PLACE = re.compile(r"[^/]+:[0-9]+")
# how long the registry may take for a connection, and then for each part of a reply, in seconds
PATIENCE = 10
# what is wrong, by the status of GET /v2/
WRONG = {
    400: "it isn't a registry; or it speaks TLS: REGISTRY=HOST:PORT, without http://",
    401: "it takes no request without a login, or not this one (LOGIN=FILE, with USER:PASSWORD in the file)",
    503: "it can't serve now, or it is a reverse proxy with no server behind it",
}
NO_REGISTRY = "it isn't a registry"
NOBODY = "nobody listens there: start the registry, or name its port"
DROPPED = f"no connection within {PATIENCE} s: its machine is off, or a firewall drops what is sent there"
SILENT = f"it takes a connection, and says nothing for {PATIENCE} s: it hangs, or is no registry"
NO_HTTP = "it sends no reply of HTTP: it is no registry, or it speaks {}"
OTHER_SIGNER = "its certificate isn't signed by one that is trusted: name one that signs it (CA=FILE)"
OTHER_NAME = "its certificate isn't for this name: name the registry as its certificate does"
NO_TLS = "it speaks no TLS: REGISTRY=http://{}"
SPEAKS_TLS = "it speaks TLS: REGISTRY={}, without http://"
# how a record of TLS begins
RECORD = re.compile(rb"[\x14-\x17]\x03")
NO_TLS_REASONS = ("WRONG_VERSION_NUMBER", "HTTP_REQUEST", "UNKNOWN_PROTOCOL", "PACKET_LENGTH_TOO_LONG")
# the error of a certificate that is for another name
HOSTNAME_MISMATCH = 62


def words_of(words):
    parser = argparse.ArgumentParser(description=__doc__, formatter_class=argparse.RawDescriptionHelpFormatter)
    parser.add_argument("registry")
    parser.add_argument("--login", default="")
    parser.add_argument("--ca", default="")
    parser.add_argument("--at", default=ADDRESS)
    return parser.parse_args(words)


def why_no_tls(error, registry):
    """What the fault of a connection over TLS comes from."""
    if isinstance(error, ssl.SSLCertVerificationError):
        return OTHER_NAME if error.verify_code == HOSTNAME_MISMATCH else OTHER_SIGNER
    if error.reason in NO_TLS_REASONS:
        return NO_TLS.format(registry)
    return f"TLS fails: {error.reason or error}"


def beginning(line, registry, trusted):
    """The first bytes of the registry's reply, over TLS if it is said who is trusted."""
    host, _ = servers.place(registry)
    with line if trusted is None else trusted.wrap_socket(line, server_hostname=host) as talk:
        talk.sendall(f"GET /v2/ HTTP/1.1\r\nHost: {registry}\r\nConnection: close\r\n\r\n".encode())
        return talk.recv(4096)


def why_no_reply(registry, trusted):
    """Why the registry sends no reply of HTTP, or None if it does. The adapter has the same words for all causes."""
    host, port = servers.place(registry)
    try:
        line = socket.create_connection((host, port), timeout=PATIENCE)
    except ConnectionRefusedError:
        return NOBODY
    except socket.gaierror:
        return f"no address is known for the name {host}"
    except TimeoutError:
        return DROPPED
    except OSError as error:
        return error.strerror
    with line:
        try:
            begin = beginning(line, registry, trusted)
        except TimeoutError:
            return SILENT
        except (ssl.SSLEOFError, ConnectionError):
            begin = b""
        except ssl.SSLError as error:
            return why_no_tls(error, registry)
    if begin.startswith(b"HTTP/"):
        return None
    if trusted is None and RECORD.match(begin):
        return SPEAKS_TLS.format(registry)
    return NO_HTTP.format("TLS: leave out http://" if trusted is None else f"no TLS: REGISTRY=http://{registry}")


def status_of(address, method, path):
    """What the registry says to a request, through the adapter."""
    asked = http.client.HTTPConnection(*servers.place(address), timeout=servers.PATIENCE)
    asked.request(method, path)
    return asked.getresponse().status


def why_not(address):
    """Why no blob can be pushed through the adapter at this address, or None if nothing tells."""
    status = status_of(address, "GET", "/v2/")
    if status != 200:
        return f"answers {status}: {WRONG.get(status, NO_REGISTRY)}"
    # what answers 200 to anything has a blob that nobody has
    if status_of(address, "HEAD", f"/v2/none/blobs/sha256:{'0' * 64}") == 200:
        return f"has a blob of a digest that is none's: {NO_REGISTRY}"
    return None


def text_of(variable, path):
    """The text of the file that is told as this variable of `make adapter`."""
    try:
        with open(path, encoding="utf-8") as file:
            return file.read()
    except (OSError, ValueError) as fault:
        raise RuntimeError(f"{variable}={path} can't be read: {getattr(fault, 'strerror', 'it is no text')}") from fault


def trusted_by(path):
    """Whom a registry's certificate has to be signed by: those in the file that is told as CA, or of the system."""
    if path:
        text_of("CA", path)
    try:
        return ssl.create_default_context(cafile=path or None)
    except ssl.SSLError as fault:
        raise RuntimeError(f"CA={path} has no certificate in PEM's form") from fault


def serve(told, folder):
    """Serves until it is interrupted or HAProxy ends."""
    scheme, registry = FORM.fullmatch(told.registry).groups()
    trusted, certificates = None, None
    if not scheme:
        trusted, certificates = trusted_by(told.ca), os.path.abspath(told.ca) if told.ca else "@system-ca"
        # HAProxy finds no address in a certificate either
        trusted.check_hostname = not servers.is_address(servers.place(registry)[0])
    login = text_of("LOGIN", told.login).strip() if told.login else None
    with servers.told_wait(registry):
        why = why_no_reply(registry, trusted)
    if why:
        print(f"can't push to {registry}: {why}", file=sys.stderr)
        return 1
    with servers.Adapter(folder, registry, certificates, login, told.at) as adapter:
        with servers.told_wait(registry):
            why = why_not(told.at)
        if why:
            print(f"{registry} {why}", file=sys.stderr)
            return 1
        print(f"It pushes to {told.registry}, until you interrupt it (Ctrl-C). In another shell:\n")
        print(f"  blobd push {told.at} NAME FILE", flush=True)
        while not adapter.ended():
            time.sleep(0.5)
    return 1


def main(words):
    told = words_of(words)
    if not FORM.fullmatch(told.registry):
        print(f"{told.registry} is no registry's HOST:PORT", file=sys.stderr)
        return 2
    if not PLACE.fullmatch(told.at):
        print(f"ADAPTER={told.at} is no HOST:PORT, as {ADDRESS}", file=sys.stderr)
        return 2
    if servers.missing("haproxy"):
        print("make adapter needs Debian's package: apt-get install --no-install-recommends haproxy")
        return 1
    if servers.any_taken({"ADAPTER": told.at}):
        return 1
    return servers.until_interrupted("adapter", lambda folder: serve(told, folder))


if __name__ == "__main__":
    sys.exit(main(sys.argv[1:]))
