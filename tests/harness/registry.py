"""The registry that deploy/ makes of `blobd`: HAProxy before one shard or several, and nginx before HAProxy."""
import base64
import contextlib
import json
import os
import random
import signal
import ssl
import sys
import tempfile
import time
from socket import SO_RCVBUF, SOL_SOCKET

import images
import servers

from . import wire
from .running import KIB, MIB, finished, told_by
from .suite import OPTIONS, check, equal
from .wire import sha256

LOGIN = ("alice", "wonder")
# of Redis
PASSWORD = "secret"
# what every reverse proxy needs
PROXY = ("haproxy", "openssl")
# how long a client uses an idle connection, in seconds: HAProxy ends it after thirty
IDLE = 10
# the statuses of a push in one chunk that goes well
UPLOADED = [202, 202, 201]


def credentials(login):
    """The field by which a client logs in."""
    return "Basic " + base64.b64encode(":".join(login).encode()).decode()


class Client(wire.Client):
    """A client of the service or of a reverse proxy: over TLS if it has certificates, and with a login if it is given
    one."""

    # how many bytes the system takes for a client that doesn't read, if that isn't left to it
    room = None
    # when it last had a reply
    heard = 0

    def __init__(self, address, login=None, certificates=None):
        super().__init__(servers.place(address))
        if login:
            self.fields = [("Authorization", credentials(login))]
        self.tls = certificates and ssl.create_default_context(cafile=certificates)

    def connect(self):
        super().connect()
        if self.room:
            self.socket.setsockopt(SOL_SOCKET, SO_RCVBUF, self.room)
        if self.tls:
            self.socket = self.tls.wrap_socket(self.socket, server_hostname=self.place[0])

    def ask(self, *request, **fields):
        """The reply to a request, over a new connection if the last one was idle for long."""
        if time.monotonic() - self.heard > IDLE:
            self.close()
        reply = super().ask(*request, **fields)
        self.heard = time.monotonic()
        return reply


class Site:
    """So many shards behind HAProxy, each with so many workers, and nginx before it if it is asked for, in a folder of
    their own. A memory is that of each shard, and more are settings of HAProxy."""

    def __init__(self, shards=1, nginx=False, memory=None, more=None, users=None, workers=2, within=None):
        with contextlib.ExitStack() as stack:
            self.folder = stack.enter_context(tempfile.TemporaryDirectory(prefix="blobd-site-", dir=within))
            servers.certificate(self.folder)
            servers.logins(self.folder, dict([LOGIN]) | (users or {}))
            self.certificates = os.path.join(self.folder, "ca", "front.crt")
            self.addresses = [servers.free_address() for _ in range(shards)]
            self.shards = [
                stack.enter_context(
                    servers.blobd(OPTIONS.program, self.folder, address, f"blobd{number}", memory, workers)
                )
                for number, address in enumerate(self.addresses, 1)
            ]
            self.haproxy = stack.enter_context(servers.HAProxy(self.folder, self.addresses, more=more, workers=workers))
            self.nginx = stack.enter_context(servers.Nginx(self.folder, self.haproxy)) if nginx else None
            self.stack = stack.pop_all()

    def __enter__(self):
        return self

    def __exit__(self, *_):
        self.stack.close()

    def client(self, login=LOGIN):
        """A client over TLS."""
        return Client(self.haproxy.tls, login, self.certificates)

    def slow_client(self, login=LOGIN):
        """One of nginx."""
        return Client(self.nginx.tls, login, self.certificates)

    def local(self):
        """One on this machine, without a login."""
        return Client(self.haproxy.local)

    def counted(self, name):
        """What HAProxy counts of a backend or of a server of it."""
        lines = self.haproxy.command("show stat").splitlines()
        return next(line for line in lines if line.startswith(f"{name},")).split(",")

    def shard_of(self, name):
        """The number of the shard that a repository is on, found by a blob that is pushed to it."""
        pushed = self.local().push(name, name.encode())
        target = f"/v2/{name}/blobs/{sha256(name.encode())}"
        asked = [Client(address).ask("HEAD", target, Connection="close").status for address in self.addresses]
        found = [at for at, status in enumerate(asked) if status == 200]
        check(f"{name} is on one shard", pushed == UPLOADED and len(found) == 1, (pushed, found))
        return found[0] if found else None

    def names_on_both_shards(self, of_each):
        """Names of so many repositories on each of two shards."""
        found = [[], []]
        for number in range(200):
            if all(len(names) == of_each for names in found):
                break
            shard = self.shard_of(f"team/app{number}")
            if shard is not None and len(found[shard]) < of_each:
                found[shard].append(f"team/app{number}")
        return found


def with_redis(redis):
    """The settings of HAProxy that keep manifests there."""
    return {"FRONT_REDIS": redis.address, "FRONT_REDIS_PASSWORD": PASSWORD}


@contextlib.contextmanager
def site_with_redis(folder, shards=1, clock=None, more=None):
    """A Redis, with the variables of a clock if it is given them, and a site whose manifests it keeps."""
    redis = servers.Redis(folder, PASSWORD)
    redis.settings |= clock or {}
    with redis, Site(shards, more=(more or {}) | with_redis(redis)) as site:
        yield redis, site


def restart(service, by=signal.SIGKILL, **settings):
    """Ends a server and starts it again, with these settings too."""
    service.end(by)
    service.settings |= settings
    service.start()


def referenced_by(redis, *words, password=PASSWORD):
    """The status of `referenced.py`, the lines that it prints, and what it says beside them."""
    words = [sys.executable, os.path.join(servers.HERE, "referenced.py"), *words, redis.address]
    ran = finished(words, env={"FRONT_REDIS_PASSWORD": password})
    return ran.returncode, ran.stdout.splitlines(), ran.stderr.splitlines()


class Repository:
    """A repository's manifests and tags, as a client asks for them."""

    def __init__(self, site, name):
        self.client, self.name, self.home = site.client(), name, f"/v2/{name}"

    def push(self, *contents):
        for content in contents:
            equal(f"a blob of {self.name}", self.client.push(self.name, content), UPLOADED)

    def put(self, reference, body, kind=images.MANIFEST):
        """The status, and the digest that is told or the error's code."""
        status, fields, told = self.client.ask("PUT", f"{self.home}/manifests/{reference}", body, Content_Type=kind)
        return status, json.loads(told)["errors"][0]["code"] if told else fields["Docker-Content-Digest"]

    def get(self, reference):
        """The manifest, or the status where it isn't there."""
        status, _, body = self.client.ask("GET", f"{self.home}/manifests/{reference}")
        return body if status == 200 else status

    def delete(self, reference):
        return self.client.ask("DELETE", f"{self.home}/manifests/{reference}").status

    def tags(self, query=""):
        """The tags, or the status if there are none, and the link to the rest."""
        status, fields, body = self.client.ask("GET", f"{self.home}/tags/list{query}")
        return json.loads(body)["tags"] if status == 200 else status, fields.get("Link", "")


def descriptor(content, kind="application/octet-stream"):
    return {"mediaType": kind, "digest": sha256(content), "size": len(content)}


def manifest_of(config, *layers):
    parts = {"config": descriptor(config), "layers": [descriptor(layer) for layer in layers]}
    return json.dumps({"schemaVersion": 2, "mediaType": images.MANIFEST, **parts}).encode()


def index_of(*manifests, **more):
    return json.dumps({"schemaVersion": 2, **more, "manifests": [descriptor(one) for one in manifests]}).encode()


def push_image(client, name):
    """A small image: the statuses of its blobs, and its manifest's."""
    config, content = b"{}", name.encode() * 1000
    pushed = [client.push(name, part) for part in (config, content)]
    manifest, target = manifest_of(config, content), f"/v2/{name}/manifests/one"
    return pushed, client.ask("PUT", target, manifest, Content_Type=images.MANIFEST).status


# What it gives if all goes well.
IMAGE_PUSHED = [UPLOADED] * 2, 201


def write_image(folder):
    """An image of six layers, from an empty file to 8 MiB, in the layout that OCI defines."""
    sizes = [0, 1, 5000, 70 * KIB, MIB, 8 * MIB]
    tars = [images.layer_of(f"file{at}", random.Random(at).randbytes(size)) for at, size in enumerate(sizes)]
    images.write_layout(folder, tars, "one", is_packed=True)


def skopeo(site, *words):
    """The exit status of `skopeo`, whose logins are kept in the site's folder, and the end of what it says."""
    return told_by(["skopeo", *words], cwd=site.folder, env={"REGISTRY_AUTH_FILE": f"{site.folder}/auth.json"})


def refusal_of(heard):
    """The status, the code and the message of a reply that refuses, if it is one as clients expect it."""
    status, fields, body = heard
    if fields["Docker-Distribution-Api-Version"] != "registry/2.0" or fields["Content-Type"] != "application/json":
        return status, None, fields.as_string()
    error = json.loads(body)["errors"][0]
    return status, error["code"], error["message"]


def is_refused(name, heard, status, code, word):
    """Checks that a reply is this refusal, and that its message has this word."""
    told = refusal_of(heard)
    check(name, told[:2] == (status, code) and word in told[2], told)
