"""Has nginx and stunnel stand before a store, by the files of the folder service, and asks it through them as each of its users.

The files are taken as they are, but for ports, folders and the rate; certificates and passwords are made by the lines of
docs/OPERATIONS.md. Through nginx each user has to be let through or refused as the page says, whatever a target looks like: a bucket
`a/b`, spelled `a%2Fb`, has its properties set by the admin alone. Nothing of what was refused may have reached the store. Of targets that
are drawn from the parts of routes, escapes, dots and slashes, a writer's PUT and DELETE may write a key or be refused, and nothing else.
Values and contexts of the greatest length have to pass, and of many requests at once no more than the burst and the rate. Through stunnel
the holder of a certificate that is listed is served, and nobody else.
"""
from __future__ import annotations

import base64
import contextlib
import http.client
import os
import pwd
import random
import re
import socket
import ssl
import struct
import subprocess
import tempfile
import time
from collections.abc import Iterator, Mapping
from dataclasses import dataclass
from pathlib import Path

import kept
from server import HOST, Server, free_port, request, stopped_in_order
from trial import TOP, Findings, Result, Skipped, line_of_page, run_line, tool

NAME = "proxies"
PROMISES = "Behind nginx users may do what their roles say, and behind stunnel who has a certificate."
QUICK = True


@dataclass(frozen=True)
class Size:
    """How many targets are drawn by chance."""

    targets: int


FULL = Size(targets=5_000)
SHORT = Size(targets=500)

FOLDER = TOP / "service"
PAGE = TOP / "docs" / "OPERATIONS.md"
STORE, LISTENS, ACCEPTS = "127.0.0.1:8098", "listen 8443", "accept = 8443"
NAME_OF_HOST = "localhost"
STUNNEL_USER = "stunnel4"

NGINX_MAIN = """daemon off;
worker_processes 1;
{user}
pid {room}/nginx.pid;
error_log {room}/error.log;
events {{ }}
http {{
    access_log off;
    client_body_temp_path {room}/body;
    proxy_temp_path {room}/proxy;
    fastcgi_temp_path {room}/fastcgi;
    uwsgi_temp_path {room}/uwsgi;
    scgi_temp_path {room}/scgi;
    include {room}/dvvstore.conf;
}}
"""

START_SECONDS, ANSWER_SECONDS, END_SECONDS = 20, 30, 30
USERS = ("admin", "app", "reader", "ADMIN")
KEY, OTHER = "/buckets/b/keys/k", "/buckets/b/keys/other"
TYPED, OLD = "/types/default/buckets/b", "/riak/b/other-route"
ESCAPED = "/buckets/a%2Fb/props"
BINDS = b'{"props":{"precommit":"no"}}'
MOST_BYTES = 65_536
MOST_ENTRIES = 1_024
RATE, SLOW_RATE, NO_RATE, BURST = "rate=100r/s", "rate=1r/s", "rate=100000r/s", 200
ASKED_TOGETHER = 500

# What each user asks, and its status. Where a body is needed one is sent.
ASKED: tuple[tuple[str, str, str, int], ...] = (
    ("", "GET", "/ping", 401),
    ("", "PUT", OTHER, 401),
    ("wrong", "GET", "/ping", 401),
    ("wrong", "PUT", OTHER, 401),
    ("nameless", "PUT", OTHER, 401),
    ("app", "PUT", KEY, 204),
    ("app", "POST", KEY, 204),
    ("reader", "GET", "/ping", 200),
    ("reader", "GET", KEY, 300),
    ("reader", "HEAD", KEY, 300),
    ("reader", "GET", "/buckets/b/props", 200),
    ("reader", "PUT", OTHER, 403),
    ("reader", "POST", OTHER, 403),
    ("reader", "DELETE", KEY, 403),
    ("reader", "PUT", ESCAPED, 403),
    ("ADMIN", "GET", "/ping", 200),
    ("ADMIN", "PUT", OTHER, 403),
    ("app", "GET", ESCAPED, 200),
    ("app", "PUT", ESCAPED, 403),
    ("app", "PUT", f"{ESCAPED}?r=1", 403),
    ("app", "PUT", "/buckets/b/props", 403),
    ("app", "PUT", "/buckets/b/props/", 403),
    ("app", "PUT", "/buckets/b/keys/k/../../props", 403),
    ("app", "PUT", "/x/../buckets/b/props", 403),
    ("app", "PUT", "//buckets/b/props", 403),
    ("app", "PUT", "/buckets//props", 403),
    ("app", "PUT", "/buckets/b//props", 403),
    ("app", "PUT", "/buckets/b/%70rops", 403),
    ("app", "PUT", "/buckets/b%2Fkeys/props", 403),
    ("app", "PUT", "/types/default%2Fbuckets/b/props", 403),
    ("app", "PUT", "/buckets/b/props?/buckets/b/keys/k", 403),
    ("app", "PUT", "/buckets/b/props#/buckets/b/keys/k", 403),
    ("app", "PUT", "/buckets/b/keys/k#/../../props", 403),
    ("app", "PUT", "/buckets/b/keys/%2e%2e/props", 403),
    ("app", "PUT", f"{TYPED}/props", 403),
    ("app", "DELETE", f"{TYPED}/props", 403),
    ("app", "DELETE", "/buckets/b/props", 403),
    ("app", "PUT", "/hooks/no", 403),
    ("app", "PUT", "/hooks//no", 403),
    ("app", "PUT", "//hooks/no", 403),
    ("app", "PUT", "/./hooks/no", 403),
    ("app", "PUT", "/../hooks/no", 400),
    ("app", "PUT", "/%68ooks/no", 403),
    ("app", "PUT", "http://localhost/hooks/no", 403),
    ("app", "PUT", "http://localhost/buckets/b/props", 403),
    ("app", "PUT", f"{TYPED}/keys/other-route", 204),
    ("app", "DELETE", OLD, 204),
    ("reader", "PUT", OLD, 403),
    ("reader", "OPTIONS", KEY, 204),
    ("app", "DELETE", "/hooks/no", 403),
    ("app", "PUT", "/buckets/b/keys/..%2F..%2Fprops", 204),
    ("app", "PUT", "/buckets/b/keys/a%00b", 400),
    ("app", "PUT", "/buckets/b/keys/a%zz", 400),
    ("app", "PUT", "/buckets/a%2Fb/keys/x%3Fy%23z?w=3", 204),
    ("admin", "PUT", "/hooks/no", 204),
    ("admin", "PUT", ESCAPED, 204),
    ("app", "PUT", "/buckets/a%2Fb/keys/k", 403),
    ("admin", "DELETE", "/hooks/no", 204),
    ("admin", "DELETE", OTHER, 204),
)


def body_of(method: str, path: str) -> bytes | None:
    if method not in ("PUT", "POST"):
        return None
    return BINDS if "/props" in path else kept.REJECTS if "ooks/" in path else b"v"


# What targets are drawn from.
PARTS = (
    *("/", "/", "/", "/", "/", "//", "/buckets", "/keys", "/props", "/hooks", "/riak", "/types/default", "/types", "/b", "/no"),
    *("buckets", "keys", "props", "hooks", "b", "no", ".", "..", "/..", "/../..", "%2F", "%2f", "%2e%2e", "%70rops", "%68ooks"),
    *("?", "?w=1", "#", ";", "%3F", "%23", "%25", "%5C", "\\", "&", "=", ":", "@", "http://b", "*"),
)
MOST_PARTS = 8
DRAWN_AFTER = (
    *("", "/buckets/b", "/buckets/b/keys/k", "/buckets/keys/keys", "/hooks/no", "/buckets/b/props"),
    *("/types/default/buckets/b", "/riak/b", "/buckets/b%2Fkeys", "/buckets/b%2fkeys/props", "/buckets/b%3F/props"),
)


@dataclass(frozen=True)
class Proxy:
    """A proxy that runs: where it listens, and the certificate that it shows."""

    port: int
    certificate: Path

    def connection(self, client: tuple[Path, Path] | None = None) -> http.client.HTTPSConnection:
        context = ssl.create_default_context(cafile=str(self.certificate))
        if client is not None:
            context.load_cert_chain(*client)
        return http.client.HTTPSConnection(NAME_OF_HOST, self.port, timeout=ANSWER_SECONDS, context=context)


def wait_until_it_listens(port: int, process: subprocess.Popen[bytes], log: Path) -> None:
    until = time.monotonic() + START_SECONDS
    while time.monotonic() < until and process.poll() is None:
        with contextlib.suppress(OSError), socket.create_connection((HOST, port), timeout=1):
            return
        time.sleep(0.05)
    raise ValueError(f"the proxy doesn't listen: {log.read_text(errors='replace') if log.exists() else ''}")


@contextlib.contextmanager
def running(words: list[str], port: int, log: Path) -> Iterator[None]:
    """A proxy for as long as it is needed."""
    with log.open("wb") as told, subprocess.Popen(words, stdin=subprocess.DEVNULL, stdout=told, stderr=told) as process:
        try:
            wait_until_it_listens(port, process, log)
            yield
        finally:
            process.terminate()
            try:
                process.wait(END_SECONDS)
            except subprocess.TimeoutExpired:
                process.kill()


def run_page(found: Findings, word: str, room: Path, given: str = "", **named: object) -> None:
    """Runs the line of the page that has this word, with the room in the place of the folders of the system."""
    line = re.sub(r"/etc/(nginx|stunnel)", str(room), line_of_page(PAGE, word))
    ran = run_line(line, room, given, NAME=NAME_OF_HOST, **named)
    found.hold(ran.returncode == 0, f"{word}: {ran}")


def replaced(found: Findings, text: str, places: Mapping[str, str]) -> str:
    """A file of the folder with ports and folders of the trial."""
    for written, word in places.items():
        found.hold(written in text, f"{written!r} stands in the file of the proxy")
        text = text.replace(written, word)
    return text


# nginx


def heads_of(user: str) -> dict[str, str]:
    """The head by which a user shows who it is. Each one's password is its name backwards."""
    if not user:
        return {}
    pair = {"wrong": "admin:no", "nameless": f":{'admin'[::-1]}"}.get(user, f"{user}:{user[::-1]}")
    return {"Authorization": "Basic " + base64.b64encode(pair.encode()).decode()}


class Asker:
    """A client of a proxy: each request by a connection that is kept, as whom it is said."""

    def __init__(self, connection: http.client.HTTPSConnection):
        self.connection = connection

    def ask(self, user: str, method: str, path: str, body: object = None, **heads: str) -> tuple[int, bytes, Mapping[str, str]]:
        given = {name.replace("_", "-"): value for name, value in heads.items()}
        self.connection.request(method, path, body, {"Host": NAME_OF_HOST, **heads_of(user), **given})
        answer = self.connection.getresponse()
        return answer.status, answer.read(), answer.headers


def make_users(found: Findings, room: Path) -> None:
    """Makes the certificate and the passwords by the lines of the page."""
    run_page(found, "nginx/dvvstore.key", room)
    for user in USERS:
        run_page(found, "openssl passwd", room, f"{user[::-1]}\n", app=user)


@contextlib.contextmanager
def nginx(found: Findings, server: Server, room: Path, rate: str) -> Iterator[Proxy]:
    """nginx before a server, by its file but for the rate."""
    program, port = tool("nginx"), free_port()
    text = (FOLDER / "nginx.conf").read_text(encoding="utf-8")
    places = {STORE: f"{HOST}:{server.port}", LISTENS: f"listen {HOST}:{port}", RATE: rate, "/etc/nginx": str(room)}
    text = replaced(found, text, places)
    (room / "dvvstore.conf").write_text(text, encoding="utf-8")
    main = room / "main.conf"
    main.write_text(NGINX_MAIN.format(room=room, user="user root;" if os.geteuid() == 0 else ""), encoding="utf-8")
    with running([program, "-p", str(room), "-e", "stderr", "-c", str(main)], port, room / "told.log"):
        yield Proxy(port, room / "dvvstore.crt")


def try_users(found: Findings, server: Server, asker: Asker) -> None:
    """Each user is let through or refused, and nothing of what is refused reaches the store."""
    for user, method, path, wanted in ASKED:
        status = asker.ask(user, method, path, body_of(method, path))[0]
        found.hold(status == wanted, f"{user or 'nobody'}: {method} {path}: {status} in place of {wanted}")
    with server.client() as client:
        found.hold(b'"precommit":null' in client.must(200, "GET", "/buckets/b/props").body, "nothing was bound by who isn't the admin")
        found.hold(b'"precommit":"no"' in client.must(200, "GET", ESCAPED).body, "the admin has bound a hook")
        found.hold(client.ask("GET", OTHER).status == 404, "nobody has written but who may")


def drawn_target(chance: random.Random) -> str:
    return chance.choice(DRAWN_AFTER) + "".join(chance.choices(PARTS, k=chance.randint(0, MOST_PARTS)))


def try_targets(found: Findings, proxy: Proxy, targets: int, chance: random.Random) -> int:
    """Of targets that are drawn a writer changes keys alone: what is 204 has the tag of a write. Gives how many were let through.

    One key has as many siblings as there may be in the end, and then a write is 409.
    """
    let = 0
    with contextlib.closing(proxy.connection()) as connection:
        asker = Asker(connection)
        for _ in range(targets):
            method, target = chance.choice(("PUT", "DELETE")), drawn_target(chance) or "/"
            body = chance.choice((BINDS, kept.REJECTS)) if method == "PUT" else None
            status, _, heads = asker.ask("app", method, target, body)
            let += status == 204
            found.hold(status != 204 or "X-Riak-Tag" in heads, f"a writer's {method} {target} does more than write a key")
            found.hold(status in (204, 400, 403, 404, 405, 409), f"a writer's {method} {target}: {status}")
    return let


def longest_context() -> str:
    """A context with as many entries as one may have, none of which the store knows."""
    entries = (struct.pack(">BHQ", 0, place, 1) for place in range(MOST_ENTRIES))
    return base64.b64encode(struct.pack(">BH", 2, MOST_ENTRIES) + b"".join(entries)).decode()


def try_lengths(found: Findings, server: Server, asker: Asker, chance: random.Random) -> None:
    """The longest value and the longest context pass, a longer value doesn't, and chunks are put together."""
    value, path = chance.randbytes(MOST_BYTES), "/buckets/b/keys/long"
    found.hold(asker.ask("app", "PUT", path, value)[0] == 204, "the longest value is put")
    found.hold(asker.ask("app", "GET", path)[:2] == (200, value), "the longest value is read")
    context = longest_context()
    with server.client() as client:
        straight = client.ask("PUT", path, b"v", context)
    through = asker.ask("app", "PUT", path, b"v", X_Riak_Vclock=context)
    found.hold(through[:2] == (straight.status, straight.body) and straight.status == 412, f"the longest context: {through}, {straight}")
    chunked = asker.ask("app", "PUT", "/buckets/b/keys/chunks", iter([b"in ", b"parts"]))
    found.hold(chunked[0] == 204 and asker.ask("app", "GET", "/buckets/b/keys/chunks")[1] == b"in parts", f"chunks: {chunked}")
    with contextlib.closing(asker.connection):
        found.hold(asker.ask("app", "PUT", path, bytes(MOST_BYTES + 1))[0] == 413, "a longer value is refused")


def try_plain(found: Findings, proxy: Proxy) -> None:
    """Without TLS nothing is answered but that it is missing; nor by TLS 1.1."""
    with contextlib.closing(http.client.HTTPConnection(HOST, proxy.port, timeout=ANSWER_SECONDS)) as plain:
        plain.request("GET", "/ping", headers=heads_of("admin"))
        found.hold(plain.getresponse().status == 400, "a request without TLS is refused")
    words = [tool("openssl"), "s_client", "-connect", f"{HOST}:{proxy.port}", "-tls1_1", "-cipher", "ALL:@SECLEVEL=0"]
    ran = subprocess.run(words, stdin=subprocess.DEVNULL, capture_output=True, timeout=ANSWER_SECONDS)
    found.hold(ran.returncode != 0, "TLS 1.1 is refused")


def try_rate(found: Findings, proxy: Proxy) -> int:
    """Who asks for more than the rate is told so. Gives how many were let through."""
    begun = time.monotonic()
    ping = request("GET", "/ping", **heads_of("reader"))
    context = ssl.create_default_context(cafile=str(proxy.certificate))
    statuses: list[int] = []
    with socket.create_connection((HOST, proxy.port), timeout=ANSWER_SECONDS) as straight:
        with context.wrap_socket(straight, server_hostname=NAME_OF_HOST) as connection:
            connection.sendall(ping * (ASKED_TOGETHER - 1) + request("GET", "/ping", Connection="close", **heads_of("reader")))
            come = b""
            while more := connection.recv(MOST_BYTES):
                come += more
    statuses = [int(status) for status in re.findall(rb"HTTP/1\.1 (\d+) ", come)]
    let = statuses.count(200)
    found.say(f"of {ASKED_TOGETHER} requests at once {let} were let through, {statuses.count(429)} were too many")
    most = BURST + 1 + (time.monotonic() - begun)
    found.hold(0 < let <= most and len(statuses) == ASKED_TOGETHER and set(statuses) == {200, 429}, f"the rate: {let} of {len(statuses)}")
    return let


def try_nginx(found: Findings, program: Path, room: Path, targets: int, chance: random.Random) -> str:
    tool("nginx")
    make_users(found, room)
    with stopped_in_order(Server.serve(program)) as server:
        with nginx(found, server, room, NO_RATE) as proxy:
            with contextlib.closing(proxy.connection()) as connection:
                asker = Asker(connection)
                try_users(found, server, asker)
                try_lengths(found, server, asker, chance)
            through = try_targets(found, proxy, targets, chance)
            try_plain(found, proxy)
        with nginx(found, server, room, SLOW_RATE) as proxy:
            let = try_rate(found, proxy)
    return f"nginx: {len(ASKED)} requests of users, {through} of {targets} targets, {let} of {ASKED_TOGETHER} at once"


# stunnel


@contextlib.contextmanager
def stunnel(found: Findings, server: Server, room: Path) -> Iterator[Proxy]:
    """stunnel before a server, by its file. Its user is taken where there is one and it may be taken."""
    program, port = tool("stunnel4"), free_port()
    run_page(found, "stunnel/dvvstore.key", room)
    for client in ("CLIENT", "other"):
        run_page(found, "CN=CLIENT", room, CLIENT=client)
    run_page(found, "cat CLIENT.crt", room)
    text = (FOLDER / "stunnel.conf").read_text(encoding="utf-8")
    places = {STORE: f"{HOST}:{server.port}", ACCEPTS: f"accept = {HOST}:{port}", "/etc/stunnel": str(room)}
    text = replaced(found, text, places)
    try:
        pwd.getpwnam(STUNNEL_USER)
        has_user = os.geteuid() == 0
    except KeyError:
        has_user = False
    if not has_user:
        text = re.sub(r"(?m)^set[ug]id = .*$", "", text)
    (room / "stunnel.conf").write_text(text, encoding="utf-8")
    with running([program, str(room / "stunnel.conf")], port, room / "stunnel.log"):
        yield Proxy(port, room / "dvvstore.crt")


def is_served(proxy: Proxy, client: tuple[Path, Path] | None) -> bool:
    with contextlib.closing(proxy.connection(client)) as connection:
        try:
            connection.request("PUT", KEY, b"v")
            with connection.getresponse() as answer:
                is_put = answer.status == 204
            connection.request("GET", KEY)
            with connection.getresponse() as answer:
                return is_put and answer.read() == b"v"
        except (ssl.SSLError, ConnectionError, http.client.RemoteDisconnected):
            return False


def try_stunnel(found: Findings, program: Path, room: Path) -> str:
    with stopped_in_order(Server.serve(program)) as server, stunnel(found, server, room) as proxy:
        found.hold(not is_served(proxy, None), "who has no certificate is served")
        found.hold(not is_served(proxy, (room / "other.crt", room / "other.key")), "who has another certificate is served")
        with server.client() as client:
            found.hold(client.ask("GET", KEY).status == 404, "nobody has written")
        found.hold(is_served(proxy, (room / "CLIENT.crt", room / "CLIENT.key")), "who has a certificate isn't served")
    return "stunnel: 1 of 3 clients"


def run(program: Path, seed: int, size: Size) -> Result:
    tool("openssl")
    found, chance, figures, lacking = Findings(), random.Random(seed), [], []
    tries = (lambda room: try_nginx(found, program, room, size.targets, chance), lambda room: try_stunnel(found, program, room))
    for one in tries:
        with tempfile.TemporaryDirectory(prefix="trial-") as room:
            try:
                figures.append(one(Path(room)))
            except Skipped as reason:
                lacking.append(str(reason))
                found.say(f"left out: {reason}")
    if not figures:
        raise Skipped(", ".join(lacking))
    return found.result("; ".join(figures + lacking))
