"""Clients of other hands: each writes a value and waits to be told to go on with it, reads it, and asks as Riak's clients do.

curl, node, Java and perl write a value with `Expect: 100-continue`, and a client that sends the head alone has to be told to go on
before it sends a body. Each value is read again, by GET and by HEAD, and has to be the bytes that were sent. Python's client reads
and sets properties, takes bindings back, and sends words of queries that pass and words that are refused. A client whose tool isn't
here is left out, and said so.
"""
from __future__ import annotations

import http.client
import json
import random
import subprocess
import tempfile
import time
from collections.abc import Callable
from pathlib import Path

from server import HOST, Server
from trial import Findings, Result, Skipped, Whole, tool

NAME = "clients"
PROMISES = "curl, node, Java, perl and Python write with an expectation, read, and ask as Riak's clients do."
QUICK = True
FULL = SHORT = Whole()

VALUE_BYTES = 40_000
TOOL_SECONDS = 60
# curl sends its body a second later where it isn't told to go on; of an idle machine an answer takes a millisecond.
SLOWEST_CURL_SECONDS = 0.7
GO_ON = b"HTTP/1.1 100 Continue\r\n"

NODE = """
const [url, file] = process.argv.slice(2);
const body = require('fs').readFileSync(file);
const headers = { Expect: '100-continue', 'Content-Type': 'a/b', 'Content-Length': body.length };
const ask = require('http').request(url, { method: 'PUT', headers }, (answer) => { console.log(answer.statusCode); answer.resume(); });
ask.on('continue', () => ask.end(body));
ask.flushHeaders();
"""

JAVA = """
import java.net.URI;
import java.net.http.HttpClient;
import java.net.http.HttpRequest;
import java.net.http.HttpResponse;
import java.nio.file.Path;
import java.time.Duration;

public class Put {
    public static void main(String[] words) throws Exception {
        HttpRequest ask = HttpRequest.newBuilder(URI.create(words[0])).version(HttpClient.Version.HTTP_1_1).expectContinue(true)
            .timeout(Duration.ofSeconds(20)).header("Content-Type", "a/b").PUT(HttpRequest.BodyPublishers.ofFile(Path.of(words[1]))).build();
        System.out.println(HttpClient.newHttpClient().send(ask, HttpResponse.BodyHandlers.discarding()).statusCode());
    }
}
"""

PERL = """
use HTTP::Tiny;
my ($url, $file) = @ARGV;
open(my $in, '<:raw', $file) or die;
my $body = do { local $/; <$in> };
my $answer = HTTP::Tiny->new->request('PUT', $url, { content => $body, headers => { 'Expect' => '100-continue', 'Content-Type' => 'a/b' } });
print $answer->{status};
"""


def told_by(*words: str | Path) -> str:
    """What a tool prints."""
    return subprocess.run(words, capture_output=True, text=True, timeout=TOOL_SECONDS, check=False).stdout.strip()


def put_by_curl(url: str, file: Path, room: Path) -> str:
    told = told_by(tool("curl"), "-sS", "-o", room / "none", "-w", "%{http_code} %{time_total}", "-H", "Expect: 100-continue", "-H", "Content-Type: a/b", "-T", file, url)
    status, _, seconds = told.partition(" ")
    return status if float(seconds) < SLOWEST_CURL_SECONDS else f"{status} after {seconds} s"


def put_by_node(url: str, file: Path, room: Path) -> str:
    (room / "put.js").write_text(NODE, encoding="ascii")
    return told_by(tool("node"), room / "put.js", url, file)


def put_by_java(url: str, file: Path, room: Path) -> str:
    (room / "Put.java").write_text(JAVA, encoding="ascii")
    return told_by(tool("java"), room / "Put.java", url, file)


def put_by_perl(url: str, file: Path, room: Path) -> str:
    (room / "put.pl").write_text(PERL, encoding="ascii")
    return told_by(tool("perl"), room / "put.pl", url, file)


TOOLS: dict[str, Callable[[str, Path, Path], str]] = {"curl": put_by_curl, "node": put_by_node, "java": put_by_java, "perl": put_by_perl}


def ask(server: Server, method: str, path: str, body: bytes | None = None) -> tuple[http.client.HTTPResponse, bytes]:
    """The answer to a request of Python's client, and its body."""
    connection = http.client.HTTPConnection(HOST, server.port, timeout=TOOL_SECONDS)
    try:
        connection.request(method, path, body)
        answer = connection.getresponse()
        return answer, answer.read()
    finally:
        connection.close()


def try_tools(found: Findings, server: Server, value: bytes) -> int:
    """Each tool writes the value, which is read again. Gives how many there were."""
    tried = 0
    with tempfile.TemporaryDirectory() as folder:
        room = Path(folder)
        file = room / "value"
        file.write_bytes(value)
        for name, put in TOOLS.items():
            path = f"/buckets/clients/keys/{name}"
            try:
                status = put(f"http://{HOST}:{server.port}{path}", file, room)
            except Skipped as lack:
                found.say(f"{name} is left out: {lack}")
                continue
            tried += 1
            found.say(f"{name}: {status}")
            found.hold(status == "204", f"{name} is answered 204, once and at once: {status}")
            answer, body = ask(server, "GET", path)
            found.hold((answer.status, body, answer.getheader("Content-Type")) == (200, value, "a/b"), f"what {name} wrote is read: {answer.status}")
            answer, body = ask(server, "HEAD", path)
            found.hold((answer.status, body, answer.getheader("Content-Length")) == (200, b"", str(len(value))), f"and by HEAD: {answer.status}")
    return tried


def try_head_alone(found: Findings, server: Server) -> None:
    """A client that sends its head, and its body once it is told to go on; and one whose expectation is another."""
    head = "PUT /buckets/clients/keys/alone HTTP/1.1\r\nHost: h\r\nContent-Length: 3\r\nExpect: {}\r\n\r\n"
    with server.client(head.format("100-continue").encode()) as client:
        begun = time.monotonic()
        told = client.until(b"\r\n\r\n")
        took = time.monotonic() - begun
        found.hold(told.startswith(GO_ON) and took < 1.0, f"a head alone is told to go on: {told!r} after {took:.2f} s")
        client.send(b"abc")
        found.hold(client.hear().status == 204, "and its body is taken")
    found.hold(ask(server, "GET", "/buckets/clients/keys/alone")[1] == b"abc", "and read")
    with server.client(head.format("200-ok").encode()) as client:
        told, _ = client.read_to_end()
        found.hold(told.startswith(b"HTTP/1.1 417 "), f"another expectation is 417: {told[:40]!r}")


def try_queries(found: Findings, server: Server) -> None:
    """Words of queries, and properties, as Riak's clients send them."""
    for query, status in (
        ("pr=1&pw=quorum&rw=all&dw=0&n_val=1&timeout=60000&sloppy_quorum=true&basic_quorum=false&notfound_ok=true", 404),
        ("pr=9", 400),
        ("dw=1", 400),
        ("notfound_ok=false", 400),
        ("timeout=soon", 400),
    ):
        answer, body = ask(server, "GET", f"/buckets/clients/keys/none?{query}")
        found.hold(answer.status == status and (status == 404 or body == b"bad query\n"), f"{query}: {answer.status} {body!r}")
    _, body = ask(server, "GET", "/buckets/a%20b/props")
    props = json.loads(body)["props"]
    wanted = {"name": "a%20b", "n_val": 1, "allow_mult": True, "last_write_wins": False, "r": "quorum", "w": "quorum"}
    found.hold(wanted.items() <= props.items(), f"properties: {props}")
    for method, sent in (("PUT", body), ("DELETE", None)):
        answer, _ = ask(server, method, "/buckets/a%20b/props", sent)
        found.hold(answer.status == 204, f"{method} of properties: {answer.status}")


def run(program: Path, seed: int, _size: Whole) -> Result:
    found = Findings()
    with Server.serve(program) as server:
        tried = try_tools(found, server, random.Random(seed).randbytes(VALUE_BYTES))
        try_head_alone(found, server)
        try_queries(found, server)
    return found.result(f"{tried} tools and Python")
