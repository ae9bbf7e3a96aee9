#!/usr/bin/env python3
"""Writes the dialogues of this folder: the bytes that clients send, a connection each, and those of the answers to them.

    make_dialogues.py        NAME.requests and NAME.answers, for each name in DIALOGUES

A dialogue is a function that gives exchanges: a request, and beside it the answer that the rules ask for. No store is asked. The
store that is meant has three vnodes of the first start, numbered 0, 1 and 2, all within reach, and nothing is written in it. Between
two connections, each of which has a store of its own, stands the separator of records, on both sides.
"""
import argparse
import base64
import hashlib
import itertools
import struct
from pathlib import Path

HERE = Path(__file__).resolve().parent
HOOKS = HERE.parent / "hooks"
VNODES = 3

PHRASES = {
    100: "Continue",
    200: "OK",
    204: "No Content",
    300: "Multiple Choices",
    304: "Not Modified",
    400: "Bad Request",
    403: "Forbidden",
    404: "Not Found",
    405: "Method Not Allowed",
    409: "Conflict",
    411: "Length Required",
    412: "Precondition Failed",
    413: "Payload Too Large",
    417: "Expectation Failed",
    422: "Unprocessable Entity",
    500: "Internal Server Error",
    501: "Not Implemented",
}
TEXT = "text/plain"
OCTETS = "application/octet-stream"
JSON = "application/json"
# The methods of each route.
METHODS = {
    "root": "GET, HEAD, OPTIONS",
    "ping": "GET, HEAD, OPTIONS",
    "key": "GET, HEAD, PUT, POST, DELETE, OPTIONS",
    "hook": "PUT, DELETE, OPTIONS",
    "props": "GET, HEAD, PUT, DELETE, OPTIONS",
}
NOTHING = b""  # in place of an answer, where the connection has ended or the request is cut
SEPARATOR = b"\x1e"
NEXT = SEPARATOR, SEPARATOR  # in place of an exchange, where another connection begins


def as_bytes(text):
    return text.encode() if isinstance(text, str) else text


# Keys, tags and contexts


class Key:
    """A key of a bucket, and the vnodes that coordinate its writes; its target is made of the names as they are, or as it is spelled."""

    def __init__(self, bucket, name, target=None):
        self.target = target or f"/buckets/{bucket}/keys/{name}"
        hashed = struct.pack(">I", len(bucket)) + bucket.encode() + name.encode()
        self.place = int.from_bytes(hashlib.sha1(hashed).digest()[:8], "big") % VNODES

    def vnode(self, at=0):
        """The vnode at an index of the key's preference list."""
        return (self.place + at) % VNODES


def first_key(bucket, stem):
    """A key of a bucket whose writes vnode 0 coordinates, and with `at=1` vnode 1; its name begins so."""
    keys = (Key(bucket, f"{stem}{number}") for number in itertools.count())
    return next(key for key in keys if key.vnode() == 0)


def tag(dot):
    vnode, counter = dot
    return f"{vnode}-{counter}"


def index_first(vnode):
    """A vnode's number as its index and its incarnation."""
    return vnode % 65536, vnode // 65536


def token(entries, version=2, count=None):
    """A context as text, from its entries, pairs of a vnode and a counter; one that doesn't read has another version or count."""
    head = struct.pack(">BH", version, len(entries) if count is None else count)
    if version == 1:
        rows = [struct.pack(">IQ", vnode, counter) for vnode, counter in entries]
    else:
        rows = [struct.pack(">BHQ", *index_first(vnode), counter) for vnode, counter in entries]
    return base64.b64encode(head + b"".join(rows)).decode()


def context(clock, version=2):
    """The context of a clock, a dictionary from vnodes to counters. Answers have version 2, since all indexes are below 255."""
    order = index_first if version == 2 else None
    return token([(vnode, clock[vnode]) for vnode in sorted(clock, key=order)], version)


# Requests


def request(line, *fields, body=None):
    """A request, from its method and target. A body brings its length with it."""
    lines = [f"{line} HTTP/1.1", "Host: store", *fields]
    if body is None:
        body = ""
    else:
        lines.append(f"Content-Length: {len(body)}")
    return "\r\n".join([*lines, "", ""]).encode() + as_bytes(body)


def typed(media):
    return f"Content-Type: {media}"


def seen(clock, version=2):
    return f"X-Riak-Vclock: {context(clock, version)}"


# Answers


def answer(status, media=None, clock=None, dot=None, closes=False, body=None, allow=None, etag=None, shows_key=False, deleted=False):
    """An answer: its fields in their order, each where it applies. An empty clock is not told."""
    lines = [f"HTTP/1.1 {status} {PHRASES[status]}"]
    if media is not None:
        lines.append(f"Content-Type: {media}")
    if clock:
        lines.append(f"X-Riak-Vclock: {context(clock)}")
    if dot is not None:
        lines.append(f"X-Riak-Tag: {tag(dot)}")
    if closes:
        lines.append("Connection: close")
    if body is not None:
        lines.append(f"Content-Length: {len(body)}")
    if allow is not None:
        lines.append(f"Allow: {allow}")
    lines += ["X-Content-Type-Options: nosniff", "Server: dvvstore"]
    if etag is not None:
        lines.append(f'ETag: "{etag}"')
    if shows_key:
        lines.append("Vary: Accept")
    if deleted:
        lines.append("X-Riak-Deleted: true")
    return "\r\n".join([*lines, "", ""]).encode() + as_bytes(body or "")


def head_of(answered):
    """An answer without its body, as to HEAD: its head ends with the first empty line."""
    return answered[: answered.index(b"\r\n\r\n") + 4]


def done():
    return answer(204)


def written(vnode, counter):
    return answer(204, dot=(vnode, counter))


def told(status, word, allow=None, closes=False):
    return answer(status, TEXT, closes=closes, body=f"{word}\n", allow=allow)


def resources():
    """Where the resources lie."""
    names = {
        "bucket_type": "/types",
        "buckets": "/buckets",
        "object": "/buckets",
        "ping": "/ping",
        "props": "/buckets",
        "raw": "/riak",
    }
    members = ",".join(f'"riak_kv_wm_{name}":"{path}"' for name, path in names.items())
    return answer(200, JSON, body=f"{{{members}}}")


def options(route):
    return answer(204, allow=METHODS[route])


def no_method(route):
    """A fault: the route has no such method."""
    return 405, "method", METHODS[route]


def value(clock, text, media=TEXT, dot=None):
    """One value, of the write of a dot: of the vnode's that wrote most, unless it is told."""
    dot = dot or max(clock.items(), key=lambda entry: entry[1])
    return answer(200, media, clock, body=text, etag=tag(dot), shows_key=True)


def not_found(clock=None, closes=False):
    return answer(404, TEXT, clock, closes=closes, body="not found\n", shows_key=True)


def deleted(clock):
    """Tombstones alone."""
    return answer(404, TEXT, clock, body="not found\n", shows_key=True, deleted=True)


def known(clock, etag):
    """What the client has already."""
    return answer(304, clock=clock, etag=etag, shows_key=True)


def choices(clock, *dots):
    """Several siblings: their tags, in order."""
    lines = ["Siblings:", *map(tag, sorted(dots))]
    return answer(300, TEXT, clock, body="".join(f"{line}\n" for line in lines), etag=context(clock), shows_key=True)


def parts(clock, siblings):
    """Several siblings, a dictionary from dots to texts with None for a delete: all of them as parts, in order."""
    texts = [text for text in siblings.values() if text is not None]
    number = next(n for n in range(len(siblings) * 70000) if not any(f"--s{n}" in text for text in texts))
    body = ""
    for dot, text in sorted(siblings.items()):
        kind = "X-Riak-Deleted: true" if text is None else f"Content-Type: {TEXT}"
        body += f"\r\n--s{number}\r\n{kind}\r\nX-Riak-Tag: {tag(dot)}\r\n\r\n{text or ''}"
    media = f"multipart/mixed; boundary=s{number}"
    return answer(300, media, clock, body=f"{body}\r\n--s{number}--\r\n", etag=f"{context(clock)}-parts", shows_key=True)


def properties(bucket, precommit, resolver):
    """What is bound to a bucket, whose name stands as in a path, and what is so with each."""
    def name(hook):
        return "null" if hook is None else f'"{hook}"'

    bound = f'"precommit":{name(precommit)},"resolver":{name(resolver)}'
    always = '"last_write_wins":false,"r":"quorum","w":"quorum"'
    return answer(200, JSON, body=f'{{"props":{{"allow_mult":true,"n_val":{VNODES},{bound},"name":"{bucket}",{always}}}}}')


# Dialogues


def cart():
    """A key from its first write to its delete."""
    ann = Key("carts", "ann")
    one, two = ann.vnode(0), ann.vnode(1)
    yield request("GET /ping"), answer(200, TEXT, body="OK")
    yield request(f"GET {ann.target}"), not_found()
    yield request(f"PUT {ann.target}", typed(TEXT), body="milk"), written(one, 1)
    yield request(f"GET {ann.target}"), value({one: 1}, "milk")

    # A write that has seen the first, and two that have seen the second, at two vnodes. Contexts of version 1 are read too.
    yield request(f"PUT {ann.target}", typed(TEXT), seen({one: 1}), body="milk, bread"), written(one, 2)
    yield request(f"GET {ann.target}"), value({one: 2}, "milk, bread")
    yield request(f"PUT {ann.target}", typed(TEXT), seen({one: 2}), body="milk, bread, eggs"), written(one, 3)
    yield request(f"PUT {ann.target}?at=1", typed(TEXT), seen({one: 2}, version=1), body="milk, rye --s0"), written(two, 1)
    both = {one: 3, two: 1}
    yield request(f"GET {ann.target}"), choices(both, (one, 3), (two, 1))
    siblings = {(one, 3): "milk, bread, eggs", (two, 1): "milk, rye --s0"}
    yield request(f"GET {ann.target}?r=all", "Accept: text/html, Multipart/Mixed;q=1"), parts(both, siblings)
    # A weight of nothing is a no.
    for accepted in "multipart/mixed;q=0", "multipart/mixed ; Q=0.000, text/plain", "multipart/mixed;a=b;q=0.;c=d":
        yield request(f"GET {ann.target}", f"Accept: {accepted}"), choices(both, (one, 3), (two, 1))
    for accepted in "multipart/mixed;q=0.001", "multipart/mixed;q=0, multipart/mixed", "multipart/mixed;q=00", "multipart/mixed;qq=0":
        yield request(f"GET {ann.target}", f"Accept: {accepted}"), parts(both, siblings)
    yield request(f"GET {ann.target}?vtag={tag((two, 1))}"), value(both, "milk, rye --s0", dot=(two, 1))
    yield request(f"GET {ann.target}?vtag={tag((one, 2))}"), not_found(both)

    # What has seen both takes their place, and so does the delete of that.
    yield request(f"POST {ann.target}", typed(TEXT), seen(both), body="milk, rye, eggs"), written(one, 4)
    yield request(f"GET {ann.target}"), value({one: 4, two: 1}, "milk, rye, eggs")
    yield request(f"DELETE {ann.target}", seen({one: 4, two: 1}, version=1)), written(one, 5)
    gone = {one: 5, two: 1}
    yield request(f"GET {ann.target}"), deleted(gone)
    yield request(f"GET {ann.target}?vtag={tag((one, 5))}"), deleted(gone)

    # A write that has not seen the delete stays beside it.
    yield request(f"PUT {ann.target}?at=2&w=all", typed(TEXT), seen({one: 4, two: 1}), body="tea"), written(ann.vnode(2), 1)
    last = {**gone, ann.vnode(2): 1}
    yield request(f"GET {ann.target}", "Accept: multipart/mixed"), parts(last, {(one, 5): None, (ann.vnode(2), 1): "tea"})

    # Another key counts for itself; a value without a type is bytes.
    eve = Key("carts", "eve")
    yield request(f"PUT {eve.target}", body=""), written(eve.vnode(), 1)
    yield request(f"GET {eve.target}"), value({eve.vnode(): 1}, "", OCTETS)
    # A context of another key counts writes that this one has not.
    yield request(f"PUT {eve.target}", seen(last), body="tea"), told(412, "P1")
    # A delete of what is not there is a write.
    bob = Key("carts", "bob")
    yield request(f"DELETE {bob.target}"), written(bob.vnode(), 1)
    yield request(f"GET {bob.target}"), deleted({bob.vnode(): 1})


def install(name, image):
    return request(f"PUT /hooks/{name}", body=image)


def bind(bucket, props):
    return request(f"PUT /buckets/{bucket}/props", typed(JSON), body=f'{{"props":{props}}}')


def hooks():
    """Hooks put under names, bound to buckets and taken away, and what they make of writes and reads."""
    yield from hooks_of_the_folder()
    yield NEXT
    yield from shown_to_pre_commits()
    yield NEXT
    yield from written_by_hooks()
    yield NEXT
    yield from said_by_pre_commits()
    yield NEXT
    yield from said_by_resolvers()
    yield NEXT
    yield from registry()


def hooks_of_the_folder():
    """Images of the folder of hooks."""

    def image(name):
        return (HOOKS / f"{name}.img").read_bytes()

    # Values of a bucket are numbers, and of several the largest is taken.
    yield request("GET /buckets/visits/props"), properties("visits", None, None)
    yield install("digits", image("digits_only")), done()
    yield install("largest", image("largest_counter")), done()
    yield bind("visits", '{"precommit":"digits","resolver":"largest"}'), done()
    yield request("GET /buckets/visits/props"), properties("visits", "digits", "largest")
    home = Key("visits", "home")
    one, two = home.vnode(0), home.vnode(1)
    yield request(f"PUT {home.target}", typed(TEXT), body="12"), written(one, 1)
    yield request(f"PUT {home.target}", typed(TEXT), body="many"), told(403, "X3 2")
    yield request(f"PUT {home.target}", typed(TEXT), body="1" * 5000), told(413, "X1")
    yield request(f"GET {home.target}"), value({one: 1}, "12")
    yield request(f"PUT {home.target}?at=1", typed(TEXT), body="107"), written(two, 1)
    # The read finds two siblings, and what the resolver took is written over both at the first vnode.
    yield request(f"GET {home.target}"), value({one: 2, two: 1}, "107")
    yield request(f"GET {home.target}"), value({one: 2, two: 1}, "107")
    # A delete is let through.
    yield request(f"DELETE {home.target}", seen({one: 2, two: 1})), written(one, 3)
    yield request(f"GET {home.target}"), deleted({one: 3, two: 1})

    # A resolver that writes a value of its own: the records of both.
    yield install("union", image("union_of_records")), done()
    yield bind("friends", '{"resolver":"union"}'), done()
    amy = Key("friends", "amy")
    one, two = amy.vnode(0), amy.vnode(1)
    sets = {(one, 1): "AAAAAAAABBBBBBBB", (two, 1): "BBBBBBBBCCCCCCCC"}
    yield request(f"PUT {amy.target}", typed(TEXT), body=sets[one, 1]), written(one, 1)
    yield request(f"PUT {amy.target}?at=1", typed(TEXT), body=sets[two, 1]), written(two, 1)
    united = "AAAAAAAABBBBBBBBCCCCCCCC" if one < two else "BBBBBBBBCCCCCCCCAAAAAAAA"
    yield request(f"GET {amy.target}"), value({one: 2, two: 1}, united, OCTETS)

    # A hook that changes what is written, and keeps its type.
    yield install("sixteen", image("first_sixteen")), done()
    yield bind("names", '{"precommit":"sixteen"}'), done()
    long = Key("names", "long")
    yield request(f"PUT {long.target}", typed(TEXT), body="abcdefghijklmnopqrstuvwxyz"), written(long.vnode(), 1)
    yield request(f"GET {long.target}"), value({long.vnode(): 1}, "abcdefghijklmnop")

    # Images that are not let in, and names that can't be bound: nothing changes.
    yield install("none", "nohook"), told(422, "I1")
    yield install("none", "no image, but long enough"), told(422, "I2")
    only_exit = b"RBPF" + bytes([1, 1, 0, 0]) + bytes(8) + bytes([0x95]) + bytes(7)
    yield install("none", only_exit), told(422, "V20 0")
    yield bind("visits", '{"precommit":"none","resolver":null}'), told(422, "G1")
    yield bind("visits", '{"precommit":"largest","resolver":null}'), told(422, "G2")
    yield request("DELETE /hooks/none"), told(404, "G1")
    yield request("GET /buckets/visits/props"), properties("visits", "digits", "largest")

    # A hook that is unbound is not asked any more, nor is one whose name was given up.
    yield bind("visits", '{"precommit":null}'), done()
    yield request("DELETE /hooks/largest"), done()
    yield request("GET /buckets/visits/props"), properties("visits", None, "largest")
    away = Key("visits", "away")
    one, two = away.vnode(0), away.vnode(1)
    yield request(f"PUT {away.target}", typed(TEXT), body="many"), written(one, 1)
    yield request(f"PUT {away.target}?at=1", typed(TEXT), body="12"), written(two, 1)
    yield request(f"GET {away.target}"), choices({one: 1, two: 1}, (one, 1), (two, 1))


# Images of a few slots.

PRE_COMMIT, RESOLVER = 1, 2


def slot(opcode, dst=0, src=0, offset=0, immediate=0):
    return struct.pack("<BBhi", opcode, dst + 16 * src, offset, immediate)


EXIT = slot(0x95)
ADD_256 = slot(0x07, 0, immediate=256)


def few_slots(kind, code, in_len=128, out_len=8):
    """An image of a kind, with windows of these lengths and this code."""
    return b"RBPF" + bytes([1, kind, 0, 0]) + struct.pack("<II", in_len, out_len) + code


def answering(r0):
    """Code that answers so."""
    return slot(0xB7, 0, immediate=r0) + EXIT


def writing(text):
    """Code that writes these bytes and answers 1."""
    stores = [slot(0x72, 3, 0, 4 + place, byte) for place, byte in enumerate(text)]
    return slot(0x62, 3, 0, 0, len(text)) + b"".join(stores) + answering(1)


def siblings(key):
    """Writes the siblings 0-1 `a` and 1-1 `b`."""
    assert (key.vnode(0), key.vnode(1)) == (0, 1)
    yield request(f"PUT {key.target}?w=all", typed(TEXT), body="a"), written(0, 1)
    yield request(f"PUT {key.target}?at=1&w=all", typed(TEXT), body="b"), written(1, 1)


def shown_to_pre_commits():
    """How much a pre-commit hook is shown: 91 bytes of a new `n` beside two values of one byte, 90 of a delete, 41 of an `n` alone."""
    two, alone, many = (first_key("b", stem) for stem in ("two", "alone", "many"))
    yield from siblings(two)
    yield install("used", few_slots(PRE_COMMIT, slot(0xBF, 0, 2) + ADD_256 + EXIT)), done()
    yield bind("b", '{"precommit":"used"}'), done()
    yield request(f"PUT {two.target}", typed(TEXT), body="n"), told(403, "X3 91")
    yield request(f"DELETE {two.target}"), told(403, "X3 90")
    yield request(f"PUT {alone.target}", typed(TEXT), body="n"), told(403, "X3 41")
    # The newest sibling by its row: the delete's own row is none, but counts.
    yield install("used", few_slots(PRE_COMMIT, slot(0x85, immediate=19) + ADD_256 + EXIT)), done()
    yield request(f"DELETE {two.target}"), told(403, "X3 2")
    yield request(f"GET {two.target}"), choices({0: 1, 1: 1}, (0, 1), (1, 1))
    yield request(f"GET {alone.target}"), not_found()
    # A delete beside 64 tombstones is shown in 1,576 bytes.
    yield bind("b", '{"precommit":null}'), done()
    for n in range(1, 65):
        yield request(f"DELETE {many.target}"), written(0, n)
    # No sibling more.
    yield request(f"DELETE {many.target}"), told(409, "P2")
    yield bind("b", '{"precommit":"used"}'), done()
    yield install("used", few_slots(PRE_COMMIT, answering(0), in_len=1575)), done()
    yield request(f"DELETE {many.target}"), told(413, "X1")
    yield request(f"GET {many.target}"), deleted({0: 64})
    yield install("used", few_slots(PRE_COMMIT, answering(0), in_len=1576)), done()
    yield request(f"DELETE {many.target}"), told(409, "P2")
    # Where they don't fit it is shown beside those alone that its writer hadn't seen: in 64 bytes beside one of them, in 40 by itself.
    yield install("used", few_slots(PRE_COMMIT, answering(0), in_len=63)), done()
    yield request(f"DELETE {many.target}", seen({0: 63})), told(413, "X1")
    yield install("used", few_slots(PRE_COMMIT, answering(0), in_len=40)), done()
    yield request(f"DELETE {many.target}", seen({0: 64})), written(0, 65)
    yield request(f"GET {many.target}"), deleted({0: 65})
    # The first and the last code of a refusal, and answers that are none.
    for r0, fault in [(256, (403, "X3 0")), (511, (403, "X3 255")), (2, (500, "X2")), (512, (500, "X2"))]:
        yield install("used", few_slots(PRE_COMMIT, answering(r0))), done()
        yield request(f"DELETE {many.target}"), told(*fault)
    yield request(f"GET {many.target}"), deleted({0: 65})


def written_by_hooks():
    """What hooks write is read later: a changed value keeps its type, in the place of a delete and by a resolver it is bytes."""
    value_of, delete_of = first_key("b", "value"), first_key("b", "delete")
    yield install("x", few_slots(PRE_COMMIT, writing(b"x"))), done()
    yield bind("b", '{"precommit":"x"}'), done()
    # All three vnodes have a copy.
    yield request(f"PUT {value_of.target}?w=all", typed(TEXT), body="a"), written(0, 1)
    yield request(f"GET {value_of.target}"), value({0: 1}, "x")
    yield request(f"DELETE {delete_of.target}?w=all"), written(0, 1)
    yield request(f"GET {delete_of.target}"), value({0: 1}, "x", OCTETS)
    # Resolvers write no byte, and bytes that are no text.
    yield bind("c", '{"resolver":"x"}'), told(422, "G2")
    for text in b"", b"\x00\xff":
        key = first_key("c", f"k{len(text)}n")
        yield from siblings(key)
        yield install("x", few_slots(RESOLVER, writing(text))), done()
        yield bind("c", '{"resolver":"x"}'), done()
        yield request(f"GET {key.target}"), value({0: 2, 1: 1}, text, OCTETS)


def said_by_pre_commits():
    """What a pre-commit hook says of a new `a` alone, which is shown in 41 bytes. Nothing is written but where it lets it through."""
    rows = [
        (few_slots(PRE_COMMIT, answering(0)), written(0, 1)),
        (few_slots(PRE_COMMIT, answering(256)), told(403, "X3 0")),
        (few_slots(PRE_COMMIT, answering(256 + 1), in_len=41), told(403, "X3 1")),
        (few_slots(PRE_COMMIT, answering(256 + 1), in_len=40), told(413, "X1")),
        (few_slots(PRE_COMMIT, answering(256 + 255)), told(403, "X3 255")),
        (few_slots(PRE_COMMIT, answering(512)), told(500, "X2")),
        (few_slots(PRE_COMMIT, answering(7)), told(500, "X2")),
        (few_slots(PRE_COMMIT, answering(2)), told(500, "X2")),
        # A value of 4 bytes fits behind its length in the output window, one of 5 does not.
        (few_slots(PRE_COMMIT, writing(b"xxxx")), written(0, 1)),
        (few_slots(PRE_COMMIT, slot(0x62, 3, 0, 0, 5) + answering(1)), told(500, "X2")),
    ]
    for number, (image, answered) in enumerate(rows):
        key = first_key("b", f"k{number}n")
        yield install("says", image), done()
        if number == 0:
            yield bind("b", '{"precommit":"says"}'), done()
        yield request(f"PUT {key.target}", typed(TEXT), body="a"), answered
        let_through = {0: "a", 8: "xxxx"}.get(number)
        yield request(f"GET {key.target}"), not_found() if let_through is None else value({0: 1}, let_through)


def said_by_resolvers():
    """What a resolver says of two siblings, which are shown in 66 bytes. The read's own answer stands where it chooses nothing."""
    x = slot(0x62, 3, 0, 0, 1) + slot(0x72, 3, 0, 4, ord("x"))
    both, resolved = choices({0: 1, 1: 1}, (0, 1), (1, 1)), {0: 2, 1: 1}
    rows = [
        (answering(256), 128, value(resolved, "a")),
        (answering(256 + 1), 66, value(resolved, "b")),
        (x + answering(1), 128, value(resolved, "x", OCTETS)),
        (x + answering(2), 128, deleted(resolved)),
        (x + answering(0), 128, both),
        (x + answering(7), 128, both),
        (x + answering(256 + 2), 128, both),
        (answering(256), 65, both),
    ]
    for number, (code, in_len, answered) in enumerate(rows):
        key = first_key("b", f"k{number}n")
        yield install("says", few_slots(RESOLVER, code, in_len=in_len)), done()
        if number == 0:
            yield bind("b", '{"resolver":"says"}'), done()
        yield from siblings(key)
        # What it chose was written, so a second read finds one value, or both siblings as before.
        for _ in range(2):
            yield request(f"GET {key.target}"), answered


def registry():
    """Changes of hooks take effect at once: what a bucket's names are then, whether its writes are refused, and its reads resolved."""
    no, take = few_slots(PRE_COMMIT, answering(256 + 1)), few_slots(RESOLVER, answering(256))
    rows = [
        (request("DELETE /hooks/no"), told(404, "G1"), (None, None), False, False),
        (install("no", no), done(), (None, None), False, False),
        (install("take", take), done(), (None, None), False, False),
        (bind("b", '{"precommit":"no","resolver":"take"}'), done(), ("no", "take"), True, True),
        # What is bound to a name stays bound to it.
        (request("DELETE /hooks/take"), done(), ("no", "take"), True, False),
        (install("take", no), done(), ("no", "take"), True, False),
        (install("take", take), done(), ("no", "take"), True, True),
        (bind("b", '{"resolver":null}'), done(), ("no", None), True, False),
        (bind("b", "{}"), done(), ("no", None), True, False),
        # All of a binding's names, or none: an unknown name is told before a kind that differs.
        (bind("b", '{"precommit":null}'), done(), (None, None), False, False),
        (bind("b", '{"precommit":"no","resolver":"no"}'), told(422, "G2"), (None, None), False, False),
        (bind("b", '{"precommit":"take","resolver":"on"}'), told(422, "G1"), (None, None), False, False),
        (bind("b", '{"precommit":"on","resolver":"no"}'), told(422, "G1"), (None, None), False, False),
    ]
    keys = [first_key("b", f"k{number}n") for number in range(len(rows))]
    for key in keys:
        yield from siblings(key)
    for number, (change, answered, names, refuses, resolves) in enumerate(rows):
        yield change, answered
        yield request("GET /buckets/b/props"), properties("b", *names)
        key, other = keys[number], first_key("b", f"other{number}n")
        yield request(f"PUT {other.target}", body="c"), told(403, "X3 1") if refuses else written(0, 1)
        both = choices({0: 1, 1: 1}, (0, 1), (1, 1))
        yield request(f"GET {key.target}"), value({0: 2, 1: 1}, "a") if resolves else both


def refused():
    """Requests that are refused; the last of them ends the connection."""
    key = Key("b", "k")

    def spoiled(text):
        return request(f"PUT {key.target}", f"X-Riak-Vclock: {text}", body="a")

    yield request("GET /none"), told(404, "no route")
    yield request("GET /buckets/b/keys"), told(404, "no route")
    yield request("PUT /ping", body=""), told(*no_method("ping"))
    yield request(f"PATCH {key.target}"), told(*no_method("key"))
    yield request("GET /hooks/digits"), told(*no_method("hook"))
    yield request("POST /buckets/b/props", body=""), told(*no_method("props"))
    for query in ["r=0", "r=4", "r=01", "r=most", "w=0", "w=-1", "at=3", "at=", "r=1&at=00"]:
        yield request(f"GET {key.target}?{query}"), told(400, "bad query")
    yield request(f"GET /buckets/{'b' * 65}/keys/k"), told(400, "bad name")
    yield request(f"GET /buckets/b/keys/{'k' * 256}"), told(400, "bad name")
    yield request("PUT /hooks/no.dots", body="a"), told(400, "bad name")
    yield request(f"PUT /hooks/{'h' * 65}", body="a"), told(400, "bad name")
    # The query is looked at before the names, and these before the context.
    yield request(f"PUT /buckets/{'b' * 65}/keys/k?w=4", body="a"), told(400, "bad query")
    yield request(f"PUT /buckets/{'b' * 65}/keys/k", "X-Riak-Vclock: none", body="a"), told(400, "bad name")

    yield spoiled("no context"), told(400, "K1")
    yield spoiled(""), told(400, "K4")
    for version in 0, 4:
        yield spoiled(token([], version)), told(400, "K2")
    for version in 1, 2:
        yield spoiled(token([(0, 1)], version) + "="), told(400, "K1")
        yield spoiled(token([(0, 1)], version, count=2)), told(400, "K4")
        yield spoiled(token([], version, count=1025)), told(400, "K5")
        yield spoiled(token([(1, 1), (1, 2)], version)), told(400, "K3")
        yield spoiled(token([(0, 0)], version)), told(400, "K5")
        yield spoiled(token([(0, 2**62 + 1)], version)), told(400, "K5")
        yield spoiled(token([(key.vnode(), 1)], version)), told(412, "P1")
    # Version 2 is padded where it has one entry.
    yield spoiled(token([(0, 1)]).rstrip("=")), told(400, "K1")
    # Version 1 rises by number, version 2 by index.
    by_index = [(65536, 1), (1, 1)]
    yield spoiled(token(by_index, 1)), told(400, "K3")
    yield spoiled(token(by_index, 2)), told(412, "P1")
    yield spoiled(token(by_index[::-1], 1)), told(412, "P1")
    yield spoiled(token(by_index[::-1], 2)), told(400, "K3")
    # An index of 255 has version 1 alone.
    yield spoiled(token([(255, 1)], 1)), told(412, "P1")
    yield spoiled(token([(255, 1)], 2)), told(400, "K5")
    yield request(f"PUT {key.target}", typed("t" * 128), body="a"), told(400, "bad type")
    yield request(f"PUT {key.target}", "Content-Type:", body="a"), told(400, "bad type")
    for props in ["", "props", '{"props":[]}', '{"props":{"precommit":1}}']:
        yield request("PUT /buckets/b/props", body=props), told(400, "bad props")
    # Properties that are as they are, in the order in which they are told.
    for members, name in [
        ('"allow_mult":false,"last_write_wins":true', "allow_mult"),
        ('"allow_mult":"true"', "allow_mult"),
        ('"n_val":2,"last_write_wins":true', "last_write_wins"),
        ('"last_write_wins":null', "last_write_wins"),
        ('"postcommit":[{}],"n_val":2', "n_val"),
        ('"n_val":"3"', "n_val"),
        ('"n_val":3.0', "n_val"),
        ('"precommit":1,"postcommit":[{"name":"f"}]', "postcommit"),
        ('"postcommit":[]', "postcommit"),
    ]:
        yield request("PUT /buckets/b/props", body=f'{{"props":{{{members}}}}}'), told(400, f"bad props {name}")
    as_it_is = '"allow_mult":true,"last_write_wins":false,"n_val":3,"postcommit":null'
    yield request("PUT /buckets/b/props", body=f'{{"props":{{{as_it_is}}}}}'), done()

    # Nothing of all this was written.
    yield request(f"GET {key.target}"), not_found()
    yield request("GET /buckets/b/props"), properties("b", None, None)
    # A write without a length: where the next request begins is not known.
    yield request(f"PUT {key.target}"), told(411, "length", closes=True)
    yield request("GET /ping"), NOTHING


# Rows of requests, each with its answer


def apart(connections):
    """Exchanges of several connections."""
    for number, exchanges in enumerate(connections):
        if number:
            yield NEXT
        yield from exchanges


def ping(*fields):
    return request("GET /ping", *fields)


def pong(closes=False):
    return answer(200, TEXT, closes=closes, body="OK")


BAD_HEAD = 400, "bad head"
CODING = 501, "coding"
BAD_LENGTH = 400, "bad length"
NO_LENGTH = 411, "length"
LARGE = 413, "large"
EXPECTATION = 417, "expectation"
NO_ROUTE = 404, "no route"
QUERY = 400, "bad query"
BAD_NAME = 400, "bad name"
BAD_TYPE = 400, "bad type"
BAD_PROPS = 400, "bad props"

# Requests after whose answer the connection ends, each on a connection of its own, in the order in which faults are told.
BROKEN = [
    ("GET ping HTTP/1.1\r\n\r\n", BAD_HEAD),
    ("GET * HTTP/1.1\r\n\r\n", BAD_HEAD),
    ("GET http://h/ping HTTP/1.1\r\n\r\n", BAD_HEAD),
    ("GET /ping` HTTP/1.1\r\n\r\n", BAD_HEAD),
    ("GET /ping HTTP/2.0\r\n\r\n", BAD_HEAD),
    ("GET /ping\r\n\r\n", BAD_HEAD),
    ("G(T /ping HTTP/1.1\r\n\r\n", BAD_HEAD),
    ("GET /ping HTTP/1.1\r\nA b: c\r\n\r\n", BAD_HEAD),
    ("GET /ping HTTP/1.1\r\nA: b\r\n c\r\n\r\n", BAD_HEAD),
    # a bad target and a coding
    ("PUT ping HTTP/1.1\r\nTransfer-Encoding: chunked\r\n\r\n", BAD_HEAD),
    ("POST /ping HTTP/1.1\r\ntransfer-encoding: gzip\r\n\r\n", CODING),
    ("POST /ping HTTP/1.1\r\nTransfer-Encoding: gzip, chunked\r\n\r\n", CODING),
    ("POST /ping HTTP/1.1\r\nTransfer-Encoding: chunked, chunked\r\n\r\n", CODING),
    ("POST /ping HTTP/1.1\r\nTransfer-Encoding: chunked;q=1\r\n\r\n", CODING),
    ("GET /ping HTTP/1.1\r\nTransfer-Encoding: identity\r\n\r\n", CODING),
    # several of them
    ("PUT /x HTTP/1.1\r\nTransfer-Encoding: chunked\r\nTransfer-Encoding: chunked\r\n\r\n", CODING),
    ("PUT /x HTTP/1.1\r\nTransfer-Encoding: chunked\r\nTransfer-Encoding: identity\r\n\r\n", CODING),
    # a coding and a length that is no number, and none
    ("PUT /x HTTP/1.1\r\nContent-Length: x\r\nTransfer-Encoding: gzip\r\n\r\n", CODING),
    # chunks and a length, and chunks in HTTP/1.0
    ("PUT /x HTTP/1.1\r\nContent-Length: 5\r\nTransfer-Encoding: chunked\r\n\r\n0\r\n\r\n", BAD_LENGTH),
    ("GET /ping HTTP/1.1\r\nTransfer-Encoding: chunked\r\nContent-Length: 0\r\n\r\n0\r\n\r\n", BAD_LENGTH),
    ("PUT /x HTTP/1.0\r\nTransfer-Encoding: chunked\r\n\r\n0\r\n\r\n", BAD_LENGTH),
    ("PUT /x HTTP/1.1\r\nTransfer-Encoding:\r\n\r\n", CODING),
    ("GET /ping HTTP/1.1\r\nContent-Length: +1\r\n\r\n", BAD_LENGTH),
    ("GET /ping HTTP/1.1\r\nContent-Length: 1 1\r\n\r\n", BAD_LENGTH),
    ("GET /ping HTTP/1.1\r\nContent-Length:\r\n\r\n", BAD_LENGTH),
    ("GET /ping HTTP/1.1\r\nContent-Length: 1, 1\r\n\r\n", BAD_LENGTH),
    ("GET /ping HTTP/1.1\r\nContent-Length: 1\r\nContent-Length: 2\r\n\r\n", BAD_LENGTH),
    ("GET /ping HTTP/1.1\r\nContent-Length: 1\r\nContent-Length: x\r\n\r\n", BAD_LENGTH),
    # lengths that are too large and differ, and a path of no route
    ("PUT /x HTTP/1.1\r\nContent-Length: 65537\r\nContent-Length: 65538\r\n\r\n", BAD_LENGTH),
    ("PUT /buckets/b/keys/k HTTP/1.1\r\n\r\n", NO_LENGTH),
    # no length, no route and an HTTP/1.0 head
    ("POST /x HTTP/1.0\r\n\r\n", NO_LENGTH),
    ("PUT /buckets/b/keys/k HTTP/1.1\r\nContent-Length: 65537\r\n\r\n", LARGE),
    ("GET /ping HTTP/1.1\r\nContent-Length: 65537\r\n\r\n", LARGE),
    ("GET /ping HTTP/1.1\r\nContent-Length: 18446744073709551617\r\n\r\n", LARGE),
    # an expectation that there isn't, and no route; what is wrong with lengths comes first
    ("PUT /x HTTP/1.1\r\nExpect: 200-ok\r\nContent-Length: 1\r\n\r\n", EXPECTATION),
    ("GET /ping HTTP/1.1\r\nExpect:\r\n\r\n", EXPECTATION),
    ("GET /ping HTTP/1.1\r\nExpect: 100-continue, x\r\n\r\n", EXPECTATION),
    ("PUT /x HTTP/1.1\r\nexpect: 100-continued\r\nExpect: 100-continue\r\nContent-Length: 1\r\n\r\n", EXPECTATION),
    ("PUT /x HTTP/1.1\r\nExpect: x\r\nTransfer-Encoding: gzip\r\n\r\n", CODING),
    ("PUT /x HTTP/1.1\r\nExpect: x\r\nTransfer-Encoding: chunked\r\n\r\n0\r\n\r\n", EXPECTATION),
    ("PUT /x HTTP/1.1\r\nExpect: x\r\nContent-Length: x\r\n\r\n", BAD_LENGTH),
    ("PUT /x HTTP/1.1\r\nExpect: 100-continue\r\n\r\n", NO_LENGTH),
    ("PUT /x HTTP/1.1\r\nExpect: 100-continue\r\nContent-Length: 65537\r\n\r\n", LARGE),
    # too large a body and no route
    ("PUT /x HTTP/1.1\r\nContent-Length: 65537\r\n\r\n", LARGE),
]

# Requests after whose answer the connection goes on: heads without their length line and the empty line, and bodies.
REFUSED = [
    ("GET // HTTP/1.1", "", NO_ROUTE),
    ("GET /ping/ HTTP/1.1", "", NO_ROUTE),
    ("GET /Ping HTTP/1.1", "", NO_ROUTE),
    ("GET /hooks/a/b HTTP/1.1", "", NO_ROUTE),
    ("GET /buckets//keys/k HTTP/1.1", "", NO_ROUTE),
    ("GET /buckets/b/keys/ HTTP/1.1", "", NO_ROUTE),
    # no route, and a method of none
    ("BREW /pong?r=0 HTTP/1.1", "", NO_ROUTE),
    ("POST /ping HTTP/1.1", "", no_method("ping")),
    ("head /ping HTTP/1.1", "", no_method("ping")),
    ("get / HTTP/1.1", "", no_method("root")),
    ("GET /hooks/a HTTP/1.1", "", no_method("hook")),
    ("POST /hooks/a HTTP/1.1", "", no_method("hook")),
    ("delete /buckets/b/props HTTP/1.1", "", no_method("props")),
    ("POST /buckets/b/props HTTP/1.1", "{", no_method("props")),
    # a method and the query, and a method and a name
    ("PATCH /buckets/b/keys/k?r=0 HTTP/1.1", "", no_method("key")),
    ("GET /hooks/a.b HTTP/1.1", "", no_method("hook")),
    ("GET /buckets/b/keys/k?r=0 HTTP/1.1", "", QUERY),
    ("GET /buckets/b/keys/k?r=4 HTTP/1.1", "", QUERY),
    ("GET /buckets/b/keys/k?r=01 HTTP/1.1", "", QUERY),
    ("GET /buckets/b/keys/k?r=+1 HTTP/1.1", "", QUERY),
    ("GET /buckets/b/keys/k?r= HTTP/1.1", "", QUERY),
    ("GET /buckets/b/keys/k?r HTTP/1.1", "", QUERY),
    ("GET /buckets/b/keys/k?r=ALL HTTP/1.1", "", QUERY),
    ("GET /buckets/b/keys/k?r=9&r=1 HTTP/1.1", "", QUERY),
    ("GET /buckets/b/keys/k?w=x HTTP/1.1", "", QUERY),
    ("GET /buckets/b/keys/k?at=3 HTTP/1.1", "", QUERY),
    ("GET /buckets/b/keys/k?at=00 HTTP/1.1", "", QUERY),
    ("GET /buckets/b/keys/k?at=all HTTP/1.1", "", QUERY),
    ("GET /buckets/b/keys/k?at=4294967296 HTTP/1.1", "", QUERY),
    ("GET /buckets/b/keys/k?pr=9 HTTP/1.1", "", QUERY),
    ("PUT /buckets/b/keys/k?pw=4 HTTP/1.1", "a", QUERY),
    ("GET /buckets/b/keys/k?pr= HTTP/1.1", "", QUERY),
    ("DELETE /buckets/b/keys/k?rw=most HTTP/1.1", "", QUERY),
    ("GET /buckets/b/keys/k?pr=00 HTTP/1.1", "", QUERY),
    ("PUT /buckets/b/keys/k?dw=1 HTTP/1.1", "a", QUERY),
    ("PUT /buckets/b/keys/k?dw=quorum HTTP/1.1", "a", QUERY),
    ("GET /buckets/b/keys/k?n_val=2 HTTP/1.1", "", QUERY),
    ("GET /buckets/b/keys/k?n_val=03 HTTP/1.1", "", QUERY),
    ("GET /buckets/b/keys/k?timeout=-1 HTTP/1.1", "", QUERY),
    ("GET /buckets/b/keys/k?timeout=infinity HTTP/1.1", "", QUERY),
    ("GET /buckets/b/keys/k?sloppy_quorum=yes HTTP/1.1", "", QUERY),
    ("GET /buckets/b/keys/k?basic_quorum=true HTTP/1.1", "", QUERY),
    ("GET /buckets/b/keys/k?notfound_ok=false HTTP/1.1", "", QUERY),
    ("GET /buckets/b/keys/k?notfound_ok=True HTTP/1.1", "", QUERY),
    ("GET /buckets/b/keys/k?pr=all&r=1&pr=9&dw=0&dw=2&timeout=x HTTP/1.1", "", QUERY),
    # the query and a context, and the query and a media type
    ("PUT /buckets/b/keys/k?w=0 HTTP/1.1\r\nX-Riak-Vclock: AQA", "a", QUERY),
    ("PUT /buckets/b/keys/k?w=0 HTTP/1.1\r\nContent-Type:", "a", QUERY),
    ("PUT /hooks/a.b HTTP/1.1", "", BAD_NAME),
    ("DELETE /hooks/a%20b HTTP/1.1", "", BAD_NAME),
    ("PUT /hooks/%C3%BC HTTP/1.1", "", BAD_NAME),
    ("PUT /buckets/b/keys/k HTTP/1.1\r\nX-Riak-Vclock: AQA", "a", (400, "K1")),
    ("PUT /buckets/b/keys/k HTTP/1.1\r\nX-Riak-Vclock: BAAA", "a", (400, "K2")),
    ("POST /buckets/b/keys/k HTTP/1.1\r\nx-riak-vclock: AQACAAAAAAAAAAAAAAABAAAAAAAAAAAAAAAB", "a", (400, "K3")),
    ("DELETE /buckets/b/keys/k HTTP/1.1\r\nX-Riak-Vclock:", "", (400, "K4")),
    ("DELETE /buckets/b/keys/k HTTP/1.1\r\nX-Riak-Vclock: Af//\r\nX-Riak-Vclock: AQAA", "", (400, "K5")),
    # a context and a media type
    ("PUT /buckets/b/keys/k HTTP/1.1\r\nContent-Type:\r\nX-Riak-Vclock: AQA", "a", (400, "K1")),
    ("PUT /buckets/b/keys/k HTTP/1.1\r\nContent-Type: \t \r\nContent-Type: a/b", "a", BAD_TYPE),
    ("PUT /buckets/b/props HTTP/1.1", "", BAD_PROPS),
    ("PUT /buckets/b/props HTTP/1.1", "{", BAD_PROPS),
    ("PUT /buckets/b/props HTTP/1.1", "{}", BAD_PROPS),
    ("PUT /buckets/b/props HTTP/1.1", '{"props":[]}', BAD_PROPS),
    ("PUT /buckets/b/props HTTP/1.1", '{"props":{"precommit":1}}', BAD_PROPS),
    ("PUT /buckets/b/props HTTP/1.1", '{"props":{"precommit":"a","resolver":[]}}', BAD_PROPS),
    ("PUT /buckets/b/props HTTP/1.1", '{"props":{"allow_mult":null}}', (400, "bad props allow_mult")),
]


def ending(bytes_sent, fault):
    """A request after whose answer the connection ends: what comes behind it is not read."""
    return [(as_bytes(bytes_sent), told(*fault, closes=True)), (ping(), NOTHING)]


def going_on(bytes_sent, answered):
    """A request after whose answer the connection goes on."""
    return [(as_bytes(bytes_sent), answered), (ping(), pong())]


def broken():
    """Requests that are refused, each of which ends its connection; and, on the last, requests that are refused one after another."""
    yield from apart(ending(*row) for row in BROKEN)
    yield NEXT
    for head, body, fault in REFUSED:
        yield f"{head}\r\nContent-Length: {len(body)}\r\n\r\n{body}".encode(), told(*fault)
    yield request("GET /none"), told(*NO_ROUTE)
    # Requests that ask for the end of the connection.
    for bytes_sent, answered in [
        (ping("Connection: close"), pong(closes=True)),
        (b"GET /ping HTTP/1.0\r\n\r\n", pong(closes=True)),
        (ping("Connection: keep-alive, CLOSE"), pong(closes=True)),
        (b"GET /ping HTTP/1.1\r\nConnection: closed\r\nConnection: close\r\n\r\n", pong(closes=True)),
        (request("PUT /ping", "connection: close", body=""), told(*no_method("ping"), closes=True)),
    ]:
        yield NEXT
        yield bytes_sent, answered
        yield ping(), NOTHING


def methods():
    """HEAD wherever GET is, whose answers have no body; the methods of each route; and the list of resources."""
    key, none = Key("b", "k"), Key("b", "none")
    one, two = key.vnode(0), key.vnode(1)

    def by_head(target, *fields):
        return request(f"HEAD {target}", *fields)

    yield request("GET /"), resources()
    yield by_head("/"), head_of(resources())
    yield request("GET /?x=y", "Accept: text/html"), resources()
    yield by_head("/ping"), head_of(pong())
    yield by_head(none.target), head_of(not_found())
    # A value, siblings as a list and as parts, and one of them. What HEAD tells as a length isn't there: the next answer follows at once.
    yield request(f"PUT {key.target}", typed(TEXT), body="a"), written(one, 1)
    yield by_head(key.target), head_of(value({one: 1}, "a"))
    yield request(f"GET {key.target}"), value({one: 1}, "a")
    yield request(f"PUT {key.target}?at=1", typed(TEXT), body="b"), written(two, 1)
    both = {one: 1, two: 1}
    yield by_head(key.target), head_of(choices(both, (one, 1), (two, 1)))
    yield by_head(key.target, "Accept: multipart/mixed"), head_of(parts(both, {(one, 1): "a", (two, 1): "b"}))
    yield by_head(f"{key.target}?vtag={tag((two, 1))}"), head_of(value(both, "b", dot=(two, 1)))
    yield by_head("/buckets/b/props"), head_of(properties("b", None, None))
    # A body that comes with HEAD is passed over.
    yield request("HEAD /ping", body="GET /ping HTTP/1.1\r\n\r\n"), head_of(pong())
    # Refused, and without a body too.
    for target, fault in [
        (f"{key.target}?r=0", QUERY),
        (f"/buckets/{'b' * 65}/props", BAD_NAME),
        ("/none", NO_ROUTE),
        ("/hooks/a", no_method("hook")),
    ]:
        yield by_head(target), head_of(told(*fault))
        yield ping(), pong()
    # The methods of a route, whatever its names and the query are.
    for target, route in [
        ("/", "root"),
        ("/ping?r=0", "ping"),
        (f"{key.target}?r=0", "key"),
        (f"/buckets/{'b' * 65}/keys/k", "key"),
        ("/hooks/a.b", "hook"),
        ("/buckets/b/props", "props"),
    ]:
        yield request(f"OPTIONS {target}"), options(route)
        yield request(f"options {target}"), told(*no_method(route))
    yield request("OPTIONS /none"), told(*NO_ROUTE)
    # The same routes with Riak's type `default`, and its old route of a key. No other type is there.
    typed_key, old_key = f"/types/default{key.target}", "/riak/b/k"
    yield request(f"GET {typed_key}?vtag={tag((one, 1))}"), value(both, "a", dot=(one, 1))
    yield request(f"POST {old_key}", typed(TEXT), seen(both), body="c"), written(one, 2)
    yield by_head(old_key), head_of(value({one: 2, two: 1}, "c"))
    yield request(f"PUT {typed_key}", typed(TEXT), seen({one: 2, two: 1}), body="d"), written(one, 3)
    yield request(f"DELETE {old_key}", seen({one: 3, two: 1})), written(one, 4)
    yield request(f"GET {key.target}"), deleted({one: 4, two: 1})
    yield request("PUT /types/default/buckets/b/props", body='{"props":{}}'), done()
    yield request("GET /types/default/buckets/b/props"), properties("b", None, None)
    yield request(f"GET {typed_key}?r=0"), told(*QUERY)
    yield request(f"GET /riak/{'b' * 65}/k"), told(*BAD_NAME)
    yield request(f"PATCH {old_key}"), told(*no_method("key"))
    yield request(f"OPTIONS {typed_key}"), options("key")
    yield request("DELETE /types/default/buckets/b/props"), done()
    yield request(f"DELETE /buckets/{'b' * 65}/props"), told(*BAD_NAME)
    for path in ["/types/maps/buckets/b/keys/k", "/types/default", "/types/default/props", "/types/Default/buckets/b/props", "/riak/b", "/riak/b/k/l"]:
        yield request(f"GET {path}"), told(*NO_ROUTE)
    yield request("POST /", body=""), told(*no_method("root"))
    # The last request of a connection, by its version and by a fault.
    for bytes_sent, answered in [
        (b"HEAD /ping HTTP/1.0\r\n\r\n", pong(closes=True)),
        (request("OPTIONS /ping", "Connection: close"), answer(204, closes=True, allow=METHODS["ping"])),
        (b"HEAD /ping HTTP/1.1\r\nContent-Length: x\r\n\r\n", told(*BAD_LENGTH, closes=True)),
        (b"HEAD /ping HTTP/1.1\r\nContent-Length: 65537\r\n\r\n", told(*LARGE, closes=True)),
    ]:
        yield NEXT
        yield bytes_sent, head_of(answered)
        yield ping(), NOTHING
    # Of a head that is none no method is known.
    yield NEXT
    yield b"HEAD ping HTTP/1.1\r\n\r\n", told(*BAD_HEAD, closes=True)
    yield ping(), NOTHING


def riak():
    """What Riak's clients ask with: words of queries that pass, and properties that are read, set and taken back."""
    key = Key("b", "k")
    one = key.vnode()
    for words in [
        "pr=1&pw=quorum&rw=all&dw=0",
        "pr=0&pw=0&rw=default&dw=default&w=one",
        "r=one&pr=all&w=1&pw=3",
        "n_val=3&timeout=0&sloppy_quorum=true&basic_quorum=false&notfound_ok=true",
        "timeout=60000000000000000000000&sloppy_quorum=false",
        # Of a name that comes twice the first counts, and other names are passed over.
        "dw=0&dw=1&n_val=3&n_val=4&PR=9&prr=9",
    ]:
        yield request(f"GET {key.target}?{words}"), not_found()
    yield request(f"PUT {key.target}?pw=all&dw=0&timeout=1000", typed(TEXT), body="a"), written(one, 1)
    yield request(f"GET {key.target}?pr=quorum&notfound_ok=true"), value({one: 1}, "a")
    yield request(f"DELETE {key.target}?rw=quorum", seen({one: 1})), written(one, 2)
    # A bucket's name stands in its properties as in a path.
    yield request("GET /buckets/b%20s%22/props"), properties("b%20s%22", None, None)
    yield request("GET /buckets/-._~%C3%BC%2f/props"), properties("-._~%C3%BC%2F", None, None)
    yield request("GET /buckets/%41z%39/props"), properties("Az9", None, None)
    # Both bindings are taken back at once, also where there are none; what a body says then is passed over.
    yield install("digits", (HOOKS / "digits_only.img").read_bytes()), done()
    yield install("largest", (HOOKS / "largest_counter.img").read_bytes()), done()
    yield bind("b", '{"precommit":"digits","resolver":"largest"}'), done()
    yield request("GET /buckets/b/props"), properties("b", "digits", "largest")
    yield request(f"PUT {key.target}", typed(TEXT), seen({one: 2}), body="many"), told(403, "X3 2")
    yield request("DELETE /buckets/b/props", body="{"), done()
    yield request("GET /buckets/b/props"), properties("b", None, None)
    yield request(f"PUT {key.target}", typed(TEXT), seen({one: 2}), body="many"), written(one, 3)
    yield request("DELETE /buckets/b/props"), done()
    # What was read may be set.
    read = '{"allow_mult":true,"n_val":3,"precommit":null,"resolver":null,"name":"b","last_write_wins":false,"r":"quorum","w":"quorum"}'
    yield bind("b", read), done()


def expects():
    """Clients that wait to be told to go on with a body, and those that say so where there is nothing to wait for."""
    key = Key("b", "k")
    one = key.vnode()
    waits, go_on = "Expect: 100-continue", answer(100)
    # The interim answer comes once the head is whole, whether the body is there or not, and the answer behind it.
    yield request(f"PUT {key.target}", typed(TEXT), waits, body="a"), go_on + written(one, 1)
    yield request(f"GET {key.target}"), value({one: 1}, "a")
    yield request(f"POST {key.target}", "eXPECT: 100-Continue", typed("b/c"), seen({one: 1}), body="bc" * 500), go_on + written(one, 2)
    yield request(f"GET {key.target}"), value({one: 2}, "bc" * 500, "b/c")
    # Of a field that comes twice the first counts, and spaces around its value don't.
    yield request(f"PUT {key.target}", f"{waits} \t", seen({one: 2}), "Expect: x", body="c"), go_on + written(one, 3)
    yield f"PUT {key.target} HTTP/1.1\nexpect:100-continue\nX-Riak-Vclock:{context({one: 3})}\nContent-Length:1\n\nd".encode(), go_on + written(one, 4)
    yield request(f"GET {key.target}"), value({one: 4}, "d", OCTETS)
    # With no body, and of HTTP/1.0, nothing is waited for.
    yield request(f"PUT {key.target}", waits, seen({one: 4}), body=""), written(one, 5)
    yield ping(waits), pong()
    # What is wrong but with the head is told once the body is there.
    yield request("PUT /none", waits, body="a"), go_on + told(*NO_ROUTE)
    yield request(f"PUT {key.target}?w=0", waits, body="a"), go_on + told(*QUERY)
    yield request("HEAD /ping", waits, body="GET /ping HTTP/1.1\r\n\r\n"), go_on + head_of(pong())
    yield request("PUT /ping", waits, "Connection: close", body="a"), go_on + told(*no_method("ping"), closes=True)
    yield ping(), NOTHING
    for bytes_sent, answered in [
        # The body, or the end of it, never comes.
        (f"PUT {key.target} HTTP/1.1\r\n{waits}\r\nContent-Length: 2\r\n\r\n", go_on),
        (f"PUT {key.target} HTTP/1.1\r\n{waits}\r\nContent-Length: 2\r\n\r\na", go_on),
        (f"PUT {key.target} HTTP/1.1\r\n{waits}\r\nContent-Length: 2\r\n\r", NOTHING),
        (f"GET /ping HTTP/1.0\r\n{waits}\r\n\r\n", pong(closes=True)),
        (f"GET /ping HTTP/1.0\r\nExpect: x\r\nContent-Length: 1\r\n\r\na", pong(closes=True)),
        # The longest head and the longest body.
        (
            f"PUT {key.target} HTTP/1.1\r\n{waits}\r\nContent-Length: 65536\r\nX: ".ljust(32_764, "x") + "\r\n\r\n" + "a" * 65_536,
            go_on + written(one, 1),
        ),
    ]:
        yield NEXT
        yield as_bytes(bytes_sent), answered


def in_chunks(*pieces, extension="", trailers=""):
    """A body in chunks, with these data, an extension in each line and a trailer section."""
    lines = [f"{len(piece):x}{extension}\r\n{piece}\r\n" for piece in pieces]
    return "".join(lines) + f"0{extension}\r\n{trailers}\r\n"


def chunks():
    """Bodies in chunks: such as are the same request as by its length, and such as are none."""
    key = Key("b", "k")
    one = key.vnode()
    coded = "Transfer-Encoding: chunked"

    def sent(body, *fields, line=f"PUT {key.target}", clock=None):
        lines = [f"{line} HTTP/1.1", "Host: store", coded, *fields, *([seen(clock)] if clock else [])]
        return "\r\n".join([*lines, "", ""]).encode() + as_bytes(body)

    # However it is cut into chunks, it is one body: in one, in several, of one byte each, and in none.
    yield sent(in_chunks("a"), typed(TEXT)), written(one, 1)
    yield request(f"GET {key.target}"), value({one: 1}, "a")
    yield sent(in_chunks("Wi", "ki", "pedia in\r\n\r\nchunks."), typed(TEXT), clock={one: 1}), written(one, 2)
    yield request(f"GET {key.target}"), value({one: 2}, "Wikipedia in\r\n\r\nchunks.")
    yield sent(in_chunks(*"abc" * 20), typed(TEXT), clock={one: 2}), written(one, 3)
    yield request(f"GET {key.target}"), value({one: 3}, "abc" * 20)
    yield sent(in_chunks(), typed(TEXT), clock={one: 3}), written(one, 4)
    yield request(f"GET {key.target}"), value({one: 4}, "")
    # Digits of either case, zeros in front, and space behind them.
    yield sent("00A\r\n0123456789\r\n00b \t\r\nabcdefghijk\r\n000\r\n\r\n", typed(TEXT), clock={one: 4}), written(one, 5)
    yield request(f"GET {key.target}"), value({one: 5}, "0123456789abcdefghijk")
    # Extensions and trailers are passed over.
    yield sent(in_chunks("a", "b", extension=';q="1;2";r', trailers="X-Riak-Vclock: no\r\nContent-Length: 9\r\n"), clock={one: 5}), written(one, 6)
    yield request(f"GET {key.target}"), value({one: 6}, "ab", OCTETS)
    # The name's case doesn't matter, nor the space around it; all methods may have such a body, and what follows is another request.
    yield f"POST {key.target} HTTP/1.1\r\ntransfer-ENCODING:\tCHUNKED \r\n{seen({one: 6})}\r\n\r\n1\r\nc\r\n0\r\n\r\n".encode(), written(one, 7)
    yield sent(in_chunks("GET /ping HTTP/1.1\r\n\r\n"), line="GET /ping"), pong()
    yield sent(in_chunks("x"), line="HEAD /ping"), head_of(pong())
    yield sent(in_chunks("x"), line=f"DELETE {key.target}", clock={one: 7}), written(one, 8)
    yield sent(in_chunks('{"props":{', '"precommit":null}}'), line="PUT /buckets/b/props"), done()
    # A client may wait before it sends them, also where there is no byte.
    yield sent(in_chunks("d"), typed(TEXT), "Expect: 100-continue", clock={one: 8}), answer(100) + written(one, 9)
    yield sent(in_chunks(), "Expect: 100-continue", line="GET /ping"), answer(100) + pong()
    yield request(f"GET {key.target}"), value({one: 9}, "d")
    # What is wrong with a request but with its body is told as else.
    yield sent(in_chunks("a"), line="PUT /none"), told(*NO_ROUTE)
    yield sent(in_chunks("a"), line=f"PUT {key.target}?w=0"), told(*QUERY)
    yield sent(in_chunks("a"), "Connection: close", line="PUT /ping"), told(*no_method("ping"), closes=True)
    yield ping(), NOTHING
    put = f"PUT {key.target} HTTP/1.1\r\n{coded}\r\n\r\n"
    largest = "a" * 65_536
    bad = [
        # no size, no digit, a sign, too many digits, and what stands behind a size
        "\r\na\r\n0\r\n\r\n", "g\r\n", "-1\r\n", "+1\r\na", "0x1\r\na", " 1\r\na", "10000000000000000\r\n", "1 a\r\n", "1\n", "1\ra", "1;a\nb", "1;\0",
        # data that don't end where they should
        "1\r\nab\r\n0\r\n\r\n", "1\r\na\n0\r\n\r\n", "1\r\na\ra", "2\r\na\r\n0\r\n\r\n",
        # trailers that are none, and too many
        "0\r\na\r\n\r\n", "0\r\n: b\r\n\r\n", "0\r\nA: b\r\n c\r\n\r\n", "0\r\n" + "A: b\r\n" * 65 + "\r\n",
        # a trailer section of 32,769 bytes, whole or not
        "0\r\nX: " + "a" * 32_762 + "\r\n\r\n", "0\r\nX: " + "a" * 32_766,
        # more than 458,752 bytes, with no end among so many
        "1" + " " * 458_751,
        # a bad chunk behind as many data as there may be
        in_chunks(largest)[:-5] + "x",
    ]
    large = [
        # a byte too many, in one chunk and in its own, whether the end is there or not
        in_chunks("a" * 65_537), in_chunks(largest)[:-5] + "1\r\na",
        # one that is bad behind it
        "10001\r\n" + "a" * 65_537 + "x",
    ]
    cut = [
        "", "1", "1;", "1\r", "1\r\n", "1\r\na", "1\r\na\r", "1\r\na\r\n", "1\r\na\r\n0", "0\r\n", "0\r\n\r", "0\r\nA: b", "0\r\nA: b\r\n", "10001\r\n" + largest,
        "0\r\nX: " + "a" * 32_765,
    ]
    for body in bad:
        yield NEXT
        yield from ending(put + body, BAD_LENGTH)
    for body in large:
        yield NEXT
        yield from ending(put + body, LARGE)
    for body in cut:
        yield NEXT
        yield as_bytes(put + body), NOTHING
    for body, told_by in [
        # the most data, in one chunk and in chunks of a byte each, and the longest trailer section
        (in_chunks(largest), pong()),
        (in_chunks(*largest), pong()),
        ("0\r\nX: " + "a" * 32_761 + "\r\n\r\n", pong()),
        ("0\r\n" + "A: b\r\n" * 64 + "\r\n", pong()),
        # as many bytes as there may be
        ("1" + " " * 458_741 + "\r\na\r\n0\r\n\r\n", pong()),
    ]:
        yield NEXT
        yield as_bytes(put + body), written(one, 1)
        yield ping(), told_by


def limits():
    """Heads, lines, bodies and names at their limits, and one past them, each on a connection of its own."""
    key = Key("b", "k")
    put = f"PUT {key.target} HTTP/1.1\r\nContent-Length: "
    first = written(key.vnode(), 1)

    def cut(bytes_sent):
        """No whole request."""
        return [(as_bytes(bytes_sent), NOTHING)]

    def refused(bytes_sent, fault):
        return going_on(bytes_sent, told(*fault))

    return apart(
        [
            # a head of 32,768 bytes, and of one more
            going_on("GET /ping HTTP/1.1\r\nX: " + "a" * 32_741 + "\r\n\r\n", pong()),
            ending("GET /ping HTTP/1.1\r\nX: " + "a" * 32_742 + "\r\n\r\n", BAD_HEAD),
            # as many bytes without an end
            cut("GET /ping HTTP/1.1\r\nX: " + "a" * 32_745),
            ending("GET /ping HTTP/1.1\r\nX: " + "a" * 32_746, BAD_HEAD),
            cut("GET /" + "a" * 32_763),
            ending("GET /" + "a" * 32_764, BAD_HEAD),
            # 64 lines, and one more
            going_on("GET /ping HTTP/1.1\r\n" + "A: b\r\n" * 64 + "\r\n", pong()),
            ending("GET /ping HTTP/1.1\r\n" + "A: b\r\n" * 65 + "\r\n", BAD_HEAD),
            # too many lines and a coding
            ending("POST /ping HTTP/1.1\r\nTransfer-Encoding: gzip\r\n" + "A: b\r\n" * 64 + "\r\n", BAD_HEAD),
            # a body of 65,536 bytes, and one that is announced longer
            going_on(f"{put}65536\r\n\r\n" + "a" * 65_536, first),
            cut(f"{put}65536\r\n\r\n" + "a" * 65_535),
            ending(f"{put}65537\r\n\r\n", LARGE),
            ending(f"{put}65537\r\n\r\n" + "a" * 65_537, LARGE),
            going_on(put + "0" * 100 + "1\r\nContent-Length: 1\r\n\r\na", first),
            # buckets, keys and names of hooks
            going_on("GET /buckets/" + "b" * 64 + "/keys/k HTTP/1.1\r\n\r\n", not_found()),
            refused("GET /buckets/" + "b" * 65 + "/keys/k HTTP/1.1\r\n\r\n", BAD_NAME),
            refused("GET /buckets/" + "b" * 65 + "/props HTTP/1.1\r\n\r\n", BAD_NAME),
            going_on("GET /buckets/b/keys/" + "%00" * 255 + " HTTP/1.1\r\n\r\n", not_found()),
            refused("GET /buckets/b/keys/" + "k" * 256 + " HTTP/1.1\r\n\r\n", BAD_NAME),
            # the query is told before a name, and a name before a context and a media type
            refused("GET /buckets/b/keys/" + "k" * 256 + "?r=0 HTTP/1.1\r\n\r\n", QUERY),
            refused(
                "PUT /buckets/b/keys/" + "k" * 256 + " HTTP/1.1\r\n"
                "Content-Length: 0\r\nX-Riak-Vclock: AQA\r\nContent-Type:\r\n\r\n",
                BAD_NAME,
            ),
            going_on("DELETE /hooks/" + "h" * 64 + " HTTP/1.1\r\n\r\n", told(404, "G1")),
            refused("DELETE /hooks/" + "h" * 65 + " HTTP/1.1\r\n\r\n", BAD_NAME),
            # the name of a bucket before its properties
            refused("PUT /buckets/" + "b" * 65 + "/props HTTP/1.1\r\nContent-Length: 1\r\n\r\n{", BAD_NAME),
            # media types
            going_on(f"{put}0\r\nContent-Type: " + "t" * 127 + "\r\n\r\n", first),
            refused(f"{put}0\r\nContent-Type: " + "t" * 128 + "\r\n\r\n", BAD_TYPE),
        ]
    )


STRANGE = "PUT /buckets/b/keys/k?x=y HTTP/1.1\r\nX: y\r\nContent-Length: 1\r\n\r\na"


def strange():
    """A request with a byte that is no text in one place, for each of its places, and with a zero there."""
    body = len(STRANGE) - 1
    # the value of a field that is passed over, and the return behind it, since a line feed alone ends a line too
    passed = range(STRANGE.index("X: y") + 2, STRANGE.index("X: y") + 5)
    # the length, likewise
    length = range(STRANGE.index(": 1\r") + 1, STRANGE.index(": 1\r") + 4)
    assert (passed, length, body) == (range(38, 41), range(57, 60), 63)

    def spoiled(place, byte):
        sent = STRANGE.encode()
        sent = sent[:place] + bytes([byte]) + sent[place + 1 :]
        if place == body or (byte == 0xFF and place in passed):
            return going_on(sent, written(Key("b", "k").vnode(), 1))
        return ending(sent, BAD_LENGTH if byte == 0xFF and place in length else BAD_HEAD)

    return apart(spoiled(place, byte) for place in range(len(STRANGE)) for byte in (0xFF, 0))


# Reads


def reads():
    """One sibling and several, as text, as parts and by a tag, also where a delete is one of them."""
    key = Key("b", "k")
    one, two = key.vnode(0), key.vnode(1)
    as_parts = "Accept: multipart/mixed"
    by_tag = f"GET {key.target}?vtag="

    # No sibling, and one.
    for fields in [(), (as_parts,)]:
        yield request(f"GET {key.target}", *fields), not_found()
    yield request(f"{by_tag}{one}-1"), not_found()
    yield request(f"PUT {key.target}", typed(TEXT), body="a"), written(one, 1)
    for fields in [(), (as_parts,)]:
        yield request(f"GET {key.target}", *fields), value({one: 1}, "a")
    yield request(f"{by_tag}{one}-1"), value({one: 1}, "a")

    # Two.
    yield request(f"PUT {key.target}?at=1", typed(TEXT), body="b"), written(two, 1)
    both = {one: 1, two: 1}
    yield request(f"GET {key.target}"), choices(both, (one, 1), (two, 1))
    yield request(f"GET {key.target}", as_parts), parts(both, {(one, 1): "a", (two, 1): "b"})
    yield request(f"{by_tag}{two}-1"), value(both, "b", dot=(two, 1))
    yield request(f"{by_tag}{two}-10"), not_found(both)

    # Names of fields and words in any case; of a field or a word of a query that stands twice the first counts.
    shown = parts(both, {(one, 1): "a", (two, 1): "b"})
    yield request(f"GET {key.target}", "accept: text/plain, Multipart/Mixed ;q=1"), shown
    yield request(f"GET {key.target}", "Accept: multipart/mixed2,multipart", as_parts), choices(both, (one, 1), (two, 1))
    yield request(f"{by_tag}{one}-1&vtag={two}-1", as_parts), value(both, "a", dot=(one, 1))
    yield from spelled()

    # A delete that has seen the first.
    yield request(f"DELETE {key.target}", seen({one: 1}, version=1)), written(one, 2)
    beside = {one: 2, two: 1}
    yield request(f"GET {key.target}"), choices(beside, (one, 2), (two, 1))
    yield request(f"{by_tag}{one}-2"), deleted(beside)
    closing = parts(beside, {(one, 2): None, (two, 1): "b"}).replace(b"Content-Length", b"Connection: close\r\nContent-Length", 1)
    yield request(f"GET {key.target}", as_parts, "Connection: close"), closing
    yield ping(), NOTHING


def spelled():
    """Queries, names, fields and bodies that are spelled in another way, or that nothing asks for."""
    key = Key("b", "spelled")
    one, three = key.vnode(0), key.vnode(2)
    yield request(f"POST {key.target}?r=all&w=one&at=2&r=0&x=y", body=""), written(three, 1)
    yield request(f"GET {key.target}?r=all&w=quorum&at=1"), value({three: 1}, "", OCTETS)
    yield request(f"GET {key.target}?%72=%31&w=default"), value({three: 1}, "", OCTETS)
    yield request(f"GET {key.target}?%72=%30"), told(*QUERY)
    # A delete has no media type, and the first of two contexts counts.
    context_first = f"x-riak-vclock: {context({three: 1})}"
    yield request(f"DELETE {key.target}", "Content-Type:", context_first, "X-Riak-Vclock: AQA"), written(one, 1)
    yield request(f"GET {key.target}"), deleted({one: 1, three: 1})

    # Names with escapes, and with a sign for one that begins none.
    escaped = Key("a/b", "%k%2", "/buckets/a%2Fb/keys/%25k%2")
    yield request(f"PUT {escaped.target}", typed(TEXT), body="a"), written(escaped.vnode(), 1)
    yield request("GET /buckets/%61%2fb/keys/%25%6B%252"), value({escaped.vnode(): 1}, "a")
    yield install("no_1-B", "RBPF"), told(422, "I1")

    # A binding that names one hook of two, beside properties that are as they have to be, and others.
    props = '{"props":{"resolver":null,"allow_mult":true,"n_val":3,"x":{}},"y":0}'
    yield request("PUT /buckets/b/props", body=props), done()
    yield request("GET /buckets/b/props"), properties("b", None, None)

    # A body and fields that nothing uses, and two fields `Connection` of which none has `close`.
    yield b"GET /ping HTTP/1.1\r\nExpect: 100-continue\r\nContent-Length: 2\r\nContent-Length: 02\r\n\r\nab", answer(100) + pong()
    yield b"GET /ping HTTP/1.1\r\nConnection: closed\r\nConnection: keep-alive\r\n\r\n", pong()


# The second of two siblings, and the boundary and length of the answer in parts that its value leads to.
PARTS = [
    ("b", "s0", 118),
    ("x--s0", "s1", 122),
    ("--s10", "s0", 122),
    ("--s0--s10", "s2", 126),
    ("--s0--s1--s2", "s3", 129),
    ("--s00", "s1", 122),
    ("--s99999999999999999999", "s0", 140),
    ("--s0 --s1 --s2 --s3 --s4 --s5 --s6 --s7 --s8 --s9", "s10", 169),
]


def in_parts():
    """Two siblings in parts: the boundary is the first that stands in neither."""
    for number, (second, boundary, length) in enumerate(PARTS):
        key = Key("parts", f"k{number}")
        one, two = key.vnode(0), key.vnode(1)
        yield request(f"PUT {key.target}", typed(TEXT), body="a"), written(one, 1)
        yield request(f"PUT {key.target}?at=1", typed(TEXT), body=second), written(two, 1)
        shown = parts({one: 1, two: 1}, {(one, 1): "a", (two, 1): second})
        assert f"boundary={boundary}\r\n".encode() in shown and f"Content-Length: {length}\r\n".encode() in shown
        yield request(f"GET {key.target}", "Accept: multipart/mixed"), shown


def conditions():
    """Reads by clients that have something, with the tags that they list; and tombstones, which are nothing to have."""
    key = Key("b", "k")
    one, two, three = key.vnode(0), key.vnode(1), key.vnode(2)

    def has(*tags, line=f"GET {key.target}", fields=()):
        return request(line, f"If-None-Match: {', '.join(tags)}", *fields)

    # Nothing is there, so nobody has it.
    yield has("*"), not_found()
    # A value: whoever has it, with others or not, is told so without it, also by HEAD and where it is shown by its tag.
    yield request(f"PUT {key.target}", typed(TEXT), body="a"), written(one, 1)
    first = f'"{one}-1"'
    for tags in [first], ["*"], [f"W/{first}"], ['"x"', first], [f"{first},", '"x"'], ['"x,y"', f"\t{first} "]:
        yield has(*tags), known({one: 1}, f"{one}-1")
    yield has(first, line=f"HEAD {key.target}"), known({one: 1}, f"{one}-1")
    yield has(first, line=f"GET {key.target}?vtag={one}-1"), known({one: 1}, f"{one}-1")
    yield has(first, fields=["Accept: multipart/mixed"]), known({one: 1}, f"{one}-1")
    yield request(f"GET {key.target}", f"IF-NONE-MATCH:{first}", 'If-None-Match: "x"'), known({one: 1}, f"{one}-1")
    # What is no tag of it, and a second field, of which nothing is read.
    for tags in ['"x"'], [f"{one}-1"], [f'"{one}-11"'], [f'"{one}-'], [f'w/{first}'], ["*", "*"], [""], [f'"{context({one: 1})}"']:
        yield has(*tags), value({one: 1}, "a")
    yield request(f"GET {key.target}", 'If-None-Match: "x"', f"If-None-Match: {first}"), value({one: 1}, "a")
    yield request(f"GET {key.target}", f"If-Match: {first}"), value({one: 1}, "a")
    # Another write is another value; a write and a delete pass the tags over.
    yield request(f"PUT {key.target}", typed(TEXT), seen({one: 1}), "If-None-Match: *", body="b"), written(one, 2)
    yield has(first), value({one: 2}, "b")
    # Siblings have a tag as a list and one as parts, and each has its own.
    yield request(f"PUT {key.target}?at=1", typed(TEXT), body="c"), written(two, 1)
    both = {one: 2, two: 1}
    texts = {(one, 2): "b", (two, 1): "c"}
    tag_of_list, tag_of_parts = context(both), f"{context(both)}-parts"
    parts_wanted = ["Accept: multipart/mixed"]
    yield has(f'"{tag_of_list}"'), known(both, tag_of_list)
    yield has(f'"{tag_of_parts}"'), choices(both, *texts)
    yield has(f'"{tag_of_parts}"', fields=parts_wanted), known(both, tag_of_parts)
    yield has(f'"{tag_of_list}"', fields=parts_wanted), parts(both, texts)
    yield has(f'"{one}-2"'), choices(both, *texts)
    yield has(f'"{two}-1"', line=f"GET {key.target}?vtag={two}-1"), known(both, f"{two}-1")
    yield has("*", line=f"GET {key.target}?vtag={two}-9"), not_found(both)
    # A delete beside a value is a sibling, and deletes alone are nothing, one or several.
    yield request(f"DELETE {key.target}?at=2", seen({one: 2})), written(three, 1)
    beside = {**both, three: 1}
    yield request(f"GET {key.target}"), choices(beside, (two, 1), (three, 1))
    yield request(f"DELETE {key.target}?at=1", seen({two: 1})), written(two, 2)
    gone = {**beside, two: 2}
    for fields in [], parts_wanted:
        yield request(f"GET {key.target}", *fields), deleted(gone)
    yield request(f"GET {key.target}?vtag={three}-1"), deleted(gone)
    yield request(f"GET {key.target}?vtag={one}-1"), not_found(gone)
    yield has("*", f'"{context(gone)}"'), deleted(gone)
    yield request(f"HEAD {key.target}"), head_of(deleted(gone))
    # A write that has seen them takes their place, and the connection may end with what the client has.
    yield request(f"PUT {key.target}", typed(TEXT), seen(gone), body="d"), written(one, 3)
    yield request(f"GET {key.target}"), value({**gone, one: 3}, "d", dot=(one, 3))
    last = known({**gone, one: 3}, f"{one}-3").replace(b"X-Content", b"Connection: close\r\nX-Content", 1)
    yield has("*", fields=["Connection: close"]), last
    yield ping(), NOTHING
    # Other resources have no tags.
    yield NEXT
    for line, answered in ("GET /ping", pong()), ("GET /", resources()), ("GET /buckets/b/props", properties("b", None, None)):
        yield has("*", line=line), answered


def changes():
    """Hooks put, bound and taken away, where the connection goes on and where it ends with that."""
    reject = b"RBPF" + bytes([1, 1, 0, 0, 0x80]) + bytes(7) + bytes([0xB7, 0, 0, 0, 1, 1, 0, 0, 0x95]) + bytes(7)
    take = b"RBPF" + bytes([1, 2, 0, 0, 0x80]) + bytes(7) + bytes([0xB7, 0, 0, 0, 0, 1, 0, 0, 0x95]) + bytes(7)
    bound = '{"props":{"precommit":"no","resolver":"take"}}'
    key = Key("b", "k")

    def install(*fields):
        return request("PUT /hooks/no", *fields, body=reject)

    def bind(*fields):
        return request("PUT /buckets/b/props", *fields, body=bound)

    def remove(*fields):
        return request("DELETE /hooks/no", *fields)

    both = [(install(), done()), (request("PUT /hooks/take", body=take), done())]
    last = answer(204, closes=True)
    yield request("GET /buckets/b/props"), properties("b", None, None)
    yield remove(), told(404, "G1")
    yield bind(), told(422, "G1")
    yield from both
    yield bind(), done()
    yield request("GET /buckets/b/props"), properties("b", "no", "take")
    yield request(f"PUT {key.target}", body="a"), told(403, "X3 1")
    yield request("PUT /buckets/b/props", body='{"props":{"resolver":"no"}}'), told(422, "G2")
    yield request(f"DELETE {key.target}"), told(403, "X3 1")
    yield remove(), done()
    yield NEXT
    yield install("Connection: close"), last
    yield NEXT
    yield from both
    yield bind("Connection: close"), last
    yield NEXT
    yield from both
    yield remove("Connection: close"), last


# The program `indexed_byte`: it reads the byte of the input that its length names.
INDEXED_BYTE = bytes.fromhex(
    "52425046 01000000 00010000 00000000"
    "bf26000000000000 57060000ff000000 0f61000000000000 7110000000000000 9500000000000000"
)

# The place of one byte of the image, what stands there, and what is told.
HEADS = [
    (0, 0x53, "I2"),
    (3, 0x47, "I2"),
    (4, 0, "I3"),
    (4, 3, "I3"),
    (5, 3, "I4"),
    (6, 1, "I4"),
    (7, 1, "I4"),
    (10, 2, "I5"),
    (14, 2, "I5"),
    (16, 0xC3, "D8 0"),
]


def images():
    """An image that is cut after each byte, and one with another byte in one place."""

    def install(image):
        return request("PUT /hooks/no", body=image)

    def cut(length):
        """What is told of so many first bytes: code begins with byte 16 and goes past its end until the last slot is there."""
        if length < 16:
            return "I1"
        if length % 8:
            return "D1 0"
        return "D2 0" if length == 16 else f"V13 {(length - 24) // 8}"

    for length in range(len(INDEXED_BYTE)):
        yield install(INDEXED_BYTE[:length]), told(422, cut(length))
    yield install(INDEXED_BYTE), done()
    yield install(INDEXED_BYTE[:4] + bytes([2]) + INDEXED_BYTE[5:]), done()
    for place, byte, why in HEADS:
        yield install(INDEXED_BYTE[:place] + bytes([byte]) + INDEXED_BYTE[place + 1 :]), told(422, why)
    # Another kind: a plain image is bound to nothing, a resolver is.
    yield request("PUT /buckets/b/props", body='{"props":{"resolver":"no"}}'), told(422, "G2")
    yield install(INDEXED_BYTE[:5] + bytes([2]) + INDEXED_BYTE[6:]), done()
    yield request("PUT /buckets/b/props", body='{"props":{"resolver":"no"}}'), done()


def together():
    """Many reads that come together, with other requests among them and behind them."""
    key, other = Key("b", "k"), Key("b", "other")
    one = key.vnode()
    last = not_found(closes=True)
    chosen = first_key("c", "k")

    def read(of, *fields):
        return request(f"GET {of.target}", *fields)

    def absent(count):
        return itertools.repeat((read(other), not_found()), count)

    def present(count):
        return itertools.repeat((read(key), value({one: 1}, "a")), count)

    # 40 in a row, a write among reads, which those behind it see, and a delete.
    yield from absent(40)
    yield read(key), not_found()
    yield request(f"PUT {key.target}", typed(TEXT), body="a"), written(one, 1)
    yield from present(20)
    yield read(other), not_found()
    yield request(f"DELETE {key.target}", seen({one: 1})), written(one, 2)
    yield from itertools.repeat((read(key), deleted({one: 2})), 3)
    # Requests that are refused, and others that read no key.
    for query in "r=4", "at=3":
        yield read(other), not_found()
        yield request(f"GET {key.target}?{query}"), told(400, "bad query")
    yield from absent(2)
    yield ping(), pong()
    yield read(other), not_found()
    yield request("GET /buckets/b/props"), properties("b", None, None)
    # A resolver that is bound among reads.
    yield from absent(2)
    yield install("x", few_slots(RESOLVER, writing(b"x"))), done()
    yield from siblings(chosen)
    yield read(chosen), choices({0: 1, 1: 1}, (0, 1), (1, 1))
    yield bind("c", '{"resolver":"x"}'), done()
    yield read(chosen), value({0: 2, 1: 1}, "x", OCTETS)
    # A read that ends the connection, the 16th and the 17th, and one behind it.
    yield NEXT
    yield from absent(15)
    yield read(other, "Connection: close"), last
    yield read(other), NOTHING
    yield NEXT
    yield from absent(16)
    yield read(other, "Connection: close"), last
    yield read(other), NOTHING
    # A head that is none behind reads, and one that is cut.
    yield NEXT
    yield from absent(3)
    yield b"GET no path HTTP/1.1\r\n\r\n", told(*BAD_HEAD, closes=True)
    yield read(other), NOTHING
    yield NEXT
    yield from absent(17)
    yield read(other)[:-1], NOTHING
    # A body that is cut.
    yield NEXT
    yield from absent(2)
    yield request(f"PUT {key.target}", typed(TEXT), body="ab")[:-1], NOTHING


DIALOGUES = {
    "broken": broken,
    "cart": cart,
    "changes": changes,
    "chunks": chunks,
    "conditions": conditions,
    "expects": expects,
    "hooks": hooks,
    "images": images,
    "limits": limits,
    "methods": methods,
    "parts": in_parts,
    "reads": reads,
    "refused": refused,
    "riak": riak,
    "strange": strange,
    "together": together,
}


def main(folder):
    for name, dialogue in DIALOGUES.items():
        requests, answers = zip(*dialogue())
        assert all(text == SEPARATOR or SEPARATOR not in text for text in requests + answers), name
        (folder / f"{name}.requests").write_bytes(b"".join(requests))
        (folder / f"{name}.answers").write_bytes(b"".join(answers))


if __name__ == "__main__":
    parser = argparse.ArgumentParser(description=__doc__, formatter_class=argparse.RawDescriptionHelpFormatter)
    parser.add_argument("--into", type=Path, default=HERE, metavar="FOLDER", help="the folder to write into, in place of this one")
    main(parser.parse_args().into)
