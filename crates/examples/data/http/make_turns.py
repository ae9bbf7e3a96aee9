#!/usr/bin/env python3
"""Writes the turns of this folder: the bytes that several clients of one store send, in pieces, and those of the answers to each.

    make_turns.py        NAME.turns and NAME.told, for each name in TURNS

A play is a function that gives steps: a client's number, a piece of its bytes or how its connection ends, and what the rules ask to be
answered to it by then. No store is asked: what is meant is the one of make_dialogues.py, and each play has one of its own.
"""
import argparse
from enum import Enum
from pathlib import Path

from make_dialogues import (
    NOTHING,
    PRE_COMMIT,
    RESOLVER,
    TEXT,
    Key,
    answering,
    bind,
    choices,
    deleted,
    done,
    few_slots,
    first_key,
    install,
    ping,
    pong,
    request,
    seen,
    siblings,
    told,
    typed,
    value,
    written,
)

HERE = Path(__file__).resolve().parent
PLAYS = b"\x1e"  # between two plays, and the answers of two
PIECES = b"\x1f"  # between two pieces of a play, and the answers to two clients


class Ending(Enum):
    """In place of a piece, which may be any byte: the client sends nothing more, or its connection breaks."""

    END = b"."
    FAILURE = b"!"


def put(key, text, *fields, at=None):
    target = key.target if at is None else f"{key.target}?at={at}"
    return request(f"PUT {target}", typed(TEXT), *fields, body=text)


def get(key):
    return request(f"GET {key.target}")


def halves(text):
    middle = len(text) // 2
    return text[:middle], text[middle:]


def in_turn():
    """Two writes of one key, neither of which has seen the other: both stay, and both clients read so."""
    key = Key("b", "in_turn")
    one = key.vnode()
    both = choices({one: 2}, (one, 1), (one, 2))
    yield 0, put(key, "a"), written(one, 1)
    yield 1, put(key, "b"), written(one, 2)
    yield 0, get(key), both
    yield 1, get(key), both


def context_of_another():
    """A context that one client read is used by the other: what it counts is replaced, and what it doesn't count stays."""
    key = Key("b", "context")
    one = key.vnode()
    yield 0, put(key, "a"), written(one, 1)
    yield 1, get(key), value({one: 1}, "a")
    yield 0, put(key, "b", seen({one: 1})), written(one, 2)
    yield 1, put(key, "c", seen({one: 1})), written(one, 3)
    yield 0, get(key), choices({one: 3}, (one, 2), (one, 3))
    yield 1, put(key, "d", seen({one: 3})), written(one, 4)
    yield 0, get(key), value({one: 4}, "d")


def broken_off():
    """A connection breaks in the midst of a write, beside one that goes on: nothing of that write is made."""
    key = Key("b", "broken")
    one = key.vnode()
    half, _ = halves(put(key, "lost"))
    yield 0, half, NOTHING
    yield 1, put(key, "a"), written(one, 1)
    yield 0, Ending.FAILURE, NOTHING
    yield 1, get(key), value({one: 1}, "a")


def cut_short():
    """A client ends in the midst of a body, beside one that goes on: what it had asked before is answered, the rest isn't made."""
    key, other = Key("b", "cut"), Key("b", "short")
    one = key.vnode()
    yield 0, put(key, "a") + put(key, "lost")[:-1], written(one, 1)
    yield 1, put(other, "b"), written(other.vnode(), 1)
    yield 0, Ending.END, NOTHING
    yield 1, get(key), value({one: 1}, "a")
    yield 1, Ending.END, NOTHING


def in_two_pieces():
    """A write comes in two pieces, and another's whole write between them: it is made when it is whole."""
    key = Key("b", "pieces")
    one = key.vnode()
    first, second = halves(put(key, "a"))
    yield 0, first, NOTHING
    yield 1, put(key, "b"), written(one, 1)
    yield 0, second, written(one, 2)
    yield 1, get(key), choices({one: 2}, (one, 1), (one, 2))


def hook_of_another():
    """A hook that one client installs and binds is in force at the next request of the other, and no longer once it is unbound."""
    key = Key("b", "hooked")
    one = key.vnode()
    yield 1, put(key, "a"), written(one, 1)
    yield 0, install("no", few_slots(PRE_COMMIT, answering(256 + 7))), done()
    yield 1, put(key, "b", seen({one: 1})), written(one, 2)
    yield 0, bind("b", '{"precommit":"no"}'), done()
    yield 1, put(key, "c", seen({one: 2})), told(403, "X3 7")
    yield 0, put(key, "c"), told(403, "X3 7")
    yield 1, get(key), value({one: 2}, "b")
    yield 0, bind("b", '{"precommit":null}'), done()
    yield 1, put(key, "c", seen({one: 2})), written(one, 3)


def resolver_of_another():
    """A resolver that one client binds runs at the read of the other, and what it took is read by both."""
    key = first_key("b", "resolved")
    for asked, answered in siblings(key):
        yield 0, asked, answered
    yield 1, get(key), choices({0: 1, 1: 1}, (0, 1), (1, 1))
    yield 0, install("first", few_slots(RESOLVER, answering(256))), done()
    yield 0, bind("b", '{"resolver":"first"}'), done()
    yield 1, get(key), value({0: 2, 1: 1}, "a")
    yield 0, get(key), value({0: 2, 1: 1}, "a")


def together():
    """Requests that one client sends together are answered in order before the other's that come later."""
    key = Key("b", "together")
    one = key.vnode()
    yield 0, put(key, "a") + get(key), written(one, 1) + value({one: 1}, "a")
    yield 1, get(key) + put(key, "b", seen({one: 1})), value({one: 1}, "a") + written(one, 2)
    yield 0, get(key), value({one: 2}, "b")


def byte_by_byte():
    """Two writes come byte by byte in turn: the one that is whole first is made first."""
    key = Key("b", "bytes")
    one = key.vnode()
    longer, shorter = put(key, "longer"), put(key, "short")
    for place in range(len(longer)):
        last = place == len(longer) - 1
        yield 0, longer[place : place + 1], written(one, 2) if last else NOTHING
        if place < len(shorter):
            last = place == len(shorter) - 1
            yield 1, shorter[place : place + 1], written(one, 1) if last else NOTHING
    yield 1, get(key), choices({one: 2}, (one, 1), (one, 2))


def deleted_by_another():
    """Three clients: one writes, one deletes what it has seen, and one that has seen the write too writes beside the delete."""
    key = Key("b", "deleted")
    one = key.vnode()
    yield 0, put(key, "a"), written(one, 1)
    yield 2, get(key), value({one: 1}, "a")
    yield 1, request(f"DELETE {key.target}", seen({one: 1})), written(one, 2)
    yield 0, get(key), deleted({one: 2})
    yield 2, put(key, "b", seen({one: 1})), written(one, 3)
    yield 0, get(key), choices({one: 3}, (one, 2), (one, 3))


def refused_beside():
    """A request that is refused ends its own connection alone: what comes behind it there is answered to nobody."""
    key = Key("b", "refused")
    one = key.vnode()
    yield 0, request(f"PUT {key.target}"), told(411, "length", closes=True)
    yield 1, put(key, "a"), written(one, 1)
    yield 0, put(key, "lost"), NOTHING
    yield 1, get(key), value({one: 1}, "a")


def silent():
    """A client that sends nothing, one that sends a line and waits, and one that is served meanwhile."""
    key = Key("b", "silent")
    one = key.vnode()
    yield 1, b"GET /ping HTTP/1.1\r\n", NOTHING
    yield 2, put(key, "a"), written(one, 1)
    yield 2, get(key), value({one: 1}, "a")
    yield 0, Ending.END, NOTHING
    yield 2, Ending.END, NOTHING


def ahead():
    """A context that counts a write which was not made is ahead; once another client has made that write, it isn't."""
    key = Key("b", "ahead")
    one = key.vnode()
    yield 0, put(key, "a", seen({one: 1})), told(412, "P1")
    yield 1, put(key, "b"), written(one, 1)
    yield 0, put(key, "a", seen({one: 1})), written(one, 2)
    yield 1, get(key), value({one: 2}, "a")


def many_together():
    """Hundreds of requests that one client sends in one piece, more than are answered at a time, are all answered before the next piece comes; and a client
    that is connected and never says anything."""
    key = Key("b", "many")
    one = key.vnode()
    yield 1, ping() * 200 + put(key, "a"), pong() * 200 + written(one, 1)
    yield 2, get(key), value({one: 1}, "a")


TURNS = {
    "clients": [
        in_turn,
        context_of_another,
        broken_off,
        cut_short,
        in_two_pieces,
        hook_of_another,
        resolver_of_another,
        together,
        byte_by_byte,
        deleted_by_another,
        refused_beside,
        silent,
        ahead,
        many_together,
    ],
}


def spelled(client, piece):
    """A piece behind its client's digit."""
    return str(client).encode() + (piece.value if isinstance(piece, Ending) else b"<" + piece)


def main(folder):
    for name, plays in TURNS.items():
        turns, answers = [], []
        for play in plays:
            steps = list(play())
            clients = 1 + max(client for client, _, _ in steps)
            told_to = [b"".join(answer for by, _, answer in steps if by == client) for client in range(clients)]
            pieces = [spelled(client, piece) for client, piece, _ in steps]
            assert not any(mark in text for text in pieces + told_to for mark in (PLAYS, PIECES)), play
            turns.append(PIECES.join(pieces))
            answers.append(PIECES.join(told_to))
        (folder / f"{name}.turns").write_bytes(PLAYS.join(turns))
        (folder / f"{name}.told").write_bytes(PLAYS.join(answers))


if __name__ == "__main__":
    parser = argparse.ArgumentParser(description=__doc__, formatter_class=argparse.RawDescriptionHelpFormatter)
    parser.add_argument("--into", type=Path, default=HERE, metavar="FOLDER", help="the folder to write into, in place of this one")
    main(parser.parse_args().into)
