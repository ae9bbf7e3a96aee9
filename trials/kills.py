"""Stops or kills a kept store at random moments, starts it again, and compares it with what was acknowledged.

In each round three clients, each with keys of its own, put, put with a context, put without one so that siblings stand, delete and
get, and one of them binds a hook that rejects to a bucket and takes it away, and snapshots are asked for now and then, until the
server is told to stop (a quarter of the rounds) or is killed, maybe in the midst of a snapshot. A fourth client sends puts of keys of
its own one behind another, some at a time, and reads the answers later. Whatever the end was, everything that was acknowledged has to
be there at the next start, siblings and contexts alike, and nothing else; a request that wasn't answered may have been done or not.
That is so however often the log is forced, as the rounds take in turn, and behind starts that are killed before they are over. A
second process on the folder has to be told `in use`. No key is ever given one tag twice, and a context from before a kill is taken or
answered by 412, and never lets a value go that its client hasn't seen.
"""
from __future__ import annotations

import random
import subprocess
import threading
import time
from dataclasses import dataclass, field
from pathlib import Path

import kept
from server import AT_A_PORT_OF_THE_SYSTEM, Answer, Client, NoStart, Server, request
from trial import Findings, Result

NAME = "kills"
PROMISES = "A stop keeps each acknowledged write, and so does a kill."
QUICK = True


@dataclass(frozen=True)
class Size:
    """How often the store is started. A quarter of the rounds end by a stop, the others by a kill."""

    rounds: int


FULL, SHORT = Size(rounds=3_000), Size(rounds=12)

SYNCS = (b"always", b"everysec", b"never")

CLIENTS = 3
KEYS_OF_A_CLIENT = 6
MOST_SIBLINGS = 8
COPIES = 1
PIPED = 40
PIPED_OF_A_START = 400
PIPED_BEFORE = 200
PIPE_REST_SECONDS = 0.01
KILLED_STARTS, MOST_START_SECONDS = 0.2, 0.1
MOST_CHANGES_BEFORE = 30
SECONDS_BEFORE = 5
BOUND = "the hook is bound"

# Of a key the sets of values of which one stands there; of the hook whether it is bound.
May = list


class Writer(threading.Thread):
    """Puts and deletes under keys of its own, and knows what has to stand there: for each key what may be shown."""

    def __init__(self, server: Server, number: int, known: dict[str, May], contexts: dict, chance: random.Random):
        super().__init__()
        self.server, self.number, self.chance = server, number, chance
        self.client: Client | None = None  # once it runs
        self.known, self.contexts = known, contexts
        self.tags: list[tuple[str, str]] = []
        self.faults: list[str] = []
        self.is_over = False

    def note(self, key: str, may: May) -> None:
        """From now on one of these stands under a key."""
        self.known[key] = may

    def ask(self, method: str, path: str, body: bytes | None = None, context: str | None = None) -> Answer:
        return self.client.ask(method, path, body, context)

    def read(self, key: str, copies: int = 2) -> tuple[frozenset[bytes], str | None]:
        """The values that stand there and their context."""
        path = f"/buckets/b/keys/{key}"
        answer = self.ask("GET", f"{path}?r={copies}")
        if answer.status == 404:
            return frozenset(), answer.context
        if answer.status == 200:
            return frozenset([answer.body]), answer.context
        siblings = [self.ask("GET", f"{path}?vtag={tag}") for tag in answer.body.decode().split()[1:]]
        return frozenset(one.body for one in siblings if one.status == 200), answer.context

    def change(self, key: str) -> None:
        """One change of a key. What may stand there while it isn't answered are the values before and after."""
        value = b"%d-%d" % (self.number, self.chance.getrandbits(40))
        before, way = self.known[key], self.chance.random()
        shown, context = self.read(key)
        if context and self.chance.random() < 0.3:
            self.contexts[key] = context, shown
        if shown not in before:
            self.faults.append(f"{key}: {sorted(shown)} in place of {[sorted(one) for one in before]}")
        is_of_before = way < 0.1 and key in self.contexts
        if is_of_before:  # the context of an earlier read, maybe before a kill
            context, seen = self.contexts[key]
            after, method, body = (shown - seen) | {value}, "PUT", value
        elif way < 0.2 and shown:
            after, method, body = frozenset(), "DELETE", None
        elif way < 0.5 and len(shown) < MOST_SIBLINGS:
            after, method, body, context = shown | {value}, "PUT", value, None
        else:
            after, method, body = frozenset([value]), "PUT", value
        self.note(key, [shown, after])
        answer = self.ask(method, f"/buckets/b/keys/{key}", body, context)
        if answer.status == 204:
            self.note(key, [after])
            self.tags.append((key, answer.tag))
        elif answer.status == 412 and is_of_before:
            self.note(key, [shown])
        else:
            self.faults.append(f"{method} {key}: {answer.status}")

    def try_hook(self) -> int:
        """The status of a put of a key that nobody has put, where the hook may be bound."""
        return self.ask("PUT", f"/buckets/no/keys/{self.chance.getrandbits(60)}", b"x").status

    def rebind(self) -> None:
        """Binds the hook or takes it away, and sees whether it bites."""
        name = b'"no"' if self.chance.random() < 0.5 else b"null"
        self.note(BOUND, [True, False])
        self.ask("PUT", "/hooks/no", kept.REJECTS)
        if self.ask("PUT", "/buckets/no/props", b'{"props":{"precommit":%s}}' % name).status == 204:
            self.note(BOUND, [name != b"null"])
        status = self.try_hook()
        if {403: True, 204: False}.get(status) not in self.known[BOUND]:
            self.faults.append(f"hook: {status} where bound is {self.known[BOUND]}")

    def keys(self) -> list[str]:
        return sorted(key for key in self.known if key != BOUND)

    def check(self) -> None:
        """Whether all keys are as they have to be, as the server begins. All copies are read, which may be of different moments."""
        for key in self.keys():
            shown, _ = self.read(key, COPIES)
            if shown not in self.known[key]:
                self.faults.append(f"at the start {key}: {sorted(shown)} in place of {[sorted(one) for one in self.known[key]]}")
            self.note(key, [shown])
        if BOUND in self.known:
            is_bound = self.try_hook() == 403
            if is_bound not in self.known[BOUND]:
                self.faults.append(f"at the start the hook is bound: {is_bound} in place of {self.known[BOUND]}")
            self.note(BOUND, [is_bound])

    def run(self) -> None:
        try:
            with self.server.client() as self.client:
                self.check()
                while not self.is_over:
                    if BOUND in self.known and self.chance.random() < 0.1:
                        self.rebind()
                    else:
                        self.change(self.chance.choice(self.keys()))
        except OSError:  # the server was stopped or killed
            pass
        except ValueError as error:
            self.faults.append(f"an answer that is none: {error}")


@dataclass
class Piped:
    """Keys that were put one behind another, each once with its own name as its value: those acknowledged since the last start, and before."""

    count: int = 0
    new: list[str] = field(default_factory=list)
    old: list[str] = field(default_factory=list)


class Piper(threading.Thread):
    """Sends puts of new keys one behind another, some at a time, and knows which were acknowledged."""

    def __init__(self, server: Server, known: Piped, chance: random.Random):
        super().__init__()
        self.server, self.known, self.chance = server, known, chance
        self.faults: list[str] = []
        self.is_over = False

    def check(self, client: Client) -> None:
        """Whether all that were acknowledged since the last start are there, and some of those before."""
        known = self.known
        keys = known.new + self.chance.sample(known.old, min(len(known.old), PIPED_BEFORE))
        known.old += known.new
        known.new = []
        for first in range(0, len(keys), PIPED):
            some = keys[first : first + PIPED]
            answers = client.ask_together([request("GET", f"/buckets/p/keys/{key}") for key in some])
            self.faults += [f"at the start {key}: {one.status}" for key, one in zip(some, answers) if one.body != key.encode()]

    def send_some(self, client: Client) -> None:
        """Some puts at once, whose answers are read behind the last."""
        known = self.known
        keys = [f"p{known.count + place}" for place in range(self.chance.randint(1, PIPED))]
        known.count += len(keys)
        client.send(b"".join(request("PUT", f"/buckets/p/keys/{key}", key.encode(), Content_Type="text/plain") for key in keys))
        for key in keys:
            if client.hear().status == 204:
                known.new.append(key)

    def run(self) -> None:
        try:
            with self.server.client() as client:
                self.check(client)
                while not self.is_over:
                    if len(self.known.new) < PIPED_OF_A_START:
                        self.send_some(client)
                    time.sleep(PIPE_REST_SECONDS)
        except OSError:  # the server was stopped or killed
            pass
        except ValueError as error:
            self.faults.append(f"an answer that is none: {error}")


def wait_for(writers: list[Writer], changes: int) -> None:
    """Waits until there were so many changes, where the machine has much else to do, or for some seconds."""
    until = time.monotonic() + SECONDS_BEFORE
    while sum(len(writer.tags) for writer in writers) < changes and time.monotonic() < until:
        time.sleep(0.005)


def ask_for_snapshots(server: Server, chance: random.Random) -> list[str]:
    """Asks for some snapshots, of which the last may be under way when this ends. Gives what was told otherwise."""
    faults = []
    for _ in range(chance.randrange(3)):
        time.sleep(chance.uniform(0.02, 0.15))
        line = server.snapshot()
        if not kept.is_whole_snapshot(line):
            faults.append(f"a snapshot: {line}")
    time.sleep(chance.uniform(0.02, 0.3))
    if chance.random() < 0.5:
        server.say("snapshot")
        time.sleep(chance.uniform(0, 0.15))
    return faults


@dataclass
class Life:
    """What a store holds from one start to the next, what each client knows of it, and how it was tried."""

    program: Path
    folder: Path
    chance: random.Random
    known: list[dict[str, May]]
    contexts: list[dict]
    piped: Piped
    tags: set[tuple[str, str]] = field(default_factory=set)
    stops: int = 0
    kills: int = 0

    def second_process(self) -> list[str]:
        second = kept.refusal(self.program, self.folder)
        return [] if second == kept.Refusal(1, "refused in use\n") else [f"a second process: {second}"]

    def end_of(self, server: Server) -> list[str]:
        """Stops it, and gives what was wrong with that."""
        end = server.stop()
        is_right = end is not None and end.is_in_order and len(end.printed) == 2 and end.printed[0].startswith("kept ")
        return [] if is_right else [f"the end: {end}"]

    def begin_and_kill(self) -> None:
        """A start that is killed, maybe before it is over."""
        words = [self.program, "keep", self.folder, AT_A_PORT_OF_THE_SYSTEM, "1"]
        with subprocess.Popen(words, stdin=subprocess.DEVNULL, stdout=subprocess.DEVNULL, stderr=subprocess.DEVNULL) as started:
            time.sleep(self.chance.uniform(0, MOST_START_SECONDS))
            started.kill()

    def note_tags(self, tags: list[tuple[str, str]]) -> list[str]:
        again = [tag for place, tag in enumerate(tags) if tag in self.tags or tag in tags[:place]]
        self.tags.update(tags)
        return [f"tags that were given before: {again[:5]}"] if again else []

    def round(self, is_first: bool, is_stopped: bool) -> list[str]:
        """One start and its end, a stop or a kill, maybe behind a start that was killed. Gives what was wrong."""
        if self.chance.random() < KILLED_STARTS:
            self.begin_and_kill()
        try:
            server = Server.keep(self.program, self.folder)
        except NoStart as error:
            return [str(error)]
        with server:
            faults = [] if server.loaded is not None else [f"the start: {server.first_lines}"]
            faults += self.second_process() if is_first else []
            chances = [random.Random(self.chance.random()) for _ in range(CLIENTS)]
            writers: list = [Writer(server, number, self.known[number], self.contexts[number], chances[number]) for number in range(CLIENTS)]
            piper = Piper(server, self.piped, random.Random(self.chance.random()))
            for thread in [*writers, piper]:
                thread.start()
            wait_for(writers, self.chance.randrange(MOST_CHANGES_BEFORE))
            faults += ask_for_snapshots(server, self.chance)
            if is_stopped:
                faults += self.end_of(server)
            else:
                server.kill()
            for thread in [*writers, piper]:
                thread.is_over = True
                thread.join()
                faults += thread.faults
            for writer in writers:
                faults += self.note_tags(writer.tags)
        self.stops += is_stopped
        self.kills += not is_stopped
        return faults


def run(program: Path, seed: int, size: Size) -> Result:
    found, chance = Findings(), random.Random(seed)
    are_stopped = [number % 4 == 0 for number in range(size.rounds)]
    chance.shuffle(are_stopped)
    known: list[dict[str, May]] = [{f"c{number}-{place}": [frozenset()] for place in range(KEYS_OF_A_CLIENT)} for number in range(CLIENTS)]
    known[0][BOUND] = [False]
    with kept.folders() as folder:
        life = Life(program, folder, chance, known, [{} for _ in range(CLIENTS)], Piped())
        for number, is_stopped in enumerate(are_stopped):
            sync = SYNCS[number % len(SYNCS)]
            (folder / kept.SETTINGS).write_bytes(kept.NO_SNAPSHOTS_BY_ITSELF + b"sync %s\n" % sync)
            for fault in life.round(number == 0, is_stopped):
                found.fail(f"round {number}, sync {sync.decode()}: {fault}")
            if not found.is_fine:
                break
    return found.result(f"{life.stops} stops, {life.kills} kills, {len(life.tags)} changes")
