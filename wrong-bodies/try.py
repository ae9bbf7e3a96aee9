#!/usr/bin/env python3
"""Tries wrong bodies: has the prover refuse each, sees at which goal, and writes a table of it. Run it at the top of the repository.

    wrong-bodies/try.py CRATE..            tries all wrong bodies of these crates, those of their must-fail/ too
    wrong-bodies/try.py --all              tries those of every crate
    wrong-bodies/try.py --only WORD ..     of these crates only the bodies whose names hold this word
    wrong-bodies/try.py --new ..           of these crates only the bodies that name no goal
    wrong-bodies/try.py --name ..          and writes into each body that names no goal the one at which it was refused
    wrong-bodies/try.py --lanes N ..       N crates side by side, each of which takes 1 to 4 GB
    wrong-bodies/try.py --texts [CRATE..]  proves nothing: says which texts no longer stand once in the file that they name

Each crate is tried in a copy, over what `rt check` has kept of it and of the crates below (what isn't proved yet is proved first).
Bodies of functions of different names are tried by one check: a function is proved over the contracts of others, so the goals of a
function are refused for its own body. One that no goal of its own functions refuses is tried alone, and so is one of another text.
A line a body goes to wrong-bodies/TABLE.md. The status is 0 where each body was refused at the goal that it names, or each text stands.
"""
from __future__ import annotations

import argparse
import os
import re
import shutil
import subprocess
import sys
import tempfile
import time
from concurrent.futures import ThreadPoolExecutor
from dataclasses import dataclass, field
from pathlib import Path
from threading import Lock, Timer

FOLDER = Path("wrong-bodies")
TABLE = FOLDER / "TABLE.md"
# At which goals the bodies that the gate tries are refused: a line in a crate's folder would have all crates above it proved anew.
GATE_GOALS = FOLDER / "must-fail.goals"
CHECK_SECONDS = 3600
MAX_TOGETHER = 12  # so many bodies are tried by one check
HEAD = """# Wrong bodies, as they were tried last

Made by `wrong-bodies/try.py`. A row says on which day the body was tried, at which goal of which function the prover
refused it, how many goals were refused in all, how, and how many seconds of processors that took. *False*: there are
values at which the goal is false. *Open*: no proof of it was found. *Unfit*: the answer that the proof folder has for
it proves something else now. *Weak*: no more than that an answer cites a name that the body took away, which says
little of the contract. A row in capitals is a body that has to be mended.

| Day | Crate | Wrong body | Refused at | Goals | How | Seconds |
|---|---|---|---|---|---|---|
"""


# What a wrong body is


@dataclass(frozen=True)
class Body:
    """A wrong body: pairs of texts in files of a crate, and the goals at which it says to be refused."""

    crate: str
    path: Path
    pairs: list[tuple[str, str, str]]
    goals: list[str]

    @property
    def name(self) -> str:
        return self.path.stem

    @property
    def is_of_gate(self) -> bool:
        return self.path.parent.name == "must-fail"

    @classmethod
    def read(cls, crate: str, path: Path) -> Body:
        """A body by its file. One that the gate tries has its goals elsewhere."""
        file, old, pairs, goals = "", None, [], [goal for name, goal in gate_goals() if name == f"{crate}/{path.stem}"]
        for line in path.read_text(encoding="utf-8").split("\n"):
            word, _, rest = line.partition(": ")
            if word == "file":
                file = rest.strip()
            elif word == "old":
                old = rest
            elif word == "refused":
                goals.append(rest.strip())
            elif word in ("new", "new:") and old is not None:
                pairs.append((file, old, rest))
                old = None
        return cls(crate, path, pairs, goals)

    def texts(self, top: Path) -> dict[str, str]:
        """The files that it changes, by their paths in the crate. Fails where a text doesn't stand once."""
        texts: dict[str, str] = {}
        if not self.pairs:
            raise ValueError("no pair of texts")
        for file, old, new in self.pairs:
            if file not in texts:
                if not (top / file).is_file():
                    raise ValueError(f"there is no file {file}")
                texts[file] = (top / file).read_text(encoding="utf-8")
            if texts[file].count(old) != 1:
                raise ValueError(f"stands {texts[file].count(old)} times: {old}")
            texts[file] = texts[file].replace(old, new)
        return texts

    def write_goal(self, goal: str) -> None:
        """Writes down at which goal it was refused: into its file, or where the goals of those stand that the gate tries."""
        if self.is_of_gate:
            lines = sorted([*(f"{name}: {goal}" for name, goal in gate_goals()), f"{self.crate}/{self.name}: {goal}"])
            GATE_GOALS.write_text("".join(f"{line}\n" for line in lines), encoding="utf-8")
            return
        text = self.path.read_text(encoding="utf-8").rstrip("\n")
        self.path.write_text(f"{text}\nrefused: {goal}\n", encoding="utf-8")


def gate_goals() -> list[tuple[str, str]]:
    """The bodies that the gate tries, each as CRATE/NAME, and at which goal it is refused."""
    lines = GATE_GOALS.read_text(encoding="utf-8").splitlines() if GATE_GOALS.is_file() else []
    return [(name, goal) for name, _, goal in (line.partition(": ") for line in lines)]


def bodies_of(crate: str) -> list[Body]:
    """The wrong bodies of a crate that stand here, and those that the gate tries."""
    folders = (FOLDER / crate, Path("crates") / crate / "must-fail")
    return [Body.read(crate, path) for folder in folders for path in sorted(folder.glob("*.edit"))]


# What the prover said


# How a goal is refused, from what says least of a contract on.
HOW = ("weak", "unfit", "open", "false")
WORST = HOW[0]


@dataclass
class Refusal:
    """What the prover refused: each goal by its function, and how, as the table has it."""

    goals: dict[str, str] = field(default_factory=dict)
    functions: list[str] = field(default_factory=list)

    def note(self, function: str, goal: str, how: str) -> None:
        name = f"{function}: {goal}"
        self.goals[name] = max(how, self.goals.get(name, WORST), key=HOW.index)

    def best(self, stands_in: list[str]) -> str:
        """The goal that says most: of the function that was turned, of a clause, and no weak one."""

        def worth(name: str) -> tuple[bool, bool, bool, int]:
            function, _, goal = name.partition(": ")
            how = self.goals[name]
            return how != WORST, function.rpartition("::")[2] in stands_in, goal.startswith("returns"), HOW.index(how)

        return max(self.goals, key=worth, default="")


UNREAD = re.compile(r"is not in scope|has no field|is no name|operand is missing|expected the end|cannot continue")
GONE = re.compile(r"has no field|is not in scope|has no `|was not admitted")
ERROR = re.compile(r"(?:note: )?(?:\./)?(\S+?):\d+:\d+: error: (?:`([^`]*)`: )?(.*)")
NOTE = re.compile(r"note: \S+:\d+:\d+: .*?\(`([^`]+)`\)(.*)")
REFUSED = re.compile(r"(?:fn|struct|enum|impl|trait|law|const|static) (\S+): (?:not proved|no proof: (?!it calls))")
SHOWN_FALSE = "at which this goal is false"


def function_of(path: str) -> str:
    """The function whose proof a file is, as proofs/clock/Clock/join/Answers.antt: clock::Clock::join; a lemma's file by its own name."""
    parts = path.removeprefix("proofs/").removesuffix(".antt").split("/")
    return "::".join(parts[:-1] if len(parts) > 1 and parts[-1] in ("Answers", "Invariants", "Proof") else parts)


def refusal_of(crate: str, lines: list[str]) -> Refusal:
    found, opened = Refusal(), []
    for line in lines:
        error, note, refused = ERROR.match(line), NOTE.match(line), REFUSED.match(line)
        if error and error[1].startswith("proofs/"):
            found.note(function_of(error[1]), error[2] or "its file", "weak" if GONE.search(error[3]) else "unfit")
        elif note:
            opened.append((note[1], "false" if SHOWN_FALSE in note[2] else "open"))
        elif refused:
            function = refused[1].removeprefix(f"{crate}::")
            found.functions.append(function)
            for goal, how in opened:
                found.note(function, goal, how)
            opened = []
    return found


def fault_of(lines: list[str], changed: list[str]) -> str:
    """Why the text didn't reach the prover, if it didn't."""
    for line in lines:
        error = ERROR.match(line)
        if error and (error[1] in changed or error[1].startswith(("src/", "specs/"))):
            if not error[2] or UNREAD.search(re.sub(r"`[^`]*`", "", error[3])):
                return line
    if not any(line.startswith("logic=") for line in lines):
        return next((line for line in lines if "error" in line), lines[-1] if lines else "nothing was said")
    return ""


FUNCTION = re.compile(r"^ *(?:pub(?:\([a-z]+\))? )?(?:const )?fn (\w+)", re.M)


def functions_in(body: Body, top: Path) -> list[str]:
    """The names of the functions in which its texts stand, or before which they do."""
    names = []
    for file, old, _ in body.pairs:
        text = (top / file).read_text(encoding="utf-8")
        names += FUNCTION.findall(text[: text.find(old) + len(old)])[-1:]
    return names


def is_inside(body: Body, top: Path) -> bool:
    """Whether each of its texts stands between the braces of a function, so that the proofs of no other function can see it."""
    for file, old, _ in body.pairs:
        text = (top / file).read_text(encoding="utf-8")
        place = text.find(old)
        starts = [found.start() for found in FUNCTION.finditer(text, 0, max(place, 0))]
        front = text[starts[-1] : place] if starts else ""
        indent = front[: len(front) - len(front.lstrip(" "))]
        if not re.search(r"\{\n", front) or re.search(f"^{indent}}}$", front, re.M):
            return False
    return bool(body.pairs)


def groups_of(bodies: list[Body], top: Path) -> list[list[Body]]:
    """Bodies that one check tells apart: each changes functions of other names. One that changes more than functions stands alone."""
    groups: list[tuple[set[str], list[Body]]] = []
    for body in bodies:
        names = set(functions_in(body, top)) if is_inside(body, top) else set()
        for taken, group in groups:
            if names and taken and not names & taken and len(group) < MAX_TOGETHER:
                taken |= names
                group.append(body)
                break
        else:
            groups.append((names, [body]))
    return [group for _, group in groups]


# A copy in which bodies are tried


@dataclass(frozen=True)
class Said:
    """The lines that the prover said, and the seconds of processors that it took."""

    lines: list[str]
    seconds: float

    @property
    def is_proved(self) -> bool:
        return any(line.startswith("logic=proved") for line in self.lines)


class Room:
    """A copy of the repository with what was proved of the crates below one, and what was kept of that one."""

    def __init__(self, top: Path, crate: str):
        self.crate, self.top, self.folder = crate, top, top / "crates" / crate
        os.makedirs(top / "crates")
        for name in ("crates.txt", "HANDLES"):
            shutil.copy(name, top)
        for source in sorted(Path("crates").iterdir()):
            self.lay(source, top / "crates" / source.name)
        if (kept := Path("crates") / crate / "out" / "incremental").is_dir():
            shutil.copytree(kept, self.folder / "out" / "incremental")

    def lay(self, source: Path, to: Path) -> None:
        """Lays a crate with all its files, by which `rt` knows what was built of them, and with what was built where it stands below."""
        shutil.copytree(source, to, ignore=shutil.ignore_patterns("out"))
        built = source / "out" / "rlib"
        if source.name != self.crate and (built / "stamp").is_file():
            shutil.copytree(built, to / "out" / "rlib", copy_function=link)

    def check(self) -> Said:
        """What the prover says of the crate as it lies here."""
        with tempfile.TemporaryFile("w+", encoding="utf-8", errors="replace") as told:
            how = {"cwd": self.folder, "stdin": subprocess.DEVNULL, "stdout": told, "stderr": subprocess.STDOUT}
            process = subprocess.Popen(["rt", "check", "--jobs", "1"], **how)
            late = Timer(CHECK_SECONDS, process.kill)
            late.start()
            _, status, used = os.wait4(process.pid, 0)
            late.cancel()
            process.returncode = os.waitstatus_to_exitcode(status)
            told.seek(0)
            return Said(told.read().splitlines(), used.ru_utime + used.ru_stime)

    def write(self, texts: dict[str, str]) -> None:
        for file, text in texts.items():
            (self.folder / file).write_text(text, encoding="utf-8")


def link(source: str, to: str) -> None:
    """Has a file at two places, where the system can."""
    try:
        os.link(source, to)
    except OSError:
        shutil.copy2(source, to)


# The trial, and its table


@dataclass(frozen=True)
class Row:
    """What came of a body: the goals at which it was refused, or what is wrong with it."""

    body: Body
    at: str
    count: int
    how: str
    seconds: float
    is_fine: bool

    def line(self) -> str:
        name = f"{self.body.name} (gate)" if self.body.is_of_gate else self.body.name
        at = self.at.replace("|", "\\|")
        return f"| {time.strftime('%Y-%m-%d')} | {self.body.crate} | {name} | {at} | {self.count or ''} | {self.how} | {self.seconds:.0f} |"


def judged(body: Body, said: Said) -> Row:
    """What the lines of the prover come to."""
    own, lines, seconds = Path("crates") / body.crate, said.lines, said.seconds
    fault = fault_of(lines, [file for file, _, _ in body.pairs])
    if fault:
        return Row(body, f"DIDN'T REACH THE PROVER: {fault[:200]}", 0, "", seconds, False)
    if said.is_proved:
        return Row(body, "PASSES", 0, "", seconds, False)
    if not any(line.startswith("logic=not-proved") for line in lines):
        return Row(body, "DIDN'T REACH THE PROVER: it gave no verdict", 0, "", seconds, False)
    return compared(body, refusal_of(body.crate, lines), seconds)


def compared(body: Body, found: Refusal, seconds: float) -> Row:
    """What was refused, beside the goals that a body names."""
    missed = [goal for goal in body.goals if goal not in found.goals]
    best = body.goals[0] if body.goals and not missed else found.best(functions_in(body, Path("crates") / body.crate))
    how = found.goals.get(best, "open")
    best = best or ", ".join(found.functions) or "nothing that is named"
    if missed:
        return Row(body, f"NOT AT {missed[0]}, but at {best}", len(found.goals), how, seconds, False)
    return Row(body, best, len(found.goals), how, seconds, bool(found.goals))


def of_functions(found: Refusal, names: list[str]) -> Refusal:
    """The part of a refusal that is of functions of these names."""
    goals = {goal: how for goal, how in found.goals.items() if goal.partition(": ")[0].rpartition("::")[2] in names}
    return Refusal(goals, [it for it in found.functions if it.rpartition("::")[2] in names])


def checked(room: Room, bodies: list[Body]) -> Said | None:
    """What the prover says where these bodies stand, or nothing where a text of one doesn't fit. What stood there stands there again."""
    own = Path("crates") / room.crate
    try:
        for body in bodies:
            room.write(body.texts(room.folder))
        return room.check()
    except ValueError:
        return None
    finally:
        room.write({file: (own / file).read_text(encoding="utf-8") for body in bodies for file, _, _ in body.pairs if (own / file).is_file()})


def tried(room: Room, body: Body) -> tuple[Row, list[str]]:
    """What came of a body, and what the prover said."""
    try:
        body.texts(room.folder)
    except ValueError as fault:
        return Row(body, f"BAD TEXT: {fault}", 0, "", 0, False), []
    said = checked(room, [body])
    return judged(body, said), said.lines


def tried_together(room: Room, bodies: list[Body]) -> list[tuple[Row, list[str]]]:
    """What came of each of the bodies that one check tells apart. One that isn't refused by goals of its own functions is tried alone."""
    said = checked(room, bodies) if len(bodies) > 1 else None
    if said is None or fault_of(said.lines, [file for body in bodies for file, _, _ in body.pairs]):
        return [tried(room, body) for body in bodies]
    found, told = refusal_of(room.crate, said.lines), []
    for body in bodies:
        row = compared(body, of_functions(found, functions_in(body, Path("crates") / room.crate)), said.seconds / len(bodies))
        told.append((row, said.lines) if row.is_fine and row.how != WORST else tried(room, body))
    return told


PRINTING = Lock()


def say(line: str) -> None:
    with PRINTING:
        print(line, flush=True)


def try_crate(crate: str, bodies: list[Body], is_named: bool) -> bool:
    """Tries bodies of a crate one behind another, and writes their rows."""
    rooms = FOLDER / "out"
    rooms.mkdir(exist_ok=True)
    with tempfile.TemporaryDirectory(prefix=f"{crate}-", dir=rooms, ignore_cleanup_errors=True) as made:
        room = Room(Path(made).resolve() / "room", crate)
        said = room.check()
        if not said.is_proved:
            say(f"{crate}: isn't proved without any wrong body: {[it for it in said.lines if 'error' in it or 'not proved' in it][:3]}")
            return False
        say(f"{crate}: {len(bodies)} bodies; the crate itself {said.seconds:.0f} s")
        rows = []
        for group in groups_of(bodies, Path("crates") / crate):
            for row, lines in tried_together(room, group):
                rows.append(row)
                note(row, lines, rooms, is_named)
    return all(row.is_fine for row in rows)


def note(row: Row, lines: list[str], rooms: Path, is_named: bool) -> None:
    """Puts what came of a body into the table, and tells it. What the prover said is kept of one that isn't as it should be."""
    body = row.body
    with PRINTING:
        write_table([row])
    if not row.is_fine:
        (rooms / f"{body.crate}-{body.name}.log").write_text("\n".join(lines), encoding="utf-8")
    say(f"{'' if row.is_fine else 'NOT SO: '}{body.crate}/{body.name}: {row.at} ({row.count} goals, {row.how}), {row.seconds:.0f} s")
    if is_named and row.is_fine and not body.goals and row.how != WORST:
        body.write_goal(row.at)


def write_table(rows: list[Row]) -> None:
    """Puts these rows into the table, in the place of earlier ones of the same bodies."""
    lines = TABLE.read_text(encoding="utf-8").splitlines() if TABLE.is_file() else []
    kept = {key_of(line): line for line in lines if re.match(r"\| \d{4}-", line)}
    kept |= {key_of(line): line for line in (row.line() for row in rows)}
    TABLE.write_text(HEAD + "".join(f"{kept[key]}\n" for key in sorted(kept)), encoding="utf-8")


def key_of(line: str) -> tuple[str, str]:
    """The crate and the body of a row."""
    cells = [cell.strip() for cell in line.split("|")]
    return cells[2], cells[3]


def tell_texts(crates: list[str]) -> bool:
    """Says which texts are lost, and whether none is."""
    bodies, lost = [body for crate in crates for body in bodies_of(crate)], 0
    for body in bodies:
        try:
            body.texts(Path("crates") / body.crate)
        except ValueError as fault:
            say(f"{body.path}: {fault}")
            lost += 1
    say(f"{len(bodies)} wrong bodies, {lost} of which no longer fit")
    return not lost


def main() -> int:
    parser = argparse.ArgumentParser(description=__doc__, formatter_class=argparse.RawDescriptionHelpFormatter)
    parser.add_argument("crates", nargs="*", metavar="CRATE")
    parser.add_argument("--all", action="store_true")
    parser.add_argument("--texts", action="store_true")
    parser.add_argument("--name", action="store_true")
    parser.add_argument("--new", action="store_true")
    parser.add_argument("--only", default="", metavar="WORD")
    parser.add_argument("--lanes", type=int, default=1, metavar="N")
    given = parser.parse_args()
    every = sorted(path.name for path in Path("crates").iterdir() if bodies_of(path.name))
    if not (given.crates or given.all or given.texts):
        parser.error("say crates, --all or --texts")
    if unknown := [crate for crate in given.crates if not Path("crates", crate).is_dir()]:
        parser.error(f"no such crate: {unknown[0]}")
    crates = given.crates or every
    if given.texts:
        return 0 if tell_texts(crates) else 1
    wanted = {crate: [body for body in bodies_of(crate) if given.only in body.name and not (given.new and body.goals)] for crate in crates}

    def is_fine(crate: str) -> bool:
        try:
            return try_crate(crate, wanted[crate], given.name)
        except OSError as fault:
            say(f"{crate}: {fault}")
            return False

    with ThreadPoolExecutor(given.lanes) as pool:
        return 0 if all(list(pool.map(is_fine, [it for it in crates if wanted[it]]))) else 1


if __name__ == "__main__":
    sys.exit(main())
