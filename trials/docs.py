"""Runs the command lines of the documents against a server of their own, and compares what they print with what stands behind them.

Each document below has sessions in a shell, as sessions.py says, a server and a copy of the repository of its own, and begins at its
top.

The page of trials is compared with the trials: it has a row for each, with the promise that stands there. Each command line of the pages
of operations and of security has to be one that a trial picks out by a word of its own, and runs. What the program prints of its version and its
toolchain is compared with CHANGELOG.md and README.md.
"""
from __future__ import annotations

import ast
import re
import shutil
import subprocess
import tempfile
from pathlib import Path

from server import Server
from sessions import Shell, try_sessions
from trial import NOT_COPIED, TOP, Findings, Result, Whole, lines_of_page, tool

NAME = "docs"
PROMISES = "The command lines of the documents print what stands behind them; each trial has its row."
QUICK = True
FULL = SHORT = Whole()

# What a document needs besides bash and curl.
DOCUMENTS: dict[str, tuple[str, ...]] = {"README.md": (), "docs/HTTP.md": (), "docs/HOOKS.md": ("clang", "llvm-objdump", "llvm-objcopy")}
TESTING = "docs/TESTING.md"
# The pages whose lines are run by trials of their own, and the shortest text by which one is picked out.
RUN_THEIR_LINES = {
    "docs/OPERATIONS.md": ("service", "backups", "systemd", "container", "proxies"),
    "docs/SECURITY.md": ("neighbours",),
}
LEAST_WORD = 6
CHANGES = "CHANGELOG.md"
END_SECONDS = 60


def try_document(found: Findings, name: str, program: Path) -> int:
    """Runs the sessions of a document. Gives how many commands were run."""
    with tempfile.TemporaryDirectory() as folder, Server.serve(program) as server:
        copy = Path(folder, "copy")
        shutil.copytree(TOP, copy, ignore=NOT_COPIED, symlinks=True)
        built = copy / "crates" / "dvvstore" / "out" / "dvvstore"
        built.parent.mkdir(parents=True)
        shutil.copy(program, built)
        shell = Shell(copy, server.port)
        count = try_sessions(found, name, (TOP / name).read_text(encoding="utf-8"), shell)
        shell.close()
    return count


def try_page_of_trials(found: Findings) -> None:
    """Whether the page has each trial's row."""
    import run as runner

    page = (TOP / TESTING).read_text(encoding="utf-8")
    rows = dict(re.findall(r"^\| `(\w+)` \| ([^|]+) \| (?:yes|no) \|", page, re.M))
    for trial in runner.modules(runner.NAMES):
        found.hold(rows.get(trial.NAME) == trial.PROMISES, f"{TESTING} has the row of {trial.NAME}: {trial.PROMISES}")
    found.hold(set(rows) <= set(runner.NAMES), f"{TESTING} has rows of trials alone: {set(rows) - set(runner.NAMES)}")


def texts_of(source: Path) -> set[str]:
    """The texts that stand in a trial."""
    nodes = ast.walk(ast.parse(source.read_text(encoding="utf-8")))
    return {node.value for node in nodes if isinstance(node, ast.Constant) and isinstance(node.value, str)}


def try_page_of_lines(found: Findings, page: str, names: tuple[str, ...]) -> None:
    """Whether each command line of a page has a word in one of these trials that no other line of it has."""
    lines = lines_of_page(TOP / page)
    words = set().union(*(texts_of(TOP / "trials" / f"{name}.py") for name in names))
    for line in lines:
        is_run = any(len(word) >= LEAST_WORD and word in line and sum(word in other for other in lines) == 1 for word in words)
        found.hold(is_run, f"{page}: no trial runs `{line}`")


def try_version(found: Findings, program: Path) -> None:
    """Whether the program's version is the latest that the list of changes has, and its toolchain the one that README.md names."""
    told = subprocess.run([program, "version"], capture_output=True, text=True, timeout=END_SECONDS).stdout
    lines = dict(line.split(" ", 1) for line in told.splitlines())
    versions = re.findall(r"^## \[(\d+\.\d+\.\d+)\]", (TOP / CHANGES).read_text(encoding="utf-8"), re.M)
    found.hold(lines.get("dvvstore") in versions[:1], f"{CHANGES} has the version that the program prints last: {lines.get('dvvstore')}")
    readme = " ".join((TOP / "README.md").read_text(encoding="utf-8").split())
    found.hold(f"`{lines.get('toolchain')}`" in readme, f"README.md names the toolchain that the program prints: {lines.get('toolchain')}")


def run(program: Path, seed: int, size: Whole) -> Result:
    tool("curl")
    found, counts = Findings(), []
    for name, tools in DOCUMENTS.items():
        lacking = [it for it in tools if not (shutil.which(it) or shutil.which(f"{it}-14"))]
        if lacking:
            found.say(f"{name} is left out: no {lacking[0]}")
        else:
            counts.append(try_document(found, name, program))
    try_page_of_trials(found)
    for page, names in RUN_THEIR_LINES.items():
        try_page_of_lines(found, page, names)
    try_version(found, program)
    return found.result(f"{sum(counts)} commands of {len(counts)} documents")
