#!/usr/bin/env python3
"""Tells what each crate takes of the gate: processor seconds of its proof, its tests and its wrong bodies, beside its budget.

    gate/seconds.py rt ci                    runs the gate, as at each landing, and prints the seconds of what it did
    gate/seconds.py --keep rt ci --anew      the same from nothing, with nothing else running; writes them into gate/measured.txt,
                                             and the table of docs/MAP.md
    gate/seconds.py --map                    writes that table anew, of gate/measured.txt and gate/budget.txt, and runs nothing

At the top of the repository. A second is one of user and system time of the toolchain's processes. They are read off /proc once a
second, so the last second of each is lost. The table goes to standard error behind what the command writes; the status is the
command's. With --keep, a crate's numbers are replaced where the run proved it; one that was kept from an earlier run stays as it is.

gate/budget.txt has a line a crate: its name and the seconds that it may take. A crate above that by a tenth is marked with '>'.
gate/measured.txt has a line a crate: its name, and the seconds of its proof, tests and wrong bodies.
"""
import os
import subprocess
import sys
import time

PARTS = ("proof", "tests", "wrong")
TICKS = os.sysconf("SC_CLK_TCK")
LOOK_SECONDS = 1
BUDGETS, MEASURED, MAP = "gate/budget.txt", "gate/measured.txt", "docs/MAP.md"
HEAD = "| Crate | Proof | Tests | Wrong bodies | All | Budget |"


def words_of(pid):
    with open(f"/proc/{pid}/cmdline", "rb") as it:
        return it.read().decode(errors="replace").split("\0")


def fields_of(pid):
    """The fields of a process's stat line behind its name."""
    with open(f"/proc/{pid}/stat", encoding="utf-8", errors="replace") as it:
        return it.read().rpartition(")")[2].split()


def job_of(pid):
    """What a process of the toolchain is at work on, as (crate, part), or None for any other process."""
    words = words_of(pid)
    if "--crate-name" not in words:
        return None
    crate = words[words.index("--crate-name") + 1]
    if "/rt-edit-" in os.readlink(f"/proc/{pid}/cwd"):
        return crate, "wrong"
    return crate, "tests" if "--test" in words else "proof"


def look(seen, jobs):
    """Notes how many seconds each process has had so far. A worker of a check has the words of the check, so it is counted by itself."""
    for pid in filter(str.isdigit, os.listdir("/proc")):
        try:
            fields = fields_of(pid)
            key = pid, fields[19]
            if key not in jobs:
                jobs[key] = job_of(pid)
            if jobs[key]:
                seen[key] = sum(int(it) for it in fields[11:13]) / TICKS
        except (OSError, IndexError, ValueError):
            continue


def watched(command):
    """Runs a command and returns its status, the seconds of each crate's parts, and the seconds by the clock."""
    seen, jobs, begun = {}, {}, time.monotonic()
    with subprocess.Popen(command) as ran:
        while ran.poll() is None:
            look(seen, jobs)
            time.sleep(LOOK_SECONDS)
    took = {}
    for key, seconds in seen.items():
        crate, part = jobs[key]
        took.setdefault(crate, dict.fromkeys(PARTS, 0.0))[part] += seconds
    return ran.returncode, took, time.monotonic() - begun


def rows_in(path):
    """The words of each line of a file, but for comments and empty lines; none where there is no file."""
    if not os.path.isfile(path):
        return []
    with open(path, encoding="utf-8") as lines:
        return [it.split() for it in lines if it.strip() and not it.startswith("#")]


def budgets():
    return {name: int(most) for name, most in rows_in(BUDGETS)}


def measured():
    return {name: dict(zip(PARTS, map(float, parts))) for name, *parts in rows_in(MEASURED)}


def by_seconds(took):
    return sorted(took.items(), key=lambda it: -sum(it[1].values()))


def minutes(took):
    sums = {it: sum(parts[it] for parts in took.values()) / 60 for it in PARTS}
    return f"proofs {sums['proof']:.0f}, tests {sums['tests']:.0f}, wrong bodies {sums['wrong']:.0f}, all {sum(sums.values()):.0f}"


def tell(took, wall):
    most = budgets()
    print(f"\n{'crate':20}{'proof':>8}{'tests':>8}{'wrong':>8}{'all':>8}{'budget':>8}", file=sys.stderr)
    for crate, parts in by_seconds(took):
        whole, budget = sum(parts.values()), most.get(crate)
        mark = " >" if budget is not None and whole > 1.1 * budget else ""
        columns = "".join(f"{parts[it]:8.0f}" for it in PARTS)
        print(f"{crate:20}{columns}{whole:8.0f}{budget if budget is not None else '-':>8}{mark}", file=sys.stderr)
    print(f"minutes of processors: {minutes(took)}; by the clock {wall / 60:.1f}", file=sys.stderr)


def keep(took):
    """Writes what was measured into gate/measured.txt, in place of the rows of the same crates."""
    rows = measured() | took
    with open(MEASURED, "w", encoding="utf-8") as out:
        out.write("# Seconds of processors that each crate took of the gate: its proof, tests and wrong bodies. Made by gate/seconds.py --keep.\n")
        for crate, parts in by_seconds(rows):
            out.write(f"{crate} " + " ".join(f"{parts[it]:.0f}" for it in PARTS) + "\n")


def write_map():
    """Writes the table of docs/MAP.md anew, from its head to the first empty line behind it."""
    most, rows = budgets(), measured()
    table = [HEAD, "|---|---|---|---|---|---|"]
    for crate, parts in by_seconds(rows):
        columns = " | ".join(f"{parts[it]:.0f}" if parts[it] >= 0.5 else "" for it in PARTS)
        table.append(f"| {crate} | {columns} | {sum(parts.values()):.0f} | {most.get(crate, '')} |")
    table.append(f"\nMinutes of processors: {minutes(rows)}; budgets {sum(most.values()) / 60:.0f}.")
    with open(MAP, encoding="utf-8") as it:
        front, _, rest = it.read().partition(HEAD)
    behind = rest.partition("\n\nMinutes of processors: ")[2].partition("\n")[2]
    with open(MAP, "w", encoding="utf-8") as out:
        out.write(front + "\n".join(table) + "\n" + behind)


def main():
    words = sys.argv[1:]
    if words == ["--map"]:
        write_map()
        return
    keeps = words[:1] == ["--keep"]
    if not words[keeps:]:
        sys.exit(__doc__)
    status, took, wall = watched(words[keeps:])
    tell(took, wall)
    if keeps:
        keep(took)
        write_map()
    sys.exit(status)


main()
