"""Keeps other users of the machine from the port by the lines of docs/SECURITY.md, in a network of its own.

A server listens where the page's lines have it. Before them each user has to reach it; behind them root and the proxies' user, and
nobody else: neither another user nor one who asks by another address of the machine. No rule is made outside that network.
"""
from __future__ import annotations

import os
import pwd
import shlex
import subprocess
from pathlib import Path

from trial import TOP, Findings, Result, Skipped, Whole, lines_of_page, tool

NAME = "neighbours"
PROMISES = "By the page's rule the port answers root and the proxies' user, and no other user."
QUICK = True
FULL = SHORT = Whole()

PAGE = TOP / "docs" / "SECURITY.md"
RULES = ("nft add table", "nft add chain", "nft add rule")
ADDRESS = "127.0.0.1:8098"
ASKED = (ADDRESS, "127.0.0.2:8098")
PERMITTED, OTHERS = ("root", "www-data"), ("nobody", "daemon")
REACHED, REFUSED = "OK", ""
WAIT_SECONDS, END_SECONDS = 20, 120


def asked_by(user: str, address: str) -> str:
    """A command that asks as a user."""
    as_the_user = "" if user == "root" else f"setpriv --reuid={user} --clear-groups "
    return f"{as_the_user}curl -s --max-time 5 http://{address}/ping; echo"


def script(program: Path, rules: list[str]) -> str:
    """What is run in the network: each line that it prints is an answer."""
    asks = [asked_by(user, address) for user in (*PERMITTED, *OTHERS) for address in ASKED]
    starts = f"{shlex.quote(str(program))} serve 0.0.0.0:{ADDRESS.split(':')[1]} 1 >/dev/null 2>&1 </dev/null & P=$!"
    waits = f"for _ in $(seq {WAIT_SECONDS * 10}); do curl -s http://{ADDRESS}/ping >/dev/null && break; sleep 0.1; done"
    return "\n".join(["ip link set lo up", starts, waits, *asks, *rules, *asks, "kill $P"])


def run(program: Path, seed: int, size: Whole) -> Result:
    if os.geteuid() != 0:
        raise Skipped("only root makes rules")
    for name in ("nft", "unshare", "setpriv", "curl", "ip"):
        tool(name)
    lacking = [user for user in (*PERMITTED, *OTHERS) if user not in {one.pw_name for one in pwd.getpwall()}]
    if lacking:
        raise Skipped(f"no user {lacking[0]}")
    found, lines = Findings(), lines_of_page(PAGE)
    rules = [line for line in lines if line.startswith(RULES)]
    found.hold(len(rules) == len(RULES) == len(lines), f"the page's lines are the rule's: {lines}")
    words = [tool("unshare"), "--net", "sh", "-c", script(program, rules)]
    ran = subprocess.run(words, stdin=subprocess.DEVNULL, capture_output=True, text=True, timeout=END_SECONDS)
    if "Operation not permitted" in ran.stderr or "Protocol not supported" in ran.stderr:
        raise Skipped(f"no rule is permitted: {ran.stderr[:100]}")
    count = len(ASKED)
    before = [REACHED] * count * len(PERMITTED + OTHERS)
    behind = [REACHED] * count * len(PERMITTED) + [REFUSED] * count * len(OTHERS)
    found.hold(ran.stdout.splitlines() == before + behind, f"answers: {ran.stdout.splitlines()}, and {ran.stderr}")
    return found.result(f"{len(PERMITTED)} users let through and {len(OTHERS)} refused, at {count} addresses")
