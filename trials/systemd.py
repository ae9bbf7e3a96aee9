"""Installs a release under systemd by the lines of docs/OPERATIONS.md, and has systemd start, reload, stop and restart it.

systemd is the machine's own, run in a container of systemd-nspawn that has the machine's /usr, all else empty, and no network but its
own. An archive is unpacked there, and the lines of the page's sections are run as they stand: the program is installed, its user made,
its unit begun. A write has to be answered, `systemctl reload` to bring a snapshot, `systemctl stop` to end with `kept N`, `audit ok` and
status 0, and a start behind it to have what was written. A program that is killed has to be started again, and what came before the
snapshot to be there. The page's lines have to tell of that start and of the last snapshot, and of nothing to be woken by. The folder has
to be its user's alone. Where the machine has nginx or stunnel they are put before it by the lines
of the page, and asked as the page asks them. What the unit forbids has to be forbidden, as the kernel says, and no call of the program's
may be of it: the system ends a program that makes one.

What the unit leaves open is told by `systemd-analyze security`, from 0, nothing, to 10.
"""
from __future__ import annotations

import os
import re
import shlex
import shutil
import subprocess
import tempfile
from dataclasses import dataclass
from pathlib import Path

import release
from trial import TOP, Findings, Result, Skipped, Whole, line_of_page, tool

NAME = "systemd"
PROMISES = "Installed by the page's lines systemd starts it, has it keep, stops it in order, restarts it."
QUICK = False
FULL = SHORT = Whole()

PAGE = TOP / "docs" / "OPERATIONS.md"
UNIT = "dvvstore"
STORE = "http://127.0.0.1:8098"
PASSWORD = "none"
FOR_THE_SYSTEM = "/usr/bin:/usr/sbin"
BOOT_SECONDS = 300
# There is nobody to be asked at a first boot, and no network to be waited for.
BOOTED_WITH = ("systemd.firstboot=off", "systemd.mask=systemd-networkd-wait-online.service", "systemd.unit=trial.service")
WAIT_SECONDS = 60
MOST_EXPOSURE = 2.0
# What the system says of a process that has no capability, can't get one, and whose calls are filtered.
GUARDED = "CapBnd:\t0+\nNoNewPrivs:\t1\nSeccomp:\t2\n"

# What systemd is to do: run the script, and end.
RUNS_THE_SCRIPT = """[Unit]
SuccessAction=poweroff-force
FailureAction=poweroff-force
[Service]
Type=oneshot
WorkingDirectory=/trial/{top}
ExecStart=/bin/sh /trial/script
"""

# Each step leaves what it printed and its status. `wait_for` waits for a command to succeed.
FUNCTIONS = """PATH=/usr/local/bin:/usr/bin:/usr/sbin
wait_for() { for _ in $(seq %d); do eval "$1" && return 0; sleep 0.1; done; return 1; }
told() { journalctl -u %s -o cat --no-pager; }
step() { (eval "$2") >"/trial/$1.told" 2>&1; echo $? >"/trial/$1.status"; }
ip link set lo up
"""


@dataclass(frozen=True)
class Step:
    """A step in the container: its name, what is run, and what has to be printed; its status has to be 0."""

    name: str
    command: str
    told: str = ""


def page(word: str) -> str:
    return re.sub(r"\bNAME\b", "localhost", line_of_page(PAGE, word))


def answers(key: str, value: str) -> str:
    return f"wait_for {shlex.quote(f'[ `curl -s {STORE}/buckets/b/keys/{key}` = {value} ]')}"


def told(pattern: str) -> str:
    return f"wait_for {shlex.quote(f'told | grep -q {shlex.quote(pattern)}')}"


def put(key: str, value: str) -> str:
    return f"wait_for {shlex.quote(f'curl -s {STORE}/ping')}; curl -s -X PUT -d {value} -w '%{{http_code}}' {STORE}/buckets/b/keys/{key}"


def of_nginx() -> list[Step]:
    return [
        Step("nginx", "mkdir -p /var/log/nginx /var/lib/nginx && systemctl start nginx"),
        Step("users", page("-g www-data")),
        Step("password", f"echo {PASSWORD} | {{ {page('openssl passwd')}; }}"),
        Step("certificate", page("nginx/dvvstore.key")),
        Step("before", page("service/nginx.conf")),
        Step("reload-nginx", page("nginx -t")),
        Step("through-nginx", page("-u app").replace("-u app", f"-u app:{PASSWORD}"), "OK$"),
        Step("gone", "systemctl stop nginx"),
    ]


def of_stunnel() -> list[Step]:
    return [
        Step("own", page("stunnel/dvvstore.key")),
        Step("client", page("CN=CLIENT")),
        Step("listed", page("cat CLIENT.crt")),
        Step("tunnel", page("service/stunnel.conf")),
        Step("stunnel", page("stunnel@dvvstore")),
        Step("through-stunnel", page("--cert CLIENT.crt"), "OK$"),
    ]


# Each proxy's folder in /etc, its program, and its steps. They come one behind the other, since both listen at one port.
PROXIES = {"nginx": ("nginx", of_nginx), "stunnel": ("stunnel4", of_stunnel)}


def proxies() -> list[str]:
    """The proxies that the machine has."""
    return [name for name, (program, _) in PROXIES.items() if Path("/etc", name).is_dir() and shutil.which(program, path=FOR_THE_SYSTEM)]


def of_proxies() -> list[Step]:
    return [step for name in proxies() for step in PROXIES[name][1]()]


def steps() -> list[Step]:
    return [
        Step("install", page("service/dvvstore-service /usr/local/bin")),
        Step("user", page("useradd")),
        Step("unit", page("service/dvvstore.service")),
        Step("start", page("systemctl daemon-reload")),
        Step("put", put("k", "milk"), "204$"),
        Step("guarded", "grep -E '^(CapBnd|NoNewPrivs|Seccomp):' /proc/`systemctl show -p MainPID --value dvvstore`/status", GUARDED),
        Step("reload", "systemctl reload dvvstore"),
        Step("snapshot", told("^snapshot 1 ")),
        Step("another", put("l", "bread"), "204$"),
        Step("stop", "systemctl stop dvvstore"),
        Step("kept", told("^kept 2$")),
        Step("audit", told("^audit ok$")),
        Step("stopped", "systemctl show -p Result -p ExecMainStatus dvvstore", "Result=success\nExecMainStatus=0"),
        Step("again", "systemctl start dvvstore"),
        Step("first", answers("k", "milk")),
        Step("second", answers("l", "bread")),
        *of_proxies(),
        Step("kill", "systemctl kill -s KILL dvvstore"),
        Step("restarted", f"wait_for {shlex.quote('systemctl show -p NRestarts dvvstore | grep -x NRestarts=1')}; {answers('l', 'bread')}"),
        Step("restarts", page("NRestarts --value"), "^1$"),
        Step("last", page("'^snapshot '"), r"^snapshot \d+ keys \d+ ms$"),
        Step("woken", f"{{ {page('-o short-iso')}; }}; [ $? = 1 ]", "^$"),
        Step("folder", "stat -c '%U %a' /var/lib/dvvstore; stat -c '%U %a' /var/lib/dvvstore/* | sort -u", "dvvstore 700\ndvvstore 600\n$"),
        Step("security", "systemd-analyze security --no-pager dvvstore | tail -n 1"),
    ]


def make_script(room: Path) -> None:
    lines = [f"step {one.name} {shlex.quote(one.command)}" for one in steps()]
    (room / "script").write_text(FUNCTIONS % (WAIT_SECONDS * 10, UNIT) + "\n".join(lines) + "\n", encoding="utf-8")


def boot(room: Path, top: str) -> str:
    """Boots systemd, which runs the script. Gives what it printed."""
    service = room / "trial.service"
    service.write_text(RUNS_THE_SCRIPT.format(top=top), encoding="utf-8")
    words = [tool("systemd-nspawn"), "--directory=/", "--volatile=yes", "--register=no", "--keep-unit", "--private-network", "--quiet"]
    words += [f"--machine={room.name.replace('_', 'u')}", f"--bind={room}:/trial", f"--bind-ro={service}:/etc/systemd/system/trial.service"]
    for name in proxies():
        shutil.copytree(Path("/etc", name), room / name, symlinks=True)
        words += [f"--bind={room / name}:/etc/{name}"]
    words += ["--bind-ro=/etc/ssl", "--tmpfs=/usr/local/bin", "--boot", *BOOTED_WITH]
    ran = subprocess.run(words, stdin=subprocess.DEVNULL, capture_output=True, text=True, timeout=BOOT_SECONDS, errors="replace")
    return ran.stdout + ran.stderr


def try_steps(found: Findings, room: Path) -> str:
    """Whether each step did what it has to. Gives how much the unit leaves open."""
    seen = ""
    for one in steps():
        seen = (room / f"{one.name}.told").read_text(encoding="utf-8", errors="replace")
        status = (room / f"{one.name}.status").read_text(encoding="ascii").strip()
        found.hold(status == "0" and re.search(one.told, seen), f"{one.name}: `{one.command}`: status {status}, {seen!r}")
    exposure = re.search(r"level for \S+: (\d+\.\d+)", seen)
    found.hold(exposure and float(exposure[1]) <= MOST_EXPOSURE, f"what the unit leaves open: {seen}")
    return exposure[1] if exposure else "unknown"


def run(program: Path, seed: int, size: Whole) -> Result:
    tool("systemd-nspawn")
    if os.geteuid() != 0:
        raise Skipped("containers need root")
    found = Findings()
    with tempfile.TemporaryDirectory(prefix="trial-") as name:
        room = Path(name)
        archive = release.packed(found, program, room / "packed")
        release.unpack(archive, room)
        make_script(room)
        printed = boot(room, archive.name.removesuffix(".tar.gz"))
        if not (room / "security.status").exists():
            raise ValueError(f"systemd came to no end: {printed[-600:]}")
        exposure = try_steps(found, room)
    return found.result(f"{len(steps())} steps, {' and '.join(proxies()) or 'no proxy'}, {exposure} of 10 left open")
