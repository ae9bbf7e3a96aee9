"""Builds a program without proofs: what `rt try` compiles, linked as a proved build is, with checks at run time and without a sanitizer.

`rt try` keeps no file. So it is run from a copy of its kit, made of links, whose compiler is a script that keeps the module which it
is given, and ends there; the compiler and the linker of the kit make an executable file of that. It is kept in `trials/out` until a
source changes.
"""
from __future__ import annotations

import hashlib
import shutil
import subprocess
import tempfile
from pathlib import Path

from trial import TOP, Skipped, tool

OUT = Path(__file__).resolve().parent / "out"  # no other file of the repository lies in a folder of this name
BUILD_SECONDS = 1_800

CODE = """-march=x86-64 -O3 -fPIE -ffunction-sections -fdata-sections -mllvm -no-trap-after-noreturn -mllvm -trap-unreachable
-mllvm -no-x86-call-frame-opt -mllvm -disable-machine-licm -mllvm -disable-postra-machine-licm -mllvm -sink-common-insts=false
--target=x86_64-unknown-linux-gnu --no-default-config -no-canonical-prefixes -fno-crash-diagnostics""".split()
LINK = """-m elf_x86_64 -pie --dynamic-linker /lib64/ld-linux-x86-64.so.2 --as-needed -z relro -z now --eh-frame-hdr --gc-sections
--no-dependent-libraries""".split()
LINKED_BEFORE = ("Scrt1.o", "crti.o", "crtbeginS.o")
LINKED_BEHIND = (
    "libm.so.6", "libc.so.6", "libc_nonshared.a", "ld-linux-x86-64.so.2", "libgcc.a", "libgcc_s.so.1", "crtendS.o", "crtn.o"
)  # fmt: skip

# The compiler of the copied kit: keeps the module of a program, and compiles none but the small ones by which the kit tries it.
KEEPER = """#!/bin/sh
for word; do
    case "$word" in *.bc) [ "$(wc -c < "$word")" -gt 100000 ] && cp "$word" "{kept}/$$.bc" && exit 1 ;; esac
done
exec "{compiler}" "$@"
"""
# In the place of the check that `rt try` begins beside, which would only warn of names.
NO_CHECK = "#!/bin/sh\n"


def link_all(source: Path, folder: Path) -> None:
    """A folder of links to all that another one holds."""
    folder.mkdir()
    for path in source.iterdir():
        (folder / path.name).symlink_to(path)


def replace(path: Path, text: str) -> None:
    """Puts a script in the place of a link."""
    path.unlink()
    path.write_text(text, encoding="utf-8")
    path.chmod(0o755)


def copied_kit(kit: Path, folder: Path, kept: Path) -> Path:
    """A copy of a kit whose compiler keeps its modules in a folder."""
    copy = folder / "kit"
    link_all(kit, copy)
    for name in ("bin", "toolchain", "toolchain/bin"):
        (copy / name).unlink()
        link_all(kit / name, copy / name)
    for name in ("rt", "rtlib.py"):  # they look for their kit where their own file is
        replace(copy / "bin" / name, (kit / "bin" / name).read_text(encoding="utf-8"))
    replace(copy / "bin" / "rattle", NO_CHECK)
    replace(copy / "toolchain" / "bin" / "clang", KEEPER.format(kept=kept, compiler=kit / "toolchain" / "bin" / "clang"))
    return copy


def module_of(kit: Path, crate: str, folder: Path, are_tests: bool) -> Path:
    """The module that `rt try` compiles of a program, or of the tests of a crate."""
    kept = folder / "kept"
    kept.mkdir()
    rt = copied_kit(kit, folder, kept) / "bin" / "rt"
    words = [rt, "try", "--steps", "1", "--seconds", "5", *(["--test"] if are_tests else ["--", "help"])]
    how = {"stdin": subprocess.DEVNULL, "capture_output": True, "text": True, "timeout": BUILD_SECONDS}
    ran = subprocess.run(words, cwd=TOP / "crates" / crate, **how)
    modules = list(kept.iterdir())
    if not modules:
        raise Skipped(f"rt try builds no {crate}: {ran.stderr[-300:]}")
    return modules[0]


def link(kit: Path, module: Path, program: Path) -> None:
    """Makes an executable file of a module."""
    tools, libraries = kit / "toolchain" / "bin", kit / "toolchain" / "lib"
    made = module.with_suffix(".o")
    subprocess.run([tools / "clang", *CODE, "-c", "-x", "ir", module, "-o", made], check=True)
    own = [kit / "c" / name for name in ("libos_c.a", "liblibc_c.a")]
    before, behind = ([libraries / name for name in names] for names in (LINKED_BEFORE, LINKED_BEHIND))
    subprocess.run([tools / "ld.lld", *LINK, "-o", program, *before, made, *own, *behind], check=True)


def sum_of_sources() -> str:
    """A checksum of the crates' list and of all their sources."""
    digest = hashlib.sha1()
    for path in [TOP / "crates.txt", *sorted(TOP.glob("crates/*/src/**/*.rt"))]:
        digest.update(f"{path.relative_to(TOP)}\n".encode() + path.read_bytes())
    return digest.hexdigest()[:12]


def build(crate: str = "dvvstore", are_tests: bool = False) -> Path:
    """The path of a program, or of a crate's tests, without proofs. It is built where no build of these sources is kept."""
    name = f"{crate}_tests" if are_tests else crate
    program = OUT / f"{name}-{sum_of_sources()}"
    if program.is_file():
        return program
    kit = Path(tool("rt")).resolve().parent.parent
    OUT.mkdir(exist_ok=True)
    for older in OUT.glob(f"{name}-*"):
        older.unlink()
    with tempfile.TemporaryDirectory(prefix="unproved-") as room:
        folder = Path(room)
        link(kit, module_of(kit, crate, folder, are_tests), folder / name)
        shutil.move(folder / name, program)
    program.chmod(0o755)
    return program


def beside(program: Path, crate: str, are_tests: bool = False) -> Path:
    """The program of another crate, or its tests, built as the one that is tried: without proofs, or by `rt`."""
    if program.parent == OUT:
        return build(crate, are_tests)
    built = TOP / "crates" / crate / "out" / (f"{crate}_tests" if are_tests else crate)
    if not built.is_file():
        raise Skipped(f"no {built.relative_to(TOP)}: rt {'test' if are_tests else 'run'} in its crate builds it")
    return built
