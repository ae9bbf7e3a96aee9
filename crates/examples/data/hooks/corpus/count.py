#!/usr/bin/env python3
"""Counts which of the hooks of this folder the verifier accepts. They were written as first comes to mind, before anyone asked what the
verifier knows; the first line of each says its kind and the lengths of its windows.

    python3 count.py             a line a hook: what is said of it, and the line of C that is refused; then how many are accepted
    python3 count.py NAME..      these alone
    python3 count.py > verdicts  keeps that of all, which trials/corpus.py compares

It needs clang and llvm as ../make_hooks.py does, and a built dvvstore, which is found as there, or named: --dvvstore PATH.
"""
import argparse
import re
import sys
import tempfile
from pathlib import Path

HERE = Path(__file__).resolve().parent
sys.path.insert(0, str(HERE.parent))
import make_hooks  # noqa: E402


def said_of(source, image, dvvstore):
    """What the verifier says of a hook."""
    kind, in_len, out_len = re.match(r"/\* (\S+) (\d+) (\d+):", source.read_text()).groups()
    return make_hooks.make(source, kind, int(in_len), int(out_len), image, dvvstore).splitlines()[0]


def main():
    parser = argparse.ArgumentParser(description=__doc__, formatter_class=argparse.RawDescriptionHelpFormatter)
    parser.add_argument("--dvvstore", type=Path, default=make_hooks.program(), metavar="PATH", help="the program that verifies")
    parser.add_argument("names", nargs="*", metavar="NAME", help="hooks, in place of all")
    given = parser.parse_args()
    if not given.dvvstore:
        sys.exit("dvvstore is not built")
    sources = [HERE / f"{name}.c" for name in given.names] or sorted(HERE.glob("*.c"))
    with tempfile.TemporaryDirectory() as folder:
        told = {source.stem: said_of(source, Path(folder, "hook.img"), given.dvvstore) for source in sources}
    for name, verdict in told.items():
        print(f"{name}: {verdict}")
    print(f"accepted {sum(verdict.startswith('accepted') for verdict in told.values())} of {len(told)}")


if __name__ == "__main__":
    main()
