#!/usr/bin/env python3
"""Builds the images of the hooks of this folder as ../make_hooks.py does; the first line of each source says its kind and the lengths of
its windows.

    make_library.py            all images
    make_library.py NAME..     these alone
"""
import argparse
import re
import sys
from pathlib import Path

HERE = Path(__file__).resolve().parent
sys.path.insert(0, str(HERE.parent))
import make_hooks  # noqa: E402


def hook_of(source):
    """The kind of a hook, and the lengths of its windows."""
    kind, in_len, out_len = re.match(r"/\* (\S+) (\d+) (\d+):", source.read_text()).groups()
    return kind, int(in_len), int(out_len)


def main():
    parser = argparse.ArgumentParser(description=__doc__, formatter_class=argparse.RawDescriptionHelpFormatter)
    parser.add_argument("--dvvstore", type=Path, metavar="PATH", help="the program that verifies")
    parser.add_argument("--into", type=Path, default=HERE, metavar="FOLDER", help="where the images go, in place of this folder")
    parser.add_argument("names", nargs="*", metavar="NAME", help="hooks, in place of all")
    given = parser.parse_args()
    sources = [HERE / f"{name}.c" for name in given.names] or sorted(HERE.glob("*.c"))
    return all([make_hooks.tell(source, hook_of(source), given.into / f"{source.stem}.img", given.dvvstore) for source in sources])


if __name__ == "__main__":
    sys.exit(0 if main() else 1)
