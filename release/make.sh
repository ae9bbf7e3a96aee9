#!/bin/sh
# Builds the proved program, and packs it for machines without a toolchain:
#
#     release/make.sh [FOLDER]                   builds and packs
#     release/make.sh --pack PROGRAM [FOLDER]    packs a program that was built elsewhere; nothing is proved then
#
# FOLDER, release/out where none is named, then has dvvstore-VERSION-linux-x86_64.tar.gz and its SHA-256 beside it. VERSION is what the
# program prints.
#
# The archive is laid out as the repository is: README.md, CHANGELOG.md, docs/, service/, and the data that the documents speak of. The
# program stands at its top and, a link to the same file, where a build puts it, so the documents' command lines run in the archive as they
# stand. The file BUILT says of which commit it is, and what was proved. The same files give the same archive.
#
# The crates of the program are proved one after another, lowest first, each by as many jobs as there are processors, fewer where memory
# lacks: a job takes some 2 GB, the largest crate 8 GB by one job. What was proved already, and hasn't changed, is proved no more. The
# tests, the wrong bodies and the trials aren't part of a release: `rt ci` and trials/run.py run them.
#
# It needs git, tar, gzip and sha256sum, and to build rt.
set -eu

JOB_KB=2097152     # memory that a job takes
LARGE=dvvstore     # the crate that takes most of it
TARGET=linux-x86_64
PACKED="README.md CHANGELOG.md LICENSE* docs service crates/examples/data"
BUILT=crates/$LARGE/out/$LARGE

top=$(cd "$(dirname "$0")/.." && pwd)
program=
if [ "${1-}" = --pack ]; then
    program=${2:?no program is named}
    shift 2
fi
folder=${1:-$top/release/out}

# The crates that one crate stands on, in the order of crates.txt, where the lowest come first.
crates_below() {
    awk -v of="$1" '
        /^[a-z]/ {
            name = $1
            sub(/:$/, "", name)
            deps = $0
            sub(/^[^:]*:/, "", deps)
            needs[name] = deps
            order[++count] = name
        }
        function mark(name, deps, many, i) {
            if (!(name in needs) || name in marked) return
            marked[name] = 1
            many = split(needs[name], deps, " ")
            for (i = 1; i <= many; i++) mark(deps[i])
        }
        END {
            mark(of)
            for (i = 1; i <= count; i++) if (order[i] in marked && order[i] != of) print order[i]
        }' "$top/crates.txt"
}

# As many jobs as there are processors, and as memory has room for.
jobs() {
    room=$(awk -v each="$JOB_KB" '/^MemAvailable:/ { print int($2 / each) }' /proc/meminfo)
    processors=$(nproc)
    [ "$room" -lt "$processors" ] || room=$processors
    [ "$room" -ge 1 ] || room=1
    echo "$room"
}

build() {
    count=0
    for crate in $(crates_below "$LARGE"); do
        echo "$crate"
        (cd "$top/crates/$crate" && rt lib --jobs "$(jobs)" >"$log" 2>&1) || fail
        count=$((count + 1))
    done
    echo "$LARGE"
    (cd "$top/crates/$LARGE" && rt run --jobs 1 -- version >"$log" 2>&1) || fail
    program=$top/$BUILT
    proved="proved: $LARGE and the $count crates that it stands on, each function by its contract, with $(rt version)"
    proved="$proved; not run: tests, wrong bodies, trials"
}

fail() {
    tail -n 20 "$log" >&2
    exit 1
}

pack() {
    told=$("$program" version)
    version=$(echo "$told" | sed -n 's/^dvvstore //p')
    [ -n "$version" ] || { echo "$program: no version" >&2 && exit 1; }
    commit=$(git -C "$top" rev-parse HEAD)
    changed=$(git -C "$top" status --porcelain)
    moment=$(git -C "$top" log -1 --format=%ct)
    name=dvvstore-$version-$TARGET
    root=$work/$name
    mkdir -p "$root/$(dirname "$BUILT")" "$folder"
    # The words of PACKED are patterns of git's own: what isn't part of the repository isn't packed.
    (cd "$top" && set -f && git ls-files -z -- $PACKED) >"$work/files"
    tar -C "$top" --null -T "$work/files" -cf "$work/files.tar"
    tar -C "$root" -xf "$work/files.tar"
    install -m 755 "$program" "$root/dvvstore"
    ln "$root/dvvstore" "$root/$BUILT"
    printf '%s\n' "$told" "commit $commit${changed:+, with changes beside it}" "$proved" >"$root/BUILT"
    chmod -R u=rwX,go=rX "$root"
    tar -C "$work" --sort=name --mtime="@$moment" --owner=0 --group=0 --numeric-owner -cf "$work/$name.tar" "$name"
    gzip -9n "$work/$name.tar"
    install -m 644 "$work/$name.tar.gz" "$folder"
    (cd "$folder" && sha256sum "$name.tar.gz" >"$name.tar.gz.sha256")
}

work=$(mktemp -d)
trap 'rm -rf "$work"' EXIT
log=$work/log
proved="not proved here: the program was built elsewhere"
[ -n "$program" ] || build
pack
echo "$proved"
cat "$folder/$name.tar.gz.sha256"
