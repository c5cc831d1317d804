#!/bin/bash
# Runs the judge, the crate vtc 0.1.14 answering commands: compare/judge.sh < commands > answers
# With the word build it only builds, and prints the path of the binary.
#
# Needs a Debian machine (12 or later). What is missing is installed by apt-get: Rust if there is no cargo, and the crates
# that vtc depends on, as Debian's packaged Rust sources, which stand in for the registry. Everything is built under
# target/compare, without the network; nothing is written elsewhere.
set -eu

here=$(cd "$(dirname "${BASH_SOURCE[0]}")" && pwd)
out=$(dirname "$here")/target/compare
packaged=/usr/share/cargo/registry

# is a packaged crate of this name there, e.g. num-0.4
has() { compgen -G "$packaged/$1*" > /dev/null; }

missing() {
    command -v cargo > /dev/null || echo cargo rustc
    command -v cc > /dev/null || echo gcc libc6-dev
    has num-0.4 && has num-bigint- && has num-rational- || echo librust-num-dev
    has regex-1 || echo librust-regex-dev
    has regex-syntax- && has aho-corasick- && has memchr- || echo librust-regex+default-dev
    has lazy_static-1 || echo librust-lazy-static-dev
}

as_root() { if [ "$(id -u)" = 0 ]; then "$@"; else sudo "$@"; fi; }

get() { as_root env DEBIAN_FRONTEND=noninteractive apt-get install -y --no-install-recommends "$@"; }

build() {
    local packages
    packages=$(missing)
    if [ -n "$packages" ]; then
        # shellcheck disable=SC2086 # a list of words
        get $packages || { as_root apt-get update && get $packages; }
    fi
    # built from a copy, so that the lock file, which depends on Debian's versions, is not left among the sources
    rm -rf "$out/src"
    mkdir -p "$out/src" "$out/cargo-home"
    cp -Rp "$here/vtc" "$here/judge" "$out/src/"
    printf '[source.crates-io]\nreplace-with = "packaged"\n[source.packaged]\ndirectory = "%s"\n' "$packaged" \
        > "$out/cargo-home/config.toml"
    cd "$out/src/judge"
    CARGO_HOME="$out/cargo-home" CARGO_TARGET_DIR="$out/build" cargo build --release --offline
}

# one build at a time; quiet unless it fails (not `( .. ) || ..`, which would turn set -e off inside)
judge=$out/build/release/judge
mkdir -p "$out"
first=
if [ ! -x "$judge" ]; then
    first=1
    echo "building the judge from the crate's source: a minute or two, once" >&2
fi
set +e
( set -e; flock 9; build < /dev/null > "$out/build.log" 2>&1 9>&- ) 9> "$out/lock"
built=$?
set -e
if [ "$built" -ne 0 ]; then
    cat "$out/build.log" >&2
    exit 1
fi
[ -z "$first" ] || echo "the judge is built ($SECONDS s)" >&2

case ${1-} in
    build) echo "$judge" ;;
    '') exec "$judge" 2> /dev/null ;; # the crate's dbg! writes there
    *) echo "usage: compare/judge.sh [build]" >&2; exit 2 ;;
esac
