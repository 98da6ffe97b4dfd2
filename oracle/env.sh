# Sourced by the commands beside it: where things are, and how the oracle is built.

here=$(cd "$(dirname "$0")" && pwd)
root=$(cd "$here/.." && pwd)
runs=$here/target/release/runs
# The one file is kept here; a tmpfs takes every seek below 2^63.
export TMPDIR="${TMPDIR:-/dev/shm}"

# Says what to do, and ends.
fail() {
    echo "$*" >&2
    exit 2
}

# Ends unless the argument is a number.
number() {
    case $1 in
    '' | *[!0-9]*) fail "'$1' is not a number; $usage" ;;
    esac
}

# Names the Debian packages that are not there.
missing_packages() {
    [ -x /usr/bin/rustc ] || echo rustc
    [ -x /usr/bin/cargo ] || echo cargo
    for crate in thiserror hashbrown smallvec; do
        ls -d /usr/share/cargo/registry/$crate-[0-9]* >/dev/null 2>&1 || echo librust-$crate-dev
    done
}

# Checks that the original files are the original, and builds.
build_oracle() {
    (cd "$here" && sha256sum --quiet -c SHA256SUMS) || fail "the original's files in oracle/satrs were changed"
    missing=$(missing_packages)
    [ -z "$missing" ] || fail "missing: apt-get install --no-install-recommends" $missing
    (cd "$here" && PATH=/usr/bin:$PATH cargo build --quiet --release --offline -j "${JOBS:-1}")
}

# Proves and builds a program of this repository by `rt run`, where crates/NAME/out/NAME, which `rt ci` leaves too, is missing or older
# than a source. rt runs it when it has built it, on an empty input.
build_program() { # NAME
    program=$root/crates/$1/out/$1
    [ ! -f "$program" ] || [ -n "$(find "$root/crates.txt" "$root"/crates/*/src -newer "$program" -type f | head -n 1)" ] || return 0
    began=$(mktemp)
    (cd "$root/crates/$1" && rt run </dev/null >&2) || { rm -f "$began"; fail "rt run failed in crates/$1"; }
    touch -r "$began" "$program"
    rm -f "$began"
}

# Builds this repository's receiver, unless OURS names another program.
build_ours() {
    if [ -z "${OURS:-}" ]; then
        build_program calls
        OURS=$root/crates/calls/out/calls
    fi
}
