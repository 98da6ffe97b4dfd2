# Sourced by the commands beside it: where things are, and how the programs are built. The names here, root and fail, the list of
# missing packages, how a program is built and the folder for temporary files are those of oracle/.

. "$(dirname "$0")/../oracle/env.sh"
rust=$here/target/release

# Whether crates.txt lists a program.
listed() {
    grep -q "^$1:" "$root/crates.txt"
}

# Proves and builds programs of this repository, and puts them into one folder, unless OURS names a folder that has them.
build_ours() {
    if [ -n "${OURS:-}" ]; then
        OURS=$(cd "$OURS" && pwd) || fail "OURS names no folder"
        return
    fi
    OURS=$here/target/ours
    rm -rf "$OURS"
    mkdir -p "$OURS"
    for name in "$@"; do
        build_program "$name"
        cp "$root/crates/$name/out/$name" "$OURS/"
    done
}

# Builds the Rust programs, offline.
build_rust() {
    (cd "$root/oracle" && sha256sum --quiet -c SHA256SUMS) || fail "the original's files in oracle/satrs were changed"
    missing=$(missing_packages)
    [ -z "$missing" ] || fail "missing: apt-get install --no-install-recommends" $missing
    (cd "$here" && PATH=/usr/bin:$PATH cargo build --quiet --release --offline -j "${JOBS:-1}") || fail "cargo build failed"
}
