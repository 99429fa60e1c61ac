# Shared by the scripts beside it, which source it. Everything is found from the repository's top.
top=$(cd "$(dirname "${BASH_SOURCE[0]}")/.." && pwd -P)
source=${CILDHRAUP_RUST_SOURCE:-$top/../shared/docs/src}

# Prints what is missing for running a proved program, or nothing.
no_program() {
    if [ "$(uname -m)" != x86_64 ]; then echo "proved programs are compiled for x86-64, and this machine is not"; fi
}

# Prints what is missing for a comparison with the Rust source, or nothing.
missing() {
    if [ ! -f "$source/crates/pflow-solver/src/ssa/mod.rs" ]; then
        echo "no Rust source at ${CILDHRAUP_RUST_SOURCE:-../shared/docs/src} (CILDHRAUP_RUST_SOURCE names another folder)"
    elif ! command -v rustc >/dev/null; then
        echo "no rustc"
    else
        no_program
    fi
}

# Makes the temporary folder $work, which is removed at the end.
make_work() {
    work=$(mktemp -d) || return 2
    trap 'rm -rf "$work"' EXIT
}

# Builds the harness, $work/oracle.
build_oracle() {
    (cd "$top/crates/c_face" && rt lib) >"$work/staticlib.log" 2>&1 || {
        tail -n 20 "$work/staticlib.log"
        return 1
    }
    mkdir -p "$top/target/staticlib"
    cp "$top/crates/c_face/out/libc_face.a" "$top/target/staticlib/" || return 1
    "$top/tests/oracle/build" "$work" "$source"
}

# build_program NAME: proves and builds target/bin/NAME, where it has changed since. The program is run once, on nothing.
build_program() {
    local made=$top/crates/$1/out/$1
    rm -f "$made"
    (cd "$top/crates/$1" && rt run) </dev/null >"$work/program.log" 2>&1
    if [ ! -x "$made" ] || grep -q '^logic=not-proved' "$work/program.log"; then
        tail -n 20 "$work/program.log"
        return 1
    fi
    mkdir -p "$top/target/bin"
    cp "$made" "$top/target/bin/$1"
}
