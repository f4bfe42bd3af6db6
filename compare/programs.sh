# Sourced by the scripts beside it, at the root of the repository: builds the programs that they use.

# Our program, which rt leaves there.
replay=crates/replay/out/replay

# Builds it, where it is not there or older than the sources.
build_replay() {
    local log=target/replay.log
    if [ -x "$replay" ] && [ -z "$(find crates -name '*.rt' -newer "$replay" -print -quit)" ]; then
        return 0
    fi
    if ! command -v rt > /dev/null; then
        echo "rt is not on the PATH: it is the Rattle toolchain's command (kit rattle-kit-13f); install the kit and put its bin folder on the PATH" >&2
        return 1
    fi
    mkdir -p target
    if ! (cd crates/replay && rt run < /dev/null) > "$log" 2>&1; then
        cat "$log" >&2
        return 1
    fi
    if [ ! -x "$replay" ]; then
        echo "rt run left no program $replay" >&2
        return 1
    fi
}

# The program target/compare/release/compare, on the crate's files as they are.
build_recorder() {
    if ! command -v cargo > /dev/null; then
        echo "cargo is not on the PATH: it builds the Rust crate and the recorder; install Rust and put its bin folder on the PATH" >&2
        return 1
    fi
    if ! (cd compare/futures-buffered && sha256sum --check --quiet SHA256SUMS); then
        echo "the crate's files under compare/futures-buffered/src are not those of SHA256SUMS" >&2
        return 1
    fi
    cargo build --quiet --release --offline --locked --manifest-path compare/Cargo.toml --target-dir target/compare
}
