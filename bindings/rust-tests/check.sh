#!/usr/bin/env bash
# Tests the Rust package: check.sh FOLDER, where FOLDER holds libnorbelath.a. What it makes is in FOLDER/rust and FOLDER/cargo.
# Needs cargo; nothing is fetched.
set -euo pipefail
[ $# -eq 1 ] || { echo "usage: $0 FOLDER" >&2; exit 2; }
made=$(cd "$1" && pwd -P)
cd "$(dirname "$0")"
tests=$(pwd -P)
export CARGO_TARGET_DIR=$made/cargo
log=$(mktemp)
trap 'rm -f "$log"' EXIT

# refused STATUS WORDS COMMAND...: the command ends with this status, prints nothing, and says these words on standard error
refused() {
    local expected=$1 words=$2 status=0 printed
    shift 2
    printed=$("$@" 2>"$log") || status=$?
    [ "$status" -eq "$expected" ] && [ -z "$printed" ] && grep -qF -- "$words" "$log" ||
        { echo "status $status instead of $expected, or other words than '$words': $*" >&2; cat "$log" >&2; exit 1; }
}

# The package alone, as it is released: it is documented and checked without the library, and not linked.
rm -rf "$made/rust"
mkdir "$made/rust"
cp -r ../rust/Cargo.toml ../rust/build.rs ../rust/src ../rust/examples "$made/rust/"
cd "$made/rust"
unset NORBELATH_LIB_DIR
RUSTDOCFLAGS="-D warnings" cargo doc --no-deps --offline
cargo check --offline --examples
refused 101 "NORBELATH_LIB_DIR is not set" cargo build --offline --examples
for folder in "" . "$made/rust"; do
    NORBELATH_LIB_DIR=$folder refused 101 "NORBELATH_LIB_DIR is not the absolute path" cargo check --offline
done

export NORBELATH_LIB_DIR=$made
cargo build --release --offline --examples
cargo test --release --offline -- --nocapture

cd "$tests"
cargo test --release --offline -- --nocapture
