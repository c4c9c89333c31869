#!/bin/sh
# The Rust package bindings/rust: its layout, its tests and doc examples, and the example boot, also with an archive of
# another version. Where the archive of the clock cannot be linked the package is type-checked alone.
set -u
CDPATH= cd -- "$(dirname -- "$0")/.." || exit 1

fail() {
    echo "bindings: $1" >&2
    exit 1
}

command -v cargo >/dev/null 2>&1 || fail "cargo is missing"
package=bindings/rust/Cargo.toml
CARGO_TARGET_DIR=$PWD/bindings/rust/target
export CARGO_TARGET_DIR

if cargo fmt --version >/dev/null 2>&1; then
    cargo fmt --manifest-path "$package" --check || fail "a source is not in cargo fmt's layout"
fi

# A check is promised to need no archive.
TALLOWREED_ARCHIVE_DIR=none cargo check --manifest-path "$package" --quiet --offline --tests --examples ||
    fail "the package does not type-check without the archive"
machine="$(uname -s) $(uname -m)"
if [ "$machine" != "Linux x86_64" ]; then
    echo "bindings: type-checked and not run: the archive of the clock is for x86-64 Linux, and this is $machine"
    exit 0
fi

if [ -z "${TALLOWREED_ARCHIVE_DIR:-}" ]; then
    archive=$(tools/archive) || fail "tools/archive failed"
    TALLOWREED_ARCHIVE_DIR=$(dirname -- "$archive")
fi
[ -f "$TALLOWREED_ARCHIVE_DIR/libsd2068_abi.a" ] || fail "$TALLOWREED_ARCHIVE_DIR/libsd2068_abi.a is missing"
# The build takes a folder as seen from the package, so it is handed the whole path.
TALLOWREED_ARCHIVE_DIR=$(CDPATH= cd -- "$TALLOWREED_ARCHIVE_DIR" && pwd) || exit 1
export TALLOWREED_ARCHIVE_DIR

cargo test --manifest-path "$package" --quiet --offline || fail "a test of the package failed"

# 20 December, 9:15 in the morning and in the evening, whose hours are 09h and 29h in 12-hour mode.
owed='12200915
12202915'
printed=$(cargo run --manifest-path "$package" --quiet --offline --example boot) || fail "the example boot stopped"
[ "$printed" = "$owed" ] || fail "the example boot printed $(echo "$printed" | tr '\n' ' ')"

# With an archive of another version no clock can be made, and that is an error and no panic: it finds no place for its
# states, or has a further row.
other=$(mktemp -d) || exit 1
trap 'rm -rf "$other"' EXIT
for told in 255 20; do
    gcc -c -DTOLD=$told -o "$other/other.o" tests/other_version.c && ar rcs "$other/libsd2068_abi.a" "$other/other.o" ||
        fail "the archive of another version cannot be made"
    printed=$(TALLOWREED_ARCHIVE_DIR=$other cargo run --manifest-path "$package" --quiet --offline --example boot 2>&1)
    [ "$? $printed" = "1 Error: OtherVersion" ] || fail "with an archive that tells $told the example boot printed $printed"
done
