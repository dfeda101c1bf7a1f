#!/bin/sh
# The exported calls as they are compiled, beside the Rust: the gate's part of what `calls` can do. LUCIA_ARCHIVE names another folder with libexecutor.a.
set -eu
cd "$(dirname "$0")/.."
[ -n "${LUCIA_ARCHIVE:-}" ] || host/archive
cargo build --quiet --release --offline --manifest-path oracle/Cargo.toml -p calls
calls=oracle/target/release/calls
work=$(mktemp -d)
trap 'rm -rf "$work"' EXIT
"$calls" cases oracle/cases/*.case
# Two lists for each seed, as two processes from seeds far apart: counted, not timed, so that it plays the same beside other work.
"$calls" lists 5000001 36000 > "$work/lists" &
"$calls" lists 1 36000
wait $! || { cat "$work/lists"; exit 1; }
cat "$work/lists"
"$calls" damage 1 500000
