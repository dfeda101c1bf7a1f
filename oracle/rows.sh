#!/bin/sh
# oracle/rows.sh FROM LISTS: random lists as equations that the checker computes from crate machine's definitions, twenty lists at a time in a temporary folder.
set -eu
[ $# = 2 ] || { echo "usage: oracle/rows.sh FROM LISTS" >&2; exit 2; }
cd "$(dirname "$0")/.."
cargo build --quiet --release --offline --manifest-path oracle/Cargo.toml
player=$PWD/oracle/target/release/player
room=$(mktemp -d)
trap 'rm -rf "$room"' EXIT
mkdir -p "$room/crates/tries/src" "$room/crates/tries/specs"
for name in cells utf8 image fuel ints machine; do
    cp -R "crates/$name" "$room/crates/$name"
    grep "^$name:" crates.txt >> "$room/crates.txt"
done
echo "tries: machine image fuel ints utf8 cells" >> "$room/crates.txt"
printf '// Rows only, in specs/.\n\n#![tactic(auto)]\n' > "$room/crates/tries/src/lib.rt"
echo "pub mod Tries" > "$room/crates/tries/specs/Lib.antt"
cd "$room"
first=$1 end=$(($1 + $2))
while [ "$first" -lt "$end" ]; do
    count=$((end - first < 20 ? end - first : 20))
    "$player" rows --from "$first" --lists "$count" > crates/tries/specs/Tries.antt 2> tally
    echo "seeds $first to $((first + count - 1)): $(cat tally)"
    (cd crates/tries && rt check) > out 2>&1 || { cat out; exit 1; }
    cat tally >> tallies
    first=$((first + count))
done
awk '{ lists += $1; rows += $3; calls += $5; ticks += $7 } END { print "agreed: " lists " lists, " rows " rows, " calls " calls, " ticks " ticks" }' tallies
