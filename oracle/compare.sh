#!/bin/sh
# Runs a program beside the published advance on generated cases, in chunks, and
# says how many cases differ and what was in them.
# Usage: ./compare.sh PROGRAM KIND SEED COUNT [CHUNK]
#   PROGRAM reads cases and writes outcomes; KIND is replay, wild or edge.
# It fails at the first chunk that has a difference, and shows the first one.
set -eu
program=$(realpath "$1")
kind=$2 seed=$3 count=$4 chunk=${5:-50000}
cd "$(dirname "$0")"
cargo build --release --offline --quiet
oracle=$PWD/target/release/oracle
room=$(mktemp -d)
trap 'rm -rf "$room"' EXIT
trap 'exit 1' INT TERM
mkfifo "$room/outcomes"
"$oracle" stats families <"$room/outcomes" >"$room/stats" &
counting=$!
exec 3>"$room/outcomes"
first=0
while [ "$first" -lt "$count" ]; do
    left=$((count - first))
    [ "$left" -lt "$chunk" ] || left=$chunk
    "$oracle" gen "$kind" "$seed" "$left" "$first" >"$room/cases"
    "$oracle" run <"$room/cases" >"$room/expected"
    "$program" <"$room/cases" >"$room/found" 3>&-
    "$oracle" diff "$room/expected" "$room/found" >"$room/said" || {
        cat "$room/said"
        exit 1
    }
    cat "$room/expected" >&3
    first=$((first + left))
done
exec 3>&-
wait "$counting"
echo "$kind, seed $seed: $count cases compared, 0 different"
cat "$room/stats"
