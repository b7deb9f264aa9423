#!/bin/sh
# Builds each mutant of the published files and shows which cases tell it
# apart from the original. Usage: ./mutants.sh [COUNT [NAME...]]
# COUNT cases of each kind; all mutants, or those named.
set -eu
cd "$(dirname "$0")"
count=${1:-6000}
[ $# -gt 0 ] && shift
work=target/mutants
mkdir -p "$work/cases"
cargo build --release --offline --quiet
oracle=target/release/oracle
for kind in edge wild replay; do
    $oracle gen $kind 7 "$count" >"$work/cases/$kind.case"
    $oracle run <"$work/cases/$kind.case" >"$work/cases/$kind.out"
done
all=$($oracle mutants "$work/copies")
missed=0
printf '%-34s %14s %14s %14s\n' mutant edge wild replay
for name in ${*:-$all}; do
    # One place for all, so that little is built anew.
    rm -rf "$work/current"
    cp -r "$work/copies/$name" "$work/current"
    KERNEL_SRC=$work/current cargo build --profile mutant --offline --quiet \
        --target-dir "$work/build"
    line=$(printf '%-34s' "$name")
    told=0
    for kind in edge wild replay; do
        # A mutant that does not end, or ends badly, is told apart too.
        timeout 60 "$work/build/mutant/oracle" run <"$work/cases/$kind.case" \
            >"$work/cases/mutant.out" 2>/dev/null || true
        found=$($oracle diff "$work/cases/$kind.out" "$work/cases/mutant.out" |
            sed -n 's/^[0-9]* cases compared, \([0-9]*\) different$/\1/p')
        [ "$found" = 0 ] || told=1
        line="$line $(printf '%14s' "$found")"
    done
    [ $told = 1 ] || missed=$((missed + 1))
    [ $told = 1 ] || line="$line   NOT TOLD APART"
    printf '%s\n' "$line"
done
echo "$missed not told apart, of $count cases of each kind"
[ $missed = 0 ]
