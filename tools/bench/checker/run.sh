#!/bin/sh
# Runs the checker and the plain C loop on the same log of 5,000,000 hints, and prints both rates.
# The program stands outside crates/, so it is proved and built here in a copy of the two crates.
set -e
here=$(cd "$(dirname "$0")" && pwd)
root=$(cd "$here/../../.." && pwd)
work=${1:-$(mktemp -d)}
mkdir -p "$work/crates/checker_bench/src" "$work/crates/checker_bench/specs" "$work/crates/checker_bench/proofs"
for crate in sat_base sat_check; do
    rm -rf "$work/crates/$crate"
    cp -r "$root/crates/$crate" "$work/crates/$crate"
done
cp "$here/program.txt" "$work/crates/checker_bench/src/main.rt"
printf 'sat_base:\nsat_check: sat_base\nchecker_bench: sat_base sat_check anyhow\n' > "$work/crates.txt"
cc -O2 -o "$work/plain" "$here/plain.c"
(cd "$work/crates/checker_bench" && rt run > "$work/build.log" 2>&1) || { tail -20 "$work/build.log"; exit 1; }
for turn in 1 2 3; do
    "$work/plain"
    "$work/crates/checker_bench/out/checker_bench"
done
