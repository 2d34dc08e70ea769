#!/bin/sh
# Builds the solver's program, writes the mix of formulas, and runs the solver, minisat, cadical and picosat on each in turn
# (compare.py). The program stands outside crates/, so it is proved and built here in a copy of the three crates. The other
# solvers and GNU time have to be installed. The first word is a folder to work in; further words are formulas' names.
set -e
here=$(cd "$(dirname "$0")" && pwd)
root=$(cd "$here/../../.." && pwd)
work=${1:-$(mktemp -d)}
[ $# -gt 0 ] && shift
mkdir -p "$work/crates/solver_bench/src" "$work/formulas"
for crate in sat_base sat_check sat_solve; do
    mkdir -p "$work/crates/$crate"
    (cd "$root/crates/$crate" && tar cf - --exclude=out .) | (cd "$work/crates/$crate" && rm -rf src specs proofs && tar xf -)
done
cp "$here/program.txt" "$work/crates/solver_bench/src/main.rt"
printf 'sat_base:\nsat_check: sat_base\nsat_solve: sat_base\nsolver_bench: anyhow sat_base sat_check sat_solve\n' > "$work/crates.txt"
printf 'p cnf 1 1\n1 0\n' > "$work/one.cnf"
(cd "$work/crates/solver_bench" && rt run -- "$work/one.cnf" > "$work/build.log" 2>&1) || { tail -20 "$work/build.log"; exit 1; }
python3 "$here/formulas.py" "$work/formulas" "$@"
python3 "$here/compare.py" "$work/crates/solver_bench/out/solver_bench" "$work/formulas"
