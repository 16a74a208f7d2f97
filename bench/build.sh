#!/usr/bin/env bash
# Measures builds of 64, 128 and 256 generated files over children and a disk in memory. Beside them it measures the calls of
# the store and of the children alone, and the machine alone on chains of up to 4,096 files. The program of the bench is tried,
# not proved, and compiled with checks, so that its times are above those of the proved program: what they show is how they
# grow. Takes some four minutes.
set -e
cd "$(dirname "$0")/.."
room=$(mktemp -d)
trap 'rm -rf "$room"' EXIT
mkdir -p "$room/crates/build_bench/src"
cp HANDLES "$room/"
for crate in crates/*/; do
    mkdir -p "$room/$crate"
    for part in src specs proofs; do [ ! -d "$crate$part" ] || cp -r "$crate$part" "$room/$crate"; done
done
{ cat crates.txt; echo "build_bench: base outside memory_outside run_spec child_compile_request tests_graphs run_scheduler store run_build"; } >"$room/crates.txt"
cp bench/build.main "$room/crates/build_bench/src/main.rt"
cd "$room/crates/build_bench" && rt try build_bench --steps 1 --seconds 600
