#!/bin/sh
# Builds the programs of bench/ over the crates as they stand and runs them: see README.md.
set -eu
bench=$(cd "$(dirname "$0")" && pwd)
scratch=${TMPDIR:-/tmp}/remoted-bench
mkdir -p "$scratch/crates"
cp "$bench/programs.txt" "$scratch/crates.txt"
cp "$bench/../HANDLES" "$scratch/"

for name in $(sed -n 's/^\([a-z0-9_]*\):.*/\1/p' "$bench/programs.txt"); do
    to=$scratch/crates/$name
    mkdir -p "$to"
    # what rt made there in an earlier run is kept
    find "$to" -mindepth 1 -maxdepth 1 ! -name out -exec rm -rf {} +
    if [ -f "$bench/$name.rt.txt" ]; then
        mkdir "$to/src"
        cp "$bench/$name.rt.txt" "$to/src/main.rt"
    else
        (cd "$bench/../crates/$name" && find . -name out -prune -o -type f -print | tar cf - -T -) | tar xf - -C "$to"
    fi
done

for program in "$bench"/*.rt.txt; do
    name=$(basename "$program" .rt.txt)
    echo "== $name"
    (cd "$scratch/crates/$name" && rt run > run.log 2>&1) || { cat "$scratch/crates/$name/run.log"; exit 1; }
    sed -n '/^rt: running/,$p' "$scratch/crates/$name/run.log" | sed 1d
done
