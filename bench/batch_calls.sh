#!/bin/sh
# Carries out scripts of ten batches of four million bytes with each PROGRAM (build/remoted if none is
# named), and prints for each kind of batch the processor time of a batch, the least of three runs: see README.md.
set -eu
bench=$(cd "$(dirname "$0")" && pwd)
[ $# -gt 0 ] || set -- "$bench/../build/remoted"
scratch=$(mktemp -d)
trap 'rm -rf "$scratch"' EXIT

for batch in '1 4000000' '1000 4000'; do
    for kind in refused update read; do
        # shellcheck disable=SC2086
        python3 "$bench/batch_calls.py" $batch "$kind" 10 > "$scratch/script"
        for program; do
            for run in 1 2 3; do
                /usr/bin/time -f '%U %S %M' -a -o "$scratch/times" "$program" unary "$scratch/script" > /dev/null
            done
            python3 - "$batch" "$kind" "$program" "$scratch/times" <<'END'
import sys
(count, size), kind, program, times = sys.argv[1].split(), *sys.argv[2:]
runs = [[float(word) for word in line.split()] for line in open(times)]
seconds, kilobytes = min(user + system for user, system, _ in runs), max(run[2] for run in runs)
print('%s, %s of %s blobs of %s bytes: %.0f ms a batch, at most %.0f MB of memory'
      % (program, kind, count, size, seconds * 100, kilobytes / 1e3), flush=True)
END
            rm "$scratch/times"
        done
    done
done
