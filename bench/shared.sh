#!/bin/sh
# Replays uploads of 10,000 blobs of 4 KB to eight instances with the program REMOTED (build/remoted),
# once the same blobs to all and once others to each, and prints for each how fast it went and how much memory it took
# at most; and the same for an eighth of the blobs: see README.md.
set -eu
bench=$(cd "$(dirname "$0")" && pwd)
remoted=${1:-$bench/../build/remoted}
scratch=$(mktemp -d)
trap 'rm -rf "$scratch"' EXIT

for blobs in 1250 10000; do
    for kind in same own; do
        python3 "$bench/shared_events.py" "$blobs" 8 "$kind" > "$scratch/events"
        /usr/bin/time -f '%e %M' -o "$scratch/time" "$remoted" replay "$scratch/events" > "$scratch/out"
        if grep -q '^refused\|^stray' "$scratch/out"; then
            echo "an event was refused" >&2
            exit 1
        fi
        read -r seconds kilobytes < "$scratch/time"
        python3 - "$blobs" "$kind" "$seconds" "$kilobytes" <<'END'
import sys
blobs, kind, seconds, kilobytes = int(sys.argv[1]), sys.argv[2], max(float(sys.argv[3]), 0.01), int(sys.argv[4])
sent = blobs * 8 * 4096 / 1e6
print('%d blobs to each of 8 instances, %s: %.0f MB in %.2f s, %.1f MB/s, at most %.0f MB of memory'
      % (blobs, kind, sent, seconds, sent / seconds, kilobytes / 1e3))
END
    done
done
