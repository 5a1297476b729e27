#!/bin/sh
# Replays files of 10,000 and of 100,000 events, of 32 clients and of a single one, with the program REMOTED
# (build/remoted), and prints for each how fast it went and how much memory it took at most: see README.md.
set -eu
bench=$(cd "$(dirname "$0")" && pwd)
remoted=${1:-$bench/../build/remoted}
scratch=$(mktemp -d)
trap 'rm -rf "$scratch"' EXIT

replay() {
    events=$1 instances=$2 clients=$3
    python3 "$bench/replay_events.py" "$events" "$instances" "$clients" > "$scratch/events"
    /usr/bin/time -f '%e %M' -o "$scratch/time" "$remoted" replay "$scratch/events" > "$scratch/out"
    if grep -q '^refused\|^stray' "$scratch/out"; then
        echo "an event was refused" >&2
        exit 1
    fi
    python3 - "$events" "$((instances * clients))" "$(cat "$scratch/time")" "$(wc -c < "$scratch/events")" "$(wc -c < "$scratch/out")" <<'END'
import sys
events, clients, (seconds, kilobytes) = int(sys.argv[1]), int(sys.argv[2]), sys.argv[3].split()
read, written, seconds = int(sys.argv[4]), int(sys.argv[5]), max(float(seconds), 0.01)
print('%d clients, %d events of %.1f MB in %.2f s: %.0f events/s, %.1f MB/s read, %.1f MB/s written, at most %.0f MB of memory'
      % (clients, events, read / 1e6, seconds, events / seconds, read / 1e6 / seconds, written / 1e6 / seconds, int(kilobytes) / 1e3))
END
}

for events in 10000 100000; do
    replay "$events" 4 8
    replay "$events" 1 1
done
