#!/usr/bin/env bash
# How long bigvosk takes to read large sheets. Run it at the repository's top: bench/read.sh [REPETITIONS]
# Each sheet has atoms with eight ports. Their names have three letters, and each name stands twice.
# The second sheet is twice as long as the first, so the ratio of the times shows how they grow.
set -eu
cd "$(dirname "$0")/.."
reps=${1:-5}
. bench/timing.sh

# sheet BYTES: a read command with a sheet of at most so many bytes.
sheet() {
  awk -v bytes="$1" 'BEGIN {
    lower = "abcdefghijklmnopqrstuvwxyz"; upper = toupper(lower)
    atoms = int((bytes + 1) / 35); atoms -= atoms % 2
    half = atoms * 4
    printf "read "
    for (i = 0; i < atoms * 8; i++) {
      n = i % half
      name = substr(upper, int(n / 676) % 26 + 1, 1) substr(lower, int(n / 26) % 26 + 1, 1) substr(lower, n % 26 + 1, 1)
      printf "%s%s", i == 0 ? "a(" : i % 8 == 0 ? "),a(" : ",", name
    }
    print ")"
  }'
}

for bytes in 30000 60000; do
  sheet "$bytes" > "$scratch/$bytes"
  printf '%s bytes:' "$(($(wc -c < "$scratch/$bytes") - 6))"
  times "$scratch/$bytes" 1
  sed -n 2p "$scratch/out"
  [ "$bytes" = 30000 ] && first=$least
done
awk -v a="$first" -v b="$least" 'BEGIN { printf "twice the bytes take %.1f times as long\n", b / a }'
