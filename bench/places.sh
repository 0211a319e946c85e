#!/usr/bin/env bash
# How long bigvosk takes to list 4,096 places. Run it at the repository's top: bench/places.sh [REPETITIONS]
# A script has many such lines, in written order or in shuffled order with a seed for each. Its time is divided by their number.
# The time has the text of each line in it, about 20,000 bytes.
set -eu
cd "$(dirname "$0")/.."
reps=${1:-5}
lines=500
. bench/timing.sh

# script ORDER: a script of places lines. The seeds are far apart, so that the strides differ.
script() {
  awk -v order="$1" -v lines="$lines" 'BEGIN {
    for (i = 0; i < lines; i++) {
      if (order == "written") print "places 4096 written"
      else printf "places 4096 shuffled %.0f\n", (i * 2654435761) % 4294967296
    }
  }'
}

for order in written shuffled; do
  script "$order" > "$scratch/$order"
  printf '4096 places, %s:' "$order"
  times "$scratch/$order" "$lines"
done
