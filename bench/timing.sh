# Read by the other scripts here, at the repository's top: the program, a folder to write into, and times of runs.
program=crates/bigvosk/out/bigvosk
[ -x "$program" ] || (cd crates/bigvosk && rt run < /dev/null > /dev/null)
scratch=$(mktemp -d)
trap 'rm -rf "$scratch"' EXIT

# micros FILE: the time of one run, in microseconds.
micros() {
  local begun ended
  begun=$(date +%s%N)
  "$program" "$1" > "$scratch/out"
  ended=$(date +%s%N)
  echo $(((ended - begun) / 1000))
}

# times FILE PARTS: the times of $reps runs, each divided by the number of its parts, and the least of them, kept in $least.
times() {
  least=
  for _ in $(seq "$reps"); do
    t=$(($(micros "$1") / $2))
    printf ' %s' "$t"
    if [ -z "$least" ] || [ "$t" -lt "$least" ]; then least=$t; fi
  done
  printf ' microseconds, least %s\n' "$least"
}
