#!/usr/bin/env bash
# bench/read_back.sh [COUNT] [SEED]: has the program of crates/report_echo read the reports of COUNT random topologies,
# 1000 if left out, those of `run` and those of `replay` by a random schedule, and compares what it prints with what it
# read, byte for byte.
# The first topology has the seed SEED, 1 if left out, and each next one the seed after it. So
# `bench/read_back.sh 1 N` tries again the one of seed N.
# The last line says how many differed. The files of these are kept, in a folder that is named. The status is 1 where
# one differed, or where a run or a replay wrote no report.
# Needs python3. It takes the program of STORM in place of ./storm, that of ECHO in place of the one that the gate and
# `rt run` leave in crates/report_echo/out, and inputs of at most RECORDS records in place of 300.
set -euo pipefail
here="$(cd "$(dirname "${BASH_SOURCE[0]}")" && pwd)"
count="${1:-1000}"
first="${2:-1}"
program="${STORM:-$here/../storm}"
echoes="${ECHO:-$here/../crates/report_echo/out/report_echo}"
records="${RECORDS:-300}"
limit="${LIMIT:-60}"
if ! [[ "$count" =~ ^[0-9]{1,9}$ && "$first" =~ ^[0-9]{1,9}$ ]]; then
  echo "usage: bench/read_back.sh [COUNT] [SEED]" >&2
  exit 2
fi
# Both are built where they are not there, outside of all limits.
"$program" check "$here/word_count.json" >/dev/null
if ! [ -x "$echoes" ]; then
  (cd "$here/../crates/report_echo" && rt run <stdin >/dev/null)
fi
mkdir -p "$here/out"
work="$(mktemp -d "$here/out/read_back.XXXXXX")"

# A schedule of a seed: single steps, ticks and rounds, of tasks and ackers that every topology has.
schedule() {
  awk -v seed="$1" 'BEGIN {
    srand(seed)
    steps = int(rand() * 40)
    for (i = 0; i < steps; i++) {
      kind = rand()
      if (kind < 0.3) print "task 0"
      else if (kind < 0.4) print "acker 0"
      else if (kind < 0.6) print "coord"
      else if (kind < 0.7) print "tick"
      else print "rounds " int(rand() * 40)
    }
    if (rand() < 0.5) print "rounds 100000"
  }'
}

# Says what is wrong with a report that a command of the program writes: reads_back FOLDER COMMAND [WORD ..].
reads_back() {
  local folder="$1" command="$2" status=0
  shift 2
  timeout -k 5 "$limit" "$program" "$command" "$folder/topology.json" "$folder/input.jsonl" "$@" \
    >"$folder/$command.txt" 2>"$folder/$command.err" || status=$?
  case "$status" in
    0 | 7 | 8) ;;
    *)
      echo "$command ended with status $status"
      return 1
      ;;
  esac
  if ! "$echoes" <"$folder/$command.txt" >"$folder/$command.echo"; then
    echo "the report of $command is refused: $(head -c 100 "$folder/$command.echo")"
    return 1
  fi
  if ! cmp -s "$folder/$command.txt" "$folder/$command.echo"; then
    echo "the report of $command and what is printed of it differ"
    return 1
  fi
}

differed=()
for ((seed = 10#$first; seed < 10#$first + 10#$count; seed++)); do
  folder="$work/$seed"
  workers="$(python3 "$here/topologies.py" "$seed" "$folder" "$records")"
  # The report is the same kind of text whatever their number, and few of them take less time.
  workers=$((workers % 4 + 1))
  schedule "$seed" >"$folder/schedule.txt"
  if said="$(reads_back "$folder" run "$workers" && reads_back "$folder" replay "$folder/schedule.txt")"; then
    rm -r "$folder"
  else
    differed+=("$seed")
    echo "read_back: seed $seed with $workers workers: $said; see $folder"
  fi
done
rmdir "$work" 2>/dev/null || true
line="read_back: $((10#$count)) topologies, ${#differed[@]} differed"
if [ "${#differed[@]}" = 0 ]; then
  echo "$line"
else
  echo "$line, of the seeds ${differed[*]}, each in $work/SEED"
  exit 1
fi
