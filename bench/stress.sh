#!/usr/bin/env bash
# bench/stress.sh [COUNT] [SEED]: compares `run` and `fold` with `plain` on COUNT random topologies, 1000
# if left out, each with an input and a number of workers. All have to end with status 0 within 60 seconds,
# and to print the same lines but for those of attempts.
# The first topology has the seed SEED, 1 if left out, and each next one the seed after it. So
# `bench/stress.sh 1 N` tries again the one of seed N.
# The last line says how many differed. The files of these are kept, in a folder that is named. The
# status is 1 where one differed, did not end in time, or ended with another status than 0.
# Needs python3. It takes the program of STORM in place of ./storm, as many seconds as LIMIT says in
# place of 60, and inputs of at most RECORDS records in place of 300. A program with checks at run time
# needs fewer records: the batches of a slow run may time out until their attempts are used up.
set -euo pipefail
here="$(cd "$(dirname "${BASH_SOURCE[0]}")" && pwd)"
count="${1:-1000}"
first="${2:-1}"
program="${STORM:-$here/../storm}"
records="${RECORDS:-300}"
limit="${LIMIT:-60}"
if ! [[ "$count" =~ ^[0-9]{1,9}$ && "$first" =~ ^[0-9]{1,9}$ ]]; then
  echo "usage: bench/stress.sh [COUNT] [SEED]" >&2
  exit 2
fi
# Has ./storm build the program where it is not there, outside of all limits.
"$program" check "$here/word_count.json" >/dev/null
mkdir -p "$here/out"
work="$(mktemp -d "$here/out/stress.XXXXXX")"

# Carries out a command over the files of a folder: ends_well FOLDER COMMAND [WORKERS]. Says how it
# ended where that was not well.
ends_well() {
  local folder="$1" command="$2" status=0
  shift 2
  timeout -k 5 "$limit" "$program" "$command" "$folder/topology.json" "$folder/input.jsonl" "$@" \
    >"$folder/$command.txt" 2>"$folder/$command.err" || status=$?
  case "$status" in
    0) return 0 ;;
    124) echo "$command had not ended after $limit seconds" ;;
    *) echo "$command ended with status $status ($(grep -c " timed out$" "$folder/$command.txt") attempts timed out)" ;;
  esac
  return 1
}

# Says what is wrong with the answers of a folder: compares FOLDER WORKERS.
compares() {
  ends_well "$1" plain || return 1
  ends_well "$1" run "$2" || return 1
  if ! cmp -s "$1/plain.txt" <(grep -v '^attempt ' "$1/run.txt"); then
    echo "run and plain differ"
    return 1
  fi
  ends_well "$1" fold "$2" || return 1
  if ! cmp -s "$1/plain.txt" "$1/fold.txt"; then
    echo "fold and plain differ"
    return 1
  fi
}

differed=()
for ((seed = 10#$first; seed < 10#$first + 10#$count; seed++)); do
  folder="$work/$seed"
  workers="$(python3 "$here/topologies.py" "$seed" "$folder" "$records")"
  if said="$(compares "$folder" "$workers")"; then
    rm -r "$folder"
  else
    differed+=("$seed")
    echo "stress: seed $seed with $workers workers: $said; see $folder"
  fi
done
rmdir "$work" 2>/dev/null || true
line="stress: $((10#$count)) runs, ${#differed[@]} differed"
if [ "${#differed[@]}" = 0 ]; then
  echo "$line"
else
  echo "$line, of the seeds ${differed[*]}, each in $work/SEED"
  exit 1
fi
