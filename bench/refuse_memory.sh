#!/usr/bin/env bash
# bench/refuse_memory.sh: refuses each allocation of three calls in turn: of `run` of the word count with 1
# and with 4 workers, and of `replay` of a batch that fails once and is committed at its second attempt. Then
# all allocations from one on, for each one; and each thread that is started.
# Each call has to end with status 1 and nothing written, or as without the refusal. That is so where the
# refused memory was a thread's and its work ran on the caller's thread, where a thread was not started, and
# where more was asked for than is needed and less was then given, as when a vector grows.
# Prints for each call how many allocations and threads it has, how many were refused in turn, and how these
# calls ended. The status is 1 where one ended otherwise; it is named, and its output is kept in a folder.
# Needs a C compiler. The program has to have its memory from the C library: a proved one has, and the one
# that ./storm builds without proof has not. It takes the program of STORM, see bench/program.sh.
set -euo pipefail
here="$(cd "$(dirname "${BASH_SOURCE[0]}")" && pwd)"
program="$("$here/program.sh")"
mkdir -p "$here/out"
work="$(mktemp -d "$here/out/refuse.XXXXXX")"
shim="$work/refuse_memory.so"
cc -O2 -shared -fPIC -o "$shim" "$here/refuse_memory.c"
counts="$work/counts"

cp "$here/../examples/word_count/topology.json" "$work/word_count.json"
cp "$here/../examples/word_count/input.jsonl" "$work/word_count.jsonl"
cat >"$work/fails_once.json" <<'END'
{"version":1,
 "spout":{"name":"words","kind":"transactional","fields":["word"],"batch":1},
 "bolts":[{"name":"unsteady","tasks":1,"op":{"do":"flaky","below":2},
   "inputs":[{"from":"words","grouping":"shuffle"}]}],
 "states":[{"name":"counts","kind":"transactional","parts":2,"key":["word"],
   "fold":"count","inputs":["unsteady"]}],
 "attempts":2}
END
echo '["a"]' >"$work/fails_once.jsonl"
echo 'rounds 200' >"$work/rounds.txt"
cd "$work"

# Runs the program with a refusal: tries NAME=NUMBER WORDS.. Leaves the status, the output in `out`, and what
# was counted in allocations, threads and refused.
status=0 allocations=0 threads=0 refused=0
tries() {
  local how="$1"
  shift
  head -c 24 /dev/zero >"$counts"
  status=0
  env "$how" REFUSE_COUNTS="$counts" LD_PRELOAD="$shim" timeout -k 5 60 "$program" "$@" \
    >out 2>err </dev/null || status=$?
  read -r allocations threads refused < <(od -An -v -tu8 -w24 "$counts")
}

wrong=0
# Refuses the items of a kind in turn: refuses KIND VARIABLE MOST WORDS..
refuses() {
  local kind="$1" variable="$2" most="$3" number=0 made=0 ones=0 whole=0 missed=0
  shift 3
  # Which thread comes first is a matter of order, and so is how many allocations a run has: on until ten in
  # a row are not reached.
  while [ "$missed" -lt 10 ] && [ "$number" -lt "$((2 * most + 100))" ]; do
    number=$((number + 1))
    tries "$variable=$number" "$@"
    if [ "$refused" = 0 ]; then
      missed=$((missed + 1))
    else
      missed=0 made=$((made + 1))
    fi
    if [ "$status" = 1 ] && [ "$refused" != 0 ] && ! [ -s out ]; then
      ones=$((ones + 1))
    elif [ "$status" = 0 ] && cmp -s out whole; then
      [ "$refused" = 0 ] || whole=$((whole + 1))
    else
      wrong=$((wrong + 1))
      mkdir -p "$work/wrong"
      cp out "$work/wrong/$*.$variable.$number"
      echo "refuse_memory: $*: $variable=$number: status $status, $(wc -c <out) bytes, $(head -c 200 err)"
      echo "  see $work/wrong"
    fi
  done
  echo "  $kind: $made refused, $ones ended with status 1 and nothing written, $whole as without"
}

for words in "run word_count.json word_count.jsonl 1" "run word_count.json word_count.jsonl 4" \
  "replay fails_once.json fails_once.jsonl rounds.txt"; do
  # shellcheck disable=SC2086
  set -- $words
  tries REFUSE_ALLOC=0 "$@"
  if [ "$status" != 0 ] || [ "$allocations" = 0 ]; then
    echo "refuse_memory: of $* no allocation was counted, or it failed: has the program checks at run time?" >&2
    exit 2
  fi
  cp out whole
  echo "$*: $allocations allocations, $threads threads"
  refuses "one allocation" REFUSE_ALLOC "$allocations" "$@"
  refuses "all from one on" REFUSE_FROM "$allocations" "$@"
  refuses "one thread" REFUSE_THREAD "$threads" "$@"
done
echo "refuse_memory: $wrong wrong"
if [ "$wrong" = 0 ]; then
  rm -rf "$work"
else
  exit 1
fi
