#!/usr/bin/env bash
# Where the instructions of a run go: bench/profile.sh [plain|run] [LINES] counts those of a word count
# of so many lines of ten words, and prints the functions that take most, and who asks for memory.
# Needs valgrind and rustc, and the proved program (./storm --prove builds it).
set -euo pipefail
here="$(cd "$(dirname "${BASH_SOURCE[0]}")" && pwd)"
command="${1:-run}"
lines="${2:-10000}"
program="${PROGRAM:-$here/../crates/storm/out/storm}"
work="$here/out"
[ -x "$program" ] || { echo "profile: no program at $program; ./storm --prove builds it" >&2; exit 1; }
mkdir -p "$work"
[ -x "$work/gen" ] || rustc -C opt-level=3 -o "$work/gen" "$here/gen.rs"
text="$work/$lines-lines.jsonl"
[ -s "$text" ] || "$work/gen" lines "$lines" 1 >"$text"
counts="$work/$command.$lines.callgrind"
valgrind --quiet --tool=callgrind --callgrind-out-file="$counts" \
  "$program" "$command" "$here/word_count.json" "$text" >/dev/null
callgrind_annotate --threshold=95 "$counts" | grep -E '^ *[0-9,]+ \(' | cut -c1-120
echo
echo "allocations by function:"
callgrind_annotate --tree=caller --inclusive=yes --threshold=100 "$counts" |
  awk 'NF == 0 { callers = "" } / < / { callers = callers $0 "\n" } / \* .*rattle_alloc/ { printf "%s", callers }' |
  sed -E 's/.*< [^:]*:(.*) \(([0-9,]+)x\).*/\2\t\1/' | tr -d , | sort -rn | head -12
