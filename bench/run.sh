#!/usr/bin/env bash
# Times the built program's `plain`, and its `fold` and `run` with 1, 2 and 4 workers, on word counts of 1, 4 and 16 MiB, and of
# 10,000, 100,000 and 1,000,000 lines of ten words, beside `single`, the word count by hand in one thread. Five rounds over
# all commands in turn; the table has the medians of seconds, and the most memory that a command had at once.
# Needs rustc and python3, and the proved program (./storm --prove builds it).
set -euo pipefail
here="$(cd "$(dirname "${BASH_SOURCE[0]}")" && pwd)"
program="${1:-$here/../crates/storm/out/storm}"
work="$here/out"
[ -x "$program" ] || { echo "bench: no program at $program; ./storm --prove builds it" >&2; exit 1; }
mkdir -p "$work"
for name in gen single; do
  rustc -C opt-level=3 -o "$work/$name" "$here/$name.rs"
done
for mib in 1 4 16; do
  [ -s "$work/$mib-mib.jsonl" ] || "$work/gen" bytes "$((mib << 20))" 1 >"$work/$mib-mib.jsonl"
done
for lines in 10000 100000 1000000; do
  [ -s "$work/$lines-lines.jsonl" ] || "$work/gen" lines "$lines" 1 >"$work/$lines-lines.jsonl"
done
exec python3 "$here/rounds.py" "$program" "$work" "$here/word_count.json"
