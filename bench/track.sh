#!/usr/bin/env bash
# Times the built program's `track` with 1, 2 and 4 workers on word counts of 10,000 and 100,000 lines of ten words, beside
# `plain`. Five rounds over all commands in turn; prints the table of medians in seconds that docs/BENCHMARKS.md has.
# Needs rustc and python3, and the proved program (./storm --prove builds it).
set -euo pipefail
here="$(cd "$(dirname "${BASH_SOURCE[0]}")" && pwd)"
program="${1:-$here/../crates/storm/out/storm}"
work="$here/out"
[ -x "$program" ] || { echo "bench: no program at $program; ./storm --prove builds it" >&2; exit 1; }
mkdir -p "$work"
rustc -C opt-level=3 -o "$work/gen" "$here/gen.rs"
for lines in 10000 100000; do
  [ -s "$work/$lines-lines.jsonl" ] || "$work/gen" lines "$lines" 1 >"$work/$lines-lines.jsonl"
done
exec python3 - "$program" "$work" "$here/word_count.json" <<'END'
import statistics, subprocess, sys, time

program, work, topology = sys.argv[1:]
inputs = {"10,000 lines": f"{work}/10000-lines.jsonl", "100,000 lines": f"{work}/100000-lines.jsonl"}
commands = {"`plain`": ["plain"], "W = 1": ["track", "1"], "W = 2": ["track", "2"], "W = 4": ["track", "4"]}
taken = {}
for _ in range(5):
    for input, path in inputs.items():
        for name, (verb, *workers) in commands.items():
            begun = time.perf_counter()
            ran = subprocess.run([program, verb, topology, path, *workers], stdout=subprocess.DEVNULL)
            if ran.returncode:
                sys.exit(f"bench: {verb} of {path} ends with status {ran.returncode}")
            taken.setdefault((input, name), []).append(time.perf_counter() - begun)
print("| Input |", " | ".join(commands), "|")
print("|---" * (len(commands) + 1) + "|")
for input in inputs:
    print(f"| {input} |", " | ".join(f"{statistics.median(taken[input, name]):.3f}" for name in commands), "|")
END
