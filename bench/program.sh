#!/usr/bin/env bash
# bench/program.sh: prints the path of the program to try: that of STORM, or the one that ./storm runs, proved
# or not, which it builds first where it is not there.
set -euo pipefail
top="$(cd "$(dirname "${BASH_SOURCE[0]}")/.." && pwd)"
if [ -n "${STORM:-}" ]; then
  realpath "$STORM"
  exit
fi
"$top/storm" check "$top/bench/word_count.json" >/dev/null
if [ "$(cat "$top/out/proved.sum" 2>/dev/null)" = "$("$top/tools/sources" sum)" ]; then
  echo "$top/out/proved"
else
  echo "$top/out/unproved"
fi
