#!/usr/bin/env bash
# bench/part.sh queues|ledger|opaque_commits|acker|workers [FOLDER]: times a part by itself.
# The program is a crate that the gate does not know: it is put beside copies of the crates that it
# stands on, proved and built there, and run. That takes as long as these crates' proofs; a folder
# as the second word keeps the copies, so that a later run there begins with what is proved.
set -euo pipefail
here="$(cd "$(dirname "${BASH_SOURCE[0]}")" && pwd)"
top="$here/.."
part="${1:-}"
program="$here/parts/$part.rattle"
[ -f "$program" ] || { echo "usage: bench/part.sh queues|ledger|opaque_commits|acker|workers [FOLDER]" >&2; exit 2; }
if [ $# -gt 1 ]; then
  work="$2"
  mkdir -p "$work"
else
  work="$(mktemp -d)"
  trap 'rm -rf "$work"' EXIT
fi

# The crates that this one stands on, each after those below it. One may come more than once.
crates_below() {
  local name
  for name in $(sed -n "s/^$1\( [^:]*\)\{0,1\}://p" "$top/crates.txt"); do
    if [ -d "$top/crates/$name" ]; then
      crates_below "$name"
    fi
  done
  echo "$1"
}

below="$(sed -n '1s/^.*stands on: //p' "$program")"
cp "$top/HANDLES" "$work/HANDLES"
: >"$work/crates.txt"
for name in $(for crate in $below; do crates_below "$crate"; done | awk '!seen[$0]++'); do
  [ -d "$top/crates/$name" ] || continue
  mkdir -p "$work/crates/$name"
  for folder in src specs proofs; do
    rm -rf "$work/crates/$name/$folder"
    if [ -d "$top/crates/$name/$folder" ]; then
      cp -rp "$top/crates/$name/$folder" "$work/crates/$name/$folder"
    fi
  done
  grep -E "^$name[ :]" "$top/crates.txt" >>"$work/crates.txt"
done
echo "bench_$part: $below" >>"$work/crates.txt"
mkdir -p "$work/crates/bench_$part/src"
sed 1d "$program" >"$work/crates/bench_$part/src/main.rt"
cd "$work/crates/bench_$part"
rt run
