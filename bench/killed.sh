#!/usr/bin/env bash
# bench/killed.sh [COUNT] [SEED]: kills COUNT runs of a word count into a file with signal 9, 300 if left
# out, at random moments of SEED: a third at any moment of the run, a third within its last tenth, and a
# third as soon as the file has so many bytes. What the file holds has to be a prefix of the report of a
# run that is let go on.
# Then it gives the program twenty sizes of address space (`ulimit -v`), from what it takes to start to one
# and a half times what a run needs: each run has to end with status 0 and the whole report, or with status 1 and nothing written.
# Prints how many files held nothing, a part and the whole report, and how the twenty ended. The status is 1
# where one ended otherwise.
# Needs python3. The program has to live within a small address space: a proved one does, and the one that
# ./storm builds without proof does not. It takes the program of STORM, see bench/program.sh.
set -euo pipefail
here="$(cd "$(dirname "${BASH_SOURCE[0]}")" && pwd)"
program="$("$here/program.sh")"
mkdir -p "$here/out"
work="$(mktemp -d "$here/out/killed.XXXXXX")"
trap 'rm -rf "$work"' EXIT
python3 -B - "$program" "$here" "$work" "${1:-300}" "${2:-1}" <<'END'
import os, random, resource, signal, subprocess, sys, time

program, here, work, count, seed = sys.argv[1:4] + [int(it) for it in sys.argv[4:6]]
draw = random.Random(seed)
topology, records, out = f"{here}/word_count.json", f"{work}/input.jsonl", f"{work}/out"
# Many keys make a long report.
with open(records, "w") as it:
    for line in range(1000):
        words = " ".join(f"w{draw.randrange(10**6):06}-{'x' * draw.randrange(40)}" for _ in range(10))
        it.write(f'["{words}"]\n')


def run(limit=None):
    def less():
        if limit:
            resource.setrlimit(resource.RLIMIT_AS, (limit, limit))

    with open(out, "wb") as it:
        how = {"stdout": it, "stderr": subprocess.DEVNULL, "preexec_fn": less}
        return subprocess.Popen(["storm", "run", topology, records], executable=program, **how)


def held():
    with open(out, "rb") as it:
        return it.read()


began = time.monotonic()
status = run().wait()
whole, seconds = held(), time.monotonic() - began
if status:
    sys.exit(f"killed: the run ended with status {status}")
for _ in range(3):
    began = time.monotonic()
    run().wait()
    seconds = min(seconds, time.monotonic() - began)
    if held() != whole:
        sys.exit("killed: two runs have two reports: did a tick pass?")
print(f"a run of {len(whole)} bytes of report takes {seconds:.2f} seconds", flush=True)

wrong, found = 0, {"nothing": 0, "a part": 0, "the whole": 0}
ended = 0
for number in range(count):
    moment = seconds * draw.uniform(*[(0, 1.05), (0.9, 1.1), (20, 20)][number % 3])
    bytes_ = draw.randrange(1, len(whole)) if number % 3 == 2 else len(whole) + 1
    began = time.monotonic()
    it = run()
    while it.poll() is None and time.monotonic() - began < moment and os.path.getsize(out) < bytes_:
        if number % 3 != 2:
            time.sleep(min(0.0005, max(0.0, moment - (time.monotonic() - began))))
    it.send_signal(signal.SIGKILL)
    status, text = it.wait(), held()
    ended += status == 0
    if not whole.startswith(text) or (status == 0 and text != whole):
        wrong += 1
        print(f"killed: run {number}: {len(text)} bytes, no prefix of the report")
    found["nothing" if not text else "the whole" if text == whole else "a part"] += 1
told = ", ".join(f"{number} {it}" for it, number in found.items())
print(f"killed: {count} runs, {ended} of which had ended; files held: {told}", flush=True)


def is_ready(size):
    # A program that has not enough to start is not begun: the loader or the kernel ends it.
    def less():
        resource.setrlimit(resource.RLIMIT_AS, (size, size))

    how = {"stdout": subprocess.DEVNULL, "stderr": subprocess.DEVNULL, "preexec_fn": less}
    return subprocess.run(["storm"], executable=program, **how).returncode == 2


STEP = 64 << 10


def least(low, high, holds):
    while high - low > STEP:
        middle = (low + high) // 2 // STEP * STEP
        low, high = (low, middle) if holds(middle) else (middle, high)
    return high


def suffices(size):
    return run(size).wait() == 0 and held() == whole


if not is_ready(2**32):
    sys.exit("killed: the program does not start within 4 GiB: has it checks at run time?")
first = least(0, 2**32, is_ready)
last = least(first, 2**31, suffices) * 3 // 2
ends = {}
for number in range(20):
    size = first + (last - first) * number // 19 // 4096 * 4096
    status = run(size).wait()
    text = held()
    if not (status == 0 and text == whole or status == 1 and not text):
        wrong += 1
        print(f"killed: {size >> 10} KiB of address space: status {status}, {len(text)} bytes")
    ends[status] = ends.get(status, 0) + 1
told = ", ".join(f"status {it} {number} times" for it, number in sorted(ends.items()))
print(f"killed: 20 sizes of address space from {first >> 10} to {last >> 10} KiB: {told}")
print(f"killed: {wrong} wrong")
sys.exit(int(wrong > 0))
END
