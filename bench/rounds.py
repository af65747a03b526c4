"""rounds.py PROGRAM WORK TOPOLOGY: runs the commands in turn and prints one table."""
import os
import statistics
import subprocess
import sys
import time

SIZES = ["1-mib", "4-mib", "16-mib", "10000-lines", "100000-lines", "1000000-lines"]
ROUNDS = 5
program, work, topology = sys.argv[1:]


def command(name, size):
    text = f"{work}/{size}.jsonl"
    if name == "single":
        return [f"{work}/single", text]
    verb, _, workers = name.partition(" ")
    return [program, verb, topology, text, *workers.split()]


def once(words, out):
    """Seconds, and the most memory in MiB."""
    with open(out, "wb") as file:
        began = time.perf_counter()
        child = subprocess.Popen(words, stdout=file, stderr=subprocess.DEVNULL)
        _, status, used = os.wait4(child.pid, 0)
        seconds = time.perf_counter() - began
    if status != 0:
        sys.exit(f"bench: {' '.join(words)} ended with {status}")
    return seconds, used.ru_maxrss / 1024


def cells(name, size):
    with open(f"{work}/{name}.{size}.txt", "rb") as file:
        return [line for line in file if not line.startswith(b"attempt ")]


names = ["single", "plain", "fold 1", "fold 2", "fold 4", "run 1", "run 2", "run 4"]
runs = {(name, size): [] for size in SIZES for name in names}
for _ in range(ROUNDS):
    for name, size in runs:
        runs[name, size].append(once(command(name, size), f"{work}/{name}.{size}.txt"))
print("| input | command | seconds | nodes/s | MiB of memory | to `single` | to the size before |")
print("|---|---|---|---|---|---|---|")
before = {}
for size in SIZES:
    number, kind = size.split("-")
    counted = subprocess.run(command("single", size), capture_output=True, check=True)
    nodes = int(counted.stderr)
    for name in names:
        if cells(name, size) != cells("single", size):
            sys.exit(f"bench: {name} and single differ on {size}")
        seconds = statistics.median(run[0] for run in runs[name, size])
        memory = max(run[1] for run in runs[name, size])
        ratio = seconds / statistics.median(run[0] for run in runs["single", size])
        growth = f"{seconds / before[name, kind]:.1f}" if (name, kind) in before else ""
        before[name, kind] = seconds
        print(f"| {number} {kind} | {name} | {seconds:.3f} | {nodes / seconds / 1e6:.1f} million "
              f"| {memory:.0f} | {ratio:.1f} | {growth} |")
