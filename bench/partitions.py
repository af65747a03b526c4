"""Random topologies of version 2 with partitions, inputs, and schedules that shut and open them."""

import collections
import json

import topologies

# The files; whether nothing but bolts that fail is in the way, so that `run` commits all; whether the schedule does so
# too; and the commands of runs.
Case = collections.namedtuple("Case", "files is_calm does_end runs")

MOST_RECORDS = 24
# The most tuples of all records' trees.
MOST_TUPLES = 2_000
# Workers side by side look at many tasks in vain, where others have the processors.
MOST_TASKS_SIDE_BY_SIDE = 24
# More rounds than any case needs, after which all is over.
ROUNDS = 1_000_000
# Operations with the fields of their input, in whose place another such may stand.
OTHERS = ("set", "filter", "custom", "flaky", "mute")


def fail(draws, whole, is_calm):
    """Lets bolts fail or stay mute at first attempts. In a calm case none stays mute, and the attempts suffice."""
    attempts = whole["attempts"]
    most = attempts if is_calm else attempts + draws.number(0, 1)
    for bolt in whole["bolts"]:
        op = bolt["op"]
        if op["do"] in OTHERS and draws.chance(2):
            op = bolt["op"] = {"do": draws.one(["flaky", "flaky", "mute"]), "below": 1}
        if op["do"] in ("flaky", "mute"):
            is_steady = draws.chance(3) or (is_calm and op["do"] == "mute")
            op["below"] = 1 if is_steady else min(100, draws.number(1, most))


def part(draws, whole):
    """Makes a topology one with partitions."""
    whole.update(version=2, pending=draws.number(1, draws.one([2, 4, 4, 64])), buckets=draws.number(2, draws.one([2, 4])))
    whole["attempts"] = draws.number(1, draws.one([2, 4, 8]))
    whole["spout"].update(kind="opaque", batch=draws.number(1, draws.one([1, 3, 8])))
    whole["spout"]["partitions"] = draws.one([1, 2, 2, 3, 4, 16])
    for state in whole["states"]:
        state["kind"] = "opaque"


def narrow(whole):
    """Leaves each tuple one way to go."""
    for bolt in whole["bolts"]:
        if any(it["grouping"] not in ("all", "global") for it in bolt["inputs"]):
            bolt["tasks"] = 1
    for state in whole["states"]:
        state["parts"] = 1
    whole["ackers"] = 1


def steps(draws, whole, is_calm):
    """Some lines of a schedule. In a calm case fewer ticks pass than there are buckets."""
    partitions, ackers = whole["spout"]["partitions"], whole.get("ackers", 1)
    tasks = count_tasks(whole)
    lines, ticks = [], 0
    for _ in range(draws.number(0, draws.one([3, 12, 30]))):
        kind = draws.one(["shut", "shut", "open", "tick", "rounds", "rounds", "rounds", "coord", "task", "acker"])
        if kind in ("shut", "open"):
            lines.append(f"{kind} {draws.number(0, partitions - 1)}")
        elif kind == "rounds":
            lines.append(f"rounds {draws.number(0, draws.one([3, 20, 60]))}")
        elif kind == "coord":
            lines += ["coord"] * draws.number(1, 8)
        elif kind == "tick":
            many = draws.number(1, 1 if is_calm else 3)
            if not is_calm or ticks + many < whole["buckets"]:
                ticks += many
                lines += ["tick"] * many
        else:
            lines.append(f"{kind} {draws.number(0, (tasks if kind == 'task' else ackers) - 1)}")
    return lines


def last_steps(draws, whole, is_calm):
    """The last lines of a schedule, and whether they commit all."""
    opened = [f"open {it}" for it in draws.shuffled(range(whole["spout"]["partitions"]))]
    if is_calm and not draws.chance(8):
        return [*opened, f"rounds {ROUNDS}"], True
    if draws.chance(2):
        return [], False
    # What stays mute ends by ticks.
    ends = draws.number(1, 12)
    return [*opened, *([f"rounds {draws.number(20, 200)}", *["tick"] * whole["buckets"]] * ends), "rounds 100"], False


def count_tasks(whole):
    return sum(it["tasks"] for it in whole["bolts"]) + sum(it["parts"] for it in whole["states"])


def case_of(seed):
    topology = topologies.Topology(seed)
    draws, topology.is_wide = topology.draws, False
    whole, records = topology.whole(MOST_RECORDS)
    records = records[: MOST_TUPLES // topology.tuples]
    is_calm = draws.chance(2)
    part(draws, whole)
    fail(draws, whole, is_calm)
    if not draws.chance(3):
        narrow(whole)
    lines = steps(draws, whole, is_calm)
    last, does_end = last_steps(draws, whole, is_calm)
    schedule = "".join(f"{it}\n" for it in lines + last)
    files = {"t": json.dumps(whole, ensure_ascii=False), "i": topologies.lines_of(draws, records), "s": schedule}
    files = {name: text.encode() for name, text in files.items()}
    runs = ["run 1", "run 4"] if count_tasks(whole) <= MOST_TASKS_SIDE_BY_SIDE and draws.chance(8) else ["run 1"]
    return Case(files, is_calm, does_end, runs if is_calm else [])
