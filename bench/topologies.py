#!/usr/bin/env python3
"""topologies.py SEED FOLDER RECORDS: writes a random valid topology and an input for it of at most so many
records, FOLDER/topology.json and FOLDER/input.jsonl, and prints a number of workers.

The same numbers give the same files. A run ends soon and with status 0: a flaky bolt lets two attempts of a
batch through, or all, and a mute bolt has a `below` of 1. In about one of 200 a bolt stays mute at the first
attempt, so that the run waits for two ticks. About one of ten is wide: it has more bolts, with up to 64 tasks, and up
to 64 parts of a state.
"""

import json
import os
import sys

MOST_WEIGHT = 4_096
# Tasks of a component. With at most 12 bolts and 4 states the tasks in all are 1,024, the most, at most.
MOST_TASKS = 64
MOST_FIELDS = 8
# The most tuples of all attempts of a run, by an estimate from above.
MOST_TUPLES = 20_000
# The most attempts of a run, where none times out.
MOST_ATTEMPTS = 500
DEFAULT_ATTEMPTS = 10

GROUPINGS = ["shuffle", "fields", "all", "global", "none", "local_or_shuffle"]
FOLDS = ["count", "sum", "last", "max", "custom"]
OPERATIONS = ["split", "project", "filter", "set", "len", "route", "flaky", "mute", "custom"]
WORDS = ["a", "b", "the", "stone", "", "0", "-1", "A", "é", "日本", "🌀", '"', "\\", "/", "\n", "\0", "\x7f", "word" * 16]
NUMBERS = [0, 1, -1, 2, 7, 1000, 2**31, -(2**32), 2**63 - 1, -(2**63)]


class Draws:
    """Random numbers by splitmix64."""

    def __init__(self, seed):
        self.state = seed

    def next(self):
        self.state = (self.state + 0x9E3779B97F4A7C15) % 2**64
        drawn = self.state
        drawn = (drawn ^ drawn >> 30) * 0xBF58476D1CE4E5B9 % 2**64
        drawn = (drawn ^ drawn >> 27) * 0x94D049BB133111EB % 2**64
        return drawn ^ drawn >> 31

    def number(self, least, most):
        return least + self.next() % (most - least + 1)

    def chance(self, of):
        """Is true about once in so many."""
        return self.next() % of == 0

    def one(self, items):
        return items[self.next() % len(items)]

    def some(self, items, least, most):
        """So many of the items as there are, none twice, in any order."""
        rest, taken = list(items), []
        for _ in range(min(self.number(least, most), len(rest))):
            taken.append(rest.pop(self.next() % len(rest)))
        return taken

    def shuffled(self, items):
        return self.some(items, len(items), len(items))


class Source:
    """The spout or a bolt: its fields, the most words of each, and the most rows that it makes of a record."""

    def __init__(self, name, fields, words, ways, rows, does_route=False):
        self.name, self.fields, self.words, self.ways, self.rows, self.does_route = name, fields, words, ways, rows, does_route


def values_of(draws):
    """The values of a case. They are few, so that keys repeat."""
    pieces = draws.some(WORDS, 1, 8)
    values = [*pieces, *draws.some(NUMBERS, 1, 5), *(draws.number(-20, 20) for _ in range(draws.number(0, 6)))]
    for _ in range(draws.number(0, 8)):
        gap = draws.one([" ", " ", "  "])
        values.append(gap.join(draws.one(pieces) for _ in range(draws.number(2, 5))) + draws.one(["", "", " "]))
    return values


def within_limit(value):
    """The value, or its first 256 bytes: a topology takes no longer text."""
    return value.encode()[:256].decode(errors="ignore") if isinstance(value, str) else value


def words_in(values):
    return max([1, *(len(it.split(" ")) for it in values if isinstance(it, str))])


class Topology:
    def __init__(self, seed):
        self.draws = draws = Draws(seed)
        self.values = values_of(draws)
        self.fields_made = 0
        self.kind = draws.one(["transactional", "transactional", "opaque"])
        self.attempts = draws.one([1, 2, 3, 4, 5, 8, 12, 100])
        self.has_attempts = not draws.chance(4)
        if not self.has_attempts:
            self.attempts = DEFAULT_ATTEMPTS
        self.is_mute = draws.chance(200)
        if self.is_mute:
            self.attempts, self.has_attempts = max(self.attempts, 3), True
        self.is_wide = draws.chance(10)
        self.below = 1
        self.weight = 0
        self.tuples = 0
        count = MOST_FIELDS if draws.chance(12) else draws.number(1, 4)
        fields = [self.fresh() for _ in range(count)]
        # Each field has values of its own, some of them just one.
        self.columns = [draws.some(self.values, 1, draws.one([1, 3, len(self.values)])) for _ in fields]
        self.sources = [Source("spout", fields, [words_in(it) for it in self.columns], 1, 1)]
        self.bolts, self.states = [], []

    def fresh(self):
        self.fields_made += 1
        return f"f{self.fields_made}"

    def inputs(self):
        """Sources with the same fields."""
        draws = self.draws
        # The last one is the likeliest, which makes long chains.
        first = self.sources[-1] if draws.chance(2) else draws.one(self.sources)
        others = [it for it in self.sources if it is not first and it.fields == first.fields]
        return draws.shuffled([first, *draws.some(others, 0, draws.one([0, 1, len(others)]))])

    def does_fit(self, ways, tuples):
        return self.weight + ways <= MOST_WEIGHT and (self.tuples + tuples) * self.attempts_used() <= MOST_TUPLES

    def attempts_used(self):
        return max(self.below, 2 if self.is_mute else 1)

    def add_bolt(self):
        draws, name = self.draws, f"b{len(self.bolts)}"
        tasks = draws.number(1, MOST_TASKS if self.is_wide else 5)
        inputs, ways, tuples = [], 0, 0
        sources = self.inputs()
        for source in sources:
            grouping = "direct" if source.does_route and draws.chance(2) else draws.one(GROUPINGS)
            one = {"from": source.name, "grouping": grouping}
            if grouping == "fields":
                one["key"] = draws.some(source.fields, 1, MOST_FIELDS)
            times = tasks if grouping == "all" else 1
            ways += source.ways * times
            tuples += source.rows * times
            inputs.append(one)
        # Copies for each task multiply from bolt to bolt; a bolt too heavy is left out.
        if not self.does_fit(ways, tuples):
            return
        fields = sources[0].fields
        words = [max(it) for it in zip(*(it.words for it in sources))]
        operation, after, words, times = self.operation(fields, words, tuples)
        self.weight += ways
        self.tuples += tuples
        self.sources.append(Source(name, after, words, ways, tuples * times, operation["do"] == "route"))
        self.bolts.append({"name": name, "tasks": tasks, "op": operation, "inputs": inputs})

    def operation(self, fields, words, tuples):
        """An operation, the fields after it, the most words of each, and how many rows it makes of one at most."""
        draws, do = self.draws, self.draws.one(OPERATIONS)
        if self.is_mute and not self.bolts:
            do = "mute"
        at = draws.number(0, len(fields) - 1)
        if do == "len" and len(fields) == MOST_FIELDS:
            do = "project"
        if do == "split":
            name = draws.one(fields) if draws.chance(3) else self.fresh()
            return {"do": do, "field": fields[at], "as": name}, [name], [1], words[at]
        if do == "project":
            kept = draws.some(range(len(fields)), 1, len(fields))
            return {"do": do, "fields": [fields[it] for it in kept]}, [fields[it] for it in kept], [words[it] for it in kept], 1
        if do == "len":
            name = self.fresh()
            return {"do": do, "field": fields[at], "as": name}, [*fields, name], [*words, 1], 1
        if do == "filter":
            test, value = draws.one(["eq", "ne", "ne", "lt", "lt"]), within_limit(draws.one(self.values))
            return {"do": do, "field": fields[at], "test": test, "value": value}, fields, words, 1
        if do == "set":
            value = within_limit(draws.one(self.values))
            return {"do": do, "field": fields[at], "value": value}, fields, [*words[:at], words_in([value]), *words[at + 1 :]], 1
        if do == "route":
            return {"do": do, "field": fields[at]}, fields, words, 1
        if do == "flaky":
            below = draws.number(1, min(max(self.attempts - 1, 1), draws.one([2, 3, 8, 20])))
            # More attempts make more tuples.
            if (self.tuples + tuples) * below > MOST_TUPLES // 4:
                below = 1
            self.below = max(self.below, below)
            return {"do": do, "below": below}, fields, words, 1
        if do == "mute":
            return {"do": do, "below": 2 if self.is_mute else 1}, fields, words, 1
        return {"do": do}, fields, words[::-1], 1

    def add_state(self):
        draws, sources = self.draws, self.inputs()
        ways, tuples = sum(it.ways for it in sources), sum(it.rows for it in sources)
        if not self.does_fit(ways, tuples):
            return
        self.weight += ways
        self.tuples += tuples
        fields, fold = sources[0].fields, draws.one(FOLDS)
        kind = "opaque" if self.kind == "opaque" else draws.one(["transactional", "opaque"])
        state = {"name": f"s{len(self.states)}", "kind": kind, "parts": draws.number(1, MOST_TASKS if self.is_wide else 4)}
        state.update(key=draws.some(fields, 1, draws.one([1, 2, MOST_FIELDS])), fold=fold)
        if fold != "count":
            state["amount"] = draws.one(fields)
        state["inputs"] = [it.name for it in sources]
        self.states.append(state)

    def whole(self, most_records):
        """The object of the topology, and the records of its input."""
        draws = self.draws
        for _ in range(draws.number(int(self.is_mute), 12 if self.is_wide else 6)):
            self.add_bolt()
        for _ in range(draws.number(1, 4)):
            self.add_state()
        if not self.states:
            # The bolts were too heavy for any; one of the spout alone is not.
            self.sources, self.bolts = self.sources[:1], []
            self.weight, self.tuples, self.below = 0, 0, 1
            self.add_state()
        most = min(most_records, MOST_TUPLES // (self.tuples * self.attempts_used()))
        records = [[draws.one(it) for it in self.columns] for _ in range(draws.number(0, draws.one([min(3, most), most, most])))]
        least = -(-len(records) * self.attempts_used() // MOST_ATTEMPTS)
        batch = max(least, draws.number(1, draws.one([5, 50])))
        spout = {"name": "spout", "kind": self.kind, "fields": self.sources[0].fields, "batch": batch}
        whole = {"version": 1, "spout": spout, "bolts": draws.shuffled(self.bolts), "states": self.states}
        if not draws.chance(4):
            whole["ackers"] = draws.number(1, 4)
        if not draws.chance(4):
            whole["pending"] = draws.number(1, draws.one([2, 8, 64]))
        if self.is_mute:
            # All batches wait for the same two ticks.
            whole.update(buckets=2, pending=64)
            spout["batch"] = max(batch, -(-len(records) // 64))
        elif not draws.chance(4):
            whole["buckets"] = draws.number(2, draws.one([4, 16]))
        if self.has_attempts:
            whole["attempts"] = self.attempts
        return whole, records


def lines_of(draws, records):
    """The text of an input."""
    is_ascii, end = draws.chance(2), draws.one(["\n", "\n", "\r\n"])
    text = "".join(json.dumps(it, ensure_ascii=is_ascii, separators=draws.one([(",", ":"), (" , ", ":")])) + end for it in records)
    return text.removesuffix(end) if draws.chance(4) else text


def workers_of(draws):
    return draws.number(9, 64) if draws.chance(8) else draws.number(1, 8)


def main(seed, folder, most_records):
    topology = Topology(int(seed))
    whole, records = topology.whole(int(most_records))
    os.makedirs(folder, exist_ok=True)
    with open(f"{folder}/topology.json", "w", encoding="utf-8", newline="") as file:
        json.dump(whole, file, ensure_ascii=False, indent=1)
    with open(f"{folder}/input.jsonl", "w", encoding="utf-8", newline="") as file:
        file.write(lines_of(topology.draws, records))
    print(workers_of(topology.draws))


if __name__ == "__main__":
    main(*sys.argv[1:])
