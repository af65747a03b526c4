"""Replays by the rules of docs/FORMATS.md, written from that page alone and without a look at the program.

attempts_of(topology, input, schedule) answers the lines of a report but those of cells. The topology has to be one in
which each tuple has one way to go (`is_single`), so that neither ids nor hashes count. No edge ids collide and no store
fails.
"""

import collections

import rules

# A path is the list of its numbers. A root is the transaction and the number of the attempt.
Tuple = collections.namedtuple("Tuple", "root path component row")
Note = collections.namedtuple("Note", "root kind paths")
Pending = collections.namedtuple("Pending", "number numbers start")


def value_of(item):
    return item.whole() if isinstance(item, rules.Number) else item


def order_of(value):
    """What values are compared by: numbers are less than texts."""
    return (0, value, b"") if isinstance(value, int) else (1, 0, value.encode())


def rows_of(op, row):
    """The rows that an operation makes of a row, in which fields are numbers."""
    do, at = op["do"], op.get("field")
    value = row[at] if at is not None else None
    if do == "split":
        return [[it] for it in value.split(" ") if it] if isinstance(value, str) else []
    if do == "project":
        return [[row[it] for it in op["fields"]]]
    if do == "filter":
        mine, other = order_of(value), order_of(op["value"])
        return [row] if {"eq": mine == other, "ne": mine != other, "lt": mine < other}[op["test"]] else []
    if do == "set":
        return [[*row[:at], op["value"], *row[at + 1 :]]]
    if do == "len":
        return [[*row, len(value.encode()) if isinstance(value, str) else 0]]
    return [row[::-1]] if do == "custom" else [row]


def is_single(made):
    """Whether each tuple has one way to go."""
    ways = [[one["grouping"] in ("all", "global") for one in it["inputs"]] for it in made["bolts"]]
    bolts = all(it["tasks"] == 1 or all(ways[at]) for at, it in enumerate(made["bolts"]))
    return bolts and all(it["tasks"] == 1 for it in made["states"]) and made["ackers"] == 1


class Topology:
    """The components of a topology with their operations, and where the rows of a source go."""

    def __init__(self, made):
        self.made, self.components = made, made["bolts"] + made["states"]
        self.fields = {made["spout"]["name"]: made["spout"]["fields"]}
        for it in sorted(made["bolts"], key=lambda it: rules.depths_of(made)[it["name"]]):
            before = self.fields[rules.sources_of(it)[0]]
            self.fields[it["name"]] = rules.fields_after(it["op"], before)
            it["op"] = self.numbered(it["op"], before)
        first = 0
        for it in self.components:
            it["first"], first = first, first + it["tasks"]
        self.tasks = first
        self.of_task = [it for it in self.components for _ in range(it["tasks"])]

    def numbered(self, op, fields):
        made = {name: value_of(it) if name in ("value", "below") else it for name, it in op.items()}
        if "field" in made:
            made["field"] = fields.index(made["field"])
        if "fields" in made:
            made["fields"] = [fields.index(it) for it in made["fields"]]
        return made

    def kids(self, source, rows):
        """The tasks that the children are for, with their components and rows, in the order of their paths."""
        kids = []
        for row in rows:
            for it in self.components:
                for one in it["inputs"]:
                    if (one if isinstance(one, str) else one["from"]) == source:
                        copies = it["tasks"] if not isinstance(one, str) and one["grouping"] == "all" else 1
                        kids += [(it["first"] + copy, it, row) for copy in range(copies)]
        return kids


class World:
    """Tasks, one acker and the coordinator, with their boxes and outboxes."""

    def __init__(self, topology, records):
        self.topology, self.made, self.records = topology, topology.made, records
        self.boxes = collections.defaultdict(collections.deque)
        self.outboxes = collections.defaultdict(collections.deque)
        self.ticks, self.ticks_of_acker, self.clock = 0, 0, 0
        # Of a root: the tick of its first message, whether its init came, the path of the first tuple that failed, and
        # the edges that came once.
        self.entries = {}
        self.shut, self.gone = set(), set()
        self.pending, self.settled, self.numbers, self.aborts = {}, set(), collections.Counter(), collections.Counter()
        self.commits, self.lines, self.over = 0, [], None
        self.end_where_all_is_committed()

    def end_where_all_is_committed(self):
        if len(self.gone) == len(self.records) and not self.pending:
            self.over = f"ok {len(self.records)} records {self.commits} batches"

    # ---- steps

    def hands_over(self, who):
        """Hands over the front of an outbox, where something is in it."""
        outbox = self.outboxes[who]
        if outbox:
            to, what = outbox.popleft()
            self.boxes[to].append(what)
            return True
        return False

    def task(self, task):
        if not self.hands_over(task) and self.boxes[task]:
            self.execute(task, self.boxes[task].popleft())

    def execute(self, task, it):
        outbox, op = self.outboxes[task], it.component.get("op")
        if op and op["do"] in ("flaky", "mute") and it.root[1] < op["below"]:
            if op["do"] == "flaky":
                outbox.append(("acker", Note(it.root, "failed", [it.path])))
            return
        kids = self.topology.kids(it.component["name"], rows_of(op, it.row)) if op else []
        self.send(outbox, it.root, it.path, kids)
        outbox.append(("acker", Note(it.root, "done", [it.path, *((*it.path, at) for at in range(len(kids)))])))

    def send(self, outbox, root, path, kids):
        for at, (task, component, row) in enumerate(kids):
            outbox.append((task, Tuple(root, (*path, at), component, row)))

    def acker(self):
        if self.hands_over("acker"):
            return
        self.ticks_of_acker = self.ticks
        buckets = self.made["buckets"]
        self.entries = {root: it for root, it in self.entries.items() if self.ticks < it[0] + buckets}
        if self.boxes["acker"]:
            self.meet(self.boxes["acker"].popleft())

    def meet(self, note):
        began, has_init, path, once = self.entries.pop(note.root, (self.ticks, False, None, frozenset()))
        if note.kind == "failed":
            path = path or note.paths[0]
        else:
            has_init, once = has_init or note.kind == "init", once ^ frozenset(note.paths)
        if has_init and (path or not once):
            self.outboxes["acker"].append(("coord", (note.root, path)))
        else:
            self.entries[note.root] = began, has_init, path, once

    def coord(self):
        if self.hands_over("coord"):
            return
        verdict = self.boxes["coord"].popleft() if self.boxes["coord"] else None
        self.turn(verdict)

    # ---- the coordinator

    def turn(self, verdict):
        if verdict:
            self.hear(*verdict)
        while self.clock < self.ticks and not self.over:
            self.clock += 1
            began = self.clock - self.made["buckets"]
            timed = [it for it in sorted(self.pending) if it not in self.settled]
            self.abort([it for it in timed if self.pending[it].start == began], "timed out")
        if self.over:
            return
        commit = self.commits + 1 if self.commits + 1 in self.settled else None
        self.begin()
        if commit:
            self.commits += 1
            self.gone.update(self.end(commit, "committed"))
            self.end_where_all_is_committed()

    def hear(self, root, path):
        txid, number = root
        if txid not in self.pending or self.pending[txid].number != number or txid in self.settled:
            return
        if path is None:
            self.settled.add(txid)
        else:
            self.abort([txid], "failed " + ".".join(map(str, path)))

    def end(self, txid, how):
        """Writes the line of an attempt that ended, and answers its records."""
        it = self.pending.pop(txid)
        self.settled.discard(txid)
        spans = ",".join(f"{first}-{last}" for first, last in spans_of(it.numbers))
        self.lines.append(f"attempt {txid}.{it.number} records {spans} ticks {it.start}-{self.clock} {how}")
        return it.numbers

    def abort(self, txids, how):
        if not txids:
            return
        first = min(txids)
        by = f"{first}.{self.pending[first].number}"
        for txid in txids:
            self.end(txid, how)
            self.aborts[txid] += 1
            if self.aborts[txid] == self.made["attempts"] and not self.over:
                self.over = f"exhausted {txid}"
        if self.made["spout"]["partitions"]:
            for txid in sorted(it for it in self.pending if it > first):
                self.end(txid, f"dropped {by}")

    def offer(self, txid):
        size, partitions = self.made["spout"]["batch"], self.made["spout"]["partitions"]
        if not partitions:
            return list(range((txid - 1) * size + 1, min(txid * size, len(self.records)) + 1))
        taken = self.gone.union(*(it.numbers for it in self.pending.values()))
        left = [it for it in range(1, len(self.records) + 1) if it not in taken and (it - 1) % partitions not in self.shut]
        return left[:size]

    def begin(self):
        while len(self.pending) < self.made["pending"]:
            txid = self.commits + 1
            while txid in self.pending:
                txid += 1
            numbers = self.offer(txid)
            if not numbers:
                return
            self.numbers[txid] += 1
            self.pending[txid] = Pending(self.numbers[txid], numbers, self.clock)
            root = txid, self.numbers[txid]
            kids = self.topology.kids(self.made["spout"]["name"], [self.records[it - 1] for it in numbers])
            self.send(self.outboxes["coord"], root, (), kids)
            self.outboxes["coord"].append(("acker", Note(root, "init", [(at,) for at in range(len(kids))])))

    # ---- schedules

    def rounds(self, count):
        for _ in range(count):
            if self.over or self.is_still():
                # Further rounds change nothing.
                return
            for task in range(self.topology.tasks):
                self.task(task)
            self.acker()
            self.coord()

    def is_still(self):
        """Whether nothing is on its way, nothing may begin or be committed, and all ticks are counted."""
        if any(self.boxes.values()) or any(self.outboxes.values()) or self.clock < self.ticks or self.ticks_of_acker < self.ticks:
            return False
        if self.commits + 1 in self.settled:
            return False
        txid = next(it for it in range(self.commits + 1, self.commits + 99) if it not in self.pending)
        return len(self.pending) == self.made["pending"] or not self.offer(txid)

    def step(self, line):
        word, _, number = line.partition(" ")
        if word == "tick":
            self.ticks += 1
        elif word == "coord":
            self.coord()
        elif word == "acker":
            self.acker()
        elif word == "task":
            self.task(int(number))
        elif word == "rounds":
            self.rounds(int(number))
        elif word == "shut":
            self.shut.add(int(number))
        else:
            self.shut.discard(int(number))


def spans_of(numbers):
    """The runs of numbers that rise."""
    spans = []
    for it in numbers:
        if spans and spans[-1][1] + 1 == it:
            spans[-1][1] = it
        else:
            spans.append([it, it])
    return spans


def made_of(data):
    """What a valid topology has."""
    return rules.form_of(rules.json_of(data))


def attempts_of(topology, records, schedule):
    """The lines of a report but those of cells. All files have to be accepted."""
    rows = [[value_of(it) for it in rules.json_of(line)] for line in rules.lines_of(records)]
    world = World(Topology(made_of(topology)), rows)
    for line in rules.lines_of(schedule):
        if world.over:
            break
        world.step(line.decode())
    return [*world.lines, world.over or f"unfinished {world.commits}"]
