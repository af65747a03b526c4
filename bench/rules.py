"""The refusals and the reports of docs/FORMATS.md, written from that page alone and without a look at the program.

topology_of(bytes) answers the text of the first fault, or the numbers of a valid topology; input_fault and
schedule_fault answer a text or None. report_of(text) reads a report, and report_fault says what no run of a topology
over so many records can have written in it, or None.
"""

import collections
import json
import re

MOST = 2**64 - 1
MOST_BYTES, MOST_INPUT, MOST_SCHEDULE = 65_536, 67_108_864, 1_048_576
MOST_LINE, MOST_LINES, MOST_ROUNDS = 4_096, 1_000_000, 10_000_000
MOST_DEEP = 127
MOST_TASKS, MOST_WEIGHT, MOST_FIELDS, MOST_TEXT, MOST_NAME = 1_024, 4_096, 8, 256, 32


class Refused(Exception):
    """A topology is refused, with its text."""


class Number(str):
    """The digits of a JSON number."""

    def whole(self):
        """The number, where it is a signed whole number of 64 bits."""
        if not re.fullmatch(r"-?[0-9]+", self) or self == "-0":
            return None
        found = int(self) if len(self) <= 20 else MOST + 1
        return found if -(2**63) <= found < 2**63 else None


def no_constant(text):
    raise ValueError(text)


def number(text):
    if float(text) in (float("inf"), float("-inf")):
        raise ValueError("too great for a float")
    return Number(text)


def depth_of(text):
    """How deep the brackets of a JSON text nest, those in its texts left out."""
    deepest = deep = 0
    for it in re.sub(r'"(?:[^"\\]|\\.)*"', "", text, flags=re.S):
        deep += (it in "[{") - (it in "]}")
        deepest = max(deepest, deep)
    return deepest


def is_whole_text(value):
    """Whether no text has half of a surrogate pair."""
    if isinstance(value, str):
        return not any(0xD800 <= ord(it) < 0xE000 for it in value)
    if isinstance(value, dict):
        return all(is_whole_text(it) for pair in value.items() for it in pair)
    return not isinstance(value, list) or all(map(is_whole_text, value))


def json_of(data):
    """The value of a JSON text, of whose members that stand twice the last counts. ValueError where it is none."""
    text = data.decode("utf-8")
    if text.startswith("\ufeff"):
        raise ValueError("a byte order mark")
    if depth_of(text) > MOST_DEEP:
        raise ValueError("deep brackets")
    parsed = []

    def pairs(found):
        parsed.extend(found)
        return dict(found)

    value = json.loads(text, parse_int=number, parse_float=number, parse_constant=no_constant, object_pairs_hook=pairs)
    if not is_whole_text(value) or not all(is_whole_text(list(it)) for it in parsed):
        raise ValueError("half of a pair")
    return value


def is_text(value):
    return isinstance(value, str) and not isinstance(value, Number)


def quoted(text):
    return json.dumps(text, ensure_ascii=False, separators=(",", ":"))


# ---- the form of a topology


def wrong(member):
    raise Refused(f"wrong kind {quoted(member)}")


def within(member, found, least, most):
    if not least <= found <= most:
        raise Refused(f"{quoted(member)} is {found}, not from {least} to {most}")


class Members:
    """The members of an object, which are taken in the order of its table."""

    def __init__(self, member, value):
        if not isinstance(value, dict):
            wrong(member)
        self.left = dict(value)

    def take(self, member):
        if member not in self.left:
            raise Refused(f"missing {quoted(member)}")
        return self.left.pop(member)

    def end(self):
        if self.left:
            raise Refused(f"unknown {quoted(min(self.left, key=lambda it: it.encode()))}")

    def number(self, member, least, most, default=None):
        if default is not None and member not in self.left:
            return default
        value = self.take(member)
        found = value.whole() if isinstance(value, Number) else None
        if found is None:
            wrong(member)
        within(member, found, least, most)
        return found

    def name(self, member):
        value = self.take(member)
        if not is_name(value):
            wrong(member)
        return value

    def word(self, member, words):
        value = self.take(member)
        if not is_text(value):
            wrong(member)
        if value not in words:
            raise Refused(f"unknown {quoted(value)}")
        return value

    def names(self, member, most):
        value = self.take(member)
        if not isinstance(value, list) or not all(map(is_name, value)):
            wrong(member)
        within(member, len(value), 1, most)
        return value

    def objects(self, member, least, most, read):
        value = self.take(member)
        if not isinstance(value, list):
            wrong(member)
        within(member, len(value), least, most)
        return [read(Members(member, it)) for it in value]

    def constant(self, member):
        value = self.take(member)
        if is_text(value):
            within(member, len(value.encode()), 0, MOST_TEXT)
        elif not isinstance(value, Number) or value.whole() is None:
            wrong(member)
        return value


def is_name(value):
    return is_text(value) and re.fullmatch(r"[a-z][a-z0-9_-]{0,31}", value) is not None


GROUPINGS = ("shuffle", "fields", "all", "global", "direct", "none", "local_or_shuffle")
OPERATIONS = ("split", "project", "filter", "set", "len", "route", "flaky", "mute", "custom")


def spout_of(it, version):
    made = {"name": it.name("name"), "kind": it.word("kind", ("transactional", "opaque"))}
    made |= {"fields": it.names("fields", MOST_FIELDS), "batch": it.number("batch", 1, 100_000)}
    has = version == 2 and made["kind"] == "opaque"
    made["partitions"] = it.number("partitions", 1, 16) if has else 0
    it.end()
    return made


def operation_of(it):
    made = {"do": it.word("do", OPERATIONS)}
    do = made["do"]
    if do == "project":
        made["fields"] = it.names("fields", MOST_FIELDS)
    elif do in ("split", "len"):
        made |= {"field": it.name("field"), "as": it.name("as")}
    elif do == "filter":
        made |= {"field": it.name("field"), "test": it.word("test", ("eq", "ne", "lt")), "value": it.constant("value")}
    elif do == "set":
        made |= {"field": it.name("field"), "value": it.constant("value")}
    elif do == "route":
        made["field"] = it.name("field")
    elif do in ("flaky", "mute"):
        made["below"] = it.number("below", 1, 100)
    it.end()
    return made


def input_of(it):
    made = {"from": it.name("from"), "grouping": it.word("grouping", GROUPINGS), "key": []}
    if made["grouping"] == "fields":
        made["key"] = it.names("key", MOST_FIELDS)
    it.end()
    return made


def bolt_of(it):
    made = {"name": it.name("name"), "tasks": it.number("tasks", 1, 64)}
    made["op"] = operation_of(Members("op", it.take("op")))
    made["inputs"] = it.objects("inputs", 1, 32, input_of)
    it.end()
    return made


def state_of(it):
    made = {"name": it.name("name"), "kind": it.word("kind", ("transactional", "opaque"))}
    made |= {"tasks": it.number("parts", 1, 64), "key": it.names("key", MOST_FIELDS)}
    made["fold"] = it.word("fold", ("count", "sum", "last", "max", "custom"))
    made["amount"] = [] if made["fold"] == "count" else [it.name("amount")]
    made["inputs"] = it.names("inputs", 33)
    it.end()
    return made


def form_of(value):
    it = Members("topology", value)
    version = it.number("version", 1, 2)
    made = {"spout": spout_of(Members("spout", it.take("spout")), version)}
    made |= {"bolts": it.objects("bolts", 0, 32, bolt_of), "states": it.objects("states", 1, 8, state_of)}
    made |= {"ackers": it.number("ackers", 1, 16, 1), "pending": it.number("pending", 1, 64, 1)}
    made |= {"buckets": it.number("buckets", 2, 16, 3), "attempts": it.number("attempts", 1, 100, 10)}
    it.end()
    return made


# ---- what a topology says


def once(names):
    for at, name in enumerate(names):
        if name in names[:at]:
            raise Refused(f"{quoted(name)} twice")


def check_names(made):
    once([made["spout"]["name"], *[it["name"] for it in made["bolts"] + made["states"]]])
    once(made["spout"]["fields"])
    for bolt in made["bolts"]:
        once([it["from"] for it in bolt["inputs"]])
        for it in bolt["inputs"]:
            once(it["key"])
        once(bolt["op"].get("fields", []))
    for state in made["states"]:
        once(state["key"])
        once(state["inputs"])


def sources_of(component):
    return [it if is_text(it) else it["from"] for it in component["inputs"]]


def check_sources(made):
    there = {made["spout"]["name"], *[it["name"] for it in made["bolts"]]}
    for component in made["bolts"] + made["states"]:
        for source in sources_of(component):
            if source not in there:
                raise Refused(f"no source {quoted(source)}")


def check_cycles(made):
    bolts = {it["name"]: it for it in made["bolts"]}
    for bolt in made["bolts"]:
        reached, left = set(), [bolt["name"]]
        while left:
            for source in sources_of(bolts[left.pop()]):
                if source in bolts and source not in reached:
                    reached.add(source)
                    left.append(source)
        if bolt["name"] in reached:
            raise Refused(f"cycle at {quoted(bolt['name'])}")


def depths_of(made):
    depths = {made["spout"]["name"]: 0}
    left = made["bolts"] + made["states"]
    while left:
        ready = [it for it in left if all(source in depths for source in sources_of(it))]
        for it in ready:
            depths[it["name"]] = 1 + max(depths[source] for source in sources_of(it))
        left = [it for it in left if it not in ready]
    return depths


def has(fields, names):
    for name in names:
        if name not in fields:
            raise Refused(f"no field {quoted(name)} at ")


def fields_after(op, fields):
    do = op["do"]
    if do == "project":
        has(fields, op["fields"])
        return op["fields"]
    if do in ("split", "filter", "set", "len", "route"):
        has(fields, [op["field"]])
    if do == "split":
        return [op["as"]]
    if do == "len":
        if op["as"] in fields:
            raise Refused(f"{quoted(op['as'])} twice")
        within("fields", len(fields) + 1, 1, MOST_FIELDS)
        return [*fields, op["as"]]
    return fields


def check_component(component, fields, bolts):
    """Checks the fields of a component, and adds those after it where it is a bolt."""
    sources = sources_of(component)
    before = fields[sources[0]]
    if any(fields[it] != before for it in sources):
        raise Refused(f"fields differ at {quoted(component['name'])}")
    if "op" not in component:
        return has(before, [*component["key"], *component["amount"]])
    for it in component["inputs"]:
        has(before, it["key"])
        is_chosen = it["from"] in bolts and bolts[it["from"]]["op"]["do"] == "route"
        if it["grouping"] == "direct" and not is_chosen:
            wrong("grouping")
    fields[component["name"]] = fields_after(component["op"], before)
    return None


def check_fields(made, depths):
    fields = {made["spout"]["name"]: made["spout"]["fields"]}
    bolts = {it["name"]: it for it in made["bolts"]}
    for component in sorted(made["bolts"] + made["states"], key=lambda it: depths[it["name"]]):
        try:
            check_component(component, fields, bolts)
        except Refused as fault:
            text = str(fault)
            raise Refused(text + quoted(component["name"]) if text.endswith(" at ") else text) from None


def weight_of(made, depths):
    """The weight, of sums and products that end at 2^64 - 1."""
    ways, weight = {made["spout"]["name"]: 1}, 0
    for component in sorted(made["bolts"] + made["states"], key=lambda it: depths[it["name"]]):
        found = 0
        for it in component["inputs"]:
            copies = component["tasks"] if not is_text(it) and it["grouping"] == "all" else 1
            found = min(MOST, found + min(MOST, ways[it if is_text(it) else it["from"]] * copies))
        ways[component["name"]] = found
        weight = min(MOST, weight + found)
    return weight


def plan_of(data):
    if len(data) > MOST_BYTES:
        raise Refused(f"longer than {MOST_BYTES} bytes")
    try:
        value = json_of(data)
    except (ValueError, RecursionError):
        raise Refused("no JSON") from None
    made = form_of(value)
    check_names(made)
    check_sources(made)
    check_cycles(made)
    depths = depths_of(made)
    check_fields(made, depths)
    for state in made["states"]:
        if made["spout"]["kind"] == "opaque" and state["kind"] == "transactional":
            raise Refused(f"not exactly once {quoted(state['name'])}")
    components = made["bolts"] + made["states"]
    tasks = sum(it["tasks"] for it in components)
    within("tasks in all", tasks, 1, MOST_TASKS)
    weight = weight_of(made, depths)
    if weight > MOST_WEIGHT:
        raise Refused(f"weight {weight}, most {MOST_WEIGHT}")
    line = f"valid components {len(components)} tasks {tasks} weight {weight} depth {max(depths.values())}\n"
    mutes = any(it["op"]["do"] == "mute" for it in made["bolts"])
    spout = made["spout"]
    sizes = {it: made[it] for it in ("ackers", "pending", "buckets", "attempts")}
    sizes |= {"tasks": tasks, "batch": spout["batch"], "partitions": spout["partitions"]}
    return {"line": line, "fields": len(spout["fields"]), "mutes": mutes} | sizes


def topology_of(data):
    """The line of a refusal and None, or None and what a topology says."""
    try:
        return None, plan_of(data)
    except Refused as fault:
        return f"topology: {fault}\n", None


# ---- lines


def lines_of(data):
    lines = data.split(b"\n")
    return lines if lines[-1] else lines[:-1]


def line_fault(line, fields):
    if len(line) > MOST_LINE:
        return f"longer than {MOST_LINE} bytes"
    try:
        value = json_of(line)
    except (ValueError, RecursionError):
        return "no JSON"
    if not isinstance(value, list):
        return "no array"
    for at, item in enumerate(value):
        if not is_text(item) and (not isinstance(item, Number) or item.whole() is None):
            return f"item {at} is no text and no whole number"
    return None if len(value) == fields else f"{len(value)} items"


def input_fault(data, fields):
    """The line of an input's refusal, or None."""
    if len(data) > MOST_INPUT:
        return f"input: longer than {MOST_INPUT} bytes\n"
    lines = lines_of(data)
    for at, line in enumerate(lines[:MOST_LINES]):
        fault = line_fault(line, fields)
        if fault:
            return f"input: line {at + 1}: {fault}\n"
    return f"input: more than {MOST_LINES} lines\n" if len(lines) > MOST_LINES else None


def schedule_fault(data, tasks, ackers, partitions):
    """The line of a schedule's refusal, or None."""
    if len(data) > MOST_SCHEDULE:
        return f"schedule: longer than {MOST_SCHEDULE} bytes\n"
    for at, line in enumerate(lines_of(data)):
        found = re.fullmatch(rb"(?:coord|tick|(task|acker|shut|open|rounds) ([0-9]{1,8}))", line)
        if not found or (found[1] == b"rounds" and int(found[2]) > MOST_ROUNDS):
            return f"schedule: line {at + 1}: not a step\n"
        most = {b"task": tasks, b"acker": ackers, b"shut": partitions, b"open": partitions}.get(found[1])
        if most is not None and int(found[2]) >= most:
            return f"schedule: line {at + 1}: no such number\n"
    return None


# ---- reports

Attempt = collections.namedtuple("Attempt", "txid number spans start finish end more")
ATTEMPT = re.compile(
    r"attempt ([0-9]+)\.([0-9]+) records ([0-9]+-[0-9]+(?:,[0-9]+-[0-9]+)*) ticks ([0-9]+)-([0-9]+) "
    r"(?:(committed|timed out)|(failed|coincided|commit failed|dropped) (.+))"
)
TAIL = re.compile(r"(ok|exhausted|unfinished) ([0-9]+)(?: records ([0-9]+) batches)?")
STATUSES = {"ok": 0, "exhausted": 7, "unfinished": 8}


def attempt_of(line):
    found = ATTEMPT.fullmatch(line)
    if not found:
        raise ValueError(f"no line of a report: {line[:200]!r}")
    spans = [tuple(map(int, it.split("-"))) for it in found[3].split(",")]
    return Attempt(int(found[1]), int(found[2]), spans, int(found[4]), int(found[5]), found[6] or found[7], found[8])


def report_of(text):
    """The attempts, the lines of cells and the words of the last line of a report. ValueError where it is none."""
    lines = text.split("\n")
    found = TAIL.fullmatch(lines[-2]) if len(lines) > 1 and not lines[-1] else None
    if not found or (found[1] == "ok") != (found[3] is not None):
        raise ValueError(f"no end of a report: {text[-200:]!r}")
    count = sum(it.startswith("attempt ") for it in lines)
    cells = lines[count:-2]
    if not all(it.startswith("cell ") for it in cells) or (cells and found[1] != "ok"):
        raise ValueError("lines that are out of place")
    return [attempt_of(it) for it in lines[:count]], cells, found


def numbers_of(spans):
    return [number for first, last in spans for number in range(first, last + 1)]


def committed_records(attempts):
    """The numbers of the records that were committed, in the order of the commits."""
    return [number for it in attempts if it.end == "committed" for number in numbers_of(it.spans)]


class Wrong(Exception):
    """What no run can have written."""


def holds(fact, text):
    if not fact:
        raise Wrong(text)


class Walk:
    """Goes through the attempts of a report in the order of their ends."""

    def __init__(self, plan, records):
        self.plan, self.records = plan, records
        self.gone, self.commits, self.clock = set(), 0, 0
        # How many records of each partition are committed.
        self.fronts = collections.Counter()
        # The last number of a transaction's attempts, and how many of them ended without a commit and undropped.
        self.numbers, self.aborts = collections.Counter(), collections.Counter()
        # The attempts that ended so in the last turn, and those that were dropped with them.
        self.stroke, self.drops = [], []
        self.clocks_of_strokes, self.used_up = set(), None

    def batch(self, txid):
        size = self.plan["batch"]
        return [((txid - 1) * size + 1, min(txid * size, self.records))]

    def take(self, it):
        plan = self.plan
        self.numbers[it.txid] += 1
        holds(it.number == self.numbers[it.txid], "the number of the attempt")
        holds(it.txid > self.commits, "a transaction that is committed")
        holds(it.txid <= self.commits + plan["pending"], "more pending than may be")
        holds(it.start <= it.finish and self.clock <= it.finish, "the ticks")
        self.clock = it.finish
        # Below 0 lies no record, and none touches the one before.
        ends = [-1, *[number for span in it.spans for number in span]]
        apart = all(ends[at] + 1 < ends[at + 1] <= ends[at + 2] for at in range(0, len(ends) - 1, 2))
        holds(apart and 1 <= ends[1] and ends[-1] <= self.records, "the spans")
        numbers = numbers_of(it.spans)
        holds(len(numbers) <= plan["batch"], "the size of the batch")
        if not plan["partitions"]:
            holds(it.spans == self.batch(it.txid), "the records of the batch")
        # What is committed now was pending, or committed already, when this attempt began.
        holds(self.gone.isdisjoint(numbers), "records that were committed before it")
        if it.end == "committed":
            self.commit(it, numbers)
        elif it.end == "dropped":
            self.drop(it, numbers)
        else:
            self.abort(it, numbers)

    def commit(self, it, numbers):
        holds(it.txid == self.commits + 1, "the order of commits")
        holds(self.used_up is None, "a commit after the last attempt")
        self.commits += 1
        self.gone.update(numbers)
        self.stroke, self.drops = [], []
        partitions = self.plan["partitions"]
        if partitions:
            for number in numbers:
                partition = (number - 1) % partitions
                first_left = self.fronts[partition] * partitions + partition + 1
                holds(number == first_left, "what is committed is no front of its partition")
                self.fronts[partition] += 1

    def abort(self, it, numbers):
        if it.end == "timed out":
            holds(it.finish == it.start + self.plan["buckets"], "the time-out")
        if it.end == "commit failed":
            holds(it.txid == self.commits + 1, "the order of commits")
        last = self.stroke[-1] if self.stroke and not self.drops else None
        if not (last and last.end == it.end == "timed out" and last.finish == it.finish):
            holds(self.used_up is None, "a turn after the last attempt")
            holds(it.end != "timed out" or it.finish not in self.clocks_of_strokes, "time-outs at one tick that stand apart")
            self.stroke, self.drops = [], []
        if it.end == "timed out":
            self.clocks_of_strokes.add(it.finish)
        self.is_beside(it, numbers)
        self.stroke.append(it)
        self.aborts[it.txid] += 1
        holds(self.aborts[it.txid] <= self.plan["attempts"], "more attempts than may be")
        if self.aborts[it.txid] == self.plan["attempts"] and self.used_up is None:
            self.used_up = it.txid

    def drop(self, it, numbers):
        holds(self.plan["partitions"], "a drop without partitions")
        holds(self.stroke, "a drop that is not right behind the end that it names")
        by = min(self.stroke)
        holds(it.more == f"{by.txid}.{by.number}", "the attempt that the drop names")
        holds(it.finish == by.finish and it.txid > by.txid, "what is dropped")
        holds(not self.drops or it.txid > self.drops[-1].txid, "the order of drops")
        self.is_beside(it, numbers)
        self.drops.append(it)

    def is_beside(self, it, numbers):
        """That an attempt has no records of the others that were pending when it ended."""
        for other in self.stroke + self.drops:
            is_apart = it.txid != other.txid and set(numbers).isdisjoint(numbers_of(other.spans))
            holds(is_apart, "records of another that was pending")
        holds(len(self.stroke + self.drops) < self.plan["pending"], "more pending than may be")

    def end(self, tail):
        word, number = tail[1], int(tail[2])
        if word == "ok":
            holds(len(self.gone) == self.records == number and int(tail[3]) == self.commits, "the last line")
        elif word == "unfinished":
            holds(len(self.gone) < self.records and number == self.commits, "the last line")
        holds((word == "exhausted") == (self.used_up is not None), "the last line")
        holds(word != "exhausted" or number == self.used_up, "the last line")


def were_pending(attempts):
    """That nothing which was pending as another ended without a commit, by their ticks, ended later and was not dropped."""
    for at, it in enumerate(attempts):
        if it.end in ("committed", "dropped"):
            continue
        for later in attempts[at + 1 :]:
            is_stroke = later.finish == it.finish and later.end in ("timed out", "dropped")
            holds(is_stroke or later.txid < it.txid or later.start >= it.finish, f"{later.txid}.{later.number}: was not dropped")


def report_fault(report, status, plan, records):
    """What no run over so many records can have written in a report, or None."""
    attempts, _, tail = report
    walk = Walk(plan, records)
    try:
        for it in attempts:
            try:
                walk.take(it)
            except Wrong as fault:
                return f"{it.txid}.{it.number}: {fault}"
        walk.end(tail)
        holds(status == STATUSES[tail[1]], "the status")
        if plan["partitions"]:
            were_pending(attempts)
    except Wrong as fault:
        return str(fault)
    return None
