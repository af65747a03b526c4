"""Tests of tools/picture."""

import glob
import importlib.machinery
import importlib.util
import json
import os
import random
import subprocess
import sys
import unittest
import xml.etree.ElementTree as xml

TOP = os.path.dirname(os.path.dirname(os.path.abspath(__file__)))
TOOL = f"{TOP}/tools/picture"
LOADER = importlib.machinery.SourceFileLoader("picture", TOOL)
picture = importlib.util.module_from_spec(importlib.util.spec_from_loader("picture", LOADER))
LOADER.exec_module(picture)
SVG = "{http://www.w3.org/2000/svg}"


def text_of(path):
    with open(path, encoding="utf-8") as file:
        return file.read()


def topologies():
    """Returns the topologies of the examples by their paths."""
    return {it: text_of(it) for it in sorted(glob.glob(f"{TOP}/examples/*/topology.json"))}


def reports():
    return {it: text_of(it) for it in sorted(glob.glob(f"{TOP}/examples/*/report.txt"))}


def some_topology(seed, count):
    """Returns a topology with many bolts, whose edges go every way that is allowed."""
    some = random.Random(seed)
    names = ["source"] + [f"bolt_number_{it}" for it in range(count)]
    long = {"do": "filter", "field": "sentence", "test": "ne", "value": "a text that is longer than most"}
    ops = [{"do": "split", "field": "sentence", "as": "word"}, long, {"do": "custom"}]
    groupings = [{"grouping": it} for it in ("shuffle", "all", "local_or_shuffle")] + [{"grouping": "fields", "key": ["word", "other_field", "third"]}]
    bolts = []
    for at in range(count):
        sources = some.sample(names[: at + 1], min(at + 1, some.choice([1, 1, 2, 4])))
        inputs = [{"from": it, **some.choice(groupings)} for it in sources]
        bolts.append({"name": names[at + 1], "tasks": some.choice([1, 2]), "op": some.choice(ops), "inputs": inputs})
    state = {"name": "s", "kind": "opaque", "parts": 2, "key": ["word"], "fold": "count", "inputs": some.sample(names, min(count, 9))}
    spout = {"name": "source", "kind": "opaque", "fields": ["sentence"], "batch": 10}
    return json.dumps({"version": 1, "spout": spout, "bolts": bolts, "states": [state]})


def texts_of(svg):
    """Returns each text of a picture with the box in which it lies: left, top, right, bottom."""
    found = []
    for it in xml.fromstring(svg).iter(f"{SVG}text"):
        size, x, y = float(it.get("font-size")), float(it.get("x")), float(it.get("y"))
        wide = picture.width_of(it.text, size) * (1.1 if it.get("font-weight") else 1) * 0.92
        left = {"start": x, "middle": x - wide / 2, "end": x - wide}[it.get("text-anchor")]
        found.append((it.text, left, y - 0.76 * size, left + wide, y + 0.2 * size))
    return found


class Pictures(unittest.TestCase):
    def assert_readable(self, svg):
        """No text lies on another, and each lies on the page."""
        root, texts = xml.fromstring(svg), texts_of(svg)
        wide, high = float(root.get("width")), float(root.get("height"))
        for at, (text, left, top, right, bottom) in enumerate(texts):
            self.assertTrue(0 <= left and right <= wide and 0 <= top and bottom <= high, f"{text!r} leaves the page")
            for other, other_left, other_top, other_right, other_bottom in texts[:at]:
                apart = right <= other_left or other_right <= left or bottom <= other_top or other_bottom <= top
                self.assertTrue(apart, f"{text!r} lies on {other!r}")


class Topologies(Pictures):
    def test_examples(self):
        self.assertGreater(len(topologies()), 20)
        for path, text in topologies().items():
            with self.subTest(path):
                svg, topology = picture.topology_picture(text), json.loads(text)
                self.assert_readable(svg)
                self.assertEqual(svg, picture.topology_picture(text))
                shown = [it for it, *_ in texts_of(svg)]
                named = [topology["spout"], *topology["bolts"], *topology["states"]]
                self.assertTrue({it["name"] for it in named} <= {*shown})

    def test_many_bolts(self):
        for seed in range(12):
            with self.subTest(seed):
                self.assert_readable(picture.topology_picture(some_topology(seed, 4 + 2 * seed)))

    def test_says_what_the_file_says(self):
        shown = [it for it, *_ in texts_of(picture.topology_picture(text_of(f"{TOP}/examples/pairs/topology.json")))]
        for it in ["filter v < 10", "route by v", "len of k as n", "direct", "fields k, v", "sum of v by k", "3 tasks", "2 parts"]:
            self.assertIn(it, shown)

    def test_an_edge_an_input(self):
        for path, text in topologies().items():
            with self.subTest(path):
                svg, topology = picture.topology_picture(text), json.loads(text)
                inputs = sum(len(it["inputs"]) for it in topology["bolts"] + topology["states"])
                tips = [it for it in xml.fromstring(svg).iter(f"{SVG}path") if it.get("fill") == picture.FAINT]
                self.assertEqual(len(tips), inputs)
                self.assertEqual(picture.dot_of(text).count(" -> "), inputs)

    def test_dot(self):
        dot = picture.dot_of(text_of(f"{TOP}/examples/word_count/topology.json"))
        self.assertIn('"split" [shape=box, label="split\\nsplit sentence as word\\n2 tasks"];', dot)
        self.assertIn('"lines" -> "split" [label="shuffle"];', dot)
        self.assertIn('"split" -> "counts" [label="fields word"];', dot)

    def test_refuses(self):
        word_count = json.loads(text_of(f"{TOP}/examples/word_count/topology.json"))
        word_count["bolts"][0]["inputs"][0]["from"] = "split"
        named = json.loads(text_of(f"{TOP}/examples/word_count/topology.json"))
        named["states"][0]["name"] = 10
        done = json.loads(text_of(f"{TOP}/examples/word_count/topology.json"))
        done["bolts"][0]["op"]["do"] = 3
        half = json.loads(text_of(f"{TOP}/examples/word_count/topology.json"))
        half["spout"]["fields"].append("\ud800")
        for text in ["", "[]", "{}", "null", *map(json.dumps, [word_count, named, done, half])]:
            with self.subTest(text), self.assertRaises(picture.Unreadable):
                picture.topology_picture(text)


class Reports(Pictures):
    def test_examples(self):
        self.assertGreater(len(reports()), 5)
        for path, text in reports().items():
            with self.subTest(path):
                svg = picture.report_picture(text)
                self.assert_readable(svg)
                attempts, _ = picture.read_report(text)
                lanes = [it for it, *_ in texts_of(svg) if it.startswith("batch ")]
                self.assertEqual(len(lanes), len({it.batch for it in attempts}))
                titles = [it.text for it in xml.fromstring(svg).iter(f"{SVG}title") if it.text.startswith("attempt ")]
                self.assertEqual(len(titles), len(attempts))

    def test_ends_stand_in_their_order(self):
        attempts, _ = picture.read_report(text_of(f"{TOP}/examples/retries/report.txt"))
        places, begin, much, _ = picture.axis_of(attempts)
        self.assertEqual(places, sorted(set(places)))
        self.assertLess(places[-1], much)
        for it, place in zip(attempts, places):
            self.assertLessEqual(begin(it.start), begin(it.finish))
            self.assertLess(begin(it.finish), place)

    def test_summary(self):
        svg = picture.report_picture(text_of(f"{TOP}/examples/retries/report.txt"))
        said = "11 attempts: 6 committed, 4 failed, 1 timed out · 6 batches · 3 ticks · ok 6 records 6 batches"
        self.assertIn(said, [it for it, *_ in texts_of(svg)])

    def test_every_end(self):
        rows = [
            "attempt 1.1 records 1-2 ticks 0-0 committed",
            "attempt 2.1 records 3-4 ticks 0-1 failed 0.2.1",
            "attempt 3.1 records 5-5 ticks 0-3 timed out",
            "attempt 2.2 records 3-4 ticks 1-3 coincided 0.0:0000000000000009 0.1:0000000000000009",
            "attempt 2.3 records 3-4 ticks 3-4294967295 commit failed counts 12",
            "attempt 4.1 records 6-7 ticks 3-4294967295 dropped 2.3",
            "exhausted 2",
        ]
        attempts, last = picture.read_report("\n".join(rows) + "\n")
        ends = ["committed", "failed", "timed out", "coincided", "commit failed", "dropped"]
        self.assertEqual([it.end for it in attempts], ends)
        self.assertEqual([*picture.ENDS], ends)
        self.assertEqual(attempts[3].detail, "0.0:0000000000000009 0.1:0000000000000009")
        self.assertEqual(last, "exhausted 2")
        self.assert_readable(picture.report_picture("\n".join(rows)))

    def test_dropped(self):
        rows = [
            "attempt 1.1 records 1-1 ticks 0-0 failed 0",
            "attempt 2.1 records 2-2 ticks 0-0 dropped 1.1",
            "attempt 3.1 records 3-3 ticks 0-0 dropped 1.1",
            "attempt 1.2 records 1-1 ticks 0-0 committed",
            "attempt 2.2 records 2-2 ticks 0-0 committed",
            "attempt 3.2 records 3-3 ticks 0-0 committed",
            "ok 3 records 3 batches",
        ]
        svg = picture.report_picture("\n".join(rows) + "\n")
        self.assert_readable(svg)
        said = [it for it, *_ in texts_of(svg)]
        summary = "6 attempts: 3 committed, 1 failed, 2 dropped · 3 batches · 0 ticks · ok 3 records 3 batches"
        self.assertIn(summary, said)
        # In the legend once, and as a mark of the two attempts and of the legend.
        self.assertEqual(said.count("dropped"), 1)
        crosses = [it for it in xml.fromstring(svg).iter(f"{SVG}polygon") if len(it.get("points").split()) == 12]
        self.assertEqual([it.get("fill") for it in crosses], [picture.INK] * 3)
        self.assertIn("attempt 2.1, record 2, ticks 0–0: dropped 1.1", svg)

    def test_records_of_several_spans(self):
        rows = [
            "attempt 1.1 records 1-1,3-3 ticks 0-0 committed",
            "attempt 2.1 records 2-2 ticks 0-1 failed 0",
            "attempt 3.1 records 5-9,11-11,13-14,16-16 ticks 0-1 committed",
            "exhausted 2",
        ]
        attempts, _ = picture.read_report("\n".join(rows) + "\n")
        self.assertEqual(attempts[0].spans, [(1, 1), (3, 3)])
        svg = picture.report_picture("\n".join(rows))
        self.assert_readable(svg)
        said = [it for it, *_ in texts_of(svg)]
        self.assertLessEqual({"batch 1 · records 1, 3", "batch 2 · record 2", "batch 3 · records 5–9, 11, 13–14, .."}, set(said))
        for records in ["", "1", "1-1,", ",1-1", "1-1, 3-3", "1-2-3"]:
            row = f"attempt 1.1 records {records} ticks 0-0 committed"
            with self.subTest(row), self.assertRaises(picture.Unreadable):
                picture.read_report(row + "\nexhausted 1\n")

    def test_colours_and_shapes_differ(self):
        self.assertEqual(len({colour for colour, _ in picture.ENDS.values()}), len(picture.ENDS))
        self.assertEqual(len({str(shape) for _, shape in picture.ENDS.values()}), len(picture.ENDS))

    def test_without_attempts(self):
        for text in ["ok 0 records 0 batches\n", "unfinished 0\n", 'cell counts ["a"] -3\nok 1 records 1 batches\n']:
            with self.subTest(text):
                self.assert_readable(picture.report_picture(text))

    def test_large_reports(self):
        row = "attempt {0}.1 records {0}-{0} ticks {0}-{0} committed\n"
        svg = picture.report_picture("".join(row.format(it) for it in range(1, 1001)) + "ok 1000 records 1000 batches\n")
        self.assert_readable(svg)
        self.assertIn("940 more attempts are not drawn", svg)
        often = "".join(f"attempt 1.{it} records 1-9 ticks 0-{it // 3} failed 0\n" for it in range(1, 101))
        self.assert_readable(picture.report_picture(often + "exhausted 1\n"))

    def test_refuses(self):
        for text in ["", "attempt 1.1 records 1-2 ticks 0-0 lost\nok 2 records 1 batches\n", "topology: no JSON\n", "ok 1 records 1 batches\nok 1 records 1 batches\n"]:
            with self.subTest(text), self.assertRaises(picture.Unreadable):
                picture.report_picture(text)


class Trackings(Pictures):
    def test_examples(self):
        for path in sorted(glob.glob(f"{TOP}/examples/*/tracked.txt")):
            text = text_of(path)
            svg = picture.track_picture(text)
            self.assert_readable(svg)
            for line in text.splitlines():
                if line.startswith("record "):
                    _, number, _, tries, *end = line.split()
                    self.assertIn(f"record {number}, attempt {tries}: {' '.join(end)}", svg)
                    self.assertEqual(svg.count(f"<title>record {number}, attempt "), int(tries))

    def test_without_records_and_with_many(self):
        self.assert_readable(picture.track_picture("tracked 0 records 0 acked\n"))
        lines = [f"record {it} attempts {it % 100 + 1} gave up\n" for it in range(1, 501)]
        svg = picture.track_picture("".join(lines) + "tracked 500 records 0 acked\n")
        self.assert_readable(svg)
        self.assertIn(f"{500 - picture.MOST_LANES} more records are not drawn.", svg)

    def test_refuses(self):
        for text in ("", "record 1 attempts 1 acked\n", "tracked 0 records 0 acked\ntracked 0 records 0 acked\n", "attempt 1.1\n"):
            with self.assertRaises(picture.Unreadable):
                picture.track_picture(text)


class Calls(unittest.TestCase):
    def call(self, *words, given=""):
        return subprocess.run([sys.executable, "-B", TOOL, *words], input=given, capture_output=True, text=True)

    def test_reads_a_pipe(self):
        ran = self.call("report", given="ok 0 records 0 batches\n")
        self.assertEqual((ran.returncode, ran.stderr), (0, ""))
        self.assertTrue(ran.stdout.startswith("<svg "))

    def test_statuses(self):
        self.assertEqual(self.call().returncode, 2)
        self.assertEqual(self.call("draw").returncode, 2)
        ran = self.call("report", given="bad cell\n")
        self.assertEqual((ran.returncode, ran.stdout), (1, ""))
        self.assertTrue(ran.stderr.startswith("picture: line 1 is none of a report's"))
        self.assertEqual(self.call("dot", f"{TOP}/no such file").returncode, 1)


if __name__ == "__main__":
    unittest.main()
