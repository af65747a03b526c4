"""Tests of bench/rules.py and bench/worlds.py over the reports of the examples, and over reports that no run can have written."""

import os
import sys
import unittest

TOP = os.path.dirname(os.path.dirname(os.path.abspath(__file__)))
sys.path.insert(0, f"{TOP}/bench")
sys.dont_write_bytecode = True
import rules  # noqa: E402
import worlds  # noqa: E402

# Their stores or ids are supplied, which bench/worlds.py does not know of.
SUPPLIED = {"drop_commit_failed", "drop_coincided", "end_coincided", "end_commit_failed", "opaque_commit_failed"}


def bytes_of(folder, name):
    with open(f"{TOP}/examples/{folder}/{name}", "rb") as it:
        return it.read()


def folders_with(name):
    return [it for it in sorted(os.listdir(f"{TOP}/examples")) if os.path.exists(f"{TOP}/examples/{it}/{name}")]


def fault_of(folder, text):
    """What no run of an example can have written in a report."""
    report = rules.report_of(text)
    _, plan = rules.topology_of(bytes_of(folder, "topology.json"))
    records = len(rules.lines_of(bytes_of(folder, "input.jsonl")))
    return rules.report_fault(report, rules.STATUSES[report[2][1]], plan, records)


# Changes of the report of an example, and what is then wrong with it.
CHANGES = [
    ("drop_failed", "dropped 1.1", "dropped 2.1", "2.1: the attempt that the drop names"),
    ("drop_failed", "attempt 2.1 records 5-5", "attempt 2.1 records 3-3", "2.1: records of another that was pending"),
    ("drop_failed", "1.2 records 1-2", "1.2 records 2-3", "1.2: what is committed is no front of its partition"),
    ("drop_failed", "2.2 records 3-4", "2.2 records 2-3", "2.2: records that were committed before it"),
    ("drop_failed", "attempt 1.2 records 1-2 ticks 0-0 committed\n", "", "2.2: the order of commits"),
    ("drop_failed", "5 records 3", "5 records 4", "the last line"),
    ("drop_timed_out", "attempt 3.1 records 5-5 ticks 0-3 dropped 1.1\n", "", "3.2: the number of the attempt"),
    ("drop_timed_out", "5-5 ticks 0-3 dropped 1.1", "5-5 ticks 0-3 dropped 2.1", "3.1: the attempt that the drop names"),
    ("drop_timed_out", "0-3 timed out", "1-3 timed out", "1.1: the time-out"),
    ("retries", "2.1 records 2-2", "2.1 records 3-3", "2.1: the records of the batch"),
    ("end_exhausted", "exhausted 1", "unfinished 0", "the last line"),
]


class Reports(unittest.TestCase):
    def test_reports_of_examples(self):
        for folder in folders_with("report.txt"):
            with self.subTest(folder):
                self.assertIsNone(fault_of(folder, bytes_of(folder, "report.txt").decode()))

    def test_changed_reports(self):
        for folder, old, new, wanted in CHANGES:
            text = bytes_of(folder, "report.txt").decode()
            self.assertIn(old, text)
            with self.subTest(f"{folder}: {wanted}"):
                self.assertEqual(fault_of(folder, text.replace(old, new, 1)), wanted)

    def test_replays_of_examples(self):
        for folder in folders_with("schedule.txt"):
            topology = bytes_of(folder, "topology.json")
            if folder in SUPPLIED or not worlds.is_single(worlds.made_of(topology)):
                continue
            with self.subTest(folder):
                found = worlds.attempts_of(topology, bytes_of(folder, "input.jsonl"), bytes_of(folder, "schedule.txt"))
                lines = bytes_of(folder, "report.txt").decode().splitlines()
                self.assertEqual(found, [it for it in lines if not it.startswith("cell ")])


if __name__ == "__main__":
    unittest.main()
