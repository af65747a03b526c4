"""Tests of tools/check: that it finds what is wrong with documents, in a small repository of their own."""

import importlib.machinery
import importlib.util
import os
import shutil
import tempfile
import unittest

TOOL = f"{os.path.dirname(os.path.abspath(__file__))}/check"

STORM = """#!/bin/sh
echo "status of $1" >&2
case "$1" in
  "") echo usage; exit 2 ;;
  bad) echo refused; exit 3 ;;
  read) cat ;;
  *) for it in "$@"; do echo "$it"; done ;;
esac
"""


class Documents(unittest.TestCase):
    def setUp(self):
        loader = importlib.machinery.SourceFileLoader("check", TOOL)
        self.check = importlib.util.module_from_spec(importlib.util.spec_from_loader("check", loader))
        loader.exec_module(self.check)
        self.check.tell = lambda text: None
        self.check.TOP = self.room = tempfile.mkdtemp()
        self.addCleanup(shutil.rmtree, self.room)
        os.makedirs(f"{self.room}/docs")
        self.write("storm", STORM)
        os.chmod(f"{self.room}/storm", 0o755)
        self.write("README.md", "# Top\n")
        self.write("docs/OTHER.md", "# Other\n\n## A part, `named`\n")

    def write(self, path, text):
        with open(f"{self.room}/{path}", "w", encoding="utf-8") as file:
            file.write(text)

    def faults(self, text):
        self.write("README.md", text)
        return self.check.documents()

    def assert_well(self, text):
        self.assertEqual(self.faults(text), [])

    def assert_wrong(self, text, *said):
        faults = self.faults(text)
        self.assertEqual(len(faults), 1, faults)
        for it in said:
            self.assertIn(it, faults[0])

    def test_ways_down(self):
        names = [f"a{it}" for it in range(17)]
        self.write("crates.txt", "# a line\n" + "".join(f"{it} may_wait=1: {' '.join(names[:at])} std\n" for at, it in enumerate(names)))
        faults = self.check.ways()
        self.assertEqual([it.split(":")[1].split(" has ")[0].strip() for it in faults], ["a16"])
        self.assertIn("65,536 ways down", faults[0])
        self.write("crates.txt", "".join(f"{it}: {names[max(at - 1, 0)] if at else ''}\n" for at, it in enumerate(names)))
        self.assertEqual(self.check.ways(), [])

    def test_output_in_the_same_block(self):
        self.assert_well("Text.\n\n```sh\n$ ./storm a b\na\nb\n$ ./storm c\nc\n```\n")
        self.assert_wrong("Text.\n\n```sh\n$ ./storm a b\na\n$ ./storm c\nc\n```\n", "README.md:4: ./storm a b", "and the document shows")

    def test_output_in_the_next_block(self):
        self.assert_well("Text.\n\n    ./storm a b c\n\nmakes these and prints\n\n    a\n    ...\n    c\n\n    ./storm d\n")
        self.assert_wrong("Text.\n\n    ./storm a b\n\nprints\n\n    a\n    c\n", "README.md:3: ./storm a b")
        self.assert_well("Text.\n\n    ./storm a b\n\nis a command. Another thing:\n\n    c\n")

    def test_output_in_the_text(self):
        self.assert_well("Text.\n\n    ./storm a\n\nprints `a`, or something else.\n")
        self.assert_wrong("Text.\n\n    ./storm a\n\nprints `b`, or something else.\n", "./storm a")

    def test_dots_stand_for_any_lines(self):
        for shown, is_well in [("...", True), ("a\n...", True), ("...\nb", True), ("a\n...\nb", True), ("b\n...", False), ("a", False), ("a\nb\nc", False)]:
            self.assertEqual(self.check.is_like(["a", "b"], shown.splitlines()), is_well, shown)

    def test_statuses(self):
        self.assert_wrong("Text.\n\n    ./storm bad\n", "ends with status 3", "refused", "status of bad")
        self.assert_well("Text.\n\n    ./storm bad\n\nprints\n\n    refused\n")
        self.assert_well("Text.\n\n    ./storm\n\nprints `usage`.\n")

    def test_pipes_and_files(self):
        self.assert_well("Text.\n\n    printf 'x\\n' | ./storm read\n\nprints\n\n    x\n\nand\n\n    ./storm a >out.txt\n")
        self.assertEqual(sorted(os.listdir(self.room)), ["README.md", "docs", "storm"])

    def test_what_is_not_run(self):
        self.assert_well("Text.\n\n    ./storm --prove\n\nand\n\n    rt check\n\n```text\n./storm bad\n```\n")
        self.assert_well("<!-- not run -->\n\n    ./storm bad\n")

    def test_links(self):
        self.assert_well("[a](docs/OTHER.md), [b](docs/OTHER.md#a-part-named), [c](https://example.org/), [d](#top)\n\n# Top\n")
        self.assert_wrong("[a](docs/NONE.md)\n", "README.md:1", "leads nowhere")
        self.assert_wrong("[a](docs/OTHER.md#no-part)\n", "names no heading")
        self.assert_wrong('<img src="docs/none.svg" alt="a"/>\n', "leads nowhere")

    def test_names_of_files(self):
        self.assert_well("`docs/OTHER.md`, `docs/NAME/x`, `crates/NAME/src/*.rt`, `out/x`, `a/b`\n")
        self.assert_wrong("`docs/NONE.md`\n", "there is no docs/NONE.md")
        self.assert_wrong("`crates/none/src/lib.rt`\n", "there is no crates/none/src/lib.rt")

    def test_widths(self):
        self.assert_well("| " + "x" * 200 + " |\n")
        self.assert_wrong("x" * 131 + "\n", "README.md:1: 131 columns")


if __name__ == "__main__":
    unittest.main()
