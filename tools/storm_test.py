"""Tests of ./storm: of what it builds when, with a stand-in for the toolchain in a small copy of the repository."""

import os
import re
import shutil
import subprocess
import tempfile
import time
import unittest

TOP = os.path.dirname(os.path.dirname(os.path.abspath(__file__)))

# Answers as rt does, and notes each call. The program that it makes prints its arguments, one a line, and how it was made.
RT = r"""#!/usr/bin/env bash
echo "rt $1" >>"$RT_CALLS"
made() {
  printf '#!/bin/sh\nprintf "%%s\\n" "$0: %s" "$@"\nexit 7\n' "$1" >"$2"
  chmod +x "$2"
}
case "$1" in
try)
  if [ -e "$RT_CALLS.refused" ]; then echo "error: refused"; exit 1; fi
  mkdir "$TMPDIR/made"
  made unproved "$TMPDIR/made/program"
  cat "${@: -1}"
  rm -r "$TMPDIR/made"
  ;;
all)
  find . -name '*.rt' | sort >"$RT_CALLS.proving"
  printf '== low\nfn low: proved\n== storm\n== summary\nlow: ok\n'
  ;;
run)
  if [ -e "$RT_CALLS.refused" ]; then echo "error: not proved"; exit 1; fi
  mkdir -p out
  made proved out/storm
  ;;
esac
"""


class Storm(unittest.TestCase):
    def setUp(self):
        self.room = tempfile.mkdtemp()
        self.addCleanup(shutil.rmtree, self.room)
        self.top = f"{self.room}/repository"
        os.makedirs(f"{self.room}/bin")
        for name in ("low", "storm", "other"):
            os.makedirs(f"{self.top}/crates/{name}/src")
            self.write(f"crates/{name}/src/main.rt", name)
        self.write("crates.txt", "# NAME: below\nlow:\nstorm may_wait=1: low\nother: low\n")
        self.write("HANDLES", "Handles allowed: none.\n")
        shutil.copy(f"{TOP}/storm", self.top)
        shutil.copytree(f"{TOP}/tools", f"{self.top}/tools")
        with open(f"{self.room}/bin/rt", "w", encoding="utf-8") as file:
            file.write(RT)
        os.chmod(f"{self.room}/bin/rt", 0o755)

    def write(self, path, text):
        with open(f"{self.top}/{path}", "w", encoding="utf-8") as file:
            file.write(text)

    def call(self, *words):
        how = {"PATH": f"{self.room}/bin:/usr/bin:/bin", "RT_CALLS": f"{self.room}/calls", "TMPDIR": self.room}
        ran = subprocess.run([f"{self.top}/storm", *words], capture_output=True, text=True, env=how, cwd=self.room)
        calls = []
        if os.path.exists(f"{self.room}/calls"):
            with open(f"{self.room}/calls", encoding="utf-8") as file:
                calls = file.read().splitlines()
            os.remove(f"{self.room}/calls")
        return ran, [it.removeprefix("rt ") for it in calls]

    def assert_runs(self, kind, calls, *words):
        """A call runs the program of this kind after these calls of rt."""
        words = words or ("check", "T")
        ran, called = self.call(*words)
        shown = ran.stdout.splitlines() or [""]
        self.assertEqual((shown[0].split(": ")[-1], shown[1:], called), (kind, [*words], calls), ran.stderr)
        self.assertEqual(ran.returncode, 7)
        self.assertEqual("not proved" in ran.stderr or "without proving" in ran.stderr, kind == "unproved")
        self.assertEqual(len(ran.stderr.splitlines()), int(kind == "unproved"))

    def test_explains_itself(self):
        with open(f"{TOP}/crates/storm_words/src/words.rt", encoding="utf-8") as file:
            usage = file.read().split('USAGE: &str =')[1].split('"')[1].removesuffix("\\n")
        # A backslash at the end of a line goes, with the line end and the blanks behind it.
        usage = re.sub(r"\\\n *", "", usage)
        for words in [(), ("-h",), ("--help",), ("help",)]:
            ran, calls = self.call(*words)
            self.assertEqual((ran.returncode, ran.stdout, calls), (2, usage + "\n", []))
            for it in [" T ", " I ", " S ", " W ", " N ", "SEED", "status"]:
                self.assertIn(it, ran.stderr)
        self.assertFalse(os.path.exists(f"{self.top}/out"))

    def test_builds_once(self):
        self.assert_runs("unproved", ["try"])
        self.assert_runs("unproved", [])
        self.assertEqual(sorted(os.listdir(f"{self.top}/out")), ["unproved", "unproved.sum"])
        self.assertFalse(os.path.exists(f"{self.top}/crates/storm/out"))
        self.assertEqual(sorted(os.listdir(self.room)), ["bin", "repository"])

    def test_builds_again_what_changed(self):
        self.assert_runs("unproved", ["try"])
        self.write("crates/low/src/main.rt", "changed")
        self.assert_runs("unproved", ["try"])
        self.write("crates.txt", "low: json\nstorm may_wait=1: low\nother: low\n")
        self.assert_runs("unproved", ["try"])
        self.write("crates/other/src/main.rt", "changed")
        self.write("crates.txt", "low: json\nstorm may_wait=1: low\nother:\n")
        self.assert_runs("unproved", [])
        os.makedirs(f"{self.top}/crates/low/specs")
        self.write("crates/low/specs/Lib.antt", "")
        self.assert_runs("unproved", ["try"])

    def test_arguments_are_untouched(self):
        self.assert_runs("unproved", ["try"], "run", "a b", "$HOME", "", '"*', "--prove")
        self.assert_runs("unproved", [], "help", "-h", "\\n\t;")

    def test_proves(self):
        self.assert_runs("unproved", ["try"])
        ran, calls = self.call("--prove")
        self.assertEqual((ran.returncode, ran.stdout, calls), (0, "", ["all", "run"]))
        for it in ["crate 1 of 2, low", "crate 2 of 2, storm"]:
            self.assertIn(it, ran.stderr)
        self.assert_runs("proved", [])
        shutil.rmtree(f"{self.top}/crates/storm/out")
        self.assert_runs("proved", [])
        self.write("crates/low/src/main.rt", "changed")
        self.assert_runs("unproved", ["try"])

    def test_proves_a_copy_outside(self):
        self.call("--prove")
        with open(f"{self.room}/calls.proving", encoding="utf-8") as file:
            self.assertEqual(file.read().split(), ["./crates/low/src/main.rt", "./crates/storm/src/main.rt"])
        self.assertEqual(sorted(os.listdir(f"{self.top}/out")), ["proved", "proved.sum"])
        self.assertEqual(sorted(os.listdir(self.room)), ["bin", "calls.proving", "repository"])

    def test_takes_the_gates_program(self):
        self.assert_runs("unproved", ["try"])
        time.sleep(0.02)
        os.makedirs(f"{self.top}/crates/storm/out")
        made = f"{self.top}/crates/storm/out/storm"
        with open(made, "w", encoding="utf-8") as file:
            file.write('#!/bin/sh\nprintf "%s\\n" "$0: proved" "$@"\nexit 7\n')
        os.chmod(made, 0o755)
        self.assert_runs("proved", [])
        time.sleep(0.02)
        self.write("crates/low/src/main.rt", "changed")
        self.assert_runs("unproved", ["try"])
        self.write("crates/low/src/main.rt", "low")
        self.assert_runs("proved", [])
        shutil.rmtree(f"{self.top}/out")
        self.assert_runs("unproved", ["try"])

    def test_failures(self):
        self.write("../calls.refused", "")
        for words, said in [(("check", "T"), "refused"), (("--prove",), "not proved")]:
            ran, _ = self.call(*words)
            self.assertEqual((ran.returncode, ran.stdout), (70, ""))
            self.assertIn(said, ran.stderr)
            for kind in ["proved", "unproved"]:
                self.assertFalse(os.path.exists(f"{self.top}/out/{kind}"))
        os.remove(f"{self.room}/bin/rt")
        ran, _ = self.call("check", "T")
        self.assertEqual((ran.returncode, "not in PATH" in ran.stderr), (70, True))


if __name__ == "__main__":
    unittest.main()
