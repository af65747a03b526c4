"""Tests of tools/all-edits: what function an edit changes, which are tried together, and what is read of a check."""

import importlib.machinery
import importlib.util
import os
import shutil
import subprocess
import tempfile
import types
import unittest

TOOL = f"{os.path.dirname(os.path.abspath(__file__))}/all-edits"
LOADER = importlib.machinery.SourceFileLoader("all_edits", TOOL)
tool = importlib.util.module_from_spec(importlib.util.spec_from_loader("all_edits", LOADER))
LOADER.exec_module(tool)

LIB = """mod shelf;

pub struct Shelf<T> { items: Vec<T> }

/// Takes no { brace of a comment.
pub fn first(xs: &[u32]) -> u32
    requires some { length xs.now > 0 }
    ensures { result ≡ at xs.now 0 }
{
    let open = '{';
    xs[0]
}

#[cycle(both)]
fn even(n: u32) -> bool { n == 0 || odd(n - 1) }

pub trait Named { fn name(&self) -> u32; }

impl Named for &Shelf<u32> { fn name(&self) -> u32 { 1 } }

impl<F: Fn(u32) -> u32> Named for F { fn name(&self) -> u32 { 2 } }

pub const MOST: u32 = 3;
"""
SHELF = """impl<T: Copy> Shelf<T> {
    ghost view = { items }

    pub fn len(&self) -> usize { self.items.len() }
    pub fn most(&self) -> u32 { MOST }
}

impl<T> From<Vec<T>> for Shelf<T> {
    fn from(items: Vec<T>) -> Self { Shelf { items } }
}
"""
SPECS = """sum : List ℕ → ℕ
sum [] = 0
sum (x ∷ xs) = x + sum xs

module _ {A : Type} where
    pub record Held : Type where
        pub one : A
"""


def reads(edit, folder):
    """Reads an edit as rt does: the texts that it makes, or why it cannot be applied."""
    file, old, new = (it.partition(": ")[2] for it in tool.text_of(edit).splitlines())
    text = tool.text_of(f"{folder}/{file}")
    return ({file: text.replace(old, new)}, None) if text.count(old) == 1 else (None, "it is not there once")


class Edits(unittest.TestCase):
    def setUp(self):
        self.room = tempfile.mkdtemp()
        self.addCleanup(shutil.rmtree, self.room)
        for file, text in {"src/lib.rt": LIB, "src/shelf.rt": SHELF, "specs/Sums.antt": SPECS}.items():
            self.write(file, text)
        self.told, self.asked, self.answers = [], [], []

    def write(self, file, text):
        os.makedirs(os.path.dirname(f"{self.room}/{file}"), exist_ok=True)
        with open(f"{self.room}/{file}", "w", encoding="utf-8") as it:
            it.write(text)

    def checked(self, _crate, texts, flags, _kept):
        self.asked.append(([it for it in flags[2:] if it != "--only"], texts))
        status, said = self.answers.pop(0)
        return types.SimpleNamespace(returncode=status, stdout=said)

    def trial(self, *edits):
        """Returns the trial of edits, each given by its file and what it makes of what."""
        for number, (file, old, new) in enumerate(edits):
            self.write(f"edits/{number}.edit", f"file: {file}\nold: {old}\nnew: {new}")
        rt = types.SimpleNamespace(
            read_edit=reads,
            checked=self.checked,
            unread=lambda line, _: "is not in scope" in line,
            linked=shutil.copytree,
            must_fail=lambda *_: ("missed", "must-fail c/0.edit: NOT REFUSED: it is still proved"),
            REFUSED="refused",
            AT_LIMIT="limit",
            BAD="bad",
            MISSED="missed",
        )
        crate = types.SimpleNamespace(name="c", folder=self.room, is_built=lambda: True)
        tell = lambda _crate, edit, verdict, names, _seconds, _said: self.told.append((edit.label, verdict, names))
        made = [tool.Edit(f"{it}.edit", f"{self.room}/edits/{it}.edit") for it in range(len(edits))]
        return tool.Trial(rt, crate, made, tell)

    def test_names_of_functions(self):
        functions, _ = tool.crate_functions(self.room)
        names = {it.name for found in functions.values() for it in found if it.body < it.end}
        self.assertEqual(
            names,
            {"first", "even", "RefShelfNamed::name", "AnyNamed::name", "Shelf::len", "Shelf::most", "shelf::ShelfFromVec::from"},
        )

    def test_definitions(self):
        at = SPECS.index("x + sum")
        self.assertEqual(tool.defined_at(SPECS, at, at + 1, ".antt"), {"sum"})
        at = SPECS.index("one :")
        self.assertEqual(tool.defined_at(SPECS, at, at + 1, ".antt"), {"one", "Held"})
        at = LIB.index("3;")
        self.assertEqual(tool.defined_at(LIB, at, at + 1, ".rt"), {"MOST"})

    def test_edits_of_several_bodies_are_tried_in_one_copy(self):
        trial = self.trial(("src/lib.rt", "xs[0]", "xs[1]"), ("src/shelf.rt", "self.items.len()", "0"))
        self.answers = [
            (
                1,
                "note: src/lib.rt:6:1: it is not proved that what the function ensures holds\n"
                "fn c::first: no proof: `search` did not prove `returns`\n"
                "./proofs/Shelf/len/Answers.antt:3:1: error: `returns`: it may be false\n"
                "fn c::Shelf::len: not proved\n"
                "only=2 proved=0\n",
            )
        ]
        trial.try_all()
        self.assertEqual(self.told, [("0.edit", tool.REFUSED, "first"), ("1.edit", tool.REFUSED, "Shelf::len")])
        names, texts = self.asked[0]
        self.assertEqual(names, ["first", "Shelf::len"])
        self.assertEqual(texts, {"src/lib.rt": LIB.replace("xs[0]", "xs[1]"), "src/shelf.rt": SHELF.replace("self.items.len()", "0")})

    def test_a_goal_of_another_function_counts_for_none(self):
        trial = self.trial(("src/lib.rt", "xs[0]", "xs[1]"), ("src/shelf.rt", "self.items.len()", "0"))
        failed = "fn c::Shelf::len: no proof: `search` did not prove `returns`\n"
        resting = "fn c::first: no proof: it calls `c::Shelf::len`, which is not proved\n"
        self.answers = [(1, f"{failed}{resting}only=2 proved=0"), (1, f"{resting}only=1 proved=1"), (0, "only=1 proved=1")]
        trial.try_all()
        self.assertEqual(self.told, [("1.edit", tool.REFUSED, "Shelf::len"), ("0.edit", tool.MISSED, "(whole crate)")])

    def test_what_is_not_read_is_bad(self):
        trial = self.trial(("src/lib.rt", "xs[0]", "ys[0]"), ("src/lib.rt", "fn absent", "fn other"))
        self.answers = [(1, "error[E0425]: src/lib.rt:11:5: no `ys`"), (1, "error[E0425]: src/lib.rt:11:5: no `ys`")]
        trial.try_all()
        self.assertEqual([it[:2] for it in self.told], [("1.edit", tool.BAD), ("0.edit", tool.BAD)])

    def test_an_edit_of_what_is_no_function_asks_for_what_cites_it(self):
        trial = self.trial(("src/lib.rt", "MOST: u32 = 3", "MOST: u32 = 4"))
        self.answers = [(1, "fn c::Shelf::most: no proof: `search` did not prove `returns`\nonly=1 proved=0")]
        trial.try_all()
        self.assertEqual(self.told, [("0.edit", tool.REFUSED, "Shelf::most")])

    def test_functions_of_a_cycle_are_tried_alone(self):
        trial = self.trial(("src/lib.rt", "n == 0", "n == 1"), ("src/lib.rt", "xs[0]", "xs[1]"))
        self.assertEqual([it.within is None for it in trial.edits], [True, False])
        self.assertEqual([it.name for it in trial.edits[0].functions], ["even"])

    def test_a_crate_that_is_not_proved_is_not_tried(self):
        trial = self.trial(("src/lib.rt", "xs[0]", "xs[1]"))
        trial.crate.is_built = lambda: False
        self.answers = [(1, "fn c::first: not proved\nonly=1 proved=0")]
        trial.try_all()
        self.assertEqual([it[:2] for it in self.told], [("0.edit", tool.UNSURE)])

    def test_words(self):
        for words in (["--jobs", "0"], ["--strange"], ["--log"], ["--whole", "--log", "f"], ["--gate", "--must-fail"], ["no_such_crate"]):
            ran = subprocess.run([TOOL, *words], capture_output=True, text=True)
            self.assertEqual(ran.returncode, 2, words)
        self.assertEqual([tool.Words(it).folders for it in (["--must-fail"], [])], [("must-fail",), tool.FOLDERS])
        self.assertEqual(subprocess.run([TOOL, "--help"], capture_output=True, text=True).stdout.strip(), tool.__doc__.strip())


if __name__ == "__main__":
    unittest.main()
