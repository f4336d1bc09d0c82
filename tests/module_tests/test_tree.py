"""Tests of tests/tree.py and tests/sources.py."""
import os
import unittest

import tree
from sources import NOTHING, TRAIT, TRAIT_OF_TYPE, TYPE, Sources, function_at, functions, headed, records

CRATES = "# GROUND: texts\nlow:\nmiddle: low  # a remark\n\ntop : middle arrayvec\n#   gone: low\n"
SOURCE = """//! A source.
pub struct Line { size: usize }

impl Line {
    // [line-size]
    // What it has.
    #[inline]
    pub fn size(&self) -> usize
        ensures answer { result \u2261 self.size }
    {
        self.size
    }

    fn add(&mut self)
        requires room { self.size < 9 }
        ensures { self.size \u2261 before.size + 1 }
        ensures rest { before.rest \u2261 self.rest }
    {
        self.size += 1;
    }
}

pub trait Named {
    fn name(&self) -> &str;
}

impl Named for Line {
    fn name(&self) -> &str {
        "line"
    }
}

pub fn free() {}
"""
DEFINITION = """-- A kind.
pub record Kind : Type where
  pub first : \u2115
  second : \u2115

abbrev pub of_kind : \u2115
"""


class Tree(unittest.TestCase):
    def test_crates(self):
        given = tree.crates_of(CRATES)
        self.assertEqual(given, {"low": [], "middle": ["low"], "top": ["middle", "arrayvec"]})
        self.assertEqual(list(given), ["low", "middle", "top"])
        for crate, wanted in (("top", {"middle", "arrayvec", "low"}), ("middle", {"low"}), ("low", set())):
            self.assertEqual(tree.below(crate, given), wanted)

    def test_libraries(self):
        for crate, wanted in (("cm_text", True), ("cm_text_tests", False), ("exec20", False)):
            self.assertEqual(tree.is_library(crate), wanted, crate)

    def test_programs(self):
        self.assertEqual(tree.program_of("app", "/made"), "/made/app/out/app")
        self.assertEqual(tree.program_of("app"), os.path.join(tree.ROOT, "crates/app/out/app"))
        tree.need("tests/some", "/bin/sh")
        with self.assertRaisesRegex(SystemExit, "^tests/some: there is no /none;"):
            tree.need("tests/some", "/bin/sh", "/none")


class OfSources(unittest.TestCase):
    def test_functions(self):
        line, both = frozenset({"Line"}), frozenset({"Line", "Named"})
        self.assertEqual([tuple(each) for each in functions(SOURCE)], [
            (line, "size", ("answer",), 7, True, TYPE),
            (line, "add", (None, "rest"), 14, False, TYPE),
            (frozenset({"Named"}), "name", (), 24, False, TRAIT),
            (both, "name", (), 28, False, TRAIT_OF_TYPE),
            (frozenset(), "free", (), 33, True, NOTHING),
        ])

    def test_function_at(self):
        for line, name in ((3, None), (7, "size"), (11, "size"), (20, "add"), (33, "free")):
            found = function_at(SOURCE, line)
            self.assertEqual(found and found.name, name, line)

    def test_ids(self):
        self.assertEqual(list(headed(SOURCE)), [("line-size", "#[inline]", 7)])
        two = headed("-- [a] [b-c]\n-- more\npub x : A\n")
        self.assertEqual(list(two), [("a", "pub x : A", 3), ("b-c", "pub x : A", 3)])

    def test_what_a_crate_declares(self):
        self.assertEqual(list(records(DEFINITION)), [("Kind", frozenset({"first"}))])
        held = Sources()
        held.add("line", SOURCE)
        held.add("Kind", DEFINITION)
        held.functions.update(functions(SOURCE))
        held.records.update(records(DEFINITION))
        for name, wanted in (
            ("Line", True), ("of_kind", True), ("Line::add", True), ("Other::add", False), ("Word", False),
        ):
            self.assertEqual(held.is_declared(name), wanted, name)
        for name, clause, wanted in (
            ("size", "answer", True), ("Line::add", "rest", True), ("Line", "rest", True), ("Kind", "first", True),
            ("Kind", "second", False), ("size", "rest", False),
        ):
            self.assertEqual(held.has_clause(name, clause), wanted, (name, clause))
