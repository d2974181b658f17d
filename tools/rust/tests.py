"""Tests of the translation's rules, each over a few lines of a source."""
from __future__ import annotations

import unittest

from tools.rust.forms import laid_out, with_forms
from tools.rust.guards import Guards
from tools.rust.places import with_exports
from tools.rust.proofs import strip
from tools.rust.sizes import conversions, listed
from tools.rust.tokens import Unknown, tokens_of
from tools.rust.uses import rewritten, without_names
from tools.rust.workspace import has_items, without_module


def rust(source: str, crate: str = "any", has_unsafe: bool = False) -> str:
    """A source without proofs, in Rust's forms."""
    return laid_out(with_forms(strip(tokens_of(source), Guards(crate, has_unsafe).guard).tokens))


class Proofs(unittest.TestCase):
    def test_contracts_go_and_the_brace_moves_up(self) -> None:
        source = "fn f(a: u8) -> u8\n    ensures small { result < 2 }\n    // Why.\n    ensures { result ≡ { a } }\n{\n    a\n}\n"
        self.assertEqual(rust(source), "fn f(a: u8) -> u8 {\n    a\n}\n")

    def test_what_follows_a_contract_stays(self) -> None:
        source = "fn f(a: u8) -> u8\n    requires { a < 2 }\n{\n    if a == 0 {\n        return 1;\n    }\n    a\n}\n"
        self.assertEqual(rust(source), "fn f(a: u8) -> u8 {\n    if a == 0 {\n        return 1;\n    }\n    a\n}\n")

    def test_bounds_by_drop_go(self) -> None:
        source = "fn f<T: Drop, R: Read + Drop>(t: T)\nwhere\n    T: Drop,\n    requires { t }\n{\n    drop(t)\n}\n"
        self.assertEqual(rust(source), "fn f<T, R: Read>(t: T) {\n    drop(t)\n}\n")

    def test_other_bounds_stay(self) -> None:
        source = "fn f<T>(t: T)\nwhere\n    T: Copy,\n    ensures { t }\n{\n    drop(t)\n}\n"
        self.assertEqual(rust(source), "fn f<T>(t: T)\nwhere\n    T: Copy,\n{\n    drop(t)\n}\n")

    def test_ghost_members_go_with_their_docs(self) -> None:
        source = (
            "ghost use A.{b};\n\n/// A.\n#[derive(Drop)]\npub struct A {\n    a: u8,\n    /// Seen.\n"
            "    pub ghost b: { C } by { d e },\n}\n\n"
            "impl Model for A {\n    ghost view = { λ a. { a } };\n}\n"
        )
        self.assertEqual(rust(source), "/// A.\npub struct A {\n    a: u8,\n}\n")

    def test_tactics_go(self) -> None:
        source = "//! A.\n#![tactic(auto)]\n\nmod a;\n\n/// B.\n#[tactic(auto, using(a::b))]\nfn b() {\n    c()\n}\n"
        self.assertEqual(rust(source), "//! A.\n\nmod a;\n\n/// B.\nfn b() {\n    c()\n}\n")

    def test_laws_go_with_their_calls(self) -> None:
        source = (
            "/// A law.\npub fn law()\n    ensures { A }\n{}\n\nimpl A {\n    /// Another.\n"
            "    pub fn lemma_a(&self) {\n        let _ = &self.b;\n    }\n\n"
            "    fn c(&self) -> u8 {\n        self.b.lemma_a();\n        a::lemma_b(&self.b);\n        1\n    }\n}\n"
        )
        self.assertEqual(rust(source), "impl A {\n    fn c(&self) -> u8 {\n        1\n    }\n}\n")

    def test_what_does_something_is_no_law(self) -> None:
        source = "pub fn lemma_a(a: &mut A) {\n    a.b();\n}\n"
        self.assertEqual(rust(source), source)


class Forms(unittest.TestCase):
    def test_comments_and_texts_stay(self) -> None:
        source = "// T: Drop, prove!\nfn f() {\n    g(\"T: Drop, .collect(alloc) ensures {\", b'{');\n}\n"
        self.assertEqual(rust(source), source)

    def test_macros_and_calls_have_rusts_names(self) -> None:
        source = 'fn f() {\n    prove!(a.b.cast_unsigned() == c.collect(alloc)?);\n    format!(in alloc; "{a}")\n}\n'
        wanted = 'fn f() {\n    assert!(a.b as u8 == c.collect_in(alloc)?);\n    fallible::format!(alloc, "{a}")\n}\n'
        self.assertEqual(rust(source), wanted)

    def test_uses_lead_to_fallible(self) -> None:
        source = (
            "use crate::A;\nuse b::{C, Gone};\nuse std::alloc::Global;\n"
            "use std::marker::{Model, PhantomData};\n\nfn f(a: A, g: Global) -> Vec<C> {\n    h\n}\n"
        )
        wanted = (
            "use crate::A;\nuse b::C;\nuse fallible::{Global, Vec};\nuse std::marker::PhantomData;\n\n"
            "fn f(a: A, g: Global) -> Vec<C> {\n    h\n}\n"
        )
        self.assertEqual(rewritten(source, f"{source}// \n    ensures {{ Gone }}"), wanted)

    def test_names_and_modules_go(self) -> None:
        source = "mod a;\npub mod b;\n\npub use a::{c, d};\npub use b::e;\n"
        self.assertEqual(without_names(source, ["a::c"]), source.replace("{c, d}", "d"))
        self.assertEqual(laid_out(without_module(source, "b")), "mod a;\n\npub use a::{c, d};\n")
        self.assertFalse(has_items("//! A.\nuse a::b;\n"))

    def test_exports_take_what_c_passes(self) -> None:
        source = (
            'use texts::A;\n\n/// A.\n#[unsafe(no_mangle)]\n'
            'pub extern "C" fn vialshoal_a(alloc: Global, room: &mut [u8]) -> u32 {\n    0\n}\n'
        )
        made = with_exports(source)
        self.assertIn(
            'pub unsafe extern "C" fn vialshoal_a(room_at: *mut u8, room_len: usize) -> u32 {\n    let alloc = Global;\n',
            made,
        )
        self.assertIn("let room = unsafe { from_raw_parts_mut(room_at, room_len) };", made)
        self.assertIn("/// # Safety", made)


class Conditions(unittest.TestCase):
    SOURCE = (
        "impl<T> Ring<T> {\n    /// A.\n    pub fn seek(&mut self, tag: u64)\n"
        "        requires here { Has tag }\n    {\n        b()\n    }\n}\n"
    )

    def test_docs_say_what_a_public_function_asks(self) -> None:
        self.assertIn(
            "    /// A.\n    ///\n    /// Asks of its caller: `here: Has tag`.\n    pub fn seek(&mut self, tag: u64) {\n        b()",
            rust(self.SOURCE),
        )

    def test_what_guards_unsafe_code_is_asserted(self) -> None:
        made = rust(self.SOURCE, "piece_raw", has_unsafe=True)
        self.assertIn("{\n        assert!(tag < self.nodes.table.len() as u64,", made)

    def test_what_guards_unsafe_code_without_a_test_is_an_error(self) -> None:
        with self.assertRaises(Unknown):
            rust(self.SOURCE.replace("seek", "other"), "piece_raw", has_unsafe=True)

    def test_private_functions_are_as_they_were(self) -> None:
        made = rust(self.SOURCE.replace("pub fn", "pub(crate) fn"), "piece_raw", has_unsafe=True)
        self.assertNotIn("Asks", made)


class Sizes(unittest.TestCase):
    def test_each_number_that_becomes_a_size_was_looked_at(self) -> None:
        found = set(conversions())
        self.assertEqual(sorted(found - set(listed())), [], "does it stay right where sizes have 32 bits? Put it into sizes.txt")
        self.assertEqual(sorted(set(listed()) - found), [], "it isn't there any more")
        self.assertEqual(len(listed()), len(set(listed())))
