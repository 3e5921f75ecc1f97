"""Tests of public_contracts.py on small made-up crates."""

from __future__ import annotations

import contextlib
import io
import sys
import tempfile
import unittest
from pathlib import Path

sys.path.insert(0, str(Path(__file__).resolve().parent.parent))

from tools import public_contracts  # noqa: E402


class Findings(unittest.TestCase):
    def findings(self, files: dict[str, str]) -> list[str]:
        """The findings on a crate of these files of src/, without the path before src/."""
        with tempfile.TemporaryDirectory() as name:
            folder = Path(name)
            for file, text in files.items():
                path = folder / "crates" / "made" / "src" / file
                path.parent.mkdir(parents=True, exist_ok=True)
                path.write_text(text, encoding="utf-8")
            return [line.removeprefix("crates/made/src/") for line in public_contracts.check(folder)[1]]

    def finds(self, text: str, *lines: str) -> None:
        self.assertEqual(self.findings({"lib.rt": text}), [f"lib.rt:{line}" for line in lines])

    def test_plain_functions(self) -> None:
        self.finds("pub fn f() -> u8 { 0 }", "1: fn f: no ensures")
        self.finds("pub fn f() -> u8 ensures { λ r. ⌜ r ≡ 0 ⌝ } { 0 }")
        self.finds("fn f() -> u8 { 0 }")
        self.finds("pub(crate) fn f() -> u8 { 0 }\npub(super) fn g() {}\npub(in crate::a) fn h() {}")
        self.finds("\n\npub const fn f() {}", "3: fn f: no ensures")
        self.finds("pub unsafe fn f() {}", "1: fn f: no ensures")
        self.finds('#[unsafe(no_mangle)]\npub extern "C" fn f() {}', "2: fn f: no ensures")
        self.finds('pub const unsafe extern "C" fn f() {}', "1: fn f: no ensures")
        self.finds("pub const N: usize = { 3 };\npub fn f() {}", "2: fn f: no ensures")

    def test_requires(self) -> None:
        clause = "    requires small { ⌜ x < 9 ⌝ }\n"
        self.finds(f"pub fn f(x: u8)\n{clause}    ensures {{ λ _. ⌜ ⊤ ⌝ }}\n{{}}", "1: fn f: has a requires")
        self.finds(f"pub fn f(x: u8)\n{clause}{{}}", "1: fn f: has a requires", "1: fn f: no ensures")

    def test_clauses_with_braces(self) -> None:
        self.finds(
            "pub fn half(x: u8) -> Result<u8, u8>\n"
            "    ghost { ℕ }\n"
            "    ensures name { λ r. ⌜ elim r [ Ok v ↦ v < 128 | Err e ↦ e ≡ 0 ] ⌝ }\n"
            "    ensures other { λ r. ⌜ f {x = {0}} «max_len» (codes \"}\") ⌝ }\n"
            "{\n    if x > 0 { Ok(x / 2) } else { Err(x) }\n}\n"
            "pub fn last() {}\n",
            "8: fn last: no ensures",
        )

    def test_words_in_a_body_do_not_count(self) -> None:
        self.finds(
            "pub fn f() {\n    fn g() ensures { λ _. ⌜ ⊤ ⌝ } {}\n    // ensures { }\n}",
            "1: fn f: no ensures",
        )
        self.finds("// ensures { x }\npub fn f() /* ensures { /* } */ } */ {}", "2: fn f: no ensures")
        self.finds("pub fn f() -> &'static str { \"ensures { x }\" }", "1: fn f: no ensures")

    def test_strings_characters_and_lifetimes(self) -> None:
        self.finds(
            "const A: char = '{';\nconst B: &str = \"{ \\\" {\";\nconst C: u8 = b'\\'';\n"
            "const D: char = '\\u{7B}';\nconst E: &str = r#\"{\"{\"#;\n"
            "pub fn f<'a>(x: &'a u8) -> &'a u8 {\n    x\n}\npub fn g() {}",
            "6: fn f: no ensures",
            "9: fn g: no ensures",
        )

    def test_generics_and_where(self) -> None:
        self.finds(
            "pub fn f<T: Iterator<Item = [u8; 4]>, const N: usize>(x: Vec<Vec<T>>) -> [T; N]\n"
            "where\n    T: Drop,\n    ensures { λ _. ⌜ ⊤ ⌝ }\n{\n}\n"
            "pub fn g<T>(x: T)\nwhere\n    T: Drop,\n{\n}",
            "7: fn g: no ensures",
        )

    def test_fmt_and_tests(self) -> None:
        self.finds(
            "pub fn fmt() {}\n#[test]\npub fn t() {}\n#[cfg(test)]\npub fn u() {}\n"
            "#[cfg(test)]\npub mod tests {\n    pub fn v() {}\n}\n"
            "#[cfg(test)]\nimpl P {\n    pub fn w() {}\n}\npub struct P;\n"
            "#[derive(Drop)]\n#[must_use]\npub struct Q { pub x: u8 }\n#[inline]\npub fn x() {}",
            "19: fn x: no ensures",
        )

    def test_methods(self) -> None:
        self.finds(
            "pub struct P<T>(T);\nstruct Q;\n"
            "impl<T: Into<u8>> P<T> {\n    pub fn a(&self) {}\n    fn b(&self) {}\n    pub(crate) fn c(&self) {}\n"
            "    pub const N: u8 = 1;\n    ghost size = { λ p. p .0 };\n    pub fn d(&self) ensures { λ _. ⌜ ⊤ ⌝ } {}\n}\n"
            "impl Q {\n    pub fn e(&self) {}\n}",
            "4: fn P::a: no ensures",
        )

    def test_traits(self) -> None:
        self.finds(
            "pub trait T: Sized {\n    type Item;\n    ghost size: { Self → ℕ };\n    law l: { (x : Self) → size x ≡ 0 };\n"
            "    fn a(&self) -> u8;\n    fn b(&self) ensures { λ _. ⌜ ⊤ ⌝ };\n"
            "    fn c(&self) requires { ⌜ ⊤ ⌝ } ensures { λ _. ⌜ ⊤ ⌝ } { }\n}\n"
            "trait U {\n    fn d(&self);\n}\n"
            "pub impl T for u8 as U8T {\n    ghost size = { λ x. x };\n    fn a(&self) -> u8 { 0 }\n}\n"
            "unsafe impl<'a, A: T> U for &'a A as RefU {\n    fn d(&self) {}\n}\n"
            "impl Drop for P {\n    fn drop(self) {}\n}",
            "5: fn T::a: no ensures",
            "7: fn T::c: has a requires",
        )

    def test_modules(self) -> None:
        files = {
            "lib.rt": "pub mod open;\nmod shut;\npub mod inner {\n    pub fn a() {}\n    mod deep {\n        pub fn b() {}\n    }\n}",
            "open.rt": "pub mod below;\nmod hidden;\npub fn c() {}\npub struct Seen;\nstruct Unseen;",
            "open/below.rt": "pub fn d() {}",
            "open/hidden.rt": (
                "use super::Seen;\nuse super::Unseen;\npub fn e() {}\npub struct Own;\n"
                "impl Own {\n    pub fn f() {}\n}\nimpl Seen {\n    pub fn g() {}\n}\n"
                "impl Unseen {\n    pub fn h() {}\n}\nimpl crate::open::Seen {\n    pub fn i() {}\n}"
            ),
            "shut.rt": "pub mod not_open;\npub fn j() {}\npub trait Shut {\n    fn k();\n}",
            "shut/not_open.rt": "pub fn l() {}\npub struct Seen;\nimpl Seen {\n    pub fn m() {}\n}",
        }
        self.assertEqual(
            self.findings(files),
            [
                "lib.rt:4: fn a: no ensures",
                "open/below.rt:1: fn d: no ensures",
                "open/hidden.rt:9: fn Seen::g: no ensures",
                "open/hidden.rt:15: fn Seen::i: no ensures",
                "open.rt:3: fn c: no ensures",
            ],
        )

    def test_what_is_exported_by_use(self) -> None:
        files = {
            "lib.rt": "mod shut;\npub use shut::a;\npub use crate::shut::{P, T as U};\npub use self::shut::deep;",
            "shut.rt": (
                "pub mod deep;\npub fn a() {}\npub fn b() {}\npub struct P;\npub struct Q;\n"
                "impl P {\n    pub fn c() {}\n}\nimpl Q {\n    pub fn d() {}\n}\npub trait T {\n    fn e();\n}"
            ),
            "shut/deep.rt": "pub fn f() {}",
        }
        self.assertEqual(
            self.findings(files),
            [
                "shut/deep.rt:1: fn f: no ensures",
                "shut.rt:2: fn a: no ensures",
                "shut.rt:7: fn P::c: no ensures",
                "shut.rt:13: fn T::e: no ensures",
            ],
        )

    def test_a_type_that_cannot_be_resolved(self) -> None:
        files = {
            "lib.rt": "pub mod a;\nmod b;",
            "a.rt": "pub struct P;",
            "b.rt": "use crate::a::*;\nimpl P {\n    pub fn f() {}\n}",
        }
        self.assertEqual(self.findings(files), ["b.rt:3: fn P::f: no ensures"])

    def test_programs_and_stray_files(self) -> None:
        files = {
            "main.rt": "mod work;\nfn main() {}\nfn helper() requires { ⌜ ⊤ ⌝ } {}",
            "work.rt": "pub fn f() {}",
            "stray.rt": "pub fn g() {}",
        }
        self.assertEqual(self.findings(files), ["stray.rt:1: fn g: no ensures"])

    def test_an_item_that_does_not_end(self) -> None:
        for text in ("pub fn f() {", "pub fn f() )", "/* pub fn f() {}"):
            with self.assertRaises(public_contracts.SourceError):
                self.findings({"lib.rt": text})


class Runs(unittest.TestCase):
    def status(self, text: str) -> int:
        with tempfile.TemporaryDirectory() as name:
            path = Path(name) / "crates" / "made" / "src" / "lib.rt"
            path.parent.mkdir(parents=True)
            if text:
                path.write_text(text, encoding="utf-8")
            with contextlib.redirect_stdout(io.StringIO()), contextlib.redirect_stderr(io.StringIO()):
                return public_contracts.main([name])

    def test_status(self) -> None:
        self.assertEqual(self.status("pub fn f() ensures { λ _. ⌜ ⊤ ⌝ } {}"), 0)
        self.assertEqual(self.status("pub fn f() {}"), 1)
        self.assertEqual(self.status("pub fn f() {"), 2)
        self.assertEqual(self.status(""), 2)


if __name__ == "__main__":
    unittest.main()
