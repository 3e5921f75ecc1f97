"""Checks that every public function has an `ensures` and no `requires`.

    python3 tools/public_contracts.py [FOLDER]

Reads crates/*/src/**/*.rt under FOLDER (by default the repository that this file is
in), prints a line for each finding, and ends with status 1 where there is one.

Public are: a `pub fn` of a public module; a `pub fn` in an `impl` block of a public
type, wherever the block stands; and each method of a public trait. A module is public
if it is declared by `pub mod`, and its parent is public; the root is. A type or a trait
is public if it is `pub` in a public module. What a public module names in a `pub use` is
public too. A method in an `impl` of a trait has the trait's contract, so it is passed
over, as are functions named `fmt` and all that is under `#[cfg(test)]` or `#[test]`.
"""

from __future__ import annotations

import re
import sys
from dataclasses import dataclass, field
from pathlib import Path
from typing import Iterator, NamedTuple, Optional

Path_ = tuple[str, ...]  # the names of modules from the crate's root, and then of an item


class SourceError(Exception):
    """A source that cannot be read as items."""


# Tokens.


class Token(NamedTuple):
    text: str
    line: int


_TOKEN = re.compile(
    r"""
      (?P<space>\s+)
    | (?P<comment>//[^\n]*)
    | (?P<block>/\*)
    | (?P<string>[bc]?"(?:\\.|[^"\\])*")
    | (?P<raw>[bc]?r(?P<hashes>\#*)".*?"(?P=hashes))
    | (?P<char>b?'(?:\\(?:u\{[0-9a-fA-F_]*\}|x[0-9a-fA-F]{2}|.)|[^'\\\n])')
    | (?P<lifetime>'[A-Za-z_]\w*)
    | (?P<word>\w+)
    | (?P<mark>->|=>|::|.)
    """,
    re.VERBOSE | re.DOTALL,
)

_STRING = '""'


def _end_of_block_comment(text: str, start: int) -> int:
    """Where the comment that begins at `start` ends; such comments nest."""
    depth = 0
    for mark in re.finditer(r"/\*|\*/", text[start:]):
        depth += 1 if mark.group() == "/*" else -1
        if depth == 0:
            return start + mark.end()
    raise SourceError("a comment does not end")


def tokens_of(text: str) -> list[Token]:
    """The tokens of a source, without blanks and comments. A string or a character is
    one token that has none of its text."""
    tokens: list[Token] = []
    place, line = 0, 1
    while place < len(text):
        match = _TOKEN.match(text, place)
        assert match is not None
        kind, end = match.lastgroup, match.end()
        if kind == "hashes":
            kind = "raw"
        if kind == "block":
            end = _end_of_block_comment(text, place)
        elif kind in ("string", "raw", "char"):
            tokens.append(Token(_STRING, line))
        elif kind in ("lifetime", "word", "mark"):
            tokens.append(Token(match.group(), line))
        line += text.count("\n", place, end)
        place = end
    return tokens


# Items.

PRIVATE, RESTRICTED, PUBLIC = range(3)


@dataclass
class Function:
    name: str
    file: Path
    line: int
    visibility: int
    ensures: bool
    requires: bool


@dataclass
class Impl:
    """An inherent `impl` block: the path of its type as it is written."""

    type_path: Path_
    functions: list[Function]


@dataclass
class Trait:
    visibility: int
    functions: list[Function]


@dataclass
class Module:
    path: Path_
    visibility: int
    test: bool = False
    functions: dict[str, Function] = field(default_factory=dict)
    types: dict[str, int] = field(default_factory=dict)
    traits: dict[str, Trait] = field(default_factory=dict)
    impls: list[Impl] = field(default_factory=list)
    uses: dict[str, tuple[int, Path_]] = field(default_factory=dict)
    children: dict[str, "Module"] = field(default_factory=dict)


_OPENERS = {"(": ")", "[": "]", "{": "}"}
_CLOSERS = set(_OPENERS.values())


class Parser:
    """Reads the items of one file."""

    def __init__(self, file: Path, loader: "Loader") -> None:
        self.file = file
        self.loader = loader
        try:
            self.tokens = tokens_of(file.read_text(encoding="utf-8"))
        except SourceError as error:
            raise SourceError(f"{file}: {error}") from None
        self.at = 0

    # Single tokens.

    def peek(self, ahead: int = 0) -> str:
        place = self.at + ahead
        return self.tokens[place].text if place < len(self.tokens) else ""

    def take(self) -> Token:
        if self.at >= len(self.tokens):
            raise SourceError(f"{self.file}: ends in the middle of an item")
        self.at += 1
        return self.tokens[self.at - 1]

    def skip_group(self) -> list[str]:
        """Passes over a group in brackets; what is in it."""
        start, stack = self.at, []
        while True:
            token = self.take()
            if token.text in _OPENERS:
                stack.append(_OPENERS[token.text])
            elif token.text in _CLOSERS:
                if not stack or stack.pop() != token.text:
                    raise SourceError(f"{self.file}:{token.line}: '{token.text}' closes nothing")
            if not stack:
                return [t.text for t in self.tokens[start + 1 : self.at - 1]]

    def skip_angles(self) -> None:
        """Passes over generic parameters or arguments, if there are any."""
        if self.peek() != "<":
            return
        depth = 0
        while True:
            if self.peek() in _OPENERS:
                self.skip_group()
                continue
            text = self.take().text
            depth += (text == "<") - (text == ">")
            if depth == 0:
                return

    def skip_to_semicolon(self) -> None:
        while self.peek() != ";":
            if self.peek() in _OPENERS:
                self.skip_group()
            else:
                self.take()
        self.take()

    def skip_item(self) -> None:
        """Passes over an item that ends with `;` or with its group in braces."""
        while True:
            if self.peek() == "{":
                self.skip_group()
                return
            if self.peek() in _OPENERS:
                self.skip_group()
            elif self.take().text == ";":
                return

    # Items.

    def attributes(self) -> bool:
        """Passes over attributes; whether one says that the item is for tests."""
        test = False
        while self.peek() == "#":
            self.take()
            if self.peek() == "!":
                self.take()
            inside = self.skip_group()
            test = test or inside in (["test"], ["cfg", "(", "test", ")"])
        return test

    def visibility(self) -> int:
        if self.peek() != "pub":
            return PRIVATE
        self.take()
        if self.peek() == "(" and self.peek(1) in ("crate", "super", "self", "in"):
            self.skip_group()
            return RESTRICTED
        return PUBLIC

    def items(self, module: Module, folder: Path, end: str = "") -> None:
        """The items of a module up to `end`; the files of its modules are in `folder`."""
        while self.peek() != end:
            test = self.attributes()
            if self.peek() == end:
                break
            self.item(module, folder, test)

    def item(self, module: Module, folder: Path, test: bool) -> None:
        visibility = self.visibility()
        function = self.function(visibility)
        if function is not None:
            if not test:
                module.functions[function.name] = function
            return
        if self.peek() == "unsafe" and self.peek(1) in ("impl", "trait"):
            self.take()
        word = self.peek()
        if word == "mod":
            self.module(module, folder, visibility, test)
        elif word == "use":
            self.take()
            for name, path in self.use_tree(()):
                module.uses[name] = (visibility, path)
            self.take()
        elif word in ("struct", "enum", "union"):
            self.take()
            name = self.take().text
            if not test:
                module.types[name] = visibility
            self.skip_item()
        elif word == "trait":
            self.take()
            name = self.take().text
            functions = self.members_after_head()
            if not test:
                module.traits[name] = Trait(visibility, functions)
        elif word == "impl":
            self.take()
            block = self.impl()
            if block is not None and not test:
                module.impls.append(block)
        elif word in ("const", "static", "type", "ghost", "law"):
            if word == "type" and not test:
                module.types[self.peek(1)] = visibility
            self.skip_to_semicolon()
        else:
            self.skip_item()

    def function(self, visibility: int) -> Optional[Function]:
        """The function that stands here, or None where another item does."""
        ahead = 0
        while self.peek(ahead) in ("const", "unsafe", "async", "safe", "default", "extern", _STRING):
            ahead += 1
        if self.peek(ahead) != "fn":
            return None
        self.at += ahead
        line = self.take().line
        function = Function(self.take().text, self.file, line, visibility, False, False)
        self.skip_angles()
        while True:
            text = self.peek()
            if text in ("requires", "ensures", "ghost"):
                function.requires |= text == "requires"
                function.ensures |= text == "ensures"
                while self.peek() != "{":
                    self.take()
                self.skip_group()
            elif text == "{":
                self.skip_group()
                return function
            elif text == "<":
                self.skip_angles()
            elif text in _OPENERS:
                self.skip_group()
            elif self.take().text == ";":
                return function

    def members(self) -> list[Function]:
        """The functions of the block in braces that stands here."""
        self.take()
        functions = []
        while self.peek() != "}":
            test = self.attributes()
            if self.peek() == "}":
                break
            visibility = self.visibility()
            function = self.function(visibility)
            if function is None:
                self.skip_to_semicolon()
            elif not test:
                functions.append(function)
        self.take()
        return functions

    def members_after_head(self) -> list[Function]:
        """The functions of a block, from after the name that it begins with."""
        while self.peek() != "{":
            if self.peek() == "<":
                self.skip_angles()
            elif self.peek() in _OPENERS:
                self.skip_group()
            else:
                self.take()
        return self.members()

    def impl(self) -> Optional[Impl]:
        """An inherent `impl`, from after the word; None for one of a trait."""
        self.skip_angles()
        names: list[str] = []
        of_trait = False
        while self.peek() not in ("{", "where"):
            if self.peek() == "<":
                self.skip_angles()
            elif self.peek() in _OPENERS:
                self.skip_group()
            else:
                text = self.take().text
                of_trait = of_trait or text == "for"
                if re.match(r"[A-Za-z_]", text) and text not in ("mut", "dyn"):
                    names.append(text)
        functions = self.members_after_head()
        return None if of_trait else Impl(tuple(names), functions)

    def module(self, parent: Module, folder: Path, visibility: int, test: bool) -> None:
        self.take()
        name = self.take().text
        child = Module((*parent.path, name), visibility, parent.test or test)
        parent.children[name] = child
        if self.take().text == "{":
            self.items(child, folder / name, "}")
            self.take()
        else:
            self.loader.load(child, folder, name)

    def use_tree(self, before: Path_) -> Iterator[tuple[str, Path_]]:
        """The names that a `use` brings in, each with its path as it is written."""
        path = before
        while True:
            if self.peek() == "::":
                self.take()
            if self.peek() == "{":
                self.take()
                while self.peek() != "}":
                    yield from self.use_tree(path)
                    if self.peek() == ",":
                        self.take()
                self.take()
                return
            path = (*path, self.take().text)
            if self.peek() != "::":
                break
        if path[-1] == "self" and len(path) > 1:
            path = path[:-1]
        name = path[-1]
        if self.peek() == "as":
            self.take()
            name = self.take().text
        if name == "*":
            name = "*" + "::".join(path)
        yield name, path


class Loader:
    """Reads the modules of one crate from their files."""

    def __init__(self, source: Path) -> None:
        self.source = source
        self.seen: set[Path] = set()

    def crate(self) -> Module:
        """The root module, with all below it. A file that no module names is read as a
        public module of the root."""
        root = Module((), PUBLIC)
        for name in ("lib.rt", "main.rt"):
            if (self.source / name).is_file():
                self.read(root, self.source / name, self.source)
        for file in sorted(self.source.rglob("*.rt")):
            if file not in self.seen:
                stray = Module((str(file.relative_to(self.source)),), PUBLIC)
                root.children[stray.path[0]] = stray
                self.read(stray, file, file.with_suffix(""))
        return root

    def load(self, module: Module, folder: Path, name: str) -> None:
        for file in (folder / f"{name}.rt", folder / name / "mod.rt"):
            if file.is_file():
                self.read(module, file, folder / name)

    def read(self, module: Module, file: Path, folder: Path) -> None:
        if file in self.seen:
            return
        self.seen.add(file)
        Parser(file, self).items(module, folder)


# What is public.


class Crate:
    """Which items of a crate are public."""

    def __init__(self, root: Module) -> None:
        self.root = root
        self.public: set[Path_] = set()
        self._open(root)

    def modules(self) -> Iterator[Module]:
        """All modules that are not for tests only."""
        waiting = [self.root]
        while waiting:
            module = waiting.pop()
            if not module.test:
                yield module
                waiting += module.children.values()

    def find(self, path: Path_) -> Optional[Module]:
        module = self.root
        for name in path:
            if name not in module.children:
                return None
            module = module.children[name]
        return module

    def resolve(self, module: Module, path: Path_, tried: int = 0) -> Optional[Path_]:
        """The full path of what a path written in a module names, if it is of the crate."""
        here = module.path
        first, rest = path[0], path[1:]
        if first == "crate":
            here = ()
        elif first == "super":
            here = here[:-1]
        elif first != "self":
            rest = path
            if first in module.uses and module.uses[first][1] != path and tried < 20:
                target = self.resolve(module, module.uses[first][1], tried + 1)
                if target is None:
                    return None
                here, rest = target, path[1:]
        for name in rest:
            if name == "super":
                here = here[:-1]
                continue
            inner = self.find(here)
            if inner is None:
                return None
            known = (inner.children, inner.types, inner.traits, inner.functions)
            if not any(name in names for names in known):
                if name not in inner.uses or tried >= 20 or (inner is module and inner.uses[name][1] == path):
                    return None
                target = self.resolve(inner, inner.uses[name][1], tried + 1)
                if target is None:
                    return None
                here = target
            else:
                here = (*here, name)
        return here

    def _open(self, module: Module) -> None:
        """Marks a module as public, and what can be reached through it."""
        if module.test or (module.path in self.public):
            return
        self.public.add(module.path)
        for names in (module.types, module.traits, module.functions):
            for name, item in names.items():
                visibility = item if isinstance(item, int) else item.visibility
                if visibility == PUBLIC:
                    self.public.add((*module.path, name))
        for child in module.children.values():
            if child.visibility == PUBLIC:
                self._open(child)
        for visibility, path in module.uses.values():
            if visibility == PUBLIC:
                self._export(module, path)

    def _export(self, module: Module, path: Path_) -> None:
        """Marks what a `pub use` of a public module names."""
        whole = path[-1] == "*"
        target = self.resolve(module, path[:-1] if whole else path)
        if target is None:
            return
        inner = self.find(target)
        if inner is not None:
            self._open(inner)
        else:
            self.public.add(target)

    def is_public_type(self, module: Module, path: Path_) -> bool:
        """Whether the type of an `impl` block is public. One that cannot be resolved is
        taken to be any type of its name."""
        if not path:
            return False
        target = self.resolve(module, path)
        if target is not None:
            return target in self.public
        name = path[-1]
        return any(
            (*other.path, name) in self.public for other in self.modules() if name in other.types
        )

    def functions(self) -> Iterator[tuple[str, Function]]:
        """The public functions, each with its name as it is told."""
        for module in self.modules():
            for function in module.functions.values():
                if (*module.path, function.name) in self.public and function.visibility == PUBLIC:
                    yield function.name, function
            for name, trait in module.traits.items():
                if (*module.path, name) in self.public:
                    for function in trait.functions:
                        yield f"{name}::{function.name}", function
            for block in module.impls:
                if self.is_public_type(module, block.type_path):
                    for function in block.functions:
                        if function.visibility == PUBLIC:
                            yield f"{block.type_path[-1]}::{function.name}", function


def check(folder: Path) -> tuple[int, list[str]]:
    """The number of public functions under a folder, and the findings."""
    count = 0
    found: list[tuple[Path, int, str]] = []
    for source in sorted(folder.glob("crates/*/src")):
        for name, function in Crate(Loader(source).crate()).functions():
            if function.name == "fmt":
                continue
            count += 1
            if not function.ensures:
                found.append((function.file, function.line, f"fn {name}: no ensures"))
            if function.requires:
                found.append((function.file, function.line, f"fn {name}: has a requires"))
    return count, [f"{file.relative_to(folder)}:{line}: {text}" for file, line, text in sorted(found)]


def main(words: list[str]) -> int:
    folder = Path(words[0]) if words else Path(__file__).resolve().parent.parent
    if not any(folder.glob("crates/*/src/**/*.rt")):
        print(f"{folder}: no sources under crates/", file=sys.stderr)
        return 2
    try:
        count, findings = check(folder)
    except SourceError as error:
        print(error, file=sys.stderr)
        return 2
    for line in findings:
        print(line)
    if findings:
        return 1
    print(f"public functions: {count}, each with an ensures and no requires")
    return 0


if __name__ == "__main__":
    sys.exit(main(sys.argv[1:]))
