"""The original's own tests over fohlazu-p3.

Its test modules are laid out in a package of their own, which takes fohlazu-p3 as any program does: so a test that
compiles touches no private part. The tests of PRIVATE do, and are left out. A test that is neither run nor in PRIVATE
is an error, and so is one that is there and does not touch what is said.
"""

import re
import textwrap
from pathlib import Path
from typing import NamedTuple

from script import TOP, fail
from upstream import NEIGHBOURS, write

MANIFEST = """\
[package]
name = "original-tests"
version = "0.1.0"
edition = "2024"
publish = false

[lib]
doctest = false

[dependencies]
p3-merkle-tree = {{ package = "fohlazu-p3", path = "{drop_in}" }}
p3-baby-bear = "0.8"
p3-keccak = "0.8"
proptest = {{ version = "1", default-features = false, features = ["std"] }}
{neighbours}
[workspace]
"""

# The tests that touch a private part, by that part. The names of tests follow the path of their module.
PRIVATE = {
    "function merkle_tree::compress": """
        merkle_tree::tests: test_compress_even_length test_compress_odd_length test_compress_random_values
            test_compress_root_case_single_pair test_compress_non_power_of_two_with_padding""",
    "function merkle_tree::default_digest_layer": "merkle_tree::tests: default_digest_layer_is_all_default",
    "function merkle_tree::padded_len": """
        merkle_tree::tests: test_padded_len_n2 test_padded_len_n4 test_padded_len_n8
            test_padded_len_always_admits_full_groups""",
    "function merkle_tree::rows_per_call": """
        merkle_tree::tests: a_staged_group_is_lane_aligned_and_bounded
            the_staged_buffer_meets_the_bound_the_target_states""",
    "function mmcs::geometry::check_widths": "mmcs::geometry::tests: width_check_rejects_a_missing_row",
    "function mmcs::geometry::validate_commit_reachable_heights": """
        mmcs::geometry::tests: height_validation_edge_cases proptests::proptest_ladder_heights_always_accepted
            proptests::proptest_height_validation_matches_ladder""",
    "function pruning::prune_paths": """
        pruning::tests: roundtrip_binary_all_leaves roundtrip_binary_scattered roundtrip_single
            roundtrip_unordered_with_duplicates roundtrip_4ary_all_leaves roundtrip_4ary_scattered
            roundtrip_mixed_arity proptest_binary_roundtrip proptest_nary_roundtrip""",
    "function pruning::restore_paths": """
        pruning::tests: restore_empty_query_set restore_rejects_nonempty_proof_for_empty_query_set
            restore_rejects_too_few_siblings restore_rejects_too_many_siblings""",
    "function pruning::total_siblings_for_levels": """
        pruning::tests: count_never_exceeds_unpruned total_siblings_accumulates_per_level
            proptest_count_leq_unpruned""",
    "function pruning::walk_frontier": """
        pruning::tests: count_full_binary_tree_is_zero count_scattered_binary_matches_doc_example
            count_single_leaf_is_full_path count_full_4ary_tree_is_zero""",
    "field MerkleTree::arity_schedule": """
        mmcs::geometry::tests: replay_arity_and_positions_4ary_non_power_of_two_target""",
    "field MerkleTree::digest_layers": """
        merkle_tree::tests: keccak_batched_tree_matches_unbatched_binary
            keccak_batched_tree_matches_unbatched_quaternary three_lane_batched_tree_matches_unbatched
            keccak_tree_is_deterministic_across_builds
        mmcs::geometry::tests: replay_arity_and_positions_binary replay_arity_and_positions_4ary
            replay_arity_and_positions_4ary_mixed_heights""",
}

# Comments, texts and characters of a Rust source.
NOT_CODE = re.compile(r"//[^\n]*|/\*.*?\*/|\bb?r(#*)\".*?\"\1|b?\"(?:\\.|[^\"\\])*\"|b?'(?:\\[^']+|[^\\'])'", re.S)
FUNCTION = re.compile(r"\bfn (\w+)")
# What stands ahead of a function: attributes and comments.
AHEAD = re.compile(r"(?:[ \t]*(?:#\[|//).*\n)*[ \t]*\Z")
MODULE = re.compile(r"\bmod (\w+)\s*\Z")
TEST = re.compile(r"^[ \t]*#\[test\]", re.M)


class Function(NamedTuple):
    """A function of a test module that is in no `impl` and in no other function."""

    name: str
    start: int
    end: int
    is_test: bool
    names: frozenset


class Module:
    """A test module of the original, with its functions. The path is that of the source's module."""

    def __init__(self, path, text):
        self.path = path
        self.text, self.cut_off = whole(text)
        self.functions = functions_of(path, self.text)

    def tests(self):
        return {function.name: function for function in self.functions if function.is_test}

    def reached(self, names):
        """All functions that functions of these names call, themselves included."""
        found, left = set(), set(names)
        while left:
            found |= left
            called = {name for function in self.functions if function.name in left for name in function.names}
            left = {function.name for function in self.functions
                    if function.name.rpartition("::")[2] in called} - found
        return found

    def with_tests(self, names):
        """The module's text with these tests alone, and the functions that they call; without any test, nothing."""
        kept = self.reached(names)
        text, place = "", 0
        for function in self.functions:
            if function.name not in kept:
                text += self.text[place:function.start]
                place = function.end
        return text + self.text[place:] if names else ""


def code_of(text):
    """A Rust source whose comments, texts and characters are blanks."""
    return NOT_CODE.sub(lambda found: re.sub(r"[^\n]", " ", found[0]), text)


def whole(text):
    """A module up to its end. One that breaks off in a test is cut ahead of it, and the name of that test is said."""
    code = code_of(text)
    if code.count("{") == code.count("}"):
        return text, None
    start = [*TEST.finditer(text)][-1].start()
    open_braces = code[:start].count("{") - code[:start].count("}")
    return text[:start].rstrip() + "\n" + "}\n" * open_braces, FUNCTION.search(code, start)[1]


def functions_of(path, text):
    """The functions of a module."""
    code, found, blocks = code_of(text), [], []
    starts = {body_of(code, match.end()): match for match in FUNCTION.finditer(code)}
    for place, sign in ((match.start(), match[0]) for match in re.finditer(r"[{}]", code)):
        if sign == "{":
            blocks.append((place, "function" if place in starts else kind_of(code[:place])))
            continue
        opened, _ = blocks.pop()
        if opened in starts and not {"function", "other"} & {kind for _, kind in blocks}:
            found.append(function(path, text, code, starts[opened], place + 1, blocks))
    return sorted(found, key=lambda function: function.start)


def kind_of(ahead):
    """What the block is that begins after this code: a module by its name, the tests of proptest, or another one."""
    if module := MODULE.search(ahead[-200:]):
        return f"mod {module[1]}"
    return "proptest" if re.search(r"\bproptest!\s*\Z", ahead[-200:]) else "other"


def body_of(code, place):
    """Where the body of a function begins whose name ends at a place: the next brace outside of parentheses."""
    depth = 0
    for match in re.compile(r"[(){]").finditer(code, place):
        if match[0] == "{" and depth == 0:
            return match.start()
        depth += {"(": 1, ")": -1}.get(match[0], 0)
    return None


def function(path, text, code, match, end, blocks):
    """The function of this match, with what stands ahead of it."""
    modules = [kind.removeprefix("mod ") for _, kind in blocks if kind.startswith("mod ")]
    start = AHEAD.search(text, 0, match.start()).start()
    names = frozenset(re.findall(r"\w+", code[match.end():end]))
    is_test = bool(TEST.search(text[start:match.start()]))
    return Function("::".join([*path, *modules, match[1]]), start, end, is_test, names)


def private_tests():
    """The tests of PRIVATE, each with the part that it touches."""
    found = {}
    for part, text in PRIVATE.items():
        module = ""
        for word in text.split():
            if word.endswith(":"):
                module = word.removesuffix(":")
            else:
                found[f"{module}::{word}"] = part
    return found


def module_path(source):
    """The path of the module that a source is."""
    parts = Path(source).with_suffix("").parts
    return tuple(part for part in parts if part not in ("mod", "lib"))


def check_private(modules, private):
    """Ends the script where PRIVATE has what is not so."""
    for name, part in private.items():
        module = next((module for module in modules if name in module.tests()), None)
        if module is None:
            fail(f"the original has no test {name}: take it out of PRIVATE in rust/compare/own_tests.py")
        item = part.rpartition("::")[2]
        touched = {found for function in module.functions if function.name in module.reached([name])
                   for found in function.names}
        if item not in touched:
            fail(f"{name} does not touch the {part}: take it out of PRIVATE in rust/compare/own_tests.py")


def imports_of(source):
    """The imports of a source from other crates, which its test module may take from it."""
    uses = re.findall(r"^use (?!crate\b|super\b)[^;]*;", code_of(source), re.M)
    local = set(re.findall(r"^(?:pub )?mod (\w+);", source, re.M))
    return [use for use in uses if re.match(r"use (\w+)", use)[1] not in local]


def crate_text(modules, sources):
    """A crate with the public names of fohlazu-p3, and the test modules below modules of the original's names."""
    tree = {}
    for path, source, text in modules:
        place = tree
        for part in path:
            place = place.setdefault(part, {})
        place[""] = [*place.get("", []), "use crate::*;", *imports_of(sources.get(source, "")), text]

    def written(place):
        lines = [*place.get("", [])]
        lines += [f"mod {name} {{\n{textwrap.indent(written(inner), '    ')}\n}}"
                  for name, inner in place.items() if name]
        return "\n".join(lines)

    # Not all that is imported is needed, where tests are left out.
    return f"#![allow(unused, clippy::all)]\nextern crate alloc;\npub use p3_merkle_tree::*;\n{written(tree)}\n"


def run(folder, original, cargo_test):
    """Runs the tests that touch no private part, and says which the others are. It returns the status."""
    private = private_tests()
    texts = [(source, Module(module_path(source), text))
             for source, found in original.test_modules().items() for text in found]
    if not texts:
        fail("there are no test modules among the original's files")
    check_private([module for _, module in texts], private)
    laid_out, expected = [], set()
    for source, module in texts:
        names = module.tests().keys() - private.keys()
        expected |= names
        laid_out.append((module.path, source, module.with_tests(names)))
    write(folder / "Cargo.toml", MANIFEST.format(drop_in=TOP / "rust/fohlazu-p3", neighbours=NEIGHBOURS))
    write(folder / "src/lib.rs", crate_text([part for part in laid_out if part[2]], original.sources))
    for name, text in original.test_files().items():
        write(folder / "tests" / name, text)
        expected |= {function.name for function in functions_of((), text) if function.is_test}
    patches = [word for crate in ("p3-baby-bear", "p3-keccak", "proptest")
               for word in ("--config", f'patch.crates-io.{crate}.path="{TOP / "rust/stand-ins" / crate}"')]
    status, said = cargo_test("--manifest-path", str(folder / "Cargo.toml"), *patches)
    passed = set(re.findall(r"^test (\S+)(?: - should panic)? \.\.\. ok$", said, re.M))
    for name, part in private.items():
        print(f"left out: {name} touches the {part}")
    for _, module in texts:
        if module.cut_off:
            print(f"cut off: {'::'.join(module.path)}::tests::{module.cut_off} has no end in the files")
    if status or passed != expected:
        print(said)
        for name in sorted(expected - passed):
            print(f"did not pass: {name}")
        return 1
    print(f"{len(passed)} tests of the original pass over fohlazu-p3, {len(private)} touch a private part of it")
    return 0
