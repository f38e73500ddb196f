//! Programs that break a condition which the compiler sees: rustc refuses each, and names the condition. A program that
//! differs in a number or a type alone, so that the conditions hold, is compiled.
//!
//! tools/erase/package.toml lists these conditions as `const`. Each one is broken here, and no other.

use std::collections::BTreeSet;
use std::env;
use std::ffi::OsString;
use std::fs;
use std::path::{Path, PathBuf};
use std::process::Command;

/// A hasher and a compression, and the calls that programs make.
const CALLS: &str = include_str!("calls.rs");

/// Calls whose conditions hold.
const HELD: [&str; 7] = [
    "tree::<u32, u32, 4>()",
    "tree::<Lanes<u32>, Lanes<u32>, 2>()",
    "plain::<u32, u32, 4>()",
    "plain::<Lanes<u32>, Lanes<u32>, 2>()",
    "hiding::<u32, u32, 4, 1>()",
    "hiding::<Lanes<u32>, Lanes<u32>, 2, 1>()",
    "node::<64>()",
];

/// Calls that break a condition: its function, its name, and the calls.
const BROKEN: [(&str, &str, &[&str]); 11] = [
    (
        "p3_merkle_prover.tree.MerkleTree.new",
        "arity",
        &["tree::<u32, u32, 0>()", "tree::<u32, u32, 1>()", "tree::<u32, u32, 6>()"],
    ),
    (
        "p3_merkle_prover.tree.MerkleTree.new",
        "lanes",
        &["tree::<Lanes<u32>, u32, 2>()", "tree::<u32, Lanes<u32>, 2>()"],
    ),
    ("p3_merkle_prover.tree.MerkleTree.new", "some_lane", &["tree::<NoLane, NoLane, 2>()"]),
    (
        "p3_merkle_tree.mmcs.MerkleTreeMmcs.new_with_rule",
        "arity",
        &["plain::<u32, u32, 0>()", "plain::<u32, u32, 1>()", "plain::<u32, u32, 3>()"],
    ),
    (
        "p3_merkle_tree.mmcs.MerkleTreeMmcs.new_with_rule",
        "lanes",
        &["plain::<Lanes<u32>, u32, 2>()", "plain::<u32, Lanes<u32>, 2>()"],
    ),
    ("p3_merkle_tree.mmcs.MerkleTreeMmcs.new_with_rule", "some_lane", &["plain::<NoLane, NoLane, 2>()"]),
    (
        "p3_merkle_tree.hiding_mmcs.MerkleTreeHidingMmcs.new_with_rule",
        "arity",
        &["hiding::<u32, u32, 0, 1>()", "hiding::<u32, u32, 1, 1>()", "hiding::<u32, u32, 3, 1>()"],
    ),
    (
        "p3_merkle_tree.hiding_mmcs.MerkleTreeHidingMmcs.new_with_rule",
        "lanes",
        &["hiding::<Lanes<u32>, u32, 2, 1>()", "hiding::<u32, Lanes<u32>, 2, 1>()"],
    ),
    (
        "p3_merkle_tree.hiding_mmcs.MerkleTreeHidingMmcs.new_with_rule",
        "some_lane",
        &["hiding::<NoLane, NoLane, 2, 1>()"],
    ),
    ("p3_merkle_tree.hiding_mmcs.MerkleTreeHidingMmcs.new_with_rule", "some_salt", &["hiding::<u32, u32, 2, 0>()"]),
    ("tlog.collision.node_input", "short", &["node::<65>()"]),
];

/// The compiler, and the folder and the library of the package that cargo built for this test.
struct Compiler {
    rustc: OsString,
    folder: PathBuf,
    library: PathBuf,
}

impl Compiler {
    /// The compiler with a library by which the program of a held call is compiled: cargo keeps one for each set of
    /// features.
    fn new() -> Compiler {
        let rustc = env::var_os("RUSTC").unwrap_or_else(|| "rustc".into());
        let program = env::current_exe().expect("the path of this test");
        let folder = program.parent().expect("its folder").to_owned();
        let entries = fs::read_dir(&folder).expect("the folder of what cargo built");
        let paths = entries.map(|entry| entry.expect("a file of the folder").path());
        let mut libraries: Vec<_> = paths.filter(|path| is_library(path)).collect();
        libraries.sort_by_key(|path| fs::metadata(path).and_then(|data| data.modified()).ok());
        let mut found = libraries.into_iter().rev().map(|library| Compiler {
            rustc: rustc.clone(),
            folder: folder.clone(),
            library,
        });
        found.find(|compiler| compiler.refusal(HELD[6]).is_none()).expect("a library of the package")
    }

    /// What the compiler says of the program that makes a call; nothing if it compiles it.
    fn refusal(&self, call: &str) -> Option<String> {
        let out = Path::new(env!("CARGO_TARGET_TMPDIR"));
        let name: String = call.chars().filter(char::is_ascii_alphanumeric).collect();
        let source = out.join(format!("{name}.rs"));
        fs::write(&source, format!("{CALLS}\npub fn call() {{\n    {call};\n}}\n")).expect("a file for the program");
        let mut library = OsString::from("fohlazu=");
        library.push(&self.library);
        let mut dependencies = OsString::from("dependency=");
        dependencies.push(&self.folder);
        // A condition is looked at where code is made, not where types are checked.
        let done = Command::new(&self.rustc)
            .args(["--edition", "2024", "--crate-type", "lib", "--emit", "obj", "--allow", "dead_code", "--out-dir"])
            .arg(out)
            .arg("--extern")
            .arg(library)
            .arg("-L")
            .arg(dependencies)
            .arg(&source)
            .output()
            .expect("rustc runs");
        (!done.status.success()).then(|| String::from_utf8_lossy(&done.stderr).into_owned())
    }
}

fn is_library(path: &Path) -> bool {
    let name = path.file_name().and_then(|name| name.to_str()).unwrap_or_default();
    name.starts_with("libfohlazu-") && name.ends_with(".rlib")
}

/// The conditions of a list that the compiler sees: the function of each, and its name.
fn seen_by_compiler(list: &str) -> BTreeSet<(&str, &str)> {
    let mut function = "";
    let mut found = BTreeSet::new();
    for line in list.lines() {
        if let Some(rest) = line.strip_prefix("[conditions.\"") {
            function = rest.trim_end_matches("\"]");
        } else if let Some((name, _)) = line.split_once(" = \"const: ") {
            found.insert((function, name));
        }
    }
    found
}

#[test]
fn calls_that_break_a_condition_are_refused_by_its_name_and_others_compiled() {
    let compiler = Compiler::new();
    for call in HELD {
        assert_eq!(compiler.refusal(call), None, "{call}");
    }
    for (function, name, calls) in BROKEN {
        for call in calls {
            let said = compiler.refusal(call).unwrap_or_else(|| panic!("{call} is compiled: {function}, {name}"));
            // A call inside asserts some conditions once more.
            let errors: BTreeSet<_> = said.lines().filter(|line| line.starts_with("error[")).collect();
            let expected = format!("error[E0080]: evaluation panicked: {name}");
            assert_eq!(errors, BTreeSet::from([expected.as_str()]), "{call}: {said}");
        }
    }
}

#[test]
fn every_condition_that_the_compiler_sees_is_broken() {
    // The package as it is published has no list.
    let path = concat!(env!("CARGO_MANIFEST_DIR"), "/../../tools/erase/package.toml");
    if let Ok(list) = fs::read_to_string(path) {
        let broken: BTreeSet<_> = BROKEN.iter().map(|(function, name, _)| (*function, *name)).collect();
        assert_eq!(broken, seen_by_compiler(&list));
    }
}
