//! Logs by RFC 9162: the stored cases of `crates/test_log/stdin`, but for those of files and texts, which the package
//! does not read; and the log of certificate transparency's own tests.
//!
//! A case is `KIND WORD.. | ANSWER`. A list has commas between its items, and `-` is the empty one. A node is its layer
//! and its slot there, as 0.2. Indices count from 0. The log of a size has the decimal numbers from 1 on. The answers
//! are of `tests/model`, or were worked out by hand.
#![cfg(feature = "sha2")]

mod common;

use fohlazu::hashes::Sha256;
use fohlazu::tlog::{
    Collision, EMPTY_ROOT, Frontier, LogHash, NodeId, TreeBuilder, TreeError, compose, consistency_collision,
    consistency_places, consistency_proof, entries_collision, entry_collision, entry_places, growth_collision,
    inclusion_places, inclusion_proof, leaf_collision, leaf_hash, leaf_hashes, node_hash, prefix_collision,
    proof_collision, root, root_collision, verify_consistency, verify_entries, verify_inclusion,
};
use std::fmt::Display;

/// A node's hash, or a root.
type Digest = [u8; 32];

/// The words of a question that are not read yet.
struct Words<'a>(std::str::Split<'a, char>);

impl<'a> Words<'a> {
    /// The next word.
    fn word(&mut self) -> &'a str {
        self.0.next().expect("a question has all its words")
    }

    /// The next word as a number.
    fn number(&mut self) -> usize {
        self.word().parse().expect("a word is a number")
    }

    /// The next word as a list.
    fn list<T>(&mut self, item: impl Fn(&str) -> T) -> Vec<T> {
        match self.word() {
            "-" => Vec::new(),
            word => word.split(',').map(item).collect(),
        }
    }

    /// The next word as a list of numbers.
    fn numbers(&mut self) -> Vec<usize> {
        self.list(|item| item.parse().expect("an item is a number"))
    }

    /// The next word as a list of nodes.
    fn nodes(&mut self) -> Vec<NodeId> {
        self.list(|item| {
            let (layer, slot) = item.split_once('.').expect("a node is LAYER.SLOT");
            NodeId {
                layer: layer.parse().expect("a layer is a number"),
                slot: slot.parse().expect("a slot is a number"),
            }
        })
    }

    /// The next word as a list of entries, which are decimal numbers.
    fn entries(&mut self) -> Vec<Vec<u8>> {
        self.list(|item| item.as_bytes().to_vec())
    }

    /// The next word as the size of the log of the decimal numbers from 1 on: its entries.
    fn log(&mut self) -> Vec<Vec<u8>> {
        (1..=self.number()).map(|number| number.to_string().into_bytes()).collect()
    }

    /// The next word as a digest of the hash of eight bits, which is written as its first byte.
    fn weak(&mut self) -> Digest {
        weak_digest(self.word())
    }

    /// The next word as a list of such digests.
    fn weaks(&mut self) -> Vec<Digest> {
        self.list(weak_digest)
    }
}

/// The digest with this first byte and zeros.
fn weak_digest(byte: &str) -> Digest {
    let mut digest = [0; 32];
    digest[0] = byte.parse().expect("a digest is written as its first byte");
    digest
}

/// Bytes in hexadecimal.
fn hex(bytes: &[u8]) -> String {
    bytes.iter().map(|byte| format!("{byte:02x}")).collect()
}

/// Digests in hexadecimal, with a blank between two.
fn hexes(digests: &[Digest]) -> String {
    digests.iter().map(|digest| hex(digest)).collect::<Vec<_>>().join(" ")
}

/// `accepted`, or the text of the error.
fn verdict<E: Display>(verdict: Result<(), E>) -> String {
    verdict.map_or_else(|error| error.to_string(), |()| "accepted".to_string())
}

/// The root of these entries.
fn root_of(entries: &[Vec<u8>]) -> Digest {
    root::<Sha256, 32>(entries)
}

/// The leaf hashes of entries.
fn hashes(entries: &[Vec<u8>]) -> Vec<Digest> {
    let entries: Vec<&[u8]> = entries.iter().map(Vec::as_slice).collect();
    leaf_hashes(&entries).unwrap()
}

/// The values of nodes in the tree of these entries.
fn values(entries: &[Vec<u8>], nodes: &[NodeId]) -> Vec<Digest> {
    let value = |&NodeId { layer, slot }: &NodeId| {
        let rest = &entries[slot << layer..];
        root_of(&rest[..rest.len().min(1 << layer)])
    };
    nodes.iter().map(value).collect()
}

/// The tree of entries, which come in longer and longer pieces, where these nodes are wanted.
fn tree(entries: &[Vec<u8>], nodes: &[NodeId]) -> TreeBuilder {
    let mut tree = TreeBuilder::new(nodes).unwrap();
    let (mut rest, mut len) = (entries, 0);
    while !rest.is_empty() {
        let (piece, behind) = rest.split_at(rest.len().min(len));
        tree = tree.push_many(&hashes(piece)).unwrap();
        rest = behind;
        len += 1;
    }
    tree
}

/// Checks that a tree has these values of nodes.
fn check_values(entries: &[Vec<u8>], nodes: &[NodeId], values: &[Digest]) {
    let expected: Vec<_> = values.iter().copied().map(Some).collect();
    assert_eq!(tree(entries, nodes).values().unwrap(), expected, "the tree has other values");
}

/// `root SIZE`: the root of the log of this size. A tree that grows in pieces has it, too.
fn root_by_size(words: &mut Words<'_>) -> String {
    let entries = words.log();
    let root = root_of(&entries);
    let tree = tree(&entries, &[]);
    assert_eq!(tree.frontier().root(), root, "the tree has another root");
    let begun = Frontier::from_nodes(entries.len(), tree.frontier().nodes()).unwrap();
    assert_eq!(begun.root(), root, "a tree of whole nodes has another root");
    hex(&root)
}

/// `inclusion SIZE INDEX`: the proof of an entry. A tree has it, and it is accepted, also as one of several entries.
fn inclusion(words: &mut Words<'_>) -> String {
    let (entries, index) = (words.log(), words.number());
    let (size, root) = (entries.len(), root_of(&entries));
    let proof = inclusion_proof::<Sha256, 32>(&entries, index).unwrap();
    let nodes = inclusion_places(index, size).unwrap();
    check_values(&entries, &nodes, &proof);
    assert_eq!(entry_places(&[index], size).unwrap(), nodes);
    let leaf = leaf_hash(&entries[index]);
    assert_eq!(verify_inclusion(index, size, &leaf, &proof, &root), Ok(()));
    assert_eq!(verify_entries(size, &[index], &[leaf], &proof, &root), Ok(()));
    hexes(&proof)
}

/// `consistency SIZE OLD-SIZE`: the proof from a smaller log. A tree has it, it is accepted, and it is composed of two
/// by way of a size between.
fn consistency(words: &mut Words<'_>) -> String {
    let (entries, old_size) = (words.log(), words.number());
    let size = entries.len();
    let proof = consistency_proof::<Sha256, 32>(&entries, old_size).unwrap();
    if old_size < size {
        check_values(&entries, &consistency_places(old_size, size).unwrap(), &proof);
    }
    let (old, middle) = (&entries[..old_size], &entries[..old_size + (size - old_size) / 2]);
    let (old_root, middle_root, root) = (root_of(old), root_of(middle), root_of(&entries));
    assert_eq!(verify_consistency(old_size, size, &proof, &old_root, &root), Ok(()));
    let composed = compose::<Sha256, 32>(
        old_size,
        middle.len(),
        size,
        &old_root,
        &middle_root,
        &root,
        &consistency_proof::<Sha256, 32>(middle, old_size).unwrap(),
        &consistency_proof::<Sha256, 32>(&entries, middle.len()).unwrap(),
    );
    assert_eq!(composed.unwrap(), proof, "another proof is composed");
    hexes(&proof)
}

/// `proof_nodes SIZE INDICES`: the nodes of the proof of several entries.
fn proof_nodes(words: &mut Words<'_>) -> String {
    let (size, indices) = (words.number(), words.numbers());
    let nodes = entry_places(&indices, size).unwrap();
    nodes.iter().map(|node| format!("{}.{}", node.layer, node.slot)).collect::<Vec<_>>().join(" ")
}

/// The first four bytes of a digest, or `-` where there is none.
fn short(digest: Option<Digest>) -> String {
    digest.map_or_else(|| "-".to_string(), |digest| hex(&digest[..4]))
}

/// `digests SIZE INDICES`: the first four bytes of each digest of this proof, as a tree has them.
fn digests(words: &mut Words<'_>) -> String {
    let (entries, indices) = (words.log(), words.numbers());
    let nodes = entry_places(&indices, entries.len()).unwrap();
    let values = tree(&entries, &nodes).values().unwrap();
    values.into_iter().map(short).collect::<Vec<_>>().join(" ")
}

/// The tree of so many entries that has these whole nodes, once more leaf hashes are pushed on it.
fn grown(size: usize, nodes: &[Digest], more: &[Digest]) -> Result<Frontier, TreeError> {
    let mut frontier = Frontier::from_nodes(size, nodes)?;
    frontier.push_many(more)?;
    Ok(frontier)
}

/// `frontier SIZE COUNT MORE`: the tree of SIZE entries whose whole nodes are the leaf hashes of a log of COUNT, once
/// those of a log of MORE are pushed on it: its size, and the first four bytes of its root and of each node.
fn frontier(words: &mut Words<'_>) -> String {
    let (size, nodes, more) = (words.number(), hashes(&words.log()), hashes(&words.log()));
    match grown(size, &nodes, &more) {
        Ok(frontier) => {
            let digests = [frontier.root()].into_iter().chain(frontier.nodes().iter().copied());
            let digests: Vec<_> = digests.map(|digest| short(Some(digest))).collect();
            format!("{} {}", frontier.size(), digests.join(" "))
        }
        Err(error) => error.to_string(),
    }
}

/// `included SIZE LOG-SIZE INDEX LEAF NODES`: the verdict on the leaf hash of entry LEAF as that of entry INDEX of SIZE
/// entries, where it, the digests and the root are from a log of LOG-SIZE entries.
fn included(words: &mut Words<'_>) -> String {
    let (size, log, index) = (words.number(), words.log(), words.number());
    let leaf = leaf_hash(&log[words.number()]);
    verdict(verify_inclusion(index, size, &leaf, &values(&log, &words.nodes()), &root_of(&log)))
}

/// `consistent NEW-SIZE LOG-SIZE OLD-SIZE OLD NODES`: the verdict on the root of the first OLD entries as that of
/// OLD-SIZE entries, where it, the digests and the new root are from a log of LOG-SIZE entries.
fn consistent(words: &mut Words<'_>) -> String {
    let (size, log, old_size, old) = (words.number(), words.log(), words.number(), words.number());
    let old_root = root_of(&log[..old.min(log.len())]);
    verdict(verify_consistency(old_size, size, &values(&log, &words.nodes()), &old_root, &root_of(&log)))
}

/// `verify SIZE LOG-SIZE INDICES LEAVES NODES`: the same as `included` of several entries by one proof. SHA-256 has no
/// collision that these show.
fn verify(words: &mut Words<'_>) -> String {
    let (size, log, indices, leaves) = (words.number(), words.log(), words.numbers(), words.numbers());
    let leaves: Vec<Digest> = leaves.into_iter().map(|leaf| leaf_hash(&log[leaf])).collect();
    let proof = values(&log, &words.nodes());
    assert!(entries_collision::<Sha256>(&log, &indices, &leaves, &proof).unwrap().is_none());
    verdict(verify_entries(size, &indices, &leaves, &proof, &root_of(&log)))
}

/// A hash function of eight bits, of which collisions are found: the first byte of SHA-256, and 31 zeros.
struct Weak;

/// The first byte of a hash, and 31 zeros.
fn weakened(hash: Digest) -> Digest {
    let mut weak = [0; 32];
    weak[0] = hash[0];
    weak
}

impl LogHash<32> for Weak {
    fn leaf_hash(entry: &[u8]) -> Digest {
        weakened(leaf_hash(entry))
    }

    fn node_hash(left: &Digest, right: &Digest) -> Digest {
        weakened(node_hash(left, right))
    }

    fn empty_root() -> Digest {
        weakened(EMPTY_ROOT)
    }
}

/// `collision` or `none`. Both messages of a collision have one hash under the hash function of eight bits.
fn found(collision: Option<Collision>) -> String {
    let Some(Collision { first, second }) = collision else {
        return "none".to_string();
    };
    assert_ne!(first, second, "a collision has two messages");
    // The leaf hash of an entry is the hash of a byte 0 and the entry, that of a node the hash of a byte 1 and both.
    let hash = |message: &[u8]| match message {
        [] => Weak::empty_root(),
        [0, entry @ ..] => Weak::leaf_hash(entry),
        [1, nodes @ ..] => Weak::node_hash(nodes[..32].try_into().unwrap(), nodes[32..].try_into().unwrap()),
        _ => panic!("a message of no leaf and no node"),
    };
    assert_eq!(hash(&first), hash(&second), "a collision has one hash");
    "collision".to_string()
}

/// The kinds of cases under the hash function of eight bits: what accepted proofs show.
fn collision(kind: &str, words: &mut Words<'_>) -> String {
    let collision = match kind {
        // ENTRIES OTHER-ENTRIES
        "root_collision" => root_collision::<Weak, 32>(&words.entries(), &words.entries()),
        // ENTRIES INDEX LEAF PROOF
        "leaf_collision" => leaf_collision::<Weak, 32>(&words.entries(), words.number(), &words.weak(), &words.weaks()),
        // ENTRIES INDEX ENTRY PROOF
        "entry_collision" => {
            entry_collision::<Weak, 32>(&words.entries(), words.number(), words.word().as_bytes(), &words.weaks())
        }
        // ENTRIES INDICES LEAVES PROOF
        "entries_collision" => {
            entries_collision::<Weak>(&words.entries(), &words.numbers(), &words.weaks(), &words.weaks())
        }
        // OLD-ENTRIES NEW-ENTRIES PROOF
        "prefix_collision" => prefix_collision::<Weak, 32>(&words.entries(), &words.entries(), &words.weaks()),
        // INDEX SIZE LEAF PROOF OTHER-LEAF OTHER-PROOF ROOT
        "proof_collision" => proof_collision::<Weak, 32>(
            words.number(),
            words.number(),
            &words.weak(),
            &words.weaks(),
            &words.weak(),
            &words.weaks(),
            &words.weak(),
        ),
        // OLD-SIZE NEW-SIZE OLD-ROOT PROOF OTHER-ROOT OTHER-PROOF NEW-ROOT
        "consistency_collision" => consistency_collision::<Weak, 32>(
            words.number(),
            words.number(),
            &words.weak(),
            &words.weaks(),
            &words.weak(),
            &words.weaks(),
            &words.weak(),
        ),
        // INDEX OLD-SIZE NEW-SIZE OLD-LEAF OLD-PATH NEW-LEAF NEW-PATH GROWTH OLD-ROOT NEW-ROOT
        "growth_collision" => growth_collision::<Weak, 32>(
            words.number(),
            words.number(),
            words.number(),
            &words.weak(),
            &words.weaks(),
            &words.weak(),
            &words.weaks(),
            &words.weaks(),
            &words.weak(),
            &words.weak(),
        ),
        _ => panic!("no kind of case: {kind}"),
    };
    found(collision.unwrap())
}

/// `compose OLD-SIZE MIDDLE-SIZE NEW-SIZE OLD-ROOT MIDDLE-ROOT NEW-ROOT FIRST SECOND`: `composed`, or why not.
fn composed(words: &mut Words<'_>) -> String {
    let composed = compose::<Weak, 32>(
        words.number(),
        words.number(),
        words.number(),
        &words.weak(),
        &words.weak(),
        &words.weak(),
        &words.weaks(),
        &words.weaks(),
    );
    composed.map_or_else(|error| error.to_string(), |_| "composed".to_string())
}

/// Whether a case takes long where tests are not optimized: the root of a log of thousands of entries.
fn is_long(question: &str) -> bool {
    question.strip_prefix("root ").is_some_and(|size| size.len() > 3)
}

/// Checks the answers to the cases of these kinds that take long, or to all others, and that there are so many.
fn check_some(kinds: &[&str], are_long: bool, count: usize) {
    let text = common::stored("crates/test_log/stdin");
    let mut cases = 0;
    for (number, line) in common::cases(&text) {
        let (question, expected) = line.split_once(" |").expect("a case has an answer");
        let mut words = Words(question.split(' '));
        let kind = words.word();
        if !kinds.contains(&kind) || is_long(question) != are_long {
            continue;
        }
        cases += 1;
        let found = match kind {
            "root" => root_by_size(&mut words),
            "inclusion" => inclusion(&mut words),
            "consistency" => consistency(&mut words),
            "proof_nodes" => proof_nodes(&mut words),
            "digests" => digests(&mut words),
            "frontier" => frontier(&mut words),
            "included" => included(&mut words),
            "consistent" => consistent(&mut words),
            "verify" => verify(&mut words),
            "compose" => composed(&mut words),
            kind => collision(kind, &mut words),
        };
        assert!(words.0.next().is_none(), "line {number} has too many words");
        assert_eq!(found, expected.trim(), "line {number}: {line}");
    }
    assert_eq!(cases, count, "cases of {}", kinds.join(", "));
}

/// The same of cases that do not take long.
fn check(kinds: &[&str], count: usize) {
    check_some(kinds, false, count);
}

#[test]
fn roots() {
    check(&["root"], 19);
}

#[test]
fn every_kind_is_tried() {
    let tried = "root inclusion consistency proof_nodes digests frontier included consistent verify root_collision \
                 leaf_collision entry_collision entries_collision prefix_collision proof_collision \
                 consistency_collision growth_collision compose";
    let left_out = "file read seal file_entries file_prefix checkpoint part entries_proof consistency_proof";
    let known: Vec<_> = tried.split_whitespace().chain(left_out.split_whitespace()).collect();
    for (number, line) in common::cases(&common::stored("crates/test_log/stdin")) {
        let kind = line.split(' ').next().unwrap_or_default();
        assert!(known.contains(&kind), "line {number} is of no kind that is known here: {kind}");
    }
}

#[test]
fn proofs() {
    check(&["inclusion", "consistency", "proof_nodes", "digests", "frontier"], 210 + 210 + 87 + 29 + 19);
}

#[test]
fn verdicts() {
    check(&["included", "consistent", "verify"], 13 + 21 + 503);
}

#[test]
fn collisions() {
    let of_entries = ["root_collision", "leaf_collision", "entry_collision", "entries_collision", "prefix_collision"];
    check(&of_entries, 11 + 9 + 11 + 8 + 12);
    check(&["proof_collision", "consistency_collision", "growth_collision", "compose"], 10 + 10 + 32 + 25);
}

/// The entries of the log that the tests of certificate transparency have.
const TRANSPARENCY: [&[u8]; 8] = [
    b"",
    b"\x00",
    b"\x10",
    b"\x20\x21",
    b"\x30\x31",
    b"\x40\x41\x42\x43",
    b"\x50\x51\x52\x53\x54\x55\x56\x57",
    b"\x60\x61\x62\x63\x64\x65\x66\x67\x68\x69\x6a\x6b\x6c\x6d\x6e\x6f",
];

/// Its roots, from one entry to all.
const TRANSPARENCY_ROOTS: [&str; 8] = [
    "6e340b9cffb37a989ca544e6bb780a2c78901d3fb33738768511a30617afa01d",
    "fac54203e7cc696cf0dfcb42c92a1d9dbaf70ad9e621f4bd8d98662f00e3c125",
    "aeb6bcfe274b70a14fb067a5e5578264db0fa9b51af5e0ba159158f329e06e77",
    "d37ee418976dd95753c1c73862b9398fa2a2cf9b4ff0fdfe8b30cd95209614b7",
    "4e3bbb1f7b478dcfe71fb631631519a3bca12c9aefca1612bfce4c13a86264d4",
    "76e67dadbcdf1e10e1b74ddc608abd2f98dfb16fbce75277b5232a127f2087ef",
    "ddb89be403809e325750d3d263cd78929c2942b7942a34b77e122c9594a74c8c",
    "5dc9da79a70659a9ad559cb701ded9a2ab9d823aad2f4960cfe370eff4604328",
];

#[test]
fn the_log_of_certificate_transparency() {
    let entries = TRANSPARENCY.map(<[u8]>::to_vec);
    for size in 1..=8 {
        assert_eq!(hex(&root_of(&entries[..size])), TRANSPARENCY_ROOTS[size - 1], "the root of {size}");
        assert_eq!(tree(&entries[..size], &[]).frontier().root(), root_of(&entries[..size]));
    }
    let proof = inclusion_proof::<Sha256, 32>(&entries, 0).unwrap();
    let expected = [
        "96a296d224f285c67bee93c30f8a309157f0daa35dc5b87e410b78630a09cfc7",
        "5f083f0a1a33ca076a95279832580db3e0ef4584bdff1f54c8a360f50de3031e",
        "6b47aaf29ee3c2af9af889bc1fb9254dabd31177f16232dd6aab035ca39bf6e4",
    ];
    assert_eq!(hexes(&proof), expected.join(" "));
    let root = root_of(&entries);
    assert_eq!(verify_inclusion(0, 8, &leaf_hash(&entries[0]), &proof, &root), Ok(()));
    let growth = consistency_proof::<Sha256, 32>(&entries, 6).unwrap();
    let expected = [
        "0ebc5d3437fbe2db158b9f126a1d118e308181031d0a949f8dededebc558ef6a",
        "ca854ea128ed050b41b35ffc1b87b8eb2bde461e9e3b5596ece6b9d5975a0ae0",
        "d37ee418976dd95753c1c73862b9398fa2a2cf9b4ff0fdfe8b30cd95209614b7",
    ];
    assert_eq!(hexes(&growth), expected.join(" "));
    assert_eq!(verify_consistency(6, 8, &growth, &root_of(&entries[..6]), &root), Ok(()));
}

/// What `python3 tests/cargo.py quick` leaves out.
mod long {
    #[test]
    fn roots() {
        super::check_some(&["root"], true, 2);
    }
}
