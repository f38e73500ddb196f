// Made from crates/tlog_multiproof/src/tree.rt by tools/erase.

//! The nodes of a log's tree, and its hash and compression (RFC 9162, 2.1.1).

use crate::erased::p3_merkle_core::schedule::schedule_of;
use crate::erased::p3_merkle_verifier::checker::Checker;
use crate::erased::p3_support::compress::PseudoCompressionFunction;
use crate::erased::p3_support::hasher::CryptographicHasher;
use crate::erased::p3_support::matrix::Dimensions;
use crate::erased::p3_support::packed::PackedValue;
use crate::erased::tlog::LogHash;
use core::marker::PhantomData;

/// What a slot of a layer has: the hash of a node, or nothing where it is padding.
#[derive(Clone, Copy, Debug, Default, PartialEq, Eq)]
pub(crate) enum Node {
    /// There is no node.
    #[default]
    Absent,
    /// The SHA-256 value of a node.
    Hash([u8; 32]),
}

/// A node is packed alone, in one lane.
impl PackedValue for Node {
    type Value = Node;

    const WIDTH: usize = 1;

    fn broadcast(value: Node) -> Node {
        value
    }

    fn lane(&self, k: usize) -> Node {
        *self
    }

    fn with_lane(self, k: usize, value: Node) -> Node {
        value
    }
}

/// The parent of two nodes: the hash of a byte 1 and both hashes (RFC 9162, 2.1.1), or the only child.
pub(crate) fn parent_of<H: LogHash<32>>(left: Node, right: Node) -> Node {
    match (left, right) {
        (Node::Hash(left), Node::Hash(right)) => Node::Hash(H::node_hash(&left, &right)),
        (left, Node::Absent) => left,
        (Node::Absent, right) => right,
    }
}

/// The hash of a log's rows, each of which has one word, a leaf hash: that word. A longer row gives its last word, an
/// empty one `Absent`.
#[derive(Clone, Copy, Debug)]
pub(crate) struct LeafHashes;

impl CryptographicHasher<Node, Node, 1> for LeafHashes {
    const LANES: usize = 1;

    const PREFER_CONTIGUOUS_INPUT: bool = false;

    fn hash_iter<I: Iterator<Item = Node>>(&self, input: I) -> [Node; 1] {
        [input.fold(Node::Absent, |_, word| word)]
    }

    fn hash_slice(&self, input: &[Node]) -> [Node; 1] {
        [input.iter().copied().fold(Node::Absent, |_, word| word)]
    }

    fn hash_iter_slices<S: AsRef<[Node]>, I: Iterator<Item = S>>(&self, input: I) -> [Node; 1] {
        [input.fold(Node::Absent, |so_far, words| words.as_ref().iter().copied().fold(so_far, |_, word| word))]
    }

    fn hash_packed<I: Iterator<Item = Node>>(&self, input: I) -> [Node; 1] {
        self.hash_iter(input)
    }
}

/// The compression of a log's tree under a hash function.
#[derive(Debug)]
pub(crate) struct NodeHashes<H> {
    hash: PhantomData<H>,
}

impl<H: LogHash<32>> PseudoCompressionFunction<Node, 2, 1> for NodeHashes<H> {
    const LANES: usize = 1;

    fn compress(&self, input: [[Node; 1]; 2]) -> [Node; 1] {
        let [[left], [right]] = input;
        [parent_of::<H>(left, right)]
    }

    fn compress_packed(&self, input: [[Node; 1]; 2]) -> [Node; 1] {
        self.compress(input)
    }
}

/// The dimensions of the column of a log's leaf hashes.
pub(crate) fn dimensions_of(size: usize) -> [Dimensions; 1] {
    [Dimensions { width: 1, height: size }]
}

/// The tree of a log under a hash function, as openings of it are checked.
pub(crate) struct LogTree<H> {
    hash: LeafHashes,
    compress: NodeHashes<H>,
    dimensions: [Dimensions; 1],
}

impl<H: LogHash<32>> LogTree<H> {
    /// The tree of a log of `size` entries.
    pub(crate) fn new(size: usize) -> LogTree<H> {
        LogTree { hash: LeafHashes, compress: NodeHashes { hash: PhantomData }, dimensions: dimensions_of(size) }
    }

    /// The checker of openings of the tree, whose cap is the root.
    pub(crate) fn checker(&self) -> Checker<'_, Node, Node, LeafHashes, NodeHashes<H>, [[Node; 1]; 2], 2, 1> {
        let schedule = schedule_of(&self.dimensions, 2);
        let cap_layer = schedule.num_levels;
        Checker { hash: &self.hash, compress: &self.compress, schedule, cap_layer, item: PhantomData }
    }
}
