//! Public calls with random arguments, most of which break a condition of the call: each of these ends in a panic whose
//! message is the name of the first condition that is broken, and a call whose conditions hold does not panic.
//!
//! tools/erase/package.toml lists the conditions. Each one that is asserted there is broken here, and no other. What
//! a condition says is written here once more, as the documentation of its call has it.

use fohlazu::hashes::{Batched3, FoldCompress, FoldHash, Lanes, U32x8};
use fohlazu::merkle_tree::{MerkleCap, MerkleTree, MerkleTreeHidingMmcs, MerkleTreeMmcs, SaltedTree};
use fohlazu::support::{
    CryptographicHasher, Dimensions, HorizontalPair, Matrix, Mmcs, PackedValue, PseudoCompressionFunction,
    RowMajorMatrix, pack_columns_fn, packed_rows_of, rows_of, unpack_at, unpack_into,
};
use rand_core::{TryCryptoRng, TryRng};
use std::any::Any;
use std::cell::Cell;
use std::collections::{BTreeMap, BTreeSet};
use std::convert::Infallible;
use std::hint::black_box;
use std::panic::{self, AssertUnwindSafe};
use std::sync::Once;
use std::{fs, thread};

const SEED: u64 = 0x5eed_0fc0_1d17_1035;
const THREADS: u64 = 4;
/// How often each thread makes each call.
const ROUNDS: usize = 10_500;
/// How often each condition is broken at least, all of them together, and how often those of a call hold.
const LEAST_BROKEN: usize = 10_000;
const LEAST_HELD: usize = 5_000;
const LEAST_BROKEN_IN_ALL: usize = 1_000_000;

/// SplitMix64.
struct Random(u64);

impl Random {
    fn word(&mut self) -> u64 {
        self.0 = self.0.wrapping_add(0x9e37_79b9_7f4a_7c15);
        let mut word = self.0;
        word = (word ^ (word >> 30)).wrapping_mul(0xbf58_476d_1ce4_e5b9);
        word = (word ^ (word >> 27)).wrapping_mul(0x94d0_49bb_1331_11eb);
        word ^ (word >> 31)
    }

    /// A number below `limit`, which is above 0.
    fn below(&mut self, limit: usize) -> usize {
        (self.word() % limit as u64) as usize
    }

    /// A number that is below `limit` in about half of the calls, and otherwise often just above it.
    fn about(&mut self, limit: usize) -> usize {
        match self.below(8) {
            0 => usize::MAX - self.below(3),
            1 => limit,
            2 => limit.saturating_add(self.below(9)),
            3 => limit.saturating_sub(1),
            _ => self.below(limit.max(1)),
        }
    }

    /// Up to `most` numbers, each below `limit` or not.
    fn indices(&mut self, most: usize, limit: usize) -> Vec<usize> {
        let is_right = self.below(2) == 0;
        let count = self.below(most + 1);
        (0..count).map(|_| if is_right && limit > 0 { self.below(limit) } else { self.about(limit) }).collect()
    }

    fn values(&mut self, count: usize) -> Vec<u32> {
        (0..count).map(|_| self.word() as u32).collect()
    }
}

impl TryRng for Random {
    type Error = Infallible;

    fn try_next_u32(&mut self) -> Result<u32, Infallible> {
        Ok(self.word() as u32)
    }

    fn try_next_u64(&mut self) -> Result<u64, Infallible> {
        Ok(self.word())
    }

    fn try_fill_bytes(&mut self, bytes: &mut [u8]) -> Result<(), Infallible> {
        bytes.fill_with(|| self.word() as u8);
        Ok(())
    }
}

impl TryCryptoRng for Random {}

thread_local! {
    static IS_QUIET: Cell<bool> = const { Cell::new(false) };
}

/// The message of the panic in which a call ends, if it ends in one. It is not printed.
fn panic_of<R>(call: impl FnOnce() -> R) -> Option<String> {
    static HOOK: Once = Once::new();
    HOOK.call_once(|| {
        let print = panic::take_hook();
        panic::set_hook(Box::new(move |info| {
            if !IS_QUIET.get() {
                print(info);
            }
        }));
    });
    IS_QUIET.set(true);
    let ended = panic::catch_unwind(AssertUnwindSafe(|| {
        black_box(call());
    }));
    IS_QUIET.set(false);
    ended.err().map(message)
}

fn message(payload: Box<dyn Any + Send>) -> String {
    match payload.downcast::<&'static str>() {
        Ok(text) => (*text).to_owned(),
        Err(payload) => *payload.downcast::<String>().expect("a panic has a text"),
    }
}

/// What a thread draws, and how often each condition of a call was broken there; "" counts calls whose conditions hold.
struct Trial {
    random: Random,
    counts: BTreeMap<(&'static str, &'static str), usize>,
}

impl Trial {
    /// Makes a call of a function with these conditions, each with whether it holds.
    fn call<R>(&mut self, function: &'static str, conditions: &[(&'static str, bool)], call: impl FnOnce() -> R) {
        let broken = conditions.iter().find(|(_, holds)| !holds).map(|(name, _)| *name);
        assert_eq!(panic_of(call).as_deref(), broken, "{function}, {conditions:?}");
        *self.counts.entry((function, broken.unwrap_or(""))).or_default() += 1;
    }
}

/// A matrix that stores no piece, and may be of any size: its elements are 0.
struct Zeros {
    width: usize,
    height: usize,
}

impl Matrix<u32> for Zeros {
    fn height(&self) -> usize {
        self.height
    }

    fn width(&self) -> usize {
        self.width
    }

    fn get(&self, _row: usize, _column: usize) -> u32 {
        0
    }
}

fn row_major(random: &mut Random, height: usize, width: usize) -> RowMajorMatrix<u32> {
    RowMajorMatrix::new(random.values(height * width), width)
}

/// Compressions of two words each: one with a call of its own for many groups, and one without.
fn compress_many(trial: &mut Trial) {
    let name = "p3_support.compress.PseudoCompressionFunction.compress_many";
    let groups = vec![[[1], [2]]; trial.random.below(5)];
    let mut out = vec![[0]; if trial.random.below(2) == 0 { groups.len() } else { trial.random.below(5) }];
    let conditions = [("equal_lengths", groups.len() == out.len())];
    trial.call(name, &conditions, || {
        <FoldCompress<2, 1> as PseudoCompressionFunction<u32, 2, 1>>::compress_many(&FoldCompress, &groups, &mut out)
    });
    trial.call(name, &conditions, || {
        PseudoCompressionFunction::<u32, 2, 1>::compress_many(&Batched3(FoldCompress::<2, 1>), &groups, &mut out);
    });
}

fn hash_many(trial: &mut Trial) {
    let name = "p3_support.hasher.CryptographicHasher.hash_many";
    let count = trial.random.below(12);
    let messages = trial.random.values(count);
    let mut out = vec![[0]; trial.random.below(5)];
    let has_width = (0..=messages.len()).any(|width| messages.len() == width * out.len());
    let conditions = [("one_length", has_width)];
    trial.call(name, &conditions, || {
        CryptographicHasher::<u32, u32, 1>::hash_many(&FoldHash::<1>, &messages, &mut out);
    });
    trial.call(name, &conditions, || {
        CryptographicHasher::<u32, u32, 1>::hash_many(&Batched3(FoldHash::<1>), &messages, &mut out);
    });
}

/// A place for so many words, or for another number of them.
fn words_for(trial: &mut Trial, count: usize) -> Vec<u32> {
    vec![0; if trial.random.below(2) == 0 { count } else { trial.random.below(6) }]
}

/// The calls of one matrix. `has_own` says whether `get` is a call of this package.
fn matrix_calls<M: Matrix<u32>>(trial: &mut Trial, matrix: &M, has_own: bool) {
    let row = trial.random.about(matrix.height());
    let column = trial.random.about(matrix.width());
    let in_row = row < matrix.height();
    if has_own {
        let conditions = [("row_in", in_row), ("column_in", column < matrix.width())];
        trial.call("p3_support.matrix.Matrix.get", &conditions, || matrix.get(row, column));
    }
    let conditions = [("row_in", in_row), ("column_in", column <= matrix.width())];
    trial.call("p3_support.matrix.Matrix.piece", &conditions, || matrix.piece(row, column).len());
    trial.call("p3_support.matrix.Matrix.append_from", &conditions, || matrix.append_from(row, column, &mut Vec::new()));
    let left = matrix.width().checked_sub(column);
    let mut out = words_for(trial, left.unwrap_or(0));
    let conditions = [("row_in", in_row), ("row_fills", left == Some(out.len()))];
    trial.call("p3_support.matrix.Matrix.write_from", &conditions, || matrix.write_from(row, column, &mut out));
    let mut out = words_for(trial, matrix.width());
    let conditions = [("row_in", in_row), ("row_fills", out.len() == matrix.width())];
    trial.call("p3_support.matrix.Matrix.write_row", &conditions, || matrix.write_row(row, &mut out));
    let conditions = [("row_in", in_row)];
    trial.call("p3_support.matrix.Matrix.row", &conditions, || matrix.row(row).count());
    trial.call("p3_support.matrix.Matrix.append_row", &conditions, || matrix.append_row(row, &mut Vec::new()));
    let conditions = [("rows_in", row.checked_add(2).is_some_and(|end| end <= matrix.height()))];
    trial.call("p3_support.matrix.Matrix.vertically_packed_row", &conditions, || {
        matrix.vertically_packed_row::<Lanes<u32>>(row).count()
    });
}

fn matrices(trial: &mut Trial) {
    let (height, width) = (trial.random.below(5), 1 + trial.random.below(4));
    let left = row_major(&mut trial.random, height, width);
    matrix_calls(trial, &left, true);
    let right = row_major(&mut trial.random, height, 2);
    matrix_calls(trial, &HorizontalPair::new(left, right), true);
    matrix_calls(trial, &Zeros { width, height }, false);
}

fn new_matrix(trial: &mut Trial) {
    let count = trial.random.below(10);
    let values = trial.random.values(count);
    let width = trial.random.about(5);
    // In other words than the assertion.
    #[allow(clippy::manual_is_multiple_of)]
    let divides = if width == 0 { values.is_empty() } else { values.len() % width == 0 };
    let conditions = [("divides", divides)];
    trial.call("p3_support.matrix.RowMajorMatrix.new", &conditions, || RowMajorMatrix::new(values, width));
}

fn new_pair(trial: &mut Trial) {
    let height = trial.random.below(3);
    let other_height = if trial.random.below(2) == 0 { height } else { trial.random.about(3) };
    let width = trial.random.about(usize::MAX / 2);
    let other_width = trial.random.about(usize::MAX - width);
    let conditions = [("one_height", height == other_height), ("width_fits", other_width <= usize::MAX - width)];
    let pair = (Zeros { width, height }, Zeros { width: other_width, height: other_height });
    trial.call("p3_support.pair.HorizontalPair.new", &conditions, || HorizontalPair::new(pair.0, pair.1));
}

fn index_cap(trial: &mut Trial) {
    let count = trial.random.below(4);
    let cap = MerkleCap::<u32, u32>::new(trial.random.values(count));
    let index = trial.random.about(count);
    trial.call("p3_support.opening.MerkleCap.Index.index", &[("can_index", index < count)], || cap[index]);
}

fn lanes_of<P: PackedValue>(trial: &mut Trial, count: usize) {
    let packed = P::broadcast(P::Value::default());
    let k = trial.random.about(count);
    let conditions = [("lane_in", k < count)];
    trial.call("p3_support.packed.PackedValue.lane", &conditions, || packed.lane(k));
    trial.call("p3_support.packed.PackedValue.with_lane", &conditions, || packed.with_lane(k, P::Value::default()));
}

fn lanes(trial: &mut Trial) {
    lanes_of::<u8>(trial, 1);
    lanes_of::<u32>(trial, 1);
    lanes_of::<Lanes<u8>>(trial, 2);
    lanes_of::<Lanes<u32>>(trial, 2);
    lanes_of::<U32x8>(trial, 8);
}

fn unpack(trial: &mut Trial) {
    let packed = [Lanes { first: 1_u32, second: 2 }; 3];
    let mut rows = vec![[0_u32; 3]; trial.random.below(5)];
    let conditions = [("a_row_for_each_lane", rows.len() == 2)];
    trial.call("p3_support.packed.unpack_into", &conditions, || unpack_into(&packed, &mut rows));
    let first = trial.random.about(rows.len());
    let conditions = [("rows_in", first.checked_add(2).is_some_and(|end| end <= rows.len()))];
    trial.call("p3_support.packed.unpack_at", &conditions, || unpack_at(&packed, &mut rows, first));
}

/// The function asserts the length of each column where it writes the column's lane.
fn pack_columns(trial: &mut Trial) {
    let mut lengths = [2; 2];
    if trial.random.below(2) == 0 {
        lengths[trial.random.below(2)] = 1 + trial.random.below(3);
    }
    let conditions = [("long", lengths == [2, 2])];
    trial.call("p3_support.packed.set_lane", &conditions, || {
        pack_columns_fn::<Lanes<u32>, _, _, 2>(|k| vec![7; lengths[k]])
    });
}

fn rows(trial: &mut Trial) {
    let heights = [2 + trial.random.below(3), 2 + trial.random.below(3)];
    let matrices = heights.map(|height| row_major(&mut trial.random, height, 2));
    let row = trial.random.about(heights[0]);
    let conditions = [("row_in", row < heights[0])];
    trial.call("p3_support.rows.rows_of", &conditions, || rows_of(&matrices, heights[0], row).count());
    let holds = heights.iter().all(|height| row.checked_add(2).is_some_and(|end| end <= *height));
    trial.call("p3_support.rows.packed_rows_of", &[("rows_in", holds)], || {
        packed_rows_of::<_, Lanes<u32>, _>(&matrices, row).count()
    });
}

type Plain = MerkleTreeMmcs<u32, u32, FoldHash<1>, FoldCompress<2, 1>, 2, 1>;
type Hiding = MerkleTreeHidingMmcs<u32, u32, FoldHash<1>, FoldCompress<2, 1>, Random, 2, 1, 2>;
type Words = RowMajorMatrix<u32>;

/// Trees over matrices of heights 5 and 3, with 4 layers, and their schemes.
struct Trees {
    plain: Plain,
    tree: MerkleTree<u32, u32, Words, 2, 1>,
    hiding: Hiding,
    salted: SaltedTree<u32, u32, Words, 2, 1>,
}

impl Trees {
    const HEIGHT: usize = 5;
    const LAYERS: usize = 4;

    fn new() -> Trees {
        let matrices = |random: &mut Random| vec![row_major(random, Self::HEIGHT, 2), row_major(random, 3, 1)];
        let mut random = Random(SEED);
        let plain = Plain::new(FoldHash, FoldCompress, 1);
        let (_, tree) = plain.commit(matrices(&mut random)).expect("lawful heights");
        let mut hiding = Hiding::new(FoldHash, FoldCompress, 0, Random(SEED));
        let (_, salted) = hiding.commit(matrices(&mut random)).expect("lawful heights");
        Trees { plain, tree, hiding, salted }
    }

    fn calls(&self, trial: &mut Trial) {
        let Trees { plain, tree, hiding, salted } = self;
        let cap_height = trial.random.about(Self::LAYERS);
        let conditions = [("cap_height_in", cap_height < Self::LAYERS)];
        trial.call("p3_merkle_prover.tree.MerkleTree.cap", &conditions, || tree.cap(cap_height).is_ok());

        let index = trial.random.about(Self::HEIGHT);
        let conditions = [("index_in", index < Self::HEIGHT)];
        let name = "p3_merkle_tree.mmcs.MerkleTreeMmcs.open_batch";
        trial.call(name, &conditions, || plain.open_batch(index, tree).is_ok());
        trial.call(name, &conditions, || Mmcs::<u32, Words>::open_batch(plain, index, tree).is_ok());
        let name = "p3_merkle_tree.hiding_open.MerkleTreeHidingMmcs.open_batch";
        trial.call(name, &conditions, || hiding.open_batch(index, salted).is_ok());
        trial.call(name, &conditions, || Mmcs::<u32, Words>::open_batch(hiding, index, salted).is_ok());

        let indices = trial.random.indices(4, Self::HEIGHT);
        let conditions = [("indices_in", indices.iter().all(|index| *index < Self::HEIGHT))];
        let name = "p3_merkle_tree.pruned.MerkleTreeMmcs.open_batch_pruned";
        trial.call(name, &conditions, || plain.open_batch_pruned(&indices, tree).is_ok());
        let name = "p3_merkle_tree.pruned.MerkleTreeMmcs.open_multi_batch";
        trial.call(name, &conditions, || plain.open_multi_batch(&indices, tree).is_ok());
        trial.call(name, &conditions, || Mmcs::<u32, Words>::open_multi_batch(plain, &indices, tree).is_ok());
        let name = "p3_merkle_tree.hiding_open.MerkleTreeHidingMmcs.open_multi_batch";
        trial.call(name, &conditions, || hiding.open_multi_batch(&indices, salted).is_ok());
        trial.call(name, &conditions, || Mmcs::<u32, Words>::open_multi_batch(hiding, &indices, salted).is_ok());

        let count = trial.random.below(3);
        let dimensions = vec![Dimensions { width: 2, height: 5 }; count];
        let matrix = trial.random.about(count);
        let conditions = [("matrix_in", matrix < count)];
        let name = "p3_merkle_tree.schedule.Scheme.is_authenticated";
        trial.call(name, &conditions, || plain.is_authenticated(&dimensions, matrix).is_ok());
    }
}

#[cfg(feature = "sha2")]
mod sha2 {
    use super::{Batched3, CryptographicHasher, PseudoCompressionFunction, Trial};
    use fohlazu::hashes::{Sha256, Sha256Nodes, Sha256NodesInEights, Sha256Rows, Sha256RowsInEights};
    use fohlazu::tlog::{
        SIZE_LIMIT, consistency_places, consistency_proof, entry_places, inclusion_places, inclusion_proof, split,
    };

    fn compress_many<C: PseudoCompressionFunction<u8, 2, 32>>(trial: &mut Trial, compress: &C) {
        let groups = vec![[[1; 32]; 2]; trial.random.below(3)];
        let mut out = vec![[0; 32]; trial.random.below(3)];
        let conditions = [("equal_lengths", groups.len() == out.len())];
        trial.call("p3_support.compress.PseudoCompressionFunction.compress_many", &conditions, || {
            compress.compress_many(&groups, &mut out);
        });
    }

    fn hash_many<H: CryptographicHasher<u8, u8, 32>>(trial: &mut Trial, hash: &H) {
        let messages = vec![7; trial.random.below(6)];
        let mut out = vec![[0; 32]; trial.random.below(4)];
        let has_width = (0..=messages.len()).any(|width| messages.len() == width * out.len());
        trial.call("p3_support.hasher.CryptographicHasher.hash_many", &[("one_length", has_width)], || {
            hash.hash_many(&messages, &mut out);
        });
    }

    pub fn hashes(trial: &mut Trial) {
        // SHA-256 without optimization takes most of the time: one of each in turn.
        match trial.random.below(6) {
            0 => compress_many(trial, &Sha256Nodes),
            1 => compress_many(trial, &Sha256NodesInEights),
            2 => compress_many(trial, &Batched3(Sha256Nodes)),
            3 => hash_many(trial, &Sha256Rows),
            4 => hash_many(trial, &Sha256RowsInEights),
            _ => hash_many(trial, &Batched3(Sha256Rows)),
        }
    }

    pub fn logs(trial: &mut Trial) {
        let n = trial.random.about(2);
        trial.call("tlog.honest_proofs.split", &[("two_entries", n > 1)], || split(n));

        let entries = vec![vec![1, 2]; trial.random.below(5)];
        let index = trial.random.about(entries.len());
        let conditions = [("index_in", index < entries.len())];
        trial.call("tlog.honest_proofs.inclusion_proof", &conditions, || {
            inclusion_proof::<Sha256, 32>(&entries, index).is_ok()
        });
        let old_size = if trial.random.below(3) == 0 { 0 } else { trial.random.about(entries.len() + 1) };
        let conditions = [("some", old_size != 0), ("within", old_size <= entries.len())];
        trial.call("tlog.honest_proofs.consistency_proof", &conditions, || {
            consistency_proof::<Sha256, 32>(&entries, old_size).is_ok()
        });

        let size = if trial.random.below(2) == 0 { trial.random.below(9) } else { trial.random.about(1 << 62) };
        let index = trial.random.about(size);
        let conditions = [("index_in", index < size)];
        trial.call("tlog_tree.proof_nodes.inclusion_nodes", &conditions, || inclusion_places(index, size).is_ok());
        let old_size = if trial.random.below(3) == 0 { 0 } else { trial.random.about(size) };
        let conditions = [("some", old_size != 0), ("grown", old_size < size)];
        trial.call("tlog_tree.proof_nodes.consistency_nodes", &conditions, || {
            consistency_places(old_size, size).is_ok()
        });
    }

    pub fn entries(trial: &mut Trial) {
        let size = match trial.random.below(4) {
            0 => 0,
            1 => SIZE_LIMIT + trial.random.below(3),
            2 => 1 + trial.random.below(9),
            _ => 1 + trial.random.below(1 << 62),
        };
        let indices = trial.random.indices(3, size);
        let is_within = indices.iter().all(|index| *index < size);
        let conditions = [("some", size != 0), ("limit", size <= 1 << 62), ("within", is_within)];
        trial.call("tlog_multiproof.opening.entry_nodes", &conditions, || entry_places(&indices, size).is_ok());
    }
}

/// Makes each call `ROUNDS` times with the random arguments of a seed, and counts the conditions that were broken.
fn counts_of(seed: u64) -> BTreeMap<(&'static str, &'static str), usize> {
    let trees = Trees::new();
    let mut trial = Trial { random: Random(seed), counts: BTreeMap::new() };
    for _ in 0..ROUNDS {
        compress_many(&mut trial);
        hash_many(&mut trial);
        matrices(&mut trial);
        new_matrix(&mut trial);
        // The second condition is broken only where the first one holds.
        new_pair(&mut trial);
        new_pair(&mut trial);
        index_cap(&mut trial);
        lanes(&mut trial);
        unpack(&mut trial);
        pack_columns(&mut trial);
        rows(&mut trial);
        trees.calls(&mut trial);
        #[cfg(feature = "sha2")]
        {
            sha2::hashes(&mut trial);
            sha2::logs(&mut trial);
            for _ in 0..3 {
                sha2::entries(&mut trial);
            }
        }
    }
    trial.counts
}

/// The conditions of a list that are asserted when the program runs: the function of each, and its name.
fn asserted(list: &str) -> BTreeSet<(&str, &str)> {
    let mut function = None;
    let mut found = BTreeSet::new();
    for line in list.lines() {
        if line.starts_with('[') {
            function = line.strip_prefix("[conditions.\"").and_then(|rest| rest.strip_suffix("\"]"));
        } else if let (Some(function), Some((name, how))) = (function, line.split_once(" = \""))
            && !["const: ", "asserted by: ", "untested: "].iter().any(|other| how.starts_with(other))
        {
            found.insert((function, name));
        }
    }
    found
}

#[test]
fn broken_conditions_panic_with_their_names() {
    let threads: Vec<_> = (0..THREADS).map(|thread| thread::spawn(move || counts_of(SEED + thread))).collect();
    let mut counts = BTreeMap::new();
    for thread in threads {
        for (condition, count) in thread.join().expect("no call ends otherwise") {
            *counts.entry(condition).or_insert(0) += count;
        }
    }
    for ((function, name), count) in &counts {
        let least = if name.is_empty() { LEAST_HELD } else { LEAST_BROKEN };
        assert!(*count >= least, "{function}, {name:?}: {count} times only");
    }
    let broken: BTreeMap<_, _> = counts.into_iter().filter(|((_, name), _)| !name.is_empty()).collect();
    let in_all: usize = broken.values().sum();
    println!("{in_all} calls with a broken condition");
    assert!(in_all >= LEAST_BROKEN_IN_ALL, "{in_all} calls with a broken condition only");

    // The package as it is published has no list.
    let path = concat!(env!("CARGO_MANIFEST_DIR"), "/../../tools/erase/package.toml");
    if let Ok(list) = fs::read_to_string(path) {
        let mut listed = asserted(&list);
        if cfg!(not(feature = "sha2")) {
            listed.retain(|(function, _)| !function.starts_with("tlog"));
        }
        assert_eq!(broken.into_keys().collect::<BTreeSet<_>>(), listed, "made, and listed");
    }
}
