//! Trees that several threads build beside those of one thread, over random batches: each layer, cap and opening is the
//! same, by the calls that split layers and by functions in `Parallel`. Then the calls that `Parallel` makes of the
//! functions that it wraps.

use core::convert::Infallible;
use core::fmt::Debug;
use fohlazu::hashes::{
    Batched3, FoldCompress, FoldHash, Lanes, Sha256Nodes, Sha256NodesInEights, Sha256Rows, Sha256RowsInEights, U32x8,
};
use fohlazu::merkle_tree::{BatchOpeningRef, MerkleTreeHidingMmcs, MerkleTreeMmcs};
use fohlazu::parallel::{Parallel, commit, tree as tree_on_threads};
use fohlazu::support::{
    CryptographicHasher, Matrix, PackedValue, PseudoCompressionFunction, RowMajorMatrix, SaltWord, dimensions_of,
};
use rand_core::{TryCryptoRng, TryRng};
use std::panic::catch_unwind;
use std::sync::Mutex;

/// Where the random numbers of each test start.
const SEED: u64 = 0x9e37_79b9_7f4a_7c15;

/// The tallest matrices under the fold functions have up to 2^15 rows, so that a builder makes two calls for them.
const FOLD_BITS: usize = 15;

/// Those under SHA-256 have up to 2^11 rows, which a call splits, too.
const SHA_256_BITS: usize = 11;

/// Marsaglia's xorshift. As a generator of salts it is known to everyone, which does for a test.
#[derive(Clone, Debug)]
struct Random(u64);

impl Random {
    /// The next 64 bits.
    fn word(&mut self) -> u64 {
        self.0 ^= self.0 << 13;
        self.0 ^= self.0 >> 7;
        self.0 ^= self.0 << 17;
        self.0
    }

    /// A number below `end`.
    fn below(&mut self, end: usize) -> usize {
        (self.word() >> 16) as usize % end
    }
}

impl TryRng for Random {
    type Error = Infallible;

    fn try_next_u32(&mut self) -> Result<u32, Infallible> {
        Ok((self.word() >> 32) as u32)
    }

    fn try_next_u64(&mut self) -> Result<u64, Infallible> {
        Ok(self.word())
    }

    fn try_fill_bytes(&mut self, dst: &mut [u8]) -> Result<(), Infallible> {
        for byte in dst {
            *byte = (self.word() >> 56) as u8;
        }
        Ok(())
    }
}

impl TryCryptoRng for Random {}

/// A matrix that stores its rows in one piece, or, where it is scattered, gives them word by word.
#[derive(Debug)]
struct Stored<T> {
    values: RowMajorMatrix<T>,
    is_scattered: bool,
}

impl<T: Copy> Matrix<T> for Stored<T> {
    fn height(&self) -> usize {
        self.values.height()
    }

    fn width(&self) -> usize {
        self.values.width()
    }

    fn get(&self, row: usize, column: usize) -> T {
        self.values.get(row, column)
    }

    fn piece(&self, row: usize, column: usize) -> &[T] {
        if self.is_scattered { &[] } else { self.values.piece(row, column) }
    }
}

/// One to four matrices of random words. The tallest has up to 2^`most_bits` rows, and its neighbours a height that is
/// lawful beside it.
fn random_batch<T: SaltWord>(random: &mut Random, most_bits: usize) -> Vec<Stored<T>> {
    let bits = random.below(most_bits + 1);
    let tallest = 1 + random.below(1 << bits);
    let count = 1 + random.below(4);
    let mut batch = Vec::new();
    for place in 0..count {
        let halvings = if place == 0 { 0 } else { random.below(6) };
        let height = (0..halvings).fold(tallest, |height, _| height.div_ceil(2));
        let width = 1 + random.below(24);
        let words = (0..width * height).map(|_| T::from_salt_word(random.word())).collect();
        batch.push(Stored { values: RowMajorMatrix::new(words, width), is_scattered: random.below(4) == 0 });
    }
    batch
}

/// Commits to a random batch by the functions and by the same functions on several threads, and compares what comes of
/// it: layers, caps, openings, and that each scheme accepts them.
fn plain_agrees<P, PW, H, C, const N: usize, const D: usize>(
    random: &mut Random,
    most_bits: usize,
    hash: H,
    compress: C,
) where
    P: PackedValue<Value: SaltWord + Debug + Sync>,
    PW: PackedValue<Value: Debug + Send + Sync>,
    H: CryptographicHasher<P, PW, D> + Copy + Sync,
    C: PseudoCompressionFunction<PW, N, D> + Copy + Sync,
{
    let batch = random_batch::<P::Value>(random, most_bits);
    let dimensions = dimensions_of(&batch).unwrap();
    let cap_height = random.below(3);
    let serial = MerkleTreeMmcs::<P, PW, _, _, N, D>::new(hash, compress, cap_height);
    let parallel = MerkleTreeMmcs::<P, PW, _, _, N, D>::new(Parallel(hash), Parallel(compress), cap_height);
    let (cap, tree) = serial.commit(batch.iter().collect()).unwrap();
    for (same_cap, same_tree) in
        [parallel.commit(batch.iter().collect()).unwrap(), commit(&serial, batch.iter().collect()).unwrap()]
    {
        assert_eq!(same_cap, cap, "caps of {dimensions:?}");
        assert_eq!(same_tree.num_layers(), tree.num_layers());
        for below_root in 0..tree.num_layers() {
            assert_eq!(same_tree.cap(below_root).unwrap(), tree.cap(below_root).unwrap(), "a layer of {dimensions:?}");
        }
    }
    let same_tree = tree_on_threads::<P, PW, _, _, _, N, D>(&hash, &compress, batch.iter().collect()).unwrap();
    let height = serial.get_max_height(&tree);
    let indices: Vec<usize> = (0..8).map(|_| random.below(height)).collect();
    for &index in &indices {
        let opening = parallel.open_batch(index, &same_tree).unwrap();
        assert_eq!(opening, serial.open_batch(index, &tree).unwrap());
        let opening = BatchOpeningRef::from(&opening);
        serial.verify_batch(&cap, &dimensions, index, opening).unwrap();
        parallel.verify_batch(&cap, &dimensions, index, opening).unwrap();
    }
    let pruned = parallel.open_batch_pruned(&indices, &same_tree).unwrap();
    assert_eq!(pruned, serial.open_batch_pruned(&indices, &tree).unwrap());
    let (rows, proof) = (&pruned.opened_values, &pruned.pruned_proof);
    parallel.verify_batch_pruned(&cap, &dimensions, &indices, rows, proof).unwrap();
}

/// The same of the salted scheme, with equal generators.
fn salted_agrees<P, PW, H, C, const N: usize, const D: usize>(
    random: &mut Random,
    most_bits: usize,
    hash: H,
    compress: C,
) where
    P: PackedValue<Value: SaltWord + Debug + Sync>,
    PW: PackedValue<Value: Debug + Send + Sync>,
    H: CryptographicHasher<P, PW, D> + Copy + Sync,
    C: PseudoCompressionFunction<PW, N, D> + Copy + Sync,
{
    let batch = random_batch::<P::Value>(random, most_bits);
    let dimensions = dimensions_of(&batch).unwrap();
    let mut serial = MerkleTreeHidingMmcs::<P, PW, _, _, _, N, D, 3>::new(hash, compress, 1, random.clone());
    let mut parallel =
        MerkleTreeHidingMmcs::<P, PW, _, _, _, N, D, 3>::new(Parallel(hash), Parallel(compress), 1, random.clone());
    let (cap, tree) = serial.commit(batch.iter().collect()).unwrap();
    let (same_cap, same_tree) = parallel.commit(batch.iter().collect()).unwrap();
    assert_eq!(same_cap, cap, "caps of {dimensions:?} with salts");
    for below_root in 0..tree.num_layers() {
        assert_eq!(same_tree.cap(below_root).unwrap(), tree.cap(below_root).unwrap());
    }
    let index = random.below(serial.get_max_height(&tree));
    let opening = parallel.open_batch(index, &same_tree).unwrap();
    assert_eq!(opening, serial.open_batch(index, &tree).unwrap());
    parallel.verify_batch(&cap, &dimensions, index, BatchOpeningRef::from(&opening)).unwrap();
}

/// Both schemes of the functions.
fn agrees<P, PW, H, C, const N: usize, const D: usize>(random: &mut Random, most_bits: usize, hash: H, compress: C)
where
    P: PackedValue<Value: SaltWord + Debug + Sync>,
    PW: PackedValue<Value: Debug + Send + Sync>,
    H: CryptographicHasher<P, PW, D> + Copy + Sync,
    C: PseudoCompressionFunction<PW, N, D> + Copy + Sync,
{
    plain_agrees::<P, PW, H, C, N, D>(random, most_bits, hash, compress);
    salted_agrees::<P, PW, H, C, N, D>(random, most_bits, hash, compress);
}

/// The fold functions, one message at a time, in two lanes and in eight, eight messages a call, and three.
fn fold_agrees<const N: usize, const D: usize>(random: &mut Random) {
    let (hash, compress) = (FoldHash::<1>, FoldCompress::<N, 1>);
    agrees::<u32, u32, _, _, N, D>(random, FOLD_BITS, hash, compress);
    agrees::<Lanes<u32>, Lanes<u32>, _, _, N, D>(random, FOLD_BITS, hash, compress);
    agrees::<U32x8, U32x8, _, _, N, D>(random, FOLD_BITS, hash, compress);
    agrees::<u32, u32, _, _, N, D>(random, FOLD_BITS, FoldHash::<8>, FoldCompress::<N, 8>);
    agrees::<U32x8, U32x8, _, _, N, D>(random, FOLD_BITS, FoldHash::<8>, compress);
    agrees::<u32, u32, _, _, N, D>(random, FOLD_BITS, Batched3(hash), Batched3(compress));
}

#[test]
fn trees_of_the_fold_functions_are_the_same() {
    let mut random = Random(SEED);
    for _ in 0..6 {
        fold_agrees::<2, 1>(&mut random);
        fold_agrees::<4, 3>(&mut random);
        fold_agrees::<8, 8>(&mut random);
    }
}

#[test]
fn trees_of_sha_256_are_the_same() {
    let mut random = Random(SEED + 1);
    for _ in 0..3 {
        agrees::<u8, u8, _, _, 2, 32>(&mut random, SHA_256_BITS, Sha256Rows, Sha256Nodes::<2>);
        agrees::<u8, u8, _, _, 2, 32>(&mut random, SHA_256_BITS, Sha256RowsInEights, Sha256NodesInEights::<2>);
        agrees::<u8, u8, _, _, 4, 32>(&mut random, SHA_256_BITS, Sha256RowsInEights, Sha256Nodes::<4>);
        agrees::<u8, u8, _, _, 8, 32>(&mut random, SHA_256_BITS, Sha256Rows, Sha256NodesInEights::<8>);
    }
}

/// The fold functions as functions of `L` lanes, with the number of messages of each call of many.
struct Counted<const L: usize> {
    calls: Mutex<Vec<usize>>,
}

impl<const L: usize> Counted<L> {
    fn new() -> Self {
        Counted { calls: Mutex::new(Vec::new()) }
    }

    /// Checks that the calls had `count` messages together, that there were several, and that all but one took whole
    /// lanes.
    fn check_split(self, count: usize) {
        let calls = self.calls.into_inner().unwrap();
        assert_eq!(calls.iter().sum::<usize>(), count);
        assert!(calls.len() > 1, "one call of {count} messages");
        assert!(calls.iter().filter(|&&messages| !messages.is_multiple_of(L)).count() <= 1, "{calls:?}");
    }
}

impl<const L: usize> CryptographicHasher<u32, u32, 2> for Counted<L> {
    const LANES: usize = L;

    const PREFER_CONTIGUOUS_INPUT: bool = true;

    fn hash_iter<I: Iterator<Item = u32>>(&self, input: I) -> [u32; 2] {
        CryptographicHasher::<u32, u32, 2>::hash_iter(&FoldHash::<1>, input)
    }

    fn hash_slice(&self, input: &[u32]) -> [u32; 2] {
        CryptographicHasher::<u32, u32, 2>::hash_slice(&FoldHash::<1>, input)
    }

    fn hash_iter_slices<S: AsRef<[u32]>, I: Iterator<Item = S>>(&self, input: I) -> [u32; 2] {
        CryptographicHasher::<u32, u32, 2>::hash_iter_slices(&FoldHash::<1>, input)
    }

    fn hash_many(&self, messages: &[u32], out: &mut [[u32; 2]]) {
        self.calls.lock().unwrap().push(out.len());
        CryptographicHasher::<u32, u32, 2>::hash_many(&FoldHash::<1>, messages, out);
    }

    fn hash_packed<I: Iterator<Item = u32>>(&self, input: I) -> [u32; 2] {
        CryptographicHasher::<u32, u32, 2>::hash_packed(&FoldHash::<1>, input)
    }
}

impl<const L: usize> PseudoCompressionFunction<u32, 2, 2> for Counted<L> {
    const LANES: usize = L;

    fn compress(&self, input: [[u32; 2]; 2]) -> [u32; 2] {
        PseudoCompressionFunction::<u32, 2, 2>::compress(&FoldCompress::<2, 1>, input)
    }

    fn compress_many(&self, groups: &[[[u32; 2]; 2]], out: &mut [[u32; 2]]) {
        self.calls.lock().unwrap().push(out.len());
        PseudoCompressionFunction::<u32, 2, 2>::compress_many(&FoldCompress::<2, 1>, groups, out);
    }

    fn compress_packed(&self, input: [[u32; 2]; 2]) -> [u32; 2] {
        PseudoCompressionFunction::<u32, 2, 2>::compress_packed(&FoldCompress::<2, 1>, input)
    }
}

/// Many messages are split into calls of whole lanes, and few are one call.
fn splits_in_lanes<const L: usize>(random: &mut Random) {
    let count = 40_000 + random.below(64);
    let width = 5;
    let messages: Vec<u32> = (0..count * width).map(|_| random.word() as u32).collect();
    let (mut digests, mut same) = (vec![[0; 2]; count], vec![[0; 2]; count]);
    let hash = Parallel(Counted::<L>::new());
    hash.hash_many(&messages, &mut digests);
    hash.0.check_split(count);
    CryptographicHasher::<u32, u32, 2>::hash_many(&FoldHash::<1>, &messages, &mut same);
    assert_eq!(digests, same);

    let (groups, _) = digests.as_chunks::<2>();
    let (mut nodes, mut same) = (vec![[0; 2]; groups.len()], vec![[0; 2]; groups.len()]);
    let compress = Parallel(Counted::<L>::new());
    compress.compress_many(groups, &mut nodes);
    compress.0.check_split(groups.len());
    PseudoCompressionFunction::<u32, 2, 2>::compress_many(&FoldCompress::<2, 1>, groups, &mut same);
    assert_eq!(nodes, same);

    let few = Parallel(Counted::<L>::new());
    few.hash_many(&messages[..7 * width], &mut digests[..7]);
    assert_eq!(*few.0.calls.lock().unwrap(), [7]);
}

// rayon's pool has as many threads as the machine has processors: with one, no call is split.
#[test]
fn calls_of_many_are_split_in_whole_lanes() {
    if std::thread::available_parallelism().map_or(1, |count| count.get()) == 1 {
        return;
    }
    let mut random = Random(SEED + 2);
    splits_in_lanes::<1>(&mut random);
    splits_in_lanes::<3>(&mut random);
    splits_in_lanes::<8>(&mut random);
}

#[test]
fn lanes_are_multiples_of_those_within() {
    fn lanes_of<P: PackedValue<Value: Sync + Send>, H: CryptographicHasher<P, P, 1> + Sync>(_: H) -> usize {
        <Parallel<H> as CryptographicHasher<P, P, 1>>::LANES
    }
    assert_eq!(lanes_of::<u32, _>(FoldHash::<0>), 16384);
    assert_eq!(lanes_of::<u32, _>(FoldHash::<1>), 16384);
    assert_eq!(lanes_of::<U32x8, _>(FoldHash::<1>), 16384);
    assert_eq!(lanes_of::<u32, _>(FoldHash::<3>), 16386);
    assert_eq!(lanes_of::<u32, _>(FoldHash::<20_000>), 20_000);
    assert_eq!(lanes_of::<u32, _>(FoldHash::<{ usize::MAX }>), usize::MAX);
}

#[test]
fn no_message_gives_no_digest() {
    let hash = Parallel(FoldHash::<8>);
    CryptographicHasher::<u32, u32, 1>::hash_many(&hash, &[], &mut []);
    // Three messages of no word: element 0 starts at 1.
    let mut digests = [[0]; 3];
    CryptographicHasher::<u32, u32, 1>::hash_many(&hash, &[], &mut digests);
    assert_eq!(digests, [[1]; 3]);
    PseudoCompressionFunction::<u32, 2, 1>::compress_many(&Parallel(FoldCompress::<2, 8>), &[], &mut []);
}

/// The text of the panic of a call.
fn panic_of(call: impl FnOnce() + std::panic::UnwindSafe) -> String {
    let panic = catch_unwind(call).expect_err("the call panics");
    panic.downcast_ref::<&str>().map(|text| text.to_string()).unwrap_or_else(|| *panic.downcast().unwrap())
}

#[test]
fn conditions_are_tested_before_the_split() {
    let hash =
        panic_of(|| CryptographicHasher::<u32, u32, 1>::hash_many(&Parallel(FoldHash::<8>), &[1, 2, 3], &mut [[0]; 2]));
    assert!(hash.contains("one_length"), "{hash}");
    let compress = panic_of(|| {
        PseudoCompressionFunction::<u32, 2, 1>::compress_many(
            &Parallel(FoldCompress::<2, 8>),
            &[[[1], [2]]],
            &mut [[0]; 2],
        )
    });
    assert!(compress.contains("equal_lengths"), "{compress}");
}
