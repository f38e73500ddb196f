//! What a user of Rust expects of the types beside what they compute: matrices of several types in one batch, constants
//! that may be left out, errors that can be copied, and defaults.

use fohlazu::hashes::{FoldCompress, FoldHash, U32x8};
use fohlazu::merkle_tree::{
    ArityAndPositions, CapRule, InputPair, MerkleTreeError, MerkleTreeMmcs, Place, PrunedProofError,
};
use fohlazu::support::{
    CryptographicHasher, HorizontalPair, Matrix, PackedValue, PseudoCompressionFunction, RowMajorMatrix,
};

/// The scheme of the fold functions.
fn scheme() -> MerkleTreeMmcs<u32, u32, FoldHash<1>, FoldCompress<2, 1>, 2, 1> {
    MerkleTreeMmcs::<u32, u32, _, _, 2, 1>::new(FoldHash, FoldCompress, 0)
}

/// The numbers 0, 1, 2 and so on, each beside its square.
struct Squares(usize);

impl Matrix<u32> for Squares {
    fn height(&self) -> usize {
        self.0
    }

    fn width(&self) -> usize {
        2
    }

    fn get(&self, row: usize, column: usize) -> u32 {
        let number = row as u32;
        if column == 0 { number } else { number * number }
    }
}

#[test]
fn one_batch_has_matrices_of_several_types() -> Result<(), MerkleTreeError> {
    let stored = RowMajorMatrix::new((1..=8).collect(), 2);
    let (computed, scheme) = (Squares(8), scheme());
    let batch: Vec<&dyn Matrix<u32>> = vec![&computed, &stored];
    let (cap, tree) = scheme.commit(batch)?;
    assert_eq!(scheme.open_batch(5, &tree)?.opened_values, [vec![5, 25], vec![5, 6]]);

    let squares = RowMajorMatrix::new((0..8).flat_map(|number| [number, number * number]).collect(), 2);
    let (same_cap, _) = scheme.commit(vec![squares, stored])?;
    assert_eq!(cap.roots(), same_cap.roots());
    Ok(())
}

/// The fold functions by the calls that every hasher and compression has to have.
#[derive(Clone, Copy)]
struct Short;

impl CryptographicHasher<u32, u32, 1> for Short {
    fn hash_iter<I: Iterator<Item = u32>>(&self, input: I) -> [u32; 1] {
        CryptographicHasher::<u32, u32, 1>::hash_iter(&FoldHash::<1>, input)
    }

    fn hash_slice(&self, input: &[u32]) -> [u32; 1] {
        self.hash_iter(input.iter().copied())
    }

    fn hash_iter_slices<S: AsRef<[u32]>, I: Iterator<Item = S>>(&self, input: I) -> [u32; 1] {
        CryptographicHasher::<u32, u32, 1>::hash_iter_slices(&FoldHash::<1>, input)
    }

    fn hash_packed<I: Iterator<Item = u32>>(&self, input: I) -> [u32; 1] {
        self.hash_iter(input)
    }
}

impl PseudoCompressionFunction<u32, 2, 1> for Short {
    fn compress(&self, input: [[u32; 1]; 2]) -> [u32; 1] {
        PseudoCompressionFunction::<u32, 2, 1>::compress(&FoldCompress::<2, 1>, input)
    }

    fn compress_packed(&self, input: [[u32; 1]; 2]) -> [u32; 1] {
        self.compress(input)
    }
}

#[test]
fn constants_may_be_left_out() -> Result<(), MerkleTreeError> {
    assert_eq!(<Short as CryptographicHasher<u32, u32, 1>>::LANES, 1);
    const { assert!(!<Short as CryptographicHasher<u32, u32, 1>>::PREFER_CONTIGUOUS_INPUT) };
    assert_eq!(<Short as PseudoCompressionFunction<u32, 2, 1>>::LANES, 1);
    // The README's rows, whose root is worked out there.
    let (cap, _) = MerkleTreeMmcs::<u32, u32, _, _, 2, 1>::new(Short, Short, 0)
        .commit(vec![RowMajorMatrix::new(vec![1, 2, 3, 4], 1)])?;
    assert_eq!(cap.roots(), [[0x8081]]);
    Ok(())
}

/// Whether a value and its clone are equal.
fn is_cloned<T: Clone + PartialEq>(value: &T) -> bool {
    value.clone() == *value
}

/// A value that is copied, in both places.
fn twice<T: Copy>(value: T) -> [T; 2] {
    [value, value]
}

#[test]
fn errors_and_places_are_copied() {
    let slot = PrunedProofError::InconsistentDuplicateOpenings { slot: 3 };
    let [error, same] = twice(MerkleTreeError::from(slot));
    assert_eq!(error, same);
    assert_eq!(error.to_string(), same.to_string());
    let [place, same] = twice(Place::Leaf);
    assert_eq!(place, same);
}

#[test]
fn values_are_cloned_and_compared() {
    let matrix = RowMajorMatrix::new(vec![1u32, 2, 3, 4], 2);
    assert!(is_cloned(&matrix));
    assert_ne!(matrix, RowMajorMatrix::new(vec![1u32, 2, 3, 4], 1));
    let pair = HorizontalPair::new(&matrix, &matrix);
    assert_eq!(twice(pair)[1].row(1).collect::<Vec<_>>(), [3, 4, 3, 4]);
    assert!(is_cloned(&U32x8::broadcast(7)));
    let _: fn(&ArityAndPositions) -> bool = is_cloned;
    let _: fn(&InputPair<u32, [u32; 1]>) -> bool = is_cloned;
}

/// What a caller gets that names no value.
fn of_default<T: Default>() -> T {
    T::default()
}

#[test]
fn defaults_are_what_new_and_the_scheme_take() {
    assert_eq!(CapRule::default(), CapRule::Lowered);
    assert_eq!(RowMajorMatrix::<u32>::default(), RowMajorMatrix::new(Vec::new(), 0));
    assert_eq!(U32x8::default(), U32x8::broadcast(0));
    let scheme = MerkleTreeMmcs::<u32, u32, FoldHash<4>, FoldCompress<2, 4>, 2, 1>::new(of_default(), of_default(), 0);
    assert_eq!(scheme.cap_rule(), CapRule::default());
}
