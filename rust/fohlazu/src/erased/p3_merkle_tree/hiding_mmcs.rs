// Made from crates/p3_merkle_tree/src/hiding_mmcs.rt by tools/erase.

//! The salted scheme: its type, its constructors, its commitments, and forks with a generator of their own. For a
//! commitment heights and widths are checked, salts are drawn, and the plain scheme commits.

use crate::erased::p3_merkle_core::cap::CapRule;
use crate::erased::p3_merkle_core::error::MerkleTreeError;
use crate::erased::p3_merkle_core::gate::check_heights;
use crate::erased::p3_merkle_core::pruning::PrunedMerklePaths;
use crate::erased::p3_merkle_prover::checked::CheckedMatrices;
use crate::erased::p3_merkle_prover::tree::MerkleTree;
use crate::erased::p3_merkle_tree::mmcs::{MerkleTreeMmcs, Scheme};
use crate::erased::p3_merkle_tree::salts::{check_widening, widened_dimensions};
use crate::erased::p3_support::compress::PseudoCompressionFunction;
use crate::erased::p3_support::hasher::CryptographicHasher;
use crate::erased::p3_support::matrix::{Dimensions, Matrix, RowMajorMatrix, dimensions_of};
use crate::erased::p3_support::opening::MerkleCap;
use crate::erased::p3_support::packed::PackedValue;
use crate::erased::p3_support::pair::HorizontalPair;
use crate::erased::p3_support::salts::SaltWord;
use crate::fallible::{AllocError, VecExt};
use alloc::vec::Vec;
use core::marker::PhantomData;
use rand_core::{CryptoRng, Rng, SeedableRng};

/// The salted scheme of a hasher `H` and a compression `C`, with digests `X` and groups `G` of `N` digests. `P` packs
/// the words of rows, and `PW` those of digests; the generator `R` draws `SALT_ELEMS` salts for each row.
/// [`MerkleTreeHidingMmcs`] is this scheme at digests of words.
///
/// `SALT_ELEMS` is at least 1; the other parameters are as in [`Scheme`].
#[derive(Debug)]
pub struct HidingScheme<
    P: PackedValue,
    PW: PackedValue,
    H: CryptographicHasher<P, PW, D>,
    C: PseudoCompressionFunction<PW, N, D>,
    R,
    X,
    G,
    const N: usize,
    const D: usize,
    const SALT_ELEMS: usize,
> {
    pub(crate) plain: Scheme<P, PW, H, C, X, G, N, D>,
    pub(crate) generator: R,
}

/// A scheme that commits to matrices of words `P::Value`, each row followed by `SALT_ELEMS` random words, by digests of
/// `D` words `PW::Value`, where a node has at most `N` children (`MerkleTreeHidingMmcs` in Plonky3).
pub type MerkleTreeHidingMmcs<
    P: PackedValue,
    PW: PackedValue,
    H: CryptographicHasher<P, PW, D>,
    C: PseudoCompressionFunction<PW, N, D>,
    R,
    const N: usize,
    const D: usize,
    const SALT_ELEMS: usize,
> = HidingScheme<P, PW, H, C, R, [PW::Value; D], [[PW::Value; D]; N], N, D, SALT_ELEMS>;

/// A tree over matrices `M` of values `T`, each beside its salts, with digests of `D` words `W`.
pub type SaltedTree<T, W, M, const N: usize, const D: usize> =
    MerkleTree<T, W, HorizontalPair<T, M, RowMajorMatrix<T>>, N, D>;

/// The proof of one index: the salts of each row, and the siblings on the path.
pub type SaltedProof<T, W, const D: usize> = (Vec<Vec<T>>, Vec<[W; D]>);

/// The proof of several indices: the salts of each row of each index, and one pruned proof.
pub type SaltedMultiProof<T, W, const D: usize> = (Vec<Vec<Vec<T>>>, PrunedMerklePaths<W, D>);

impl<
    P: PackedValue,
    PW: PackedValue,
    H: CryptographicHasher<P, PW, D>,
    C: PseudoCompressionFunction<PW, N, D>,
    R,
    X,
    G,
    const N: usize,
    const D: usize,
    const SALT_ELEMS: usize,
> HidingScheme<P, PW, H, C, R, X, G, N, D, SALT_ELEMS>
{
    /// The cap height that was given to [`new`](Self::new), in levels below the root.
    pub fn cap_height(&self) -> usize {
        self.plain.cap_height()
    }

    /// The rule that chooses the cap's layer.
    pub fn cap_rule(&self) -> CapRule {
        self.plain.cap_rule()
    }

    /// A scheme that accepts the same openings, with a generator of its own. The new generator is seeded with the next
    /// bytes of this scheme's generator, which then continues after them. That the two draw different salts is not
    /// proved. It can't be cloned, since a clone would draw the same salts again.
    ///
    /// # Errors
    ///
    /// None today: it does not allocate. The `Result` leaves room for a scheme that does.
    pub fn fork(&mut self) -> Result<Self, MerkleTreeError>
    where
        H: Copy,
        C: Copy,
        R: CryptoRng + SeedableRng,
        X: Copy,
        G: Copy,
    {
        let generator = R::from_rng(&mut self.generator);
        Ok(HidingScheme { plain: self.plain, generator })
    }
}

impl<
    P: PackedValue,
    PW: PackedValue,
    H: CryptographicHasher<P, PW, D>,
    C: PseudoCompressionFunction<PW, N, D>,
    R,
    const N: usize,
    const D: usize,
    const SALT_ELEMS: usize,
> MerkleTreeHidingMmcs<P, PW, H, C, R, N, D, SALT_ELEMS>
{
    /// The salted scheme of a hasher and a compression. Its cap is the layer `cap_height` levels below the root, or the
    /// highest layer to which a matrix belongs if that is nearer to the root. This is the rule [`CapRule::Lowered`],
    /// under which a cap binds every row and salt of every matrix. `SALT_ELEMS` salts a row are drawn from `rng`.
    ///
    /// `SALT_ELEMS` must be at least 1, `N` a power of two from 2 to 2^62, and both packings must have equally many
    /// lanes, at least one. It does not allocate.
    pub fn new(
        hash: H,
        compress: C,
        cap_height: usize,
        rng: R,
    ) -> MerkleTreeHidingMmcs<P, PW, H, C, R, N, D, SALT_ELEMS> {
        Self::new_with_rule(hash, compress, cap_height, rng, CapRule::Lowered)
    }

    /// The salted scheme as [`new`](Self::new) builds it, under the same conditions, but with `rule` to choose the
    /// cap's layer: see [`CapRule`]. A cap of one rule is in general refused under the other. It does not allocate.
    ///
    /// The compiler refuses a call that breaks one of these:
    ///
    /// - `arity`: `N.is_power_of_two() && 2 <= N && N <= 1 << 62`.
    /// - `lanes`: `P::WIDTH == PW::WIDTH`.
    /// - `some_lane`: `1 <= P::WIDTH`.
    /// - `some_salt`: `1 <= SALT_ELEMS`.
    pub fn new_with_rule(
        hash: H,
        compress: C,
        cap_height: usize,
        rng: R,
        rule: CapRule,
    ) -> MerkleTreeHidingMmcs<P, PW, H, C, R, N, D, SALT_ELEMS> {
        const { assert!(N.is_power_of_two() && 2 <= N && N <= 1 << 62, "arity") };
        const { assert!(P::WIDTH == PW::WIDTH, "lanes") };
        const { assert!(1 <= P::WIDTH, "some_lane") };
        const { assert!(1 <= SALT_ELEMS, "some_salt") };
        HidingScheme { plain: MerkleTreeMmcs::new_with_rule(hash, compress, cap_height, rule), generator: rng }
    }

    /// Commits to matrices, each row followed by its salts. Returns the cap of their tree, and the tree, which owns
    /// each matrix beside its salts, in input order. It is the plain scheme's commitment to the salted matrices.
    ///
    /// The salts are drawn from the scheme's generator, `SALT_ELEMS` for each row: matrix by matrix in input order, row
    /// by row, each from one call of `next_u64`. The next commitment draws from where this one ended.
    ///
    /// # Errors
    ///
    /// The first of these that applies, where `OutOfMemory` may come at any time:
    ///
    /// - `EmptyBatch` if no matrix has a row;
    /// - `TooLarge` for the first height above 2^62;
    /// - `IncompatibleHeights` for the first height that is not the tallest one halved and rounded up some number of
    ///   times;
    /// - `TooLarge` for the first matrix whose width with its salts does not fit `usize`, with its width as the size.
    ///
    /// These four draw nothing from the generator. With `OutOfMemory` the generator has drawn the salts of the first
    /// few matrices, perhaps of none or of all.
    pub fn commit<M: Matrix<P::Value>>(
        &mut self,
        matrices: Vec<M>,
    ) -> Result<(MerkleCap<P::Value, [PW::Value; D]>, SaltedTree<P::Value, PW::Value, M, N, D>), MerkleTreeError>
    where
        R: CryptoRng,
        P::Value: SaltWord,
    {
        let dimensions = salted_dimensions(&matrices, SALT_ELEMS)?;
        let pairs = salted_pairs(&mut self.generator, dimensions, SALT_ELEMS, matrices)?;
        self.plain.commit_checked(pairs)
    }
}

/// The dimensions of `matrices` with `salt_elems` more columns each. It checks that a tree can be built over their
/// heights, and that each width fits `usize` with the further columns: the errors are those of [`check_heights`], then
/// those of [`check_widening`]. `OutOfMemory` may come at any time.
fn salted_dimensions<T, M: Matrix<T>>(matrices: &[M], salt_elems: usize) -> Result<Vec<Dimensions>, MerkleTreeError> {
    let dimensions = dimensions_of(matrices)?;
    check_heights(&dimensions)?;
    check_widening(&dimensions, salt_elems)?;
    Ok(widened_dimensions(&dimensions, salt_elems)?)
}

/// Draws `salt_elems` salts, at least 1, for each row of `matrices`, and returns each matrix beside its salts. Each
/// salt takes one call of `next_u64`: matrix by matrix in input order, row by row. `dimensions` must be what
/// [`salted_dimensions`] returns of the matrices. `AllocError` if memory runs out.
fn salted_pairs<T: SaltWord, M: Matrix<T>, R: Rng>(
    rng: &mut R,
    dimensions: Vec<Dimensions>,
    salt_elems: usize,
    matrices: Vec<M>,
) -> Result<CheckedMatrices<T, HorizontalPair<T, M, RowMajorMatrix<T>>>, AllocError> {
    let mut pairs = Vec::with_room(matrices.len())?;
    for matrix in matrices {
        let salts = RowMajorMatrix::rand(rng, matrix.height(), salt_elems)?;
        pairs.try_push(HorizontalPair::new(matrix, salts))?;
    }
    Ok(CheckedMatrices { matrices: pairs, dimensions, item: PhantomData })
}
