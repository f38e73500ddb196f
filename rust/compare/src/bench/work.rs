//! What a line times, by both schemes. What both return is compared once, before it is timed.

use super::functions::{Counting, Functions};
use super::lines::Work;
use super::times::{Times, alternate};
use p3_commit::{BatchOpening, BatchOpeningRef, Mmcs};
use p3_field::PackedValue;
use p3_matrix::Dimensions;
use p3_matrix::dense::RowMajorMatrix;
use p3_symmetric::MerkleCap;
use rand::SeedableRng;
use rand::distr::{Distribution, StandardUniform};
use serde::{Deserialize, Serialize};
use std::fmt::Debug;

/// How many salts a row has in the salted scheme.
const SALTS: usize = 4;

/// Matrices of these dimensions, whose words are computed from their numbers.
fn matrices<W: From<u8> + Clone + Send + Sync>(dimensions: &[Dimensions]) -> Vec<RowMajorMatrix<W>> {
    let words = |count: usize| (0..count).map(|number| W::from((number * 31 % 251) as u8)).collect();
    let matrix = |size: &Dimensions| RowMajorMatrix::new(words(size.width * size.height), size.width);
    dimensions.iter().map(matrix).collect()
}

/// So many random indices of leaves.
fn indices(queries: usize, dimensions: &[Dimensions]) -> Vec<usize> {
    let height = dimensions.iter().map(|size| size.height).max().expect("a matrix");
    let mut state = 0x9e37_79b9_7f4a_7c15u64;
    let index = |_| {
        // Marsaglia's xorshift.
        state ^= state << 13;
        state ^= state >> 7;
        state ^= state << 17;
        (state >> 40) as usize % height
    };
    (0..queries).map(index).collect()
}

/// What words of a line are.
pub trait Word: From<u8> + Debug + Serialize + for<'de> Deserialize<'de> {}

impl<W: From<u8> + Debug + Serialize + for<'de> Deserialize<'de>> Word for W {}

/// What a scheme keeps of a commit.
type Kept<W, S> = <S as Mmcs<W>>::ProverData<RowMajorMatrix<W>>;

/// What a scheme opens by one proof: the rows of each index, and the proof.
type Opened<W, S> = (Vec<Vec<Vec<W>>>, <S as Mmcs<W>>::MultiProof);

/// Both schemes of the same functions, and what is committed to.
struct Both<'a, W, A, B> {
    here: &'a A,
    original: &'a B,
    dimensions: &'a [Dimensions],
    matrices: &'a [RowMajorMatrix<W>],
}

impl<W, X, A, B> Both<'_, W, A, B>
where
    W: Clone + Send + Sync + PartialEq + Debug,
    X: PartialEq + Debug,
    A: Mmcs<W, Commitment = MerkleCap<W, X>, Proof: PartialEq + Debug, MultiProof: Debug>,
    B: Mmcs<W, Commitment = MerkleCap<W, X>, Proof = A::Proof, MultiProof: Debug>,
{
    /// Times commits, of matrices that are copied before.
    fn commit(&self) -> Times {
        self.committed();
        alternate(
            || self.matrices.to_vec(),
            |matrices| self.here.commit(matrices),
            |matrices| self.original.commit(matrices),
        )
    }

    /// The cap, and what each scheme keeps of a commit.
    fn committed(&self) -> (A::Commitment, Kept<W, A>, Kept<W, B>) {
        let (cap, here) = self.here.commit(self.matrices.to_vec());
        let (original_cap, original) = self.original.commit(self.matrices.to_vec());
        assert_eq!(cap.roots(), original_cap.roots(), "caps");
        (cap, here, original)
    }

    /// The cap, and what both open, each index by its own proof.
    fn opened(&self, indices: &[usize]) -> (A::Commitment, Vec<BatchOpening<W, A>>, Vec<BatchOpening<W, B>>) {
        let (cap, here, original) = self.committed();
        let (here, original) = (open_each(self.here, &here, indices), open_each(self.original, &original, indices));
        assert_eq!(here.len(), original.len(), "openings");
        for (ours, theirs) in here.iter().zip(&original) {
            assert_eq!(ours.opened_values, theirs.opened_values, "rows");
            assert_eq!(ours.opening_proof, theirs.opening_proof, "proofs");
        }
        (cap, here, original)
    }

    /// Times openings, each by its own proof.
    fn open(&self, indices: &[usize]) -> Times {
        self.opened(indices);
        let (_, here, original) = self.committed();
        alternate(|| (), |()| open_each(self.here, &here, indices), |()| open_each(self.original, &original, indices))
    }

    /// Times the verification of openings, each by its own proof.
    fn verify(&self, indices: &[usize]) -> Times {
        let (cap, here, original) = self.opened(indices);
        alternate(
            || (),
            |()| verify_each(self.here, &cap, self.dimensions, indices, &here),
            |()| verify_each(self.original, &cap, self.dimensions, indices, &original),
        )
    }

    /// Times openings by one proof.
    fn open_together(&self, indices: &[usize]) -> Times {
        self.opened_together(indices);
        let (_, here, original) = self.committed();
        alternate(
            || (),
            |()| self.here.open_multi_batch(indices, &here),
            |()| self.original.open_multi_batch(indices, &original),
        )
    }

    /// The cap, and what both open by one proof.
    fn opened_together(&self, indices: &[usize]) -> (A::Commitment, (Opened<W, A>, Opened<W, B>)) {
        let (cap, here, original) = self.committed();
        let opened = (self.here.open_multi_batch(indices, &here), self.original.open_multi_batch(indices, &original));
        assert_eq!(format!("{:?}", opened.0), format!("{:?}", opened.1), "openings");
        (cap, opened)
    }

    /// Times the verification of openings by one proof.
    fn verify_together(&self, indices: &[usize]) -> Times {
        let (cap, ((sets, proof), (_, original_proof))) = self.opened_together(indices);
        alternate(
            || (),
            |()| self.here.verify_multi_batch(&cap, self.dimensions, indices, &sets, &proof).expect("a proof"),
            |()| {
                let verdict = self.original.verify_multi_batch(&cap, self.dimensions, indices, &sets, &original_proof);
                verdict.expect("a proof")
            },
        )
    }
}

/// Opens each index by its own proof.
fn open_each<W: Clone + Send + Sync, S: Mmcs<W>>(
    scheme: &S,
    data: &Kept<W, S>,
    indices: &[usize],
) -> Vec<BatchOpening<W, S>> {
    indices.iter().map(|&index| scheme.open_batch(index, data)).collect()
}

/// Verifies each opening.
fn verify_each<W: Clone + Send + Sync, S: Mmcs<W>>(
    scheme: &S,
    cap: &S::Commitment,
    dimensions: &[Dimensions],
    indices: &[usize],
    openings: &[BatchOpening<W, S>],
) {
    for (&index, opening) in indices.iter().zip(openings) {
        scheme.verify_batch(cap, dimensions, index, BatchOpeningRef::from(opening)).expect("a proof");
    }
}

/// The plain schemes of functions.
macro_rules! plain {
    ($functions:expr) => {
        (
            here::MerkleTreeMmcs::<P, P, F, F, N, D>::new($functions, $functions, 0),
            original::MerkleTreeMmcs::<P, P, F, F, N, D>::new($functions, $functions, 0),
        )
    };
}

/// The salted schemes of functions.
macro_rules! salted {
    ($functions:expr) => {{
        let salts = Counting::from_seed([0; 8]);
        (
            here::MerkleTreeHidingMmcs::<P, P, F, F, Counting, N, D, SALTS>::new(
                $functions,
                $functions,
                0,
                salts.clone(),
            ),
            original::MerkleTreeHidingMmcs::<P, P, F, F, Counting, N, D, SALTS>::new($functions, $functions, 0, salts),
        )
    }};
}

/// Times commits by the plain schemes.
pub fn commit<P, F, const N: usize, const D: usize>(functions: F, dimensions: &[Dimensions]) -> Times
where
    P: PackedValue<Value: Word>,
    F: Functions<P, N, D>,
    [P::Value; D]: Serialize + for<'de> Deserialize<'de>,
{
    let (here, original) = &plain!(functions);
    Both { here, original, dimensions, matrices: &matrices(dimensions) }.commit()
}

/// Times commits by the salted schemes.
pub fn commit_salted<P, F, const N: usize, const D: usize>(functions: F, dimensions: &[Dimensions]) -> Times
where
    P: PackedValue<Value: Word>,
    F: Functions<P, N, D>,
    [P::Value; D]: Serialize + for<'de> Deserialize<'de>,
    StandardUniform: Distribution<P::Value>,
{
    let (here, original) = &salted!(functions);
    Both { here, original, dimensions, matrices: &matrices(dimensions) }.commit()
}

/// Times openings by the plain schemes, or what is done with them.
pub fn open<P, F, const N: usize, const D: usize>(
    functions: F,
    work: Work,
    queries: usize,
    dimensions: &[Dimensions],
) -> Times
where
    P: PackedValue<Value: Word>,
    F: Functions<P, N, D>,
    [P::Value; D]: Serialize + for<'de> Deserialize<'de>,
{
    let indices = &indices(queries, dimensions);
    let (here, original) = &plain!(functions);
    let both = Both { here, original, dimensions, matrices: &matrices(dimensions) };
    match work {
        Work::Open => both.open(indices),
        Work::Verify => both.verify(indices),
        Work::OpenTogether => both.open_together(indices),
        Work::VerifyTogether => both.verify_together(indices),
        Work::Restore => {
            let (_, ((sets, proof), (_, original_proof))) = both.opened_together(indices);
            let ours = || here.restore_and_recompute_paths(dimensions, indices, &sets, &proof).expect("a proof");
            let theirs =
                || original.restore_and_recompute_paths(dimensions, indices, &sets, &original_proof).expect("a proof");
            assert_eq!(format!("{:?}", ours()), format!("{:?}", theirs()), "paths");
            alternate(|| (), |()| ours(), |()| theirs())
        }
        Work::Commit => unreachable!("a commit opens nothing"),
    }
}

/// Times openings by the salted schemes, or their verification.
pub fn open_salted<P, F, const N: usize, const D: usize>(
    functions: F,
    work: Work,
    queries: usize,
    dimensions: &[Dimensions],
) -> Times
where
    P: PackedValue<Value: Word>,
    F: Functions<P, N, D>,
    [P::Value; D]: Serialize + for<'de> Deserialize<'de>,
    StandardUniform: Distribution<P::Value>,
{
    let indices = &indices(queries, dimensions);
    let (here, original) = &salted!(functions);
    let both = Both { here, original, dimensions, matrices: &matrices(dimensions) };
    match work {
        Work::Open => both.open(indices),
        Work::Verify => both.verify(indices),
        _ => unreachable!("no line of the salted schemes"),
    }
}
