//! The schemes of both libraries by one trait, whose answers are texts.

use crate::opening::{Opening, Rows};
use crate::script::RowForm;
use crate::words::{Table, Word};
use p3_commit::{BatchOpeningRef, Mmcs};
use p3_field::PackedValue;
use p3_matrix::{Dimensions, Matrix};
use p3_symmetric::{CryptographicHasher, MerkleCap, PseudoCompressionFunction};
use serde::{Deserialize, Serialize};
use std::error::Error;
use std::fmt::{self, Debug, Formatter};

/// A scheme, of either library.
pub trait Subject<T, const D: usize> {
    /// Commits to matrices.
    fn commit(&self, matrices: Vec<Table<T>>) -> Box<dyn Committed<T, D> + '_>;

    /// The cap of these matrices by a clone of the scheme.
    fn cap_by_clone(&self, matrices: Vec<Table<T>>) -> Vec<[T; D]>;

    /// Verifies the first query by itself.
    fn verify(&self, opening: &Opening<T, D>) -> Text;

    /// Verifies all queries together.
    fn verify_pruned(&self, opening: &Opening<T, D>, form: RowForm) -> Text;

    /// The calls that a plain scheme has besides.
    fn plain_calls(&self) -> Option<&dyn PlainCalls<T, D>>;
}

/// The text of an answer.
pub struct Text(String);

impl Debug for Text {
    fn fmt(&self, f: &mut Formatter<'_>) -> fmt::Result {
        f.write_str(&self.0)
    }
}

/// What a scheme committed to.
pub trait Committed<T, const D: usize> {
    /// The cap.
    fn cap(&self) -> &[[T; D]];

    /// The heights of all matrices, and the tallest one.
    fn heights(&self) -> (Vec<usize>, usize);

    /// Opens an index.
    fn open(&self, index: usize) -> Opened<T, D>;

    /// Opens several indices by one proof.
    fn open_pruned(&self, indices: &[usize]) -> Opened<T, D>;
}

/// What a scheme opens: the rows of each query, the salts of these rows, and the digests of the proof.
#[derive(Debug)]
pub struct Opened<T, const D: usize> {
    pub rows: Vec<Rows<T>>,
    pub salts: Vec<Rows<T>>,
    pub digests: Vec<[T; D]>,
}

impl<T: Debug, const D: usize> Debug for dyn Committed<T, D> + '_ {
    fn fmt(&self, f: &mut Formatter<'_>) -> fmt::Result {
        write!(f, "{:?} {:?}", self.cap(), self.heights())
    }
}

/// Calls of plain schemes, and of trees.
pub trait PlainCalls<T, const D: usize> {
    /// The number of layers of a tree, its root and each of its layers.
    fn layers(&self, matrices: Vec<Table<T>>) -> Text;

    /// How many children a node has, level by level.
    fn schedule(&self, sizes: &[Dimensions]) -> Text;

    /// The steps and positions of the first query.
    fn replay(&self, opening: &Opening<T, D>) -> Text;

    /// The paths of all queries.
    fn restore(&self, opening: &Opening<T, D>) -> Text;
}

/// A proof of one query.
pub trait Proof<T, const D: usize>: Sized {
    /// The proof of these salts and digests.
    fn new(salts: Rows<T>, digests: Vec<[T; D]>) -> Self;

    /// Its salts and digests.
    fn parts(self) -> (Rows<T>, Vec<[T; D]>);
}

/// A proof of several queries.
pub trait PrunedProof<T, const D: usize>: Sized {
    /// The proof of these salts and digests.
    fn new(salts: Vec<Rows<T>>, digests: Vec<[T; D]>) -> Self;

    /// Its salts and digests.
    fn parts(self) -> (Vec<Rows<T>>, Vec<[T; D]>);
}

impl<T, const D: usize> Proof<T, D> for Vec<[T; D]> {
    fn new(_: Rows<T>, digests: Vec<[T; D]>) -> Self {
        digests
    }

    fn parts(self) -> (Rows<T>, Vec<[T; D]>) {
        (Vec::new(), self)
    }
}

impl<T, const D: usize> Proof<T, D> for (Rows<T>, Vec<[T; D]>) {
    fn new(salts: Rows<T>, digests: Vec<[T; D]>) -> Self {
        (salts, digests)
    }

    fn parts(self) -> (Rows<T>, Vec<[T; D]>) {
        self
    }
}

impl<T, P: PrunedProof<T, D>, const D: usize> PrunedProof<T, D> for (Vec<Rows<T>>, P) {
    fn new(salts: Vec<Rows<T>>, digests: Vec<[T; D]>) -> Self {
        (salts, P::new(Vec::new(), digests))
    }

    fn parts(self) -> (Vec<Rows<T>>, Vec<[T; D]>) {
        (self.0, self.1.parts().1)
    }
}

/// A scheme of a library.
pub trait Scheme<T: Word, const D: usize>:
    Mmcs<T, Commitment = MerkleCap<T, [T; D]>, Proof: Proof<T, D>, MultiProof: PrunedProof<T, D>, Error: Error>
{
}

impl<S, T: Word, const D: usize> Scheme<T, D> for S where
    S: Mmcs<T, Commitment = MerkleCap<T, [T; D]>, Proof: Proof<T, D>, MultiProof: PrunedProof<T, D>, Error: Error>
{
}

/// The rows of a query, no two of which are equal.
struct NeverEqual<'a, T>(&'a [T]);

impl<T> AsRef<[T]> for NeverEqual<'_, T> {
    fn as_ref(&self) -> &[T] {
        self.0
    }
}

impl<T> PartialEq for NeverEqual<'_, T> {
    fn eq(&self, _: &Self) -> bool {
        false
    }
}

/// The rows of all queries in another form.
fn rows_as<'a, T, R>(rows: &'a [Rows<T>], form: impl Fn(&'a [T]) -> R) -> Vec<Vec<R>> {
    rows.iter().map(|rows| rows.iter().map(|row| form(row)).collect()).collect()
}

/// The text of what a call returns: an error with its fields, its text and its source.
fn text<V: Debug, E: Error>(result: Result<V, E>) -> Text {
    Text(match result {
        Ok(value) => format!("Ok({value:?})"),
        Err(error) => format!("{error:?}: {error}; of {:?}", error.source().map(ToString::to_string)),
    })
}

/// A scheme, with the calls of plain ones.
pub struct Asked<'a, S, T, const D: usize> {
    pub scheme: S,
    pub plain_calls: Option<&'a dyn PlainCalls<T, D>>,
}

impl<S: Scheme<T, D>, T: Word, const D: usize> Subject<T, D> for Asked<'_, S, T, D> {
    fn commit(&self, matrices: Vec<Table<T>>) -> Box<dyn Committed<T, D> + '_> {
        let (cap, data) = self.scheme.commit(matrices);
        Box::new(Prover::<S, T, D> { scheme: &self.scheme, cap, data })
    }

    fn cap_by_clone(&self, matrices: Vec<Table<T>>) -> Vec<[T; D]> {
        self.scheme.clone().commit(matrices).0.roots().to_vec()
    }

    fn verify(&self, opening: &Opening<T, D>) -> Text {
        let Opening { cap, sizes, indices, rows, salts, digests } = opening;
        let first = |lists: &[Rows<T>]| lists.first().cloned().unwrap_or_default();
        let (index, rows) = (indices.first().copied().unwrap_or(0), first(rows));
        let proof = Proof::new(first(salts), digests.clone());
        let opening = BatchOpeningRef::new(&rows, &proof);
        text(self.scheme.verify_batch(&MerkleCap::new(cap.clone()), sizes, index, opening))
    }

    fn verify_pruned(&self, opening: &Opening<T, D>, form: RowForm) -> Text {
        let Opening { cap, sizes, indices, rows, salts, digests } = opening;
        let (cap, proof) = (MerkleCap::new(cap.clone()), PrunedProof::new(salts.clone(), digests.clone()));
        let scheme = &self.scheme;
        text(match form {
            RowForm::Vectors => scheme.verify_multi_batch(&cap, sizes, indices, rows, &proof),
            RowForm::Slices => scheme.verify_multi_batch(&cap, sizes, indices, &rows_as(rows, |row| row), &proof),
            RowForm::NeverEqual => scheme.verify_multi_batch(&cap, sizes, indices, &rows_as(rows, NeverEqual), &proof),
        })
    }

    fn plain_calls(&self) -> Option<&dyn PlainCalls<T, D>> {
        self.plain_calls
    }
}

/// What a scheme committed to, with its cap.
struct Prover<'a, S: Scheme<T, D>, T: Word, const D: usize> {
    scheme: &'a S,
    cap: MerkleCap<T, [T; D]>,
    data: S::ProverData<Table<T>>,
}

impl<S: Scheme<T, D>, T: Word, const D: usize> Committed<T, D> for Prover<'_, S, T, D> {
    fn cap(&self) -> &[[T; D]] {
        self.cap.roots()
    }

    fn heights(&self) -> (Vec<usize>, usize) {
        let matrices = self.scheme.get_matrices(&self.data);
        (matrices.into_iter().map(|matrix| matrix.height()).collect(), self.scheme.get_max_height(&self.data))
    }

    fn open(&self, index: usize) -> Opened<T, D> {
        let (rows, proof) = self.scheme.open_batch(index, &self.data).unpack();
        let (salts, digests) = proof.parts();
        Opened { rows: vec![rows], salts: vec![salts], digests }
    }

    fn open_pruned(&self, indices: &[usize]) -> Opened<T, D> {
        let (rows, proof) = self.scheme.open_multi_batch(indices, &self.data);
        let (salts, digests) = proof.parts();
        Opened { rows, salts, digests }
    }
}

/// A plain scheme with its hasher and its compression.
pub struct Plain<S, H, C> {
    pub scheme: S,
    pub hash: H,
    pub compress: C,
}

/// What is written once for each library, since their types have no trait in common.
macro_rules! library {
    ($library:ident) => {
        impl<T, const D: usize> PrunedProof<T, D> for $library::PrunedMerklePaths<T, D> {
            fn new(_: Vec<Rows<T>>, digests: Vec<[T; D]>) -> Self {
                $library::PrunedMerklePaths { sibling_hashes: digests }
            }

            fn parts(self) -> (Vec<Rows<T>>, Vec<[T; D]>) {
                (Vec::new(), self.sibling_hashes)
            }
        }

        impl<P, H, C, const N: usize, const D: usize> PlainCalls<P::Value, D>
            for Plain<$library::MerkleTreeMmcs<P, P, H, C, N, D>, H, C>
        where
            P: PackedValue<Value: Word>,
            H: CryptographicHasher<P::Value, [P::Value; D]> + CryptographicHasher<P, [P; D]> + Sync,
            C: PseudoCompressionFunction<[P::Value; D], N> + PseudoCompressionFunction<[P; D], N> + Sync,
            [P::Value; D]: Serialize + for<'de> Deserialize<'de>,
        {
            fn layers(&self, matrices: Vec<Table<P::Value>>) -> Text {
                let tree =
                    $library::MerkleTree::<_, _, _, N, D>::new::<P, P, H, C>(&self.hash, &self.compress, matrices);
                let layers: Vec<_> = (0..tree.num_layers()).map(|height| tree.clone().cap(height)).collect();
                Text(format!("{} {:?} {layers:?}", tree.num_layers(), <[P::Value; D]>::from(tree.root())))
            }

            fn schedule(&self, sizes: &[Dimensions]) -> Text {
                text(self.scheme.proof_arity_schedule(sizes))
            }

            fn replay(&self, opening: &Opening<P::Value, D>) -> Text {
                let index = opening.indices.first().copied().unwrap_or(0);
                text(self.scheme.replay_arity_and_positions(&opening.sizes, index, opening.digests.len()))
            }

            fn restore(&self, opening: &Opening<P::Value, D>) -> Text {
                let Opening { sizes, indices, rows, digests, .. } = opening;
                let proof = PrunedProof::new(Vec::new(), digests.clone());
                text(self.scheme.restore_and_recompute_paths(sizes, indices, rows, &proof))
            }
        }
    };
}

library!(here);
library!(original);
