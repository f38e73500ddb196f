//! A program as users of p3-merkle-tree 0.8.0 write it: it commits, opens and verifies by either scheme, which it knows
//! by the trait `Mmcs` alone, and prints what it sees. It compiles against p3-merkle-tree and against fohlazu-p3 as it
//! stands, and prints the same: `python3 rust/compare program UPSTREAM` sees to that.

#[path = "../tests/user_program/field.rs"]
mod field;

use field::{Field4, ToyCompression, ToyField, ToyHash, ToyRng};
use p3_commit::{BatchOpeningRef, Mmcs};
use p3_matrix::dense::RowMajorMatrix;
use p3_matrix::{Dimensions, Matrix};
use p3_merkle_tree::{MerkleTreeHidingMmcs, MerkleTreeMmcs};
use std::fmt::{Debug, Display};

/// Four children a node, and digests of four elements.
type Plain = MerkleTreeMmcs<Field4, Field4, ToyHash, ToyCompression, 4, 4>;

/// Two children a node, and three salts a row.
type Salted = MerkleTreeHidingMmcs<Field4, Field4, ToyHash, ToyCompression, ToyRng, 2, 4, 3>;

/// A matrix of squares.
fn squares(width: usize, height: usize, first: u32) -> RowMajorMatrix<ToyField> {
    let square = |k: usize| ToyField::new((first + k as u32).pow(2));
    RowMajorMatrix::new((0..width * height).map(square).collect(), width)
}

/// The verdict, as a word or by the error's text.
fn verdict<E: Display>(result: Result<(), E>) -> String {
    result.map_or_else(|error| error.to_string(), |()| "accepted".to_owned())
}

/// A batch of traces, with what is known of it beforehand.
struct Traces<'a, S: Mmcs<ToyField>> {
    scheme: &'a S,
    dimensions: Vec<Dimensions>,
    commitment: S::Commitment,
    data: S::ProverData<RowMajorMatrix<ToyField>>,
}

impl<'a, S: Mmcs<ToyField>> Traces<'a, S>
where
    S::Commitment: Debug,
    S::Proof: Debug,
    S::MultiProof: Debug,
    S::Error: Display,
{
    /// Commits to three matrices, one of which has half the rows of the others.
    fn commit(scheme: &'a S) -> Self {
        let matrices = vec![squares(3, 13, 1), squares(2, 7, 50), squares(1, 13, 90)];
        let dimensions = matrices.iter().map(|matrix| matrix.dimensions()).collect();
        let (commitment, data) = scheme.commit(matrices);
        println!("commitment {commitment:?}");
        Traces { scheme, dimensions, commitment, data }
    }

    /// Opens one leaf, and verifies it as it is and with another word.
    fn query(&self, index: usize) {
        let (mut rows, proof) = self.scheme.open_batch(index, &self.data).unpack();
        println!("index {index}: {rows:?} by {proof:?}");
        for change in [0, 1] {
            rows[1][0] = rows[1][0] + ToyField::new(change);
            let opening = BatchOpeningRef::new(&rows, &proof);
            let result = self.scheme.verify_batch(&self.commitment, &self.dimensions, index, opening);
            println!("    {}", verdict(result));
        }
    }

    /// Opens several leaves by one proof, and verifies them as they are and with a row set less.
    fn queries(&self, indices: &[usize]) {
        let (sets, proof) = self.scheme.open_multi_batch(indices, &self.data);
        println!("indices {indices:?}: {sets:?} by {proof:?}");
        for sets in [&sets[..], &sets[1..]] {
            let result = self.scheme.verify_multi_batch(&self.commitment, &self.dimensions, indices, sets, &proof);
            println!("    {}", verdict(result));
        }
    }

    /// Shows the tallest height and what the prover keeps, and goes through both kinds of queries.
    fn show(&self) {
        let widths: Vec<usize> = self.scheme.get_matrices(&self.data).iter().map(|matrix| matrix.width()).collect();
        println!("widths {widths:?}, {} leaves", self.scheme.get_max_height(&self.data));
        for index in [0, 5, 12] {
            self.query(index);
        }
        self.queries(&[3]);
        self.queries(&[12, 0, 7, 12]);
    }
}

fn main() {
    for cap_height in [0, 1, 9] {
        println!("plain, cap height {cap_height}");
        Traces::commit(&Plain::new(ToyHash, ToyCompression, cap_height)).show();
        println!("salted, cap height {cap_height}");
        Traces::commit(&Salted::new(ToyHash, ToyCompression, cap_height, ToyRng::new(7))).show();
    }
}
