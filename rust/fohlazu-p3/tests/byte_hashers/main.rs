//! Openings under a hasher of bytes, whose verifier needs no field: field elements are hashed as their bytes, so the
//! rows of an opening are verified as rows of bytes, by `fohlazu` alone.

use fohlazu::hashes::{Sha256Nodes, Sha256Rows};
use fohlazu::merkle_tree::{self as verifier, CapRule};
use fohlazu::support::{Dimensions, RowParts, RowSets};
use p3_baby_bear::BabyBear;
use p3_commit::Mmcs;
use p3_field::{PrimeCharacteristicRing, RawDataSerializable};
use p3_matrix::Matrix;
use p3_matrix::dense::RowMajorMatrix;
use p3_merkle_tree::MerkleTreeMmcs;
use p3_symmetric::{CompressionFunctionFromHasher, CryptographicHasher, SerializingHasher};
use sha2::{Digest, Sha256};

/// SHA-256, as `p3-sha256` has it.
#[derive(Clone, Copy, Debug)]
struct Sha;

impl CryptographicHasher<u8, [u8; 32]> for Sha {
    fn hash_iter<I: IntoIterator<Item = u8>>(&self, input: I) -> [u8; 32] {
        Sha256::digest(input.into_iter().collect::<Vec<_>>())
    }
}

/// The prover's scheme: field elements are hashed as their bytes, four an element, and digests have 32 bytes.
type Prover = MerkleTreeMmcs<BabyBear, u8, SerializingHasher<Sha>, CompressionFunctionFromHasher<Sha, 2, 32>, 2, 32>;

/// The verifier's scheme: SHA-256 of bytes, with no field.
type Verifier = verifier::MerkleTreeMmcs<u8, u8, Sha256Rows, Sha256Nodes<2>, 2, 32>;

/// How many bytes a field element has.
const ELEMENT_BYTES: usize = 4;

/// A matrix of some elements, row after row.
fn matrix(width: usize, height: usize, seed: u32) -> RowMajorMatrix<BabyBear> {
    let element = |k: usize| BabyBear::from_u32(seed + 1_000_003 * k as u32);
    RowMajorMatrix::new((0..width * height).map(element).collect(), width)
}

/// The bytes of a row. Take those that the hasher takes: `into_bytes` of the field.
fn bytes_of(row: &[BabyBear]) -> Vec<u8> {
    row.iter().flat_map(|element| element.into_bytes()).collect()
}

/// The dimensions of the matrices for a verifier of bytes: a row is as many times wider as an element has bytes.
fn dimensions_in_bytes(matrices: &[RowMajorMatrix<BabyBear>]) -> Vec<Dimensions> {
    let of = |matrix: &RowMajorMatrix<BabyBear>| Dimensions {
        width: ELEMENT_BYTES * matrix.width(),
        height: matrix.height(),
    };
    matrices.iter().map(of).collect()
}

#[test]
fn rows_of_field_elements_are_verified_as_rows_of_bytes() {
    let prover = Prover::new(SerializingHasher::new(Sha), CompressionFunctionFromHasher::new(Sha), 1);
    // The verifier takes the caps of `new` by the rule `Fixed`, and those of `with_lowered_cap` by `Lowered`.
    let verifier = Verifier::new_with_rule(Sha256Rows, Sha256Nodes, 1, CapRule::Fixed);
    let matrices = vec![matrix(3, 11, 1), matrix(2, 6, 77)];
    let dimensions = dimensions_in_bytes(&matrices);
    let (cap, data) = prover.commit(matrices);

    for index in 0..11 {
        let (rows, siblings) = prover.open_batch(index, &data).unpack();
        let mut rows: Vec<Vec<u8>> = rows.iter().map(|row| bytes_of(row)).collect();
        let verify =
            |rows: &[Vec<u8>]| verifier.verify_rows(cap.roots(), &dimensions, index, RowParts::Vecs(rows), &siblings);
        assert_eq!(verify(&rows), Ok(()));
        rows[1][5] ^= 1;
        assert_eq!(verify(&rows), Err(verifier::MerkleTreeError::CapMismatch));
    }

    let indices = [9, 0, 9, 4];
    let (sets, proof) = prover.open_multi_batch(&indices, &data);
    let sets: Vec<Vec<Vec<u8>>> = sets.iter().map(|rows| rows.iter().map(|row| bytes_of(row)).collect()).collect();
    let digests = &proof.sibling_hashes;
    let verdict = verifier.verify_row_sets(cap.roots(), &dimensions, &indices, RowSets::Vecs(&sets), digests);
    assert_eq!(verdict, Ok(()));
}
