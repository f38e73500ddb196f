//! Commits to two matrices of bytes, opens a row of each, verifies it, and refuses another row.

use fohlazu::hashes::{Sha256Nodes, Sha256Rows};
use fohlazu::merkle_tree::{MerkleTreeError, MerkleTreeMmcs};
use fohlazu::support::{RowMajorMatrix, dimensions_of};

pub fn main() -> Result<(), MerkleTreeError> {
    // SHA-256 over bytes, two children a node, digests of 32 bytes. The cap is the root.
    let scheme = MerkleTreeMmcs::<u8, u8, _, _, 2, 32>::new(Sha256Rows, Sha256Nodes::<2>, 0);
    let matrices = vec![RowMajorMatrix::new((0..24).collect(), 3), RowMajorMatrix::new((0..8).collect(), 2)];
    let dimensions = dimensions_of(&matrices)?;
    let (cap, tree) = scheme.commit(matrices)?;
    let mut opening = scheme.open_batch(5, &tree)?;
    assert_eq!(opening.opened_values, [vec![15, 16, 17], vec![4, 5]]);
    scheme.verify_batch(&cap, &dimensions, 5, (&opening).into())?;
    opening.opened_values[0][0] += 1;
    let verdict = scheme.verify_batch(&cap, &dimensions, 5, (&opening).into());
    assert_eq!(verdict, Err(MerkleTreeError::CapMismatch));
    Ok(())
}
