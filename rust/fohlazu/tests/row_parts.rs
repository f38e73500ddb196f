//! Rows that are verified where they lie: each form has the verdict of the same rows in vectors.

mod common;

use common::{ChaCha20, Counting, Words};
use fohlazu::hashes::{FoldCompress, FoldHash};
use fohlazu::merkle_tree::{BatchOpeningRef, MerkleTreeError, MerkleTreeHidingMmcs, MerkleTreeMmcs};
use fohlazu::support::{Dimensions, RowMajorMatrix, RowParts, RowSets, dimensions_of};
use rand_core::SeedableRng;

type Plain = MerkleTreeMmcs<u32, u32, FoldHash<1>, FoldCompress<2, 1>, 2, 1>;
type Salted = MerkleTreeHidingMmcs<u32, u32, FoldHash<1>, FoldCompress<2, 1>, Counting, 2, 1, 2>;

/// A number below `end`, which is above 0.
fn below(rng: &mut ChaCha20, end: usize) -> usize {
    rng.next() as usize % end
}

/// Matrices of the heights 11, 6, 3 and 2, of up to three columns.
fn matrices(rng: &mut ChaCha20) -> Vec<RowMajorMatrix<u32>> {
    let matrix = |height: usize| {
        let width = 1 + below(rng, 3);
        RowMajorMatrix::new((0..height * width).map(|_| rng.next() as u32).collect(), width)
    };
    [11, 6, 3, 2].map(matrix).into()
}

/// Changes a word, or the lengths of rows, or nothing.
fn disturb(rng: &mut ChaCha20, rows: &mut Vec<Vec<u32>>) {
    let row = below(rng, rows.len());
    match below(rng, 5) {
        0 => rows[row][0] ^= 1,
        1 => rows[row].push(5),
        2 => drop(rows[row].pop()),
        3 => drop(rows.pop()),
        _ => {}
    }
}

/// The rows that flat words are, by the widths of their matrices: the last row has all words that are left.
fn cut(words: &[u32], dimensions: &[Dimensions]) -> Vec<Vec<u32>> {
    let mut left = words;
    let mut rows = Vec::new();
    for (place, matrix) in dimensions.iter().enumerate() {
        let is_last = place + 1 == dimensions.len();
        let (row, rest) = left.split_at(if is_last { left.len() } else { matrix.width.min(left.len()) });
        rows.push(row.to_vec());
        left = rest;
    }
    rows
}

#[test]
fn each_form_has_the_verdict_of_vectors() {
    let mut rng = ChaCha20::from_seed([90; 32]);
    let (mut accepted, mut refused) = (0, 0);
    for _ in 0..2_000 {
        let scheme = Plain::new(FoldHash, FoldCompress, below(&mut rng, 3));
        let batch = matrices(&mut rng);
        let dimensions = dimensions_of(&batch).unwrap();
        let (cap, tree) = scheme.commit(batch).unwrap();
        let index = below(&mut rng, 11);
        let (mut rows, siblings) = scheme.open_batch(index, &tree).unwrap().unpack();
        disturb(&mut rng, &mut rows);

        let verdict = scheme.verify_batch(&cap, &dimensions, index, BatchOpeningRef::new(&rows, &siblings));
        let by = |rows| scheme.verify_rows(cap.roots(), &dimensions, index, rows, &siblings);
        let slices: Vec<&[u32]> = rows.iter().map(Vec::as_slice).collect();
        assert_eq!(by(RowParts::Vecs(&rows)), verdict);
        assert_eq!(by(RowParts::Slices(&slices)), verdict);

        let words = rows.concat();
        let flat = cut(&words, &dimensions);
        let of_flat = scheme.verify_batch(&cap, &dimensions, index, BatchOpeningRef::new(&flat, &siblings));
        assert_eq!(by(RowParts::Flat { words: &words, dimensions: &dimensions }), of_flat);

        // A row in any two parts is that row.
        let (fronts, backs): (Vec<_>, Vec<_>) = rows
            .iter()
            .map(|row| {
                let (front, back) = row.split_at(below(&mut rng, row.len() + 1));
                (front.to_vec(), back.to_vec())
            })
            .unzip();
        assert_eq!(by(RowParts::Salted { rows: &fronts, salts: &backs }), verdict);
        let fronts: Vec<&[u32]> = fronts.iter().map(Vec::as_slice).collect();
        assert_eq!(by(RowParts::SaltedSlices { rows: &fronts, salts: &backs }), verdict);
        match verdict {
            Ok(()) => accepted += 1,
            Err(_) => refused += 1,
        }
    }
    assert!(accepted > 300 && refused > 300, "{accepted} accepted, {refused} refused");
}

/// Each row as a slice, where it lies.
fn slices_of(sets: &[Vec<Vec<u32>>]) -> Vec<Vec<&[u32]>> {
    sets.iter().map(|rows| rows.iter().map(Vec::as_slice).collect()).collect()
}

#[test]
fn row_sets_in_parts_have_the_verdict_of_vectors() {
    let mut rng = ChaCha20::from_seed([91; 32]);
    let (mut accepted, mut refused) = (0, 0);
    for _ in 0..2_000 {
        let scheme = Plain::new(FoldHash, FoldCompress, below(&mut rng, 3));
        let batch = matrices(&mut rng);
        let dimensions = dimensions_of(&batch).unwrap();
        let (cap, tree) = scheme.commit(batch).unwrap();
        let indices: Vec<usize> = (0..1 + below(&mut rng, 4)).map(|_| below(&mut rng, 11)).collect();
        let (mut sets, proof) = scheme.open_multi_batch(&indices, &tree).unwrap();
        let query = below(&mut rng, sets.len());
        disturb(&mut rng, &mut sets[query]);

        let digests = &proof.sibling_hashes;
        let verdict = scheme.verify_batch_pruned(&cap, &dimensions, &indices, &sets, &proof);
        let by = |rows| scheme.verify_row_sets(cap.roots(), &dimensions, &indices, rows, digests);
        assert_eq!(by(RowSets::Vecs(&sets)), verdict);
        // Each row is cut anew in each query, so equal rows are compared in unequal parts.
        let (mut fronts, mut backs) = (sets.clone(), sets.clone());
        for (query, rows) in sets.iter().enumerate() {
            for (place, row) in rows.iter().enumerate() {
                let (front, back) = row.split_at(below(&mut rng, row.len() + 1));
                fronts[query][place] = front.to_vec();
                backs[query][place] = back.to_vec();
            }
        }
        assert_eq!(by(RowSets::Salted { sets: &fronts, salts: &backs }), verdict);

        // The rows of each query in a form of their own.
        let (slices, slices_of_fronts) = (slices_of(&sets), slices_of(&fronts));
        let forms: Vec<RowParts<u32>> = (0..sets.len())
            .map(|query| match query % 4 {
                0 => RowParts::Vecs(&sets[query]),
                1 => RowParts::Slices(&slices[query]),
                2 => RowParts::Salted { rows: &fronts[query], salts: &backs[query] },
                _ => RowParts::SaltedSlices { rows: &slices_of_fronts[query], salts: &backs[query] },
            })
            .collect();
        assert_eq!(by(RowSets::Parts(&forms)), verdict);

        // Paths are restored from rows in any form as from vectors.
        let restored = scheme.restore_and_recompute_paths(&dimensions, &indices, &sets, &proof);
        let restore = |rows| scheme.restore_row_sets(&dimensions, &indices, rows, digests);
        assert_eq!(restore(RowSets::Vecs(&sets)), restored);
        assert_eq!(restore(RowSets::Salted { sets: &fronts, salts: &backs }), restored);
        assert_eq!(restore(RowSets::Parts(&forms)), restored);
        let words: Vec<Vec<u32>> = sets.iter().map(|rows| rows.concat()).collect();
        let cuts: Vec<Vec<Vec<u32>>> = words.iter().map(|words| cut(words, &dimensions)).collect();
        let flat: Vec<RowParts<u32>> =
            words.iter().map(|words| RowParts::Flat { words, dimensions: &dimensions }).collect();
        let of_flat = scheme.verify_batch_pruned(&cap, &dimensions, &indices, &cuts, &proof);
        assert_eq!(by(RowSets::Parts(&flat)), of_flat);
        match verdict {
            Ok(()) => accepted += 1,
            Err(_) => refused += 1,
        }
    }
    assert!(accepted > 300 && refused > 300, "{accepted} accepted, {refused} refused");
}

#[test]
fn salted_openings_are_refused_by_their_own_table() {
    let mut scheme = Salted::new(FoldHash, FoldCompress, 1, Counting::new(10, 1));
    let (cap, tree) = scheme.commit(matrices(&mut ChaCha20::from_seed([92; 32]))).unwrap();
    let dimensions = dimensions_of(&scheme.get_matrices(&tree).unwrap().into_iter().collect::<Vec<_>>()).unwrap();
    let (rows, (salts, siblings)) = scheme.open_batch(4, &tree).unwrap().unpack();
    let verify = |rows: &[Vec<u32>], salts: &[Vec<u32>], dimensions: &[Dimensions]| {
        let proof = (salts.to_vec(), siblings.clone());
        scheme.verify_batch(&cap, dimensions, 4, BatchOpeningRef::new(rows, &proof))
    };
    assert_eq!(verify(&rows, &salts, &dimensions), Ok(()));
    assert_eq!(verify(&rows[..3], &salts, &dimensions), Err(MerkleTreeError::WrongBatchSize { expected: 4, got: 3 }));
    assert_eq!(verify(&rows, &salts[..3], &dimensions), Err(MerkleTreeError::WrongBatchSize { expected: 4, got: 3 }));

    // A salt in the place of a word of the row: the row alone has another width than its matrix.
    let width = dimensions[1].width;
    let (mut short, mut long) = (rows.clone(), salts.clone());
    long[1].insert(0, short[1].pop().unwrap());
    let wrong = MerkleTreeError::WrongWidth { matrix: 1, expected: width, got: width - 1 };
    assert_eq!(verify(&short, &long, &dimensions), Err(wrong));
    // A salt less: the row with its salts has.
    let mut few = salts.clone();
    few[2].pop();
    let width = dimensions[2].width + 2;
    let wrong = MerkleTreeError::WrongWidth { matrix: 2, expected: width, got: width - 1 };
    assert_eq!(verify(&rows, &few, &dimensions), Err(wrong));

    let mut other = salts.clone();
    other[0][0] ^= 1;
    assert_eq!(verify(&rows, &other, &dimensions), Err(MerkleTreeError::CapMismatch));
}
