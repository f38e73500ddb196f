//! Trees with salts: one, two or four salts a row, or the greatest number of them, drawn from ChaCha20 or from a
//! generator that counts.

use crate::answered;
use crate::case::{Answer, Case, fields};
use crate::common::{ChaCha20, Counting};
use crate::field::{Field, Item, show_list};
use crate::geometry::tall_matrices;
use crate::matrices::matrices_in;
use crate::opened::{leaf_by, leaves_by, opened_leaf, opened_leaves};
use crate::queries::generator;
use crate::scheme::{Cap, Found, Leaf, Leaves, Statement, Tried};
use fohlazu::hashes::{FoldCompress, FoldHash};
use fohlazu::merkle_tree::{InputPair, MerkleTreeError, MerkleTreeHidingMmcs, SaltedMultiProof, SaltedProof};
use fohlazu::support::Matrix;
use rand_core::CryptoRng;

/// The scheme of the fold functions with digests of one word and so many salts a row from a generator.
type Salted<R, const N: usize, const SALTS: usize> =
    MerkleTreeHidingMmcs<u32, u32, FoldHash<1>, FoldCompress<N, 1>, R, N, 1, SALTS>;

/// The scheme of these functions with such a cap.
fn salted_scheme<R, const N: usize, const SALTS: usize>(cap: Cap, rng: R) -> Salted<R, N, SALTS> {
    MerkleTreeHidingMmcs::new_with_rule(FoldHash::<1>, FoldCompress::<N, 1>, cap.height, rng, cap.rule)
}

/// The proof of a leaf.
type Proof = SaltedProof<u32, u32, 1>;

/// The proof of several leaves.
type MultiProof = SaltedMultiProof<u32, u32, 1>;

impl<R: CryptoRng, const N: usize, const SALTS: usize> Tried<u32, [u32; 1]> for Salted<R, N, SALTS> {
    fn siblings(proof: &Proof) -> &[[u32; 1]] {
        &proof.1
    }

    fn digests(proof: &MultiProof) -> &[[u32; 1]] {
        &proof.1.sibling_hashes
    }

    fn extract(
        &self,
        Statement { cap, dimensions }: &Statement<u32, [u32; 1]>,
        first: Leaf<'_, u32, Proof>,
        second: Leaf<'_, u32, Proof>,
    ) -> Result<Option<InputPair<u32, [u32; 1]>>, MerkleTreeError> {
        self.extract_collision(cap, dimensions, first.0, first.1, second.0, second.1)
    }

    fn extract_multi(
        &self,
        Statement { cap, dimensions }: &Statement<u32, [u32; 1]>,
        (indices1, rows1, proof1): Leaves<'_, u32, MultiProof>,
        (indices2, rows2, proof2): Leaves<'_, u32, MultiProof>,
    ) -> Result<Option<Found<u32, [u32; 1]>>, MerkleTreeError> {
        self.extract_collision_multi(cap, dimensions, indices1, rows1, proof1, indices2, rows2, proof2)
    }
}

/// Answers a case with salts. After the cap come the number of salts a row and, where salts are drawn, the generator.
// Each number of salts is a scheme of its own to compile, at each arity.
pub fn salted<const N: usize>(case: &mut Case<'_>, kind: &str, cap: Cap) -> Answer {
    match case.take() {
        "1" => by_salts::<N, 1>(case, kind, cap),
        "2" => by_salts::<N, 2>(case, kind, cap),
        "4" => by_salts::<N, 4>(case, kind, cap),
        "18446744073709551615" => by_salts::<N, { usize::MAX }>(case, kind, cap),
        salts => panic!("no scheme has {salts} salts a row"),
    }
}

/// The same at a number of salts a row. The generator is that of a seed of ChaCha20, or `FIRST STEP`, whose words go up
/// by a step.
fn by_salts<const N: usize, const SALTS: usize>(case: &mut Case<'_>, kind: &str, cap: Cap) -> Answer {
    // Kinds that only check openings draw no salts, and have no such field.
    if kind.starts_with("verify") || kind.starts_with("extract") {
        let mut scheme: Salted<_, N, SALTS> = salted_scheme(cap, generator(0));
        return answered::<u32, [u32; 1], _, N>(case, kind, cap, &mut scheme);
    }
    let numbers: Vec<usize> = case.read();
    match *numbers.as_slice() {
        [first, step] => {
            let rng = Counting::new(first as u64, step as u64);
            drawn::<Counting, N, SALTS>(case, kind, cap, &mut salted_scheme(cap, rng))
        }
        [seed] => {
            let mut scheme: Salted<ChaCha20, N, SALTS> = salted_scheme(cap, generator(seed));
            match kind {
                "fork" => fork(case, &mut scheme),
                "sweep" => answered::<u32, [u32; 1], _, N>(case, kind, cap, &mut scheme),
                _ => drawn(case, kind, cap, &mut scheme),
            }
        }
        _ => panic!("the generator is neither a seed nor FIRST STEP"),
    }
}

/// Answers a case of a kind that takes salts from any generator.
fn drawn<R: CryptoRng, const N: usize, const SALTS: usize>(
    case: &mut Case<'_>,
    kind: &str,
    cap: Cap,
    scheme: &mut Salted<R, N, SALTS>,
) -> Answer {
    match kind {
        "open" => open(case, cap, scheme),
        "pruned" => pruned(case, cap, scheme),
        "commits" => Ok(commits(case, scheme)),
        _ => panic!("no kind of case: {kind}"),
    }
}

/// A scheme of three salts a row, which no case has. It draws none.
fn other_scheme<const N: usize>(cap: Cap) -> Salted<Counting, N, 3> {
    salted_scheme(cap, Counting::new(0, 0))
}

/// `salted_open | ARITY | CAP | SALTS A ROW | GENERATOR | MATRICES | INDEX | ROOTS | ROWS | SALTS | SIBLINGS`: the
/// opening of a leaf. A scheme of another number of salts opens the tree alike.
fn open<R: CryptoRng, const N: usize, const SALTS: usize>(
    case: &mut Case<'_>,
    cap: Cap,
    scheme: &mut Salted<R, N, SALTS>,
) -> Answer {
    let found = opened_leaf::<u32, [u32; 1], _>(case, scheme)?;
    let alike = leaf_by(&other_scheme::<N>(cap), &found.committed.tree, found.queries)?;
    assert_eq!(alike.unpack(), found.opening, "a scheme of three salts a row opens the tree otherwise");
    Ok(fields([show_list(found.committed.statement.cap.roots()), found.opening.show()]))
}

/// `salted_pruned | ARITY | CAP | SALTS A ROW | GENERATOR | MATRICES | INDICES | ROOTS | ROW SETS | SALT SETS |
/// DIGESTS`: the same of several leaves.
fn pruned<R: CryptoRng, const N: usize, const SALTS: usize>(
    case: &mut Case<'_>,
    cap: Cap,
    scheme: &mut Salted<R, N, SALTS>,
) -> Answer {
    let found = opened_leaves::<u32, [u32; 1], _>(case, scheme)?;
    let alike = leaves_by(&other_scheme::<N>(cap), &found.committed.tree, &found.queries)?;
    assert_eq!(alike, found.opening, "a scheme of three salts a row opens the tree otherwise");
    Ok(fields([show_list(found.committed.statement.cap.roots()), found.opening.show()]))
}

/// Commits to matrices: the cap, or why they are refused.
fn cap_of<M: Matrix<u32>, R: CryptoRng, const N: usize, const SALTS: usize>(
    scheme: &mut Salted<R, N, SALTS>,
    matrices: Vec<M>,
) -> String {
    match scheme.commit(matrices) {
        Ok((cap, _tree)) => show_list(cap.roots()),
        Err(error) => error.to_string(),
    }
}

/// Commits to a batch: the same.
fn cap_of_batch<R: CryptoRng, const N: usize, const SALTS: usize>(
    scheme: &mut Salted<R, N, SALTS>,
    batch: &str,
) -> String {
    if batch == "none" || batch.contains('x') {
        cap_of(scheme, tall_matrices(&Vec::parse(batch)))
    } else {
        cap_of(scheme, matrices_in(batch))
    }
}

/// `salted_commits | ARITY | CAP | SALTS A ROW | GENERATOR | BATCHES | CAPS`: what a scheme answers to batches of
/// matrices or dimensions, one after another: the cap, or why the batch is refused.
fn commits<R: CryptoRng, const N: usize, const SALTS: usize>(
    case: &mut Case<'_>,
    scheme: &mut Salted<R, N, SALTS>,
) -> String {
    let caps: Vec<_> = case.take().split(" / ").map(|batch| cap_of_batch(scheme, batch)).collect();
    caps.join(" / ")
}

/// `salted_fork | ARITY | CAP | SALTS A ROW | SEED | BATCH | CAPS`: what a fork of a scheme answers to a batch, and
/// what the scheme answers to it then.
fn fork<const N: usize, const SALTS: usize>(case: &mut Case<'_>, scheme: &mut Salted<ChaCha20, N, SALTS>) -> Answer {
    let batch = case.take();
    let by_fork = cap_of_batch(&mut scheme.fork()?, batch);
    Ok(format!("{by_fork} / {}", cap_of_batch(scheme, batch)))
}
