//! Each request for memory of each call is refused in turn: the call answers that memory ran out, and, made again with
//! memory, what it answers at any other time. Calls that promise to take no memory make no request.
//!
//! The allocator of this program counts the requests of a thread while a call runs. The package itself forbids unsafe
//! code; an allocator can't be written without.
#![cfg(feature = "sha2")]

mod common;

use common::Counting;
use fohlazu::hashes::{
    Batched3, FoldCompress, FoldHash, FoldLane, Lanes, Sha256, Sha256Nodes, Sha256NodesInEights, Sha256Rows,
    Sha256RowsInEights, U32x8, group_message,
};
use fohlazu::merkle_tree::{
    BatchOpening, BatchOpeningRef, CapRule, MerkleTree, MerkleTreeHidingMmcs, MerkleTreeMmcs, check_indices,
};
use fohlazu::support::{
    CryptographicHasher, Matrix, PackedValue, PseudoCompressionFunction, RowMajorMatrix, RowParts, RowSets, SaltWord,
    TryClone, dimensions_of,
};
use fohlazu::tlog::{
    Frontier, TreeBuilder, compose, consistency_collision, consistency_places, consistency_proof, entries_collision,
    entry_collision, entry_places, growth_collision, inclusion_places, inclusion_proof, leaf_collision, leaf_hash,
    leaf_hashes, leaf_input, node_input, prefix_collision, proof_collision, root, root_collision, verify_consistency,
    verify_entries, verify_inclusion,
};
use std::alloc::{GlobalAlloc, Layout, System};
use std::cell::Cell;
use std::fmt::{Debug, Display};
use std::ptr::null_mut;

/// Which requests of a thread are refused: those whose numbers, counted from 0, are in this range.
#[derive(Clone, Copy)]
struct Refusals {
    requests: usize,
    first: usize,
    end: usize,
}

thread_local! {
    static REFUSALS: Cell<Option<Refusals>> = const { Cell::new(None) };
}

/// The system's allocator, but for requests that are refused.
struct Refusing;

/// Counts a request, and says whether it is refused.
fn is_refused() -> bool {
    let Some(refusals) = REFUSALS.get() else {
        return false;
    };
    let number = refusals.requests;
    REFUSALS.set(Some(Refusals { requests: number + 1, ..refusals }));
    (refusals.first..refusals.end).contains(&number)
}

// SAFETY: each call is the system's own with the same arguments, or gives null, which an allocator may do.
unsafe impl GlobalAlloc for Refusing {
    unsafe fn alloc(&self, layout: Layout) -> *mut u8 {
        if is_refused() { null_mut() } else { unsafe { System.alloc(layout) } }
    }

    unsafe fn realloc(&self, place: *mut u8, layout: Layout, size: usize) -> *mut u8 {
        if is_refused() { null_mut() } else { unsafe { System.realloc(place, layout, size) } }
    }

    unsafe fn dealloc(&self, place: *mut u8, layout: Layout) {
        unsafe { System.dealloc(place, layout) }
    }
}

#[global_allocator]
static ALLOCATOR: Refusing = Refusing;

/// What a call returns while these of its requests are refused, and how many it makes.
fn run<R>(first: usize, end: usize, call: impl FnOnce() -> R) -> (R, usize) {
    REFUSALS.set(Some(Refusals { requests: 0, first, end }));
    let result = call();
    let requests = REFUSALS.take().map_or(0, |refusals| refusals.requests);
    (result, requests)
}

/// Checks a call that makes no request, and returns what it returns.
fn without_memory<R>(name: &str, call: impl FnOnce() -> R) -> R {
    let (result, requests) = run(0, usize::MAX, call);
    assert_eq!(requests, 0, "{name} takes memory");
    result
}

/// Refuses each request of a call in turn, alone and with all that follow. Each time the call answers that memory ran
/// out, and the call on the values of `prepare` that is made next, with memory, what `shown` shows of an undisturbed
/// one. The call makes at least one request. Returns what is shown.
fn each_refused<I, R, E: Display + Debug, V: PartialEq + Debug>(
    name: &str,
    mut prepare: impl FnMut() -> I,
    mut call: impl FnMut(I) -> Result<R, E>,
    mut shown: impl FnMut(R) -> V,
) -> V {
    let undisturbed = shown(call(prepare()).unwrap_or_else(|error| panic!("{name}: {error}")));
    let input = prepare();
    let (_, requests) = run(usize::MAX, usize::MAX, || call(input).is_ok());
    assert!(requests > 0, "{name} takes no memory");
    for first in 0..requests {
        for end in [first + 1, usize::MAX] {
            let input = prepare();
            let (result, _) = run(first, end, || call(input));
            match result {
                Err(error) => assert_eq!(error.to_string(), "out of memory", "{name}, request {first}"),
                Ok(_) => panic!("{name} returns a value though request {first} is refused"),
            }
            let again = call(prepare()).unwrap_or_else(|error| panic!("{name}, made again: {error}"));
            assert!(shown(again) == undisturbed, "{name}, made again after request {first}, answers otherwise");
        }
    }
    undisturbed
}

/// The same of a call that takes nothing, and whose value is compared itself.
fn each<R: PartialEq + Debug, E: Display + Debug>(name: &str, mut call: impl FnMut() -> Result<R, E>) -> R {
    each_refused(name, || (), |()| call(), |value| value)
}

/// Matrices of the heights 17, 9, 5 and 3, each two words wide.
fn batch<T: Copy + From<u8>>() -> Vec<RowMajorMatrix<T>> {
    let matrix = |height: u8| RowMajorMatrix::new((0..2 * height).map(T::from).collect(), 2);
    [17, 9, 5, 3].map(matrix).into()
}

/// The queries of pruned openings.
const QUERIES: [usize; 4] = [5, 1, 16, 5];

/// The rows of an opening with another first row, which has the same digest under the fold functions.
fn twin(rows: &[Vec<u32>]) -> Vec<Vec<u32>> {
    let mut rows = rows.to_vec();
    rows[0][0] = rows[0][0].wrapping_add(1);
    rows[0][1] = rows[0][1].wrapping_sub(31);
    rows
}

/// All calls of the plain scheme of a hasher and a compression.
fn plain<T, P, H, C, const N: usize, const D: usize>(name: &str, hash: H, compress: C)
where
    T: Copy + Default + Eq + Debug + From<u8> + TryClone,
    P: PackedValue<Value = T>,
    H: CryptographicHasher<P, P, D>,
    C: PseudoCompressionFunction<P, N, D>,
{
    println!("plain {name}");
    let scheme = MerkleTreeMmcs::<P, P, H, C, N, D>::new(hash, compress, 1);
    let matrices = batch::<T>();
    let dimensions = each("dimensions_of", || dimensions_of(&matrices));
    let cap = each_refused("commit", batch::<T>, |matrices| scheme.commit(matrices), |(cap, _)| cap);
    let (_, tree) = scheme.commit(batch::<T>()).unwrap();
    each("cap", || tree.cap(1));
    let layers = |tree: &MerkleTree<T, T, RowMajorMatrix<T>, N, D>| {
        (0..tree.num_layers()).map(|below| tree.cap(below).unwrap()).collect::<Vec<_>>()
    };
    each_refused("try_clone", || (), |()| tree.try_clone(), |clone| layers(&clone));
    let heights = |matrices: Vec<&RowMajorMatrix<T>>| matrices.iter().map(|matrix| matrix.height()).collect::<Vec<_>>();
    each_refused("get_matrices", || (), |()| scheme.get_matrices(&tree), heights);

    let opening = each_refused("open_batch", || (), |()| scheme.open_batch(5, &tree), BatchOpening::unpack);
    let opening = BatchOpening::new(opening.0, opening.1);
    let verdict = without_memory("verify_batch", || scheme.verify_batch(&cap, &dimensions, 5, (&opening).into()));
    assert_eq!(verdict, Ok(()));
    let words = opening.opened_values.concat();
    let flat = RowParts::Flat { words: &words, dimensions: &dimensions };
    let siblings = &opening.opening_proof;
    let verdict = without_memory("verify_rows", || scheme.verify_rows(cap.roots(), &dimensions, 5, flat, siblings));
    assert_eq!(verdict, Ok(()));
    each("proof_arity_schedule", || scheme.proof_arity_schedule(&dimensions));
    let count = opening.opening_proof.len();
    let path = || scheme.replay_arity_and_positions(&dimensions, 5, count);
    each_refused("replay_arity_and_positions", || (), |()| path(), |path| (path.arity_schedule, path.query_positions));
    let is_bound = without_memory("is_authenticated", || scheme.is_authenticated(&dimensions, 3));
    assert_eq!(is_bound, Ok(true));
    assert_eq!(without_memory("check_indices", || check_indices(17, &QUERIES)), Ok(()));

    let digests = each("pruned_len", || scheme.pruned_len(&dimensions, &QUERIES));
    let pruned = each("open_batch_pruned", || scheme.open_batch_pruned(&QUERIES, &tree));
    let (rows, proof) = each("open_multi_batch", || scheme.open_multi_batch(&QUERIES, &tree));
    assert_eq!((&rows, &proof), (&pruned.opened_values, &pruned.pruned_proof));
    assert_eq!(proof.sibling_hashes.len(), digests);
    let sets = RowSets::Vecs(&rows);
    let digests = &proof.sibling_hashes;
    each("verify_row_sets", || scheme.verify_row_sets(cap.roots(), &dimensions, &QUERIES, sets, digests));
    each("verify_batch_pruned", || scheme.verify_batch_pruned(&cap, &dimensions, &QUERIES, &rows, &proof));
    each("verify_multi_batch", || scheme.verify_multi_batch(&cap, &dimensions, &QUERIES, &rows, &proof));
    let paths = each("restore_and_recompute_paths", || {
        scheme.restore_and_recompute_paths(&dimensions, &QUERIES, &rows, &proof)
    });
    assert_eq!((paths[0].leaf_index, &paths[0].siblings), (5, &opening.opening_proof));
}

/// The calls that find a collision, of the plain scheme of the fold functions.
fn plain_collisions<P: FoldLane, const L: usize>(name: &str) {
    println!("collisions {name}");
    let scheme = MerkleTreeMmcs::<P, P, _, _, 2, 1>::new(FoldHash::<L>, FoldCompress::<2, L>, 0);
    let dimensions = dimensions_of(&batch::<u32>()).unwrap();
    let (cap, tree) = scheme.commit(batch::<u32>()).unwrap();
    let opening = scheme.open_batch(5, &tree).unwrap();
    let twin_rows = twin(&opening.opened_values);
    let first = BatchOpeningRef::from(&opening);
    let second = BatchOpeningRef::new(&twin_rows, &opening.opening_proof);
    let extract = || scheme.extract_collision(&cap, &dimensions, 5, first, 5, second);
    assert!(each("extract_collision", extract).is_some());

    let (rows, proof) = scheme.open_multi_batch(&QUERIES, &tree).unwrap();
    let mut twins = rows.clone();
    twins[1] = twin(&rows[1]);
    let extract =
        || scheme.extract_collision_multi(&cap, &dimensions, &QUERIES, &rows, &proof, &QUERIES, &twins, &proof);
    let (query1, query2, _) = each("extract_collision_multi", extract).expect("there is a collision");
    assert_eq!((query1, query2), (1, 1));
    assert_eq!(each("commitment_collision", || scheme.commitment_collision(&cap, &tree, &tree)), None);
}

/// All calls of the salted scheme of a hasher and a compression, with two salts a row.
fn salted<T, P, H, C, const N: usize, const D: usize>(name: &str, hash: H, compress: C)
where
    T: Copy + Default + Eq + Debug + From<u8> + SaltWord,
    P: PackedValue<Value = T>,
    H: CryptographicHasher<P, P, D> + Copy,
    C: PseudoCompressionFunction<P, N, D> + Copy,
{
    println!("salted {name}");
    let scheme = || {
        let generator = Counting::new(10, 1);
        let rule = CapRule::Lowered;
        MerkleTreeHidingMmcs::<P, P, H, C, Counting, N, D, 2>::new_with_rule(hash, compress, 1, generator, rule)
    };
    let dimensions = dimensions_of(&batch::<T>()).unwrap();
    // Each time by a new scheme: one whose commit is refused may have drawn salts.
    let commit =
        |(mut scheme, matrices): (MerkleTreeHidingMmcs<P, P, H, C, Counting, N, D, 2>, _)| scheme.commit(matrices);
    let cap = each_refused("commit", || (scheme(), batch::<T>()), commit, |(cap, _)| cap);
    let mut scheme = scheme();
    let (_, tree) = scheme.commit(batch::<T>()).unwrap();
    let heights = |matrices: Vec<&RowMajorMatrix<T>>| matrices.iter().map(|matrix| matrix.height()).collect::<Vec<_>>();
    each_refused("get_matrices", || (), |()| scheme.get_matrices(&tree), heights);

    let (rows, proof) = each_refused("open_batch", || (), |()| scheme.open_batch(5, &tree), BatchOpening::unpack);
    let opening = BatchOpeningRef::new(&rows, &proof);
    let verdict = without_memory("verify_batch", || scheme.verify_batch(&cap, &dimensions, 5, opening));
    assert_eq!(verdict, Ok(()));
    assert_eq!(scheme.extract_collision(&cap, &dimensions, 5, opening, 5, opening), Ok(None));
    let (rows, proof) = each("open_multi_batch", || scheme.open_multi_batch(&QUERIES, &tree));
    each("verify_multi_batch", || scheme.verify_multi_batch(&cap, &dimensions, &QUERIES, &rows, &proof));
    each("extract_collision_multi", || {
        scheme.extract_collision_multi(&cap, &dimensions, &QUERIES, &rows, &proof, &QUERIES, &rows, &proof)
    });
    each("commitment_collision", || scheme.commitment_collision(&cap, &tree, &tree));
}

/// The call that finds a collision of two salted openings, by the fold functions, with two salts a row.
fn salted_collision<P: FoldLane, const L: usize>(name: &str) {
    println!("salted collision {name}");
    let (hash, compress) = (FoldHash::<L>, FoldCompress::<2, L>);
    let mut scheme =
        MerkleTreeHidingMmcs::<P, P, _, _, Counting, 2, 1, 2>::new(hash, compress, 0, Counting::new(10, 1));
    let dimensions = dimensions_of(&batch::<u32>()).unwrap();
    let (cap, tree) = scheme.commit(batch::<u32>()).unwrap();
    let opening = scheme.open_batch(5, &tree).unwrap();
    let twin_rows = twin(&opening.opened_values);
    let first = BatchOpeningRef::from(&opening);
    let second = BatchOpeningRef::new(&twin_rows, &opening.opening_proof);
    let extract = || scheme.extract_collision(&cap, &dimensions, 5, first, 5, second);
    assert!(each("extract_collision", extract).is_some());
}

#[test]
fn fold_functions_one_by_one() {
    plain::<u32, u32, _, _, 2, 1>("by the fold functions", FoldHash::<1>, FoldCompress::<2, 1>);
    salted::<u32, u32, _, _, 2, 1>("by the fold functions", FoldHash::<1>, FoldCompress::<2, 1>);
    plain_collisions::<u32, 1>("by the fold functions");
    salted_collision::<u32, 1>("by the fold functions");
}

#[test]
fn fold_functions_in_lanes() {
    plain::<u32, Lanes<u32>, _, _, 2, 1>("in two lanes", FoldHash::<1>, FoldCompress::<2, 1>);
    plain::<u32, U32x8, _, _, 4, 2>("in eight lanes", FoldHash::<1>, FoldCompress::<4, 1>);
    salted::<u32, U32x8, _, _, 4, 2>("in eight lanes", FoldHash::<1>, FoldCompress::<4, 1>);
    plain_collisions::<U32x8, 1>("in eight lanes");
    salted_collision::<U32x8, 1>("in eight lanes");
}

#[test]
fn fold_functions_in_batches() {
    plain::<u32, u32, _, _, 2, 1>("by eight", FoldHash::<8>, FoldCompress::<2, 8>);
    plain::<u32, u32, _, _, 8, 1>("by three", Batched3(FoldHash::<1>), Batched3(FoldCompress::<8, 1>));
    salted::<u32, u32, _, _, 2, 1>("by eight", FoldHash::<8>, FoldCompress::<2, 8>);
    plain_collisions::<u32, 8>("by eight");
    salted_collision::<u32, 8>("by eight");
}

#[test]
fn sha_256() {
    plain::<u8, u8, _, _, 2, 32>("by SHA-256", Sha256Rows, Sha256Nodes::<2>);
    plain::<u8, u8, _, _, 2, 32>("by SHA-256 in eights", Sha256RowsInEights, Sha256NodesInEights::<2>);
    salted::<u8, u8, _, _, 2, 32>("by SHA-256 in eights", Sha256RowsInEights, Sha256NodesInEights::<2>);
    each("group_message", || group_message(&[[1; 32], [2; 32]]));
}

#[test]
fn matrices() {
    let matrix = RowMajorMatrix::new((0..60_u32).collect(), 20);
    each_refused("try_clone", || (), |()| matrix.try_clone(), |clone| clone.values().to_vec());
    let append = |mut words: Vec<u32>| matrix.append_row(1, &mut words).map(|()| words);
    let row = each_refused("append_row", Vec::new, append, |words| words);
    assert_eq!(row, (20..40).collect::<Vec<_>>());
}

#[test]
fn a_refused_random_matrix_draws_nothing() {
    let generator = || Counting::new(1, 1);
    let values = |matrix: RowMajorMatrix<u32>| matrix.values().to_vec();
    let drawn = each_refused("rand", generator, |mut rng| RowMajorMatrix::<u32>::rand(&mut rng, 3, 7), values);
    assert_eq!(drawn, (1..=21).collect::<Vec<u32>>());
    let mut rng = generator();
    assert!(run(0, 1, || RowMajorMatrix::<u32>::rand(&mut rng, 3, 7).is_err()).0);
    assert_eq!(RowMajorMatrix::<u32>::rand(&mut rng, 3, 7).unwrap().values(), drawn);
    assert!(RowMajorMatrix::<u32>::rand(&mut rng, usize::MAX, 2).is_err());
    assert_eq!(RowMajorMatrix::<u32>::rand(&mut rng, 1, 1).unwrap().values(), [22]);
}

#[test]
fn a_refused_salted_commit_draws_whole_matrices() {
    type Salted = MerkleTreeHidingMmcs<u32, u32, FoldHash<1>, FoldCompress<2, 1>, Counting, 2, 1, 2>;
    let new = |first| Salted::new(FoldHash::<1>, FoldCompress::<2, 1>, 0, Counting::new(first, 1));
    // After the salts of no matrix, of that with 17 rows, of that with 9 rows, too, and so on.
    let drawn = [0, 34, 34 + 18, 34 + 18 + 10, 34 + 18 + 10 + 6];
    let caps = drawn.map(|drawn| new(drawn).commit(batch()).unwrap().0);
    let mut seen = [0; 5];
    for request in 0.. {
        let (mut scheme, matrices) = (new(0), batch());
        if run(request, request + 1, || scheme.commit(matrices).is_ok()).0 {
            break;
        }
        let next = scheme.commit(batch()).unwrap().0;
        seen[caps.iter().position(|cap| *cap == next).expect("the salts of whole matrices are drawn")] += 1;
    }
    assert!(seen.iter().all(|count| *count > 0), "{seen:?}");
}

/// The log of so many decimal numbers.
fn log(size: usize) -> Vec<Vec<u8>> {
    (1..=size).map(|number| number.to_string().into_bytes()).collect()
}

#[test]
fn proofs_of_logs() {
    let entries = log(11);
    let root_of = |entries: &[Vec<u8>]| root::<Sha256, 32>(entries);
    let slices: Vec<&[u8]> = entries.iter().map(Vec::as_slice).collect();
    let leaves = each("leaf_hashes", || leaf_hashes(&slices));
    let root = without_memory("root", || root_of(&entries));
    let proof = each("inclusion_proof", || inclusion_proof::<Sha256, 32>(&entries, 4));
    let leaf = without_memory("leaf_hash", || leaf_hash(&entries[4]));
    assert_eq!(without_memory("verify_inclusion", || verify_inclusion(4, 11, &leaf, &proof, &root)), Ok(()));
    let growth = each("consistency_proof", || consistency_proof::<Sha256, 32>(&entries, 7));
    let old_root = root_of(&entries[..7]);
    let verdict = without_memory("verify_consistency", || verify_consistency(7, 11, &growth, &old_root, &root));
    assert_eq!(verdict, Ok(()));

    let nodes = each("entry_places", || entry_places(&[2, 9, 4], 11));
    each("inclusion_places", || inclusion_places(4, 11));
    each("consistency_places", || consistency_places(7, 11));
    let new_tree = || TreeBuilder::new(&nodes);
    let push = |tree: TreeBuilder| tree.push_many(&leaves);
    let values = |tree: TreeBuilder| tree.values().unwrap();
    each_refused("TreeBuilder::new", || (), |()| new_tree(), |tree| values(push(tree).unwrap()));
    let digests = each_refused("TreeBuilder::push_many", || new_tree().unwrap(), push, values);
    let tree = push(new_tree().unwrap()).unwrap();
    assert_eq!(each("TreeBuilder::values", || tree.values()), digests);
    let digests: Vec<_> = digests.into_iter().flatten().collect();
    let three = [2, 9, 4].map(|index| leaves[index]);
    each("verify_entries", || verify_entries(11, &[2, 9, 4], &three, &digests, &root));

    let (old, middle) = (&entries[..3], &entries[..7]);
    let (first, second) = (consistency_proof::<Sha256, 32>(middle, 3).unwrap(), growth);
    each("compose", || compose::<Sha256, 32>(3, 7, 11, &root_of(old), &root_of(middle), &root, &first, &second));
    each("leaf_input", || leaf_input(b"entry"));
    each("node_input", || node_input(&[1; 32], &[2; 32]));
}

#[test]
fn a_refused_push_leaves_the_frontier() {
    let leaves: Vec<[u8; 32]> = log(11).iter().map(|entry| leaf_hash(entry)).collect();
    let from_nodes = || {
        let mut frontier = Frontier::new();
        frontier.push_many(&leaves[..7]).unwrap();
        frontier
    };
    let nodes = from_nodes().nodes().to_vec();
    each_refused("Frontier::from_nodes", || (), |()| Frontier::from_nodes(7, &nodes), |frontier| frontier.root());
    let mut requests = 0;
    loop {
        let mut frontier = from_nodes();
        let before = (frontier.size(), frontier.nodes().to_vec());
        if run(requests, requests + 1, || frontier.push_many(&leaves[7..]).is_ok()).0 {
            break;
        }
        assert_eq!((frontier.size(), frontier.nodes().to_vec()), before, "request {requests}");
        frontier.push_many(&leaves[7..]).unwrap();
        assert_eq!(frontier.root(), root::<Sha256, 32>(&log(11)));
        requests += 1;
    }
    assert!(requests > 0);
}

/// Under a hash function that has one value, each two different messages collide.
struct OneValue;

impl fohlazu::tlog::LogHash<32> for OneValue {
    fn leaf_hash(_entry: &[u8]) -> [u8; 32] {
        [0; 32]
    }

    fn node_hash(_left: &[u8; 32], _right: &[u8; 32]) -> [u8; 32] {
        [0; 32]
    }

    fn empty_root() -> [u8; 32] {
        [0; 32]
    }
}

#[test]
fn collisions_of_logs() {
    let (entries, mut others) = (log(7), log(7));
    others[4] = b"other".to_vec();
    let messages = |found: Option<fohlazu::tlog::Collision>| {
        let found = found.expect("there is a collision");
        (found.first, found.second)
    };
    macro_rules! check {
        ($name:literal, $call:expr) => {
            each_refused($name, || (), |()| $call, messages)
        };
    }
    let zero = [0; 32];
    let digests_from = |old_size| vec![zero; consistency_places(old_size, 7).unwrap().len()];
    let (from_3, from_5) = (digests_from(3), digests_from(5));
    // An index has as many digests in its proof as it has siblings: entry 4 of 7 has three.
    check!("root_collision", root_collision::<OneValue, 32>(&entries, &others));
    check!("leaf_collision", leaf_collision::<OneValue, 32>(&entries, 4, &[1; 32], &[zero; 3]));
    check!("entry_collision", entry_collision::<OneValue, 32>(&entries, 4, b"other", &[zero; 3]));
    check!("entries_collision", entries_collision::<OneValue>(&entries, &[4], &[[1; 32]], &[zero; 3]));
    check!("prefix_collision", prefix_collision::<OneValue, 32>(&others[..5], &entries, &from_5));
    let (honest, changed) = ([zero; 3], [[1; 32], zero, zero]);
    check!("proof_collision", proof_collision::<OneValue, 32>(4, 7, &zero, &honest, &zero, &changed, &zero));
    let mut changed = from_3.clone();
    changed[0] = [1; 32];
    check!(
        "consistency_collision",
        consistency_collision::<OneValue, 32>(3, 7, &zero, &from_3, &zero, &changed, &zero)
    );
    let path = vec![zero; inclusion_places(1, 3).unwrap().len()];
    let new_path = vec![zero; inclusion_places(1, 7).unwrap().len()];
    check!(
        "growth_collision",
        growth_collision::<OneValue, 32>(1, 3, 7, &zero, &path, &[1; 32], &new_path, &from_3, &zero, &zero)
    );
}
