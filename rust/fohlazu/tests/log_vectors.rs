//! Verdicts about logs whose entries are the decimal numbers 1, 2, 3 and so on. The digests are those of Python's
//! hashlib.
#![cfg(feature = "sha2")]

use fohlazu::tlog::ProofError::*;
use fohlazu::tlog::{EMPTY_ROOT, leaf_hash, verify_consistency, verify_inclusion};

const ROOT_3: &str = "fe6e9d4604f578602851a2c15ef3894ca07b9517f7d5f7dedc28179ca888580d";
const ROOT_5: &str = "e106de6d331e826225bf269c4d7086760bcfbdf83ed58457457632d7071ea963";
const ROOT_7: &str = "74fcca69cfd70839f5d164348f9f41a4cf4430d08882dc9dcc72b0a6c97bb266";
const LEAF_3: &str = "906c5d2485cae722073a430f4d04fe1767507592cef226629aeadb85a2ec909d";
const LEAF_4: &str = "11e1f558223f4c71b6be1cecfd1f0de87146d2594877c27b29ec519f9040213c";
const LEAF_5: &str = "53304f5e3fd4bcd20b39abdef2fe118031cc5ae8217bcea008dea7e27869348a";
const NODE_1_TO_2: &str = "e8bcd97e349693dcfec054fe219ab357b75d3c1cd9f8be1767f6090f9c86f9fd";
const NODE_5_TO_7: &str = "4293f3913b8d24b12a11f3aa7018bb30640997ebf36bed4a23cbb60078e959ee";
const HASH_OF_NOTHING: &str = "e3b0c44298fc1c149afbf4c8996fb92427ae41e4649b934ca495991b7852b855";

fn digest(hex: &str) -> [u8; 32] {
    std::array::from_fn(|k| u8::from_str_radix(&hex[2 * k..2 * k + 2], 16).unwrap())
}

#[test]
fn inclusion() {
    let (leaf, root) = (leaf_hash(b"3"), digest(ROOT_7));
    let proof = &[LEAF_4, NODE_1_TO_2, NODE_5_TO_7].map(digest)[..];
    assert_eq!(leaf, digest(LEAF_3));
    assert_eq!(verify_inclusion(2, 7, &leaf, proof, &root), Ok(()));
    assert_eq!(verify_inclusion(0, 1, &leaf, &[], &leaf), Ok(()));
    assert_eq!(verify_inclusion(2, 7, &leaf_hash(b""), proof, &root), Err(RootMismatch));
    for (index, size, proof, reason) in [
        (2, (1 << 62) + 1, proof, SizeTooLarge),
        (2, usize::MAX, proof, SizeTooLarge),
        (7, 7, proof, IndexPastEnd),
        (0, 0, &[], IndexPastEnd),
        (2, 7, &proof[..2], TooFewDigests),
        (2, 1 << 62, &[], TooFewDigests),
        (2, 4, proof, TooManyDigests),
        (3, 7, proof, RootMismatch),
    ] {
        assert_eq!(verify_inclusion(index, size, &leaf, proof, &root), Err(reason), "{index} of {size}");
    }
}

#[test]
fn consistency() {
    let [old, new, empty] = &[ROOT_3, ROOT_5, HASH_OF_NOTHING].map(digest);
    let proof = &[LEAF_3, LEAF_4, NODE_1_TO_2, LEAF_5].map(digest)[..];
    assert_eq!(*empty, EMPTY_ROOT);
    for (old_size, new_size, proof, old_root, new_root, verdict) in [
        (3, 5, proof, old, new, Ok(())),
        (5, 5, &[], new, new, Ok(())),
        (0, 5, &[], empty, new, Ok(())),
        (3, 1 << 63, proof, old, new, Err(SizeTooLarge)),
        (5, 3, proof, new, old, Err(SmallerNewSize)),
        (3, 5, &[], old, new, Err(TooFewDigests)),
        (3, 4, proof, old, new, Err(TooManyDigests)),
        (3, 5, proof, empty, new, Err(OldRootMismatch)),
        (3, 5, proof, old, empty, Err(RootMismatch)),
    ] {
        let found = verify_consistency(old_size, new_size, proof, old_root, new_root);
        assert_eq!(found, verdict, "{old_size}, {new_size}");
    }
}
