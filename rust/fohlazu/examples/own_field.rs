//! A field, a packing, a hash and a compression of your own: what you write to commit under them.
//!
//! The field is that of the prime 2^31 - 2^27 + 1, in plain arithmetic. The permutation is a toy, and so is all that
//! stands on it: it shows the traits, and is not secure.

use fohlazu::merkle_tree::{MerkleTreeError, MerkleTreeHidingMmcs, MerkleTreeMmcs};
use fohlazu::support::{
    CryptographicHasher, PackedValue, PseudoCompressionFunction, RowMajorMatrix, SaltWord, dimensions_of,
};
use rand_core::{TryCryptoRng, TryRng};
use std::convert::Infallible;

/// The prime.
const PRIME: u64 = (1 << 31) - (1 << 27) + 1;

/// An element of the field, below the prime.
#[derive(Clone, Copy, Debug, Default, PartialEq, Eq)]
pub struct Felt(u32);

impl Felt {
    /// The element of a number.
    pub fn new(number: u64) -> Felt {
        Felt((number % PRIME) as u32)
    }

    /// The sum of two elements.
    fn add(self, other: Felt) -> Felt {
        Felt::new(u64::from(self.0) + u64::from(other.0))
    }

    /// The product of two elements.
    fn mul(self, other: Felt) -> Felt {
        Felt::new(u64::from(self.0) * u64::from(other.0))
    }
}

/// A salt takes all 64 bits of a random word, so that no element comes noticeably more often than another.
impl SaltWord for Felt {
    fn from_salt_word(word: u64) -> Felt {
        Felt::new(word)
    }
}

/// An element is packed alone, in one lane.
impl PackedValue for Felt {
    type Value = Felt;

    const WIDTH: usize = 1;

    fn broadcast(value: Felt) -> Felt {
        value
    }

    fn lane(&self, _k: usize) -> Felt {
        *self
    }

    fn with_lane(self, _k: usize, value: Felt) -> Felt {
        value
    }
}

/// Four elements, one in each lane.
#[derive(Clone, Copy, Debug)]
pub struct FourFelts([Felt; 4]);

impl PackedValue for FourFelts {
    type Value = Felt;

    const WIDTH: usize = 4;

    fn broadcast(value: Felt) -> FourFelts {
        FourFelts([value; 4])
    }

    fn lane(&self, k: usize) -> Felt {
        self.0[k]
    }

    fn with_lane(mut self, k: usize, value: Felt) -> FourFelts {
        self.0[k] = value;
        self
    }
}

/// What the permutation needs of a packing: arithmetic on all lanes together. A field of its own would use the
/// processor's vectors here.
trait FieldLanes: PackedValue<Value = Felt> {
    /// Lane by lane, the sum.
    fn add(self, other: Self) -> Self {
        Self::from_fn(|k| self.lane(k).add(other.lane(k)))
    }

    /// Lane by lane, the product.
    fn mul(self, other: Self) -> Self {
        Self::from_fn(|k| self.lane(k).mul(other.lane(k)))
    }
}

impl FieldLanes for Felt {}

impl FieldLanes for FourFelts {}

/// How many elements the permutation's state has.
const STATE: usize = 8;

/// How many of them take in words, and how many a digest has.
const RATE: usize = 4;

/// A toy permutation, lane by lane: in each round each element gets a constant, a power and a part of its neighbour.
fn permute<F: FieldLanes>(state: &mut [F; STATE]) {
    for round in 0..8 {
        for i in 0..STATE {
            let constant = F::broadcast(Felt::new(1 + 17 * round + 3 * i as u64));
            let sum = state[i].add(constant).add(state[(i + 1) % STATE]);
            // x^7 takes each value once, since 7 does not divide the prime less 1.
            let square = sum.mul(sum);
            state[i] = square.mul(square).mul(square).mul(sum);
        }
    }
}

/// The first elements of a state.
fn digest_of<F: FieldLanes>(state: &[F; STATE]) -> [F; RATE] {
    std::array::from_fn(|i| state[i])
}

/// A sponge over any packing: words go into the rate, four at a time. The number of words goes into the capacity at the
/// end, so that words of zeros count.
fn absorb<F: FieldLanes>(input: impl Iterator<Item = F>) -> [F; RATE] {
    let mut state = [F::broadcast(Felt::default()); STATE];
    let mut count: u64 = 0;
    for word in input {
        let place = (count % RATE as u64) as usize;
        state[place] = state[place].add(word);
        count += 1;
        if count.is_multiple_of(RATE as u64) {
            permute(&mut state);
        }
    }
    state[RATE] = state[RATE].add(F::broadcast(Felt::new(count)));
    permute(&mut state);
    digest_of(&state)
}

/// The sponge as a hasher. One `impl` serves each packing: the calls for single messages are those of one lane.
#[derive(Clone, Copy, Debug)]
pub struct Sponge;

impl<F: FieldLanes> CryptographicHasher<F, F, RATE> for Sponge {
    const LANES: usize = 1;

    const PREFER_CONTIGUOUS_INPUT: bool = false;

    fn hash_iter<I: Iterator<Item = Felt>>(&self, input: I) -> [Felt; RATE] {
        absorb(input)
    }

    fn hash_slice(&self, input: &[Felt]) -> [Felt; RATE] {
        absorb(input.iter().copied())
    }

    fn hash_iter_slices<S: AsRef<[Felt]>, I: Iterator<Item = S>>(&self, input: I) -> [Felt; RATE] {
        // A list of all words would take memory, which a hasher never does.
        absorb(input.flat_map(|words| {
            let len = words.as_ref().len();
            (0..len).map(move |i| words.as_ref()[i])
        }))
    }

    fn hash_packed<I: Iterator<Item = F>>(&self, input: I) -> [F; RATE] {
        absorb(input)
    }
}

/// The compression of two digests: both fill the state, which is permuted and cut.
#[derive(Clone, Copy, Debug)]
pub struct Truncated;

/// The digest of a group, lane by lane.
fn compress_lanes<F: FieldLanes>(children: &[[F; RATE]; 2]) -> [F; RATE] {
    let mut state: [F; STATE] = std::array::from_fn(|i| children[i / RATE][i % RATE]);
    permute(&mut state);
    digest_of(&state)
}

impl<F: FieldLanes> PseudoCompressionFunction<F, 2, RATE> for Truncated {
    const LANES: usize = 1;

    fn compress(&self, input: [[Felt; RATE]; 2]) -> [Felt; RATE] {
        compress_lanes(&input)
    }

    fn compress_packed(&self, input: [[F; RATE]; 2]) -> [F; RATE] {
        compress_lanes(&input)
    }
}

/// A generator for the example alone: it counts. Salts hide rows only if they come from a secret, random one.
pub struct Counter(u64);

impl TryRng for Counter {
    type Error = Infallible;

    fn try_next_u32(&mut self) -> Result<u32, Infallible> {
        self.try_next_u64().map(|word| word as u32)
    }

    fn try_next_u64(&mut self) -> Result<u64, Infallible> {
        self.0 += 1;
        Ok(self.0)
    }

    fn try_fill_bytes(&mut self, bytes: &mut [u8]) -> Result<(), Infallible> {
        for piece in bytes.chunks_mut(8) {
            let word = self.try_next_u64()?.to_le_bytes();
            piece.copy_from_slice(&word[..piece.len()]);
        }
        Ok(())
    }
}

impl TryCryptoRng for Counter {}

/// A matrix of this height and width.
fn matrix(height: u64, width: u64) -> RowMajorMatrix<Felt> {
    let words = (0..height * width).map(|place| Felt::new(place * place + 17 * height)).collect();
    RowMajorMatrix::new(words, width as usize)
}

/// Matrices of different heights: each is the tallest one halved, and rounded up, some number of times.
fn batch() -> Vec<RowMajorMatrix<Felt>> {
    vec![matrix(100, 5), matrix(25, 9), matrix(100, 3), matrix(1, 2)]
}

/// The same tree, built word by word and by four lanes: a commitment does not depend on the packing.
fn commit_and_open() -> Result<(), MerkleTreeError> {
    let scalar = MerkleTreeMmcs::<Felt, Felt, _, _, 2, RATE>::new(Sponge, Truncated, 0);
    let packed = MerkleTreeMmcs::<FourFelts, FourFelts, _, _, 2, RATE>::new(Sponge, Truncated, 0);
    let dimensions = dimensions_of(&batch())?;
    let (cap, _) = scalar.commit(batch())?;
    let (packed_cap, tree) = packed.commit(batch())?;
    assert_eq!(cap, packed_cap);

    let mut opening = packed.open_batch(42, &tree)?;
    scalar.verify_batch(&cap, &dimensions, 42, (&opening).into())?;
    opening.opened_values[1][8] = Felt::new(1);
    let verdict = scalar.verify_batch(&cap, &dimensions, 42, (&opening).into());
    assert_eq!(verdict, Err(MerkleTreeError::CapMismatch));
    Ok(())
}

/// The rows of several indices by one proof.
fn open_several() -> Result<(), MerkleTreeError> {
    let scheme = MerkleTreeMmcs::<FourFelts, FourFelts, _, _, 2, RATE>::new(Sponge, Truncated, 2);
    let dimensions = dimensions_of(&batch())?;
    let (cap, tree) = scheme.commit(batch())?;
    let queries = [7, 42, 99, 42];
    let mut opening = scheme.open_batch_pruned(&queries, &tree)?;
    let proof = &opening.pruned_proof;
    assert_eq!(proof.sibling_hashes.len(), scheme.pruned_len(&dimensions, &queries)?);
    scheme.verify_batch_pruned(&cap, &dimensions, &queries, &opening.opened_values, proof)?;
    opening.opened_values[0][0][0] = Felt::new(1);
    let verdict = scheme.verify_batch_pruned(&cap, &dimensions, &queries, &opening.opened_values, proof);
    assert_eq!(verdict, Err(MerkleTreeError::CapMismatch));
    Ok(())
}

/// Each row followed by two random elements.
fn commit_with_salts() -> Result<(), MerkleTreeError> {
    type Salted = MerkleTreeHidingMmcs<FourFelts, FourFelts, Sponge, Truncated, Counter, 2, RATE, 2>;
    let mut scheme = Salted::new(Sponge, Truncated, 0, Counter(0));
    let dimensions = dimensions_of(&batch())?;
    let (cap, tree) = scheme.commit(batch())?;
    let mut opening = scheme.open_batch(42, &tree)?;
    scheme.verify_batch(&cap, &dimensions, 42, (&opening).into())?;
    let (salts, _siblings) = &mut opening.opening_proof;
    salts[0][1] = Felt::new(1);
    let verdict = scheme.verify_batch(&cap, &dimensions, 42, (&opening).into());
    assert_eq!(verdict, Err(MerkleTreeError::CapMismatch));
    Ok(())
}

pub fn main() -> Result<(), MerkleTreeError> {
    commit_and_open()?;
    open_several()?;
    commit_with_salts()
}
